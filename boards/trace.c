// The differential run: streams from seeds through the library, a line for each with a hash of every answer and every
// byte after every call. Two archives of the library that do the same print the same lines.
#include "board.h"
#include "damage.h"
#include "random.h"

#include <stdio.h>
#include <string.h>

#ifndef CALLS
#define CALLS 100000 // the run ends with the stream that makes the last of them
#endif

enum { SHORT = 400, LONG = 1200, ROOM = 256 };

static Stream stream;
static unsigned height, edition; // of the display that the stream is for

static size_t less(size_t a, size_t b)
{
    return a < b ? a : b;
}

static size_t any_room(void)
{
    static const uint8_t rooms[] = {0, 1, 2, 3, 4, 5, 16, 64, 200};
    return rooms[below(sizeof rooms)];
}

static uint32_t any_time(void)
{
    static const uint32_t edges[] = {0, 1, DISPLAY_UPLOAD_TIMEOUT - 1, DISPLAY_UPLOAD_TIMEOUT, 65535, 65536,
                                     0x80000000, UINT32_MAX - DISPLAY_UPLOAD_TIMEOUT + 2, UINT32_MAX};
    return below(3) > 0 ? below(DISPLAY_UPLOAD_TIMEOUT / 2) : edges[below(sizeof edges / sizeof *edges)];
}

// Now and then, so that many an upload comes to its end.
static void let_time_pass(void)
{
    if (below(12) == 0) {
        uint32_t milliseconds = any_time();
        call_time(milliseconds, any_room());
    }
}

static void fresh(size_t replies)
{
    size_t length = DISPLAY_STORE_LEAST;
    if (below(4) == 0)
        length += below(below(4) > 0 ? 2048 : DISPLAY_STORE_MOST - DISPLAY_STORE_LEAST + 1);
    place_memory(height, length, replies);
    call_start(height, edition);
}

// In one piece, with room for all replies.
static void feed_whole(void)
{
    size_t consumed;
    fresh(2 * stream.length);
    call_feed(stream.bytes, stream.length, 2 * stream.length, &consumed);
}

// In pieces of any length, also of none, with any room.
static void feed_cut(size_t end)
{
    size_t at = 0, length, room, consumed;
    unsigned most = 1 + below(40), rounds;
    fresh(ROOM);
    for (rounds = 0; at < end && rounds < 100 * LONG; rounds++) {
        length = less(below(most + 1), end - at);
        room = any_room();
        call_feed(stream.bytes + at, length, room, &consumed);
        at += consumed;
        let_time_pass();
    }
}

// Bytes arrive in clusters, some of them more than the queue holds; up to 16 of them are taken and fed.
static void feed_queued(void)
{
    uint8_t piece[16];
    size_t at = 0, count = 0, consumed;
    fresh(ROOM);
    while (at < stream.length) {
        unsigned arrivals = below(below(40) > 0 ? 24 : 120);
        while (arrivals-- > 0 && at < stream.length)
            call_arrive(stream.bytes[at++]);
        while (count < sizeof piece && call_take(&piece[count]) == DISPLAY_OK)
            count++;
        let_time_pass();
        call_feed(piece, count, any_room(), &consumed);
        count -= consumed;
        memmove(piece, piece + consumed, count);
    }
}

// Mostly one that there is.
static uint32_t any_height(void)
{
    static const uint32_t unknown[] = {0, 1, 63, 65, 127, 129, 192, 255, 256, 320, 384, 65600, 0x80000040, UINT32_MAX};
    unsigned kind = below(8);
    if (kind < 4)
        return height;
    return kind < 7 ? other_height(height) : unknown[below(sizeof unknown / sizeof *unknown)];
}

static uint32_t any_edition(void)
{
    static const uint32_t unknown[] = {0, 3, 4, 255, 256, 257, 258, 65537, 0x80000001, UINT32_MAX};
    return below(6) > 0 ? 1 + below(2) : unknown[below(sizeof unknown / sizeof *unknown)];
}

static void any_start(void)
{
    uint32_t rows = any_height(), protocol = any_edition();
    call_start(rows, protocol);
}

static void any_call(const uint8_t *piece, size_t length)
{
    uint8_t byte;
    size_t part = less(below(30), length), room = any_room(), consumed;
    switch (below(9)) {
    case 0:
        any_start();
        break;
    case 1:
        call_arrive(any_byte());
        break;
    case 2:
        call_take(&byte);
        break;
    case 3:
        call_time(any_time(), room);
        break;
    default:
        call_feed(piece, part, room, &consumed);
    }
}

// Somewhere in a stream memory is damaged, and calls are made on it; then again from the same place.
static void feed_damaged(void)
{
    enum { TRIES = 60 };
    size_t end = below((unsigned)stream.length);
    unsigned i, more;
    feed_cut(end);
    save_memory();
    for (i = 0; i < TRIES; i++) {
        restore_memory();
        for (more = 1 + below(3); more > 0; more--)
            damage(height);
        for (more = 1 + below(4); more > 0; more--)
            any_call(stream.bytes + end, stream.length - end);
    }
}

// Four streams for the one screen, then four for the other; eight of the one edition, then eight of the other.
static const char *run_stream(unsigned long number)
{
    height = number / 4 % 2 == 0 ? DISPLAY_LOW_HEIGHT : DISPLAY_TALL_HEIGHT;
    edition = number / 8 % 2 == 0 ? DISPLAY_OLDER_EDITION : DISPLAY_NEWER_EDITION;
    set_seed((uint32_t)number);
    random_stream(&stream, number % 4 == 0 ? LONG : SHORT, height, edition);
    switch (number % 4) {
    case 0:
        feed_whole();
        return "whole";
    case 1:
        feed_cut(stream.length);
        return "cut";
    case 2:
        feed_queued();
        return "queued";
    default:
        feed_damaged();
        return "damaged";
    }
}

// The run means something only where every answer was met, every refusal that is given, and uploads that were dropped.
static int is_complete(void)
{
    static const char *const names[CALL_KINDS] = {"start", "feed", "time", "arrive", "take"};
    static const uint8_t possible[CALL_KINDS] = {0x1F, 0x3F, 0x3F, 0x89, 0x49}; // a bit for each answer
    unsigned kind, answer, refusal;
    int complete = 1;
    for (kind = 0; kind < CALL_KINDS; kind++)
        for (answer = 0; answer < 8; answer++) {
            if (answers[kind][answer] > 0)
                printf("%s %u: %lu\n", names[kind], answer, answers[kind][answer]);
            complete &= (answers[kind][answer] > 0) == (possible[kind] >> answer & 1);
        }
    for (refusal = DISPLAY_REFUSED_UNKNOWN_COMMAND; refusal <= DISPLAY_REFUSED_GLYPH_DOES_NOT_FIT; refusal++) {
        printf("last refusal %u: %lu\n", refusal, refusals[refusal]);
        complete &= refusals[refusal] > 0 || refusal == DISPLAY_REFUSED_NO_GLYPH;
    }
    printf("uploads dropped: %lu\n", dropped);
    return complete && dropped > 0;
}

int main(void)
{
    unsigned long number, before;
    for (number = 0; calls < CALLS; number++) {
        const char *plan;
        before = calls;
        begin_hash();
        plan = run_stream(number);
        printf("%lu %s, %u rows, edition %u: %lu calls, %08lx%08lx\n", number, plan, height, edition, calls - before,
               (unsigned long)(hash >> 32), (unsigned long)(hash & 0xFFFFFFFFu));
    }
    if (is_complete())
        return 0;
    printf("not every answer and every refusal was met, or one that is none, or no upload was dropped\n");
    return 1;
}
