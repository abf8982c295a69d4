#include "sides.h"

#include "commands.h"
#include "display.h"
#include "plain.h"

#include <stdio.h>
#include <stdlib.h>
#include <string.h>

typedef struct Board Board;

// From the package `reference` beside this file.
Board *reference_start(uint32_t edition, size_t store_length);
uint32_t reference_feed(Board *board, const uint8_t *piece, size_t piece_length, uint8_t *replies,
                        size_t replies_length, size_t *replied);
uint32_t reference_time(Board *board, uint32_t milliseconds, uint8_t *replies, size_t replies_length, size_t *replied);
uint8_t reference_queue(Board *board, uint8_t byte);
void reference_glass(const Board *board, uint8_t *glass);
void reference_font(uint8_t *font);

uint8_t our_glass[DISPLAY_LOW_FRAMEBUFFER_SIZE], our_store[DISPLAY_STORE_MOST], our_state[DISPLAY_STATE_RECORD_SIZE];
uint8_t our_queue[DISPLAY_QUEUE_RECORD_SIZE];
static Board *board;
static Plain by_pixels, by_bytes;
static uint8_t font[PLAIN_FONT_SIZE];

static void expect_obeyed(const char *side, int obeyed)
{
    if (!obeyed) {
        fprintf(stderr, "bench: %s did not obey a whole piece, or a time\n", side);
        exit(1);
    }
}

static void our_start(uint32_t edition)
{
    uint32_t answer;
    memset(our_store, 0, sizeof our_store);
    answer = display_start(DISPLAY_LOW_HEIGHT, edition, our_glass, sizeof our_glass, our_store, sizeof our_store,
                           our_state, sizeof our_state, our_queue, sizeof our_queue);
    expect_obeyed(sides[OURS].name, answer == DISPLAY_OK);
}

static size_t our_feed(const uint8_t *piece, size_t length, uint8_t *replies)
{
    display_length consumed, replied;
    uint32_t answer = display_feed(our_glass, sizeof our_glass, our_store, sizeof our_store, our_state,
                                   sizeof our_state, piece, length, replies, REPLIES, &consumed, &replied);
    expect_obeyed(sides[OURS].name, answer == DISPLAY_OK);
    return (size_t)replied;
}

static size_t our_time(uint32_t milliseconds, uint8_t *replies)
{
    display_length replied;
    uint32_t answer = display_time(our_glass, sizeof our_glass, our_store, sizeof our_store, our_state,
                                   sizeof our_state, milliseconds, replies, REPLIES, &replied);
    expect_obeyed(sides[OURS].name, answer == DISPLAY_OK);
    return (size_t)replied;
}

static const uint8_t *glass_of_ours(void)
{
    return our_glass;
}

static void independent_start(uint32_t edition)
{
    board = reference_start(edition, DISPLAY_STORE_MOST);
}

static size_t independent_feed(const uint8_t *piece, size_t length, uint8_t *replies)
{
    size_t replied;
    uint32_t answer = reference_feed(board, piece, length, replies, REPLIES, &replied);
    expect_obeyed(sides[INDEPENDENT].name, answer == DISPLAY_OK);
    return replied;
}

static size_t independent_time(uint32_t milliseconds, uint8_t *replies)
{
    size_t replied;
    uint32_t answer = reference_time(board, milliseconds, replies, REPLIES, &replied);
    expect_obeyed(sides[INDEPENDENT].name, answer == DISPLAY_OK);
    return replied;
}

static const uint8_t *independent_glass(void)
{
    static uint8_t glass[DISPLAY_LOW_FRAMEBUFFER_SIZE];
    reference_glass(board, glass);
    return glass;
}

uint8_t our_queued(uint8_t byte)
{
    uint8_t taken, signal;
    display_arrive(our_state, sizeof our_state, our_queue, sizeof our_queue, byte, &signal);
    display_take(our_state, sizeof our_state, our_queue, sizeof our_queue, &taken, &signal);
    return taken;
}

uint8_t independent_queued(uint8_t byte)
{
    return reference_queue(board, byte);
}

static void pixels_start(uint32_t edition)
{
    reference_font(font);
    plain_start(&by_pixels, edition, &pixel_painters, font);
}

static size_t pixels_feed(const uint8_t *piece, size_t length, uint8_t *replies)
{
    expect_obeyed(sides[PLAIN_PIXELS].name, plain_feed(&by_pixels, piece, length, replies, REPLIES) == length);
    return by_pixels.replied;
}

static size_t pixels_time(uint32_t milliseconds, uint8_t *replies)
{
    expect_obeyed(sides[PLAIN_PIXELS].name, plain_time(&by_pixels, milliseconds, replies, REPLIES));
    return by_pixels.replied;
}

static const uint8_t *pixels_glass(void)
{
    return by_pixels.glass;
}

static void bytes_start(uint32_t edition)
{
    reference_font(font);
    plain_start(&by_bytes, edition, &byte_painters, font);
}

static size_t bytes_feed(const uint8_t *piece, size_t length, uint8_t *replies)
{
    expect_obeyed(sides[PLAIN_BYTES].name, plain_feed(&by_bytes, piece, length, replies, REPLIES) == length);
    return by_bytes.replied;
}

static size_t bytes_time(uint32_t milliseconds, uint8_t *replies)
{
    expect_obeyed(sides[PLAIN_BYTES].name, plain_time(&by_bytes, milliseconds, replies, REPLIES));
    return by_bytes.replied;
}

static const uint8_t *bytes_glass(void)
{
    return by_bytes.glass;
}

const Side sides[SIDES] = {
    {"the library", our_start, our_feed, our_time, glass_of_ours},
    {"the independent implementation", independent_start, independent_feed, independent_time, independent_glass},
    {"plain C by pixels", pixels_start, pixels_feed, pixels_time, pixels_glass},
    {"plain C by bytes", bytes_start, bytes_feed, bytes_time, bytes_glass},
};

void feed_stream(const Side *side, const Stream *s, size_t piece)
{
    static uint8_t replies[REPLIES];
    size_t at;
    for (at = 0; at < s->length; at += piece)
        side->feed(s->bytes + at, s->length - at < piece ? s->length - at : piece, replies);
}

void fill_directory(const Side *side)
{
    uint8_t replies[REPLIES], n;
    for (n = 0; n < PLAIN_FILES; n++) {
        uint8_t command[] = {COMMAND, UPLOAD_BITMAP, n, 1, 0, 0, CONFIRM};
        side->feed(command, sizeof command, replies);
    }
}

static uint8_t ours[REPLIES], theirs[REPLIES];

static void expect_alike(const char *name, const Side *side, size_t replied, size_t their_replied)
{
    if (their_replied != replied || memcmp(ours, theirs, replied) != 0 ||
        memcmp(our_glass, side->glass(), DISPLAY_LOW_FRAMEBUFFER_SIZE) != 0) {
        fprintf(stderr, "bench: %s: %s differs from the library\n", name, side->name);
        exit(1);
    }
}

// One piece to all sides.
static void compare_piece(const char *name, const uint8_t *piece, size_t length)
{
    size_t replied = sides[OURS].feed(piece, length, ours);
    int i;
    for (i = OURS + 1; i < SIDES; i++)
        expect_alike(name, &sides[i], replied, sides[i].feed(piece, length, theirs));
}

static void compare_time(const char *name, uint32_t milliseconds)
{
    size_t replied = sides[OURS].time(milliseconds, ours);
    int i;
    for (i = OURS + 1; i < SIDES; i++)
        expect_alike(name, &sides[i], replied, sides[i].time(milliseconds, theirs));
}

static void compare_stream(const char *name, const Stream *s)
{
    enum { STEP = 61 };
    size_t at;
    for (at = 0; at < s->length; at += STEP)
        compare_piece(name, s->bytes + at, s->length - at < STEP ? s->length - at : STEP);
}

static void expect_refused(const char *name, unsigned count, unsigned last)
{
    if (display_refusal_count(our_state) != count || display_last_refusal(our_state) != last) {
        fprintf(stderr, "bench: %s: %u refused, the last with %u\n", name, display_refusal_count(our_state),
                display_last_refusal(our_state));
        exit(1);
    }
}

// An upload of bitmap 9, which no stream has, of 2,304 bytes, or in the newer edition of 2,313.
static void compare_time_out(const char *name, uint32_t edition)
{
    static const uint8_t begin[] = {COMMAND, UPLOAD_BITMAP, 9, 0, 9, 9, 0, 0};
    compare_piece(name, begin, edition == DISPLAY_NEWER_EDITION ? sizeof begin : sizeof begin - 3);
    compare_piece(name, (const uint8_t[]){'B', CONFIRM, 'C'}, 3);
    compare_time(name, DISPLAY_UPLOAD_TIMEOUT - 1);
    expect_refused(name, 0, DISPLAY_NO_REFUSAL);
    compare_time(name, 1);
    expect_refused(name, 1, DISPLAY_REFUSED_UPLOAD_ABORTED);
    compare_piece(name, (const uint8_t[]){'A'}, 1);
}

void check_agreement(const char *name, uint32_t edition, const Stream *setup, const Stream *timed)
{
    int i;
    for (i = 0; i < SIDES; i++)
        sides[i].start(edition);
    compare_stream(name, setup);
    compare_time(name, DISPLAY_UPLOAD_TIMEOUT);
    compare_stream(name, timed);
    compare_stream(name, timed);
    expect_refused(name, 0, DISPLAY_NO_REFUSAL);
    compare_time_out(name, edition);
}
