#include "board.h"

#include "random.h"

#include <string.h>

enum { GAP = 16, ALIGNMENTS = 8, MOST_REPLIES = 2 * sizeof((Stream *)0)->bytes, GARBAGE = 0xA5 };
enum { SMALL = DISPLAY_STATE_RECORD_SIZE + DISPLAY_QUEUE_RECORD_SIZE + DISPLAY_TALL_FRAMEBUFFER_SIZE };

static uint8_t memory[SMALL + MOST_REPLIES + DISPLAY_STORE_MOST + (SLICES + 1) * (GAP + ALIGNMENTS)];
static uint8_t saved_memory[sizeof memory];
static size_t used; // of the memory
static Slice saved[SLICES];

Slice lent[SLICES];
uint64_t hash;
unsigned long calls, answers[CALL_KINDS][8];
unsigned long refusals[256], dropped;

// What a call writes to, between neighbours that it must not write to.
typedef struct {
    display_length before, consumed, between, replied, behind;
    uint8_t bytes[8];
} Outputs;
enum { BYTE = 2, SIGNAL = 5 };

void place_memory(unsigned height, size_t store_length, size_t replies_length)
{
    size_t lengths[SLICES] = {DISPLAY_STATE_RECORD_SIZE, DISPLAY_QUEUE_RECORD_SIZE, DISPLAY_TALL_FRAMEBUFFER_SIZE};
    size_t at = 0, i;
    lengths[REPLIES] = replies_length;
    lengths[STORE] = DISPLAY_STORE_MOST;
    for (i = 0; i < SLICES; i++) {
        at += GAP + below(ALIGNMENTS);
        lent[i].bytes = memory + at;
        lent[i].length = lengths[i];
        at += lengths[i];
    }
    lent[SCREEN].length = height * DISPLAY_STRIDE;
    lent[STORE].length = store_length;
    used = at + GAP;
    for (i = 0; i < used; i++)
        memory[i] = (uint8_t)(GARBAGE + 37 * i);
    memset(lent[STORE].bytes, 0, DISPLAY_DIRECTORY_SIZE);
}

void save_memory(void)
{
    memcpy(saved_memory, memory, used);
    memcpy(saved, lent, sizeof lent);
}

void restore_memory(void)
{
    memcpy(memory, saved_memory, used);
    memcpy(lent, saved, sizeof lent);
}

void begin_hash(void)
{
    hash = 0xCBF29CE484222325u;
}

static void add_number(uint64_t number)
{
    hash = (hash ^ (number & 0xFFFFFFFFu)) * 0x100000001B3u;
    hash = (hash ^ number >> 32) * 0x100000001B3u;
}

// Four at a time, in an order that is the same on every processor.
static void add_bytes(const uint8_t *bytes, size_t count)
{
    for (; count >= 4; count -= 4, bytes += 4)
        hash = (hash ^ (bytes[0] | (uint32_t)bytes[1] << 8 | (uint32_t)bytes[2] << 16 | (uint32_t)bytes[3] << 24)) *
               0x100000001B3u;
    while (count-- > 0)
        hash = (hash ^ *bytes++) * 0x100000001B3u;
}

// The memory up to the end of a slice, and what stands behind it.
static void add_memory(unsigned last)
{
    size_t length = lent[last].length < DISPLAY_STORE_MOST ? (size_t)lent[last].length : DISPLAY_STORE_MOST;
    add_bytes(memory, (size_t)(lent[last].bytes - memory) + length + GAP);
}

static uint32_t note(unsigned kind, uint32_t answer, const Outputs *outputs, unsigned last)
{
    static uint8_t last_refusal;
    uint8_t refusal = lent[STATE].bytes[DISPLAY_STATE_LAST_REFUSAL];
    calls++;
    answers[kind][answer % 8]++;
    refusals[refusal] += refusal != last_refusal;
    last_refusal = refusal;
    add_number(answer);
    add_number(outputs->before);
    add_number(outputs->consumed);
    add_number(outputs->between);
    add_number(outputs->replied);
    add_number(outputs->behind);
    add_bytes(outputs->bytes, sizeof outputs->bytes);
    add_memory(last);
    return answer;
}

// A slice of no bytes is lent as a null pointer.
static uint8_t *pointer(unsigned slice)
{
    return lent[slice].length == 0 ? NULL : lent[slice].bytes;
}
#define LENT(slice) pointer(slice), lent[slice].length

uint32_t call_start(uint32_t height, uint32_t edition)
{
    Outputs none;
    uint32_t answer = display_start(height, edition, LENT(SCREEN), LENT(STORE), LENT(STATE), LENT(QUEUE));
    memset(&none, GARBAGE, sizeof none);
    return note(START, answer, &none, STORE);
}

uint32_t call_feed(const uint8_t *piece, size_t length, size_t room, size_t *consumed)
{
    Outputs outputs;
    uint32_t answer;
    memset(&outputs, GARBAGE, sizeof outputs);
    lent[REPLIES].length = room;
    answer = display_feed(LENT(SCREEN), LENT(STORE), LENT(STATE), piece, length, LENT(REPLIES), &outputs.consumed,
                          &outputs.replied);
    *consumed = (size_t)outputs.consumed;
    return note(FEED, answer, &outputs, STORE);
}

uint32_t call_time(uint32_t milliseconds, size_t room)
{
    Outputs outputs;
    uint32_t answer;
    memset(&outputs, GARBAGE, sizeof outputs);
    lent[REPLIES].length = room;
    answer = display_time(LENT(SCREEN), LENT(STORE), LENT(STATE), milliseconds, LENT(REPLIES), &outputs.replied);
    dropped += answer == DISPLAY_OK && outputs.replied > 0;
    return note(TIME, answer, &outputs, STORE);
}

uint32_t call_arrive(uint8_t byte)
{
    Outputs outputs;
    memset(&outputs, GARBAGE, sizeof outputs);
    return note(ARRIVE, display_arrive(LENT(STATE), LENT(QUEUE), byte, &outputs.bytes[SIGNAL]), &outputs, QUEUE);
}

uint32_t call_take(uint8_t *byte)
{
    Outputs outputs;
    uint32_t answer;
    memset(&outputs, GARBAGE, sizeof outputs);
    answer = display_take(LENT(STATE), LENT(QUEUE), &outputs.bytes[BYTE], &outputs.bytes[SIGNAL]);
    *byte = outputs.bytes[BYTE];
    return note(TAKE, answer, &outputs, QUEUE);
}
