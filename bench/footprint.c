// Stack depth: each call runs on a stack that was painted with a pattern, and what is no longer the pattern was used.
#define _XOPEN_SOURCE 700

#include "commands.h"
#include "display.h"
#include "sides.h"
#include "tables.h"

#include <stdio.h>
#include <stdlib.h>
#include <string.h>
#include <ucontext.h>

enum { STACK = 65536, PATTERN = 0xA5, NOISE = 30000 };

static uint8_t stack[STACK];
static ucontext_t outside, inside;
static Stream stream, noise;

// Bytes of stack that a function uses from its first instruction on.
static size_t depth_of(void (*function)(void))
{
    size_t untouched = 0;
    memset(stack, PATTERN, sizeof stack);
    if (getcontext(&inside) != 0)
        exit(1);
    inside.uc_stack.ss_sp = stack;
    inside.uc_stack.ss_size = sizeof stack;
    inside.uc_link = &outside;
    makecontext(&inside, function, 0);
    if (swapcontext(&outside, &inside) != 0)
        exit(1);
    while (untouched < sizeof stack && stack[untouched] == PATTERN)
        untouched++;
    return sizeof stack - untouched;
}

static void nothing(void)
{
}

static void start(void)
{
    display_start(DISPLAY_LOW_HEIGHT, DISPLAY_OLDER_EDITION, our_glass, DISPLAY_LOW_FRAMEBUFFER_SIZE, our_store,
                  DISPLAY_STORE_MOST, our_state, DISPLAY_STATE_RECORD_SIZE, our_queue, DISPLAY_QUEUE_RECORD_SIZE);
}

static void feed_all(const Stream *s)
{
    static uint8_t replies[2 * sizeof s->bytes];
    display_length consumed, replied;
    display_feed(our_glass, DISPLAY_LOW_FRAMEBUFFER_SIZE, our_store, DISPLAY_STORE_MOST, our_state,
                 DISPLAY_STATE_RECORD_SIZE, s->bytes, s->length, replies, sizeof replies, &consumed, &replied);
}

static void feed(void)
{
    feed_all(&stream);
}

static void feed_noise(void)
{
    feed_all(&noise);
}

static void drop_upload(void)
{
    uint8_t replies[DISPLAY_REPLY_ROOM];
    display_length replied;
    display_time(our_glass, DISPLAY_LOW_FRAMEBUFFER_SIZE, our_store, DISPLAY_STORE_MOST, our_state,
                 DISPLAY_STATE_RECORD_SIZE, DISPLAY_UPLOAD_TIMEOUT, replies, sizeof replies, &replied);
}

static void arrive(void)
{
    uint8_t signal;
    unsigned i;
    for (i = 0; i <= DISPLAY_QUEUE_CAPACITY; i++)
        display_arrive(our_state, DISPLAY_STATE_RECORD_SIZE, our_queue, DISPLAY_QUEUE_RECORD_SIZE, 0, &signal);
}

static void take(void)
{
    uint8_t byte, signal;
    unsigned i;
    for (i = 0; i <= DISPLAY_QUEUE_CAPACITY; i++)
        display_take(our_state, DISPLAY_STATE_RECORD_SIZE, our_queue, DISPLAY_QUEUE_RECORD_SIZE, &byte, &signal);
}

static size_t most(size_t a, size_t b)
{
    return a > b ? a : b;
}

// The deepest feed over the mixed stream, every command, and noise that refusals come of.
static size_t depth_of_feed(void)
{
    uint32_t seed = 1;
    size_t depth;
    sides[OURS].start(DISPLAY_OLDER_EDITION);
    mixed(&stream);
    depth = depth_of(feed);
    stream.length = 0;
    every_command(&stream);
    depth = most(depth, depth_of(feed));
    if (display_refusal_count(our_state) != 0) {
        fprintf(stderr, "bench: %u refused, the last with %u: not the depth that was meant\n",
                display_refusal_count(our_state), display_last_refusal(our_state));
        exit(1);
    }
    for (noise.length = 0; noise.length < NOISE; noise.length++) {
        seed = seed * 1664525u + 1013904223u;
        noise.bytes[noise.length] = seed >> 31 ? 254 : (uint8_t)(seed >> 20);
    }
    return most(depth, depth_of(feed_noise));
}

// Of a time that ends an upload.
static size_t depth_of_time(void)
{
    sides[OURS].start(DISPLAY_OLDER_EDITION);
    stream.length = 0;
    PUT(&stream, COMMAND, UPLOAD_BITMAP, 7, 3, 0);
    feed();
    return depth_of(drop_upload);
}

static void print_row(const char *name, size_t bytes, size_t goal, const char *why)
{
    printf("| %s | %lu | %lu | %s | %s |\n", name, (unsigned long)bytes, (unsigned long)goal, why, met(bytes <= goal));
}

void print_footprint(const Footprint *f)
{
    char frame[160];
    size_t none = depth_of(nothing), started = depth_of(start), fed = depth_of_feed(), timed = depth_of_time();
    size_t arrived, taken;
    start();
    arrived = depth_of(arrive);
    taken = depth_of(take);
    printf("Code and stack, bytes, for a board with 128 KiB of flash and 20 KiB of RAM.\n\n"
           "| What | Ours | Goal | Why | Today |\n|---|---|---|---|---|\n");
    print_row("code and constants in the archive", f->archive, 65536, "half the flash is the driver's");
    print_row("the same, linked by a program of all five calls", f->linked, 65536, "half the flash is the driver's");
    print_row("stack of display_feed", fed - none, 2048,
              "a tenth of the RAM; glass, records, a store of 8 KiB and the driver share the rest");
    print_row("stack of display_time", timed - none, 2048, "as display_feed");
    print_row("stack of display_start", started - none, 2048, "as display_feed");
    print_row("stack of display_arrive", arrived - none, 512, "called for every byte, maybe on a handler's stack");
    print_row("stack of display_take", taken - none, 512, "as display_arrive");
    snprintf(frame, sizeof frame, "largest frame of one function, %s", f->function);
    print_row(frame, f->frame, 1024, "half of the stack");
}
