// Stack of the calls: the stack below is painted with a pattern, and what is no longer the pattern was used. Counted
// from an empty function on, so with the call's arguments and a small caller's frame.
#include "commands.h"
#include "subject.h"

#include <stdio.h>

// BELOW is more than the measuring function's own frame has below `here`: small on a Cortex-M4, where arrive and take need little more than
// it. What needs less than BELOW counts as 0, so where it is large all figures are too small by as much at most.
#ifdef __arm__
enum { BELOW = 64 };
#else
enum { BELOW = 256 };
#endif
enum { DEEP = 16384, PATTERN = 0xA5, NOISE = 30000 };

static Stream stream;

// What lies below `here` is nobody's, and no object of C.
static size_t depth_of(void (*call)(void))
{
    volatile uintptr_t here = (uintptr_t)&here;
    volatile uint8_t *stack = (volatile uint8_t *)(here - BELOW - DEEP);
    size_t i;
    for (i = 0; i < DEEP; i++)
        stack[i] = PATTERN;
    call();
    i = 0;
    while (i < DEEP && stack[i] == PATTERN)
        i++;
    return BELOW + DEEP - i;
}

static void nothing(void)
{
}

static void feed_stream(void)
{
    feed(stream.bytes, stream.length);
}

static void drop_upload(void)
{
    pass_time(DISPLAY_UPLOAD_TIMEOUT);
}

static void arrive_all(void)
{
    unsigned i;
    for (i = 0; i < DISPLAY_QUEUE_CAPACITY; i++)
        arrive(0);
}

static void take_all(void)
{
    unsigned i;
    for (i = 0; i < DISPLAY_QUEUE_CAPACITY; i++)
        take();
}

static size_t more(size_t a, size_t b)
{
    return a > b ? a : b;
}

// The deepest feed over the mixed stream, every command, and noise that refusals come of.
static size_t depth_of_feed(void)
{
    uint32_t seed = 1;
    size_t depth;
    start();
    mixed(&stream);
    depth = depth_of(feed_stream);
    stream.length = 0;
    every_command(&stream);
    depth = more(depth, depth_of(feed_stream));
    expect_no_refusal("every command");
    for (stream.length = 0; stream.length < NOISE; stream.length++) {
        seed = seed * 1664525u + 1013904223u;
        stream.bytes[stream.length] = seed >> 31 ? 254 : (uint8_t)(seed >> 20);
    }
    return more(depth, depth_of(feed_stream));
}

// Of a time that ends an upload.
static size_t depth_of_time(void)
{
    start();
    feed((const uint8_t[]){COMMAND, UPLOAD_BITMAP, 7, 3, 0}, 5);
    return depth_of(drop_upload);
}

int main(void)
{
    size_t none = depth_of(nothing), fed = depth_of_feed(), timed = depth_of_time(), started = depth_of(start);
    size_t arrived = depth_of(arrive_all), taken = depth_of(take_all);
    printf("| stack of display_feed | %lu |\n", (unsigned long)(fed - none));
    printf("| stack of display_time | %lu |\n", (unsigned long)(timed - none));
    printf("| stack of display_start | %lu |\n", (unsigned long)(started - none));
    printf("| stack of display_arrive | %lu |\n", (unsigned long)(arrived - none));
    printf("| stack of display_take | %lu |\n", (unsigned long)(taken - none));
    return 0;
}
