// Instructions of the calls on the emulated Cortex-M4. An instruction takes 64 ns of the emulator's time (-icount
// shift=6) and a tick of the board's timer 40 ns, so the timer tells their number exactly.
#include "subject.h"

#include "commands.h"

#include <stdio.h>
#include <stdlib.h>
#include <string.h>

enum { LARGE = 4096, PIECE = 16, GOAL = 5500 };

// Counts down, and is not started anew within a measurement.
typedef struct {
    uint32_t control, value, reload;
} Timer;
#define TIMER ((volatile Timer *)0x40000000)

static Stream setup, stream;
static unsigned long in_vain; // instructions of a measurement of nothing

static unsigned long instructions(void (*run)(void))
{
    uint32_t before, after;
    TIMER->control = 0;
    TIMER->reload = TIMER->value = UINT32_MAX;
    TIMER->control = 1;
    before = TIMER->value;
    run();
    after = TIMER->value;
    return (unsigned long)(((uint64_t)(before - after) * 40 + 32) / 64) - in_vain;
}

static void nothing(void)
{
}

static void feed_nothing(void)
{
    feed(NULL, 0);
}

static void pass_a_millisecond(void)
{
    pass_time(1);
}

static void feed_in(size_t piece)
{
    size_t at;
    for (at = 0; at < stream.length; at += piece)
        feed(stream.bytes + at, stream.length - at < piece ? stream.length - at : piece);
}

static void feed_large(void)
{
    feed_in(LARGE);
}

static void queue_byte(void)
{
    arrive('A');
    if (take() != 'A')
        exit(1);
}

// Each byte arrives, is taken and is fed in a piece of 16.
static void queue_and_feed(void)
{
    uint8_t piece[PIECE];
    size_t at, i, count;
    for (at = 0; at < stream.length; at += count) {
        count = stream.length - at < PIECE ? stream.length - at : PIECE;
        for (i = 0; i < count; i++)
            arrive(stream.bytes[at + i]);
        for (i = 0; i < count; i++)
            piece[i] = take();
        feed(piece, count);
    }
}

static void print_row(const char *name, unsigned long count)
{
    printf("| %s | %lu | | |\n", name, count);
}

// Of each of so many units of the stream, on a display that has been fed what goes before it.
static unsigned long of_stream(const char *name, void (*run)(void), size_t units)
{
    unsigned long count;
    start();
    feed(setup.bytes, setup.length);
    count = instructions(run);
    expect_no_refusal(name);
    return (count + units / 2) / units;
}

static void print_family(const char *name)
{
    char row[80];
    size_t i = 0;
    while (strcmp(families[i].name, name) != 0)
        i++;
    setup.length = stream.length = 0;
    families[i].setup(&setup);
    families[i].timed(&stream);
    snprintf(row, sizeof row, "%s, a byte, in pieces of %d", name, LARGE);
    print_row(row, of_stream(name, feed_large, stream.length));
}

// Black and white by turns, in one piece.
static void print_whole_glass(void)
{
    enum { COUNT = 64 };
    unsigned i;
    setup.length = stream.length = 0;
    for (i = 0; i < COUNT; i++)
        PUT(&stream, COMMAND, RECTANGLE, (uint8_t)(i % 2), 0, 0, DISPLAY_WIDTH - 1, DISPLAY_LOW_HEIGHT - 1);
    print_row("a rectangle over the whole glass, a command", of_stream("whole glass", feed_large, COUNT));
}

int main(void)
{
    unsigned long checks, line, time, obeyed, whole;
    in_vain = instructions(nothing);
    printf("Instructions on a Cortex-M4, counted by the emulator, with the loop around the calls.\n\n"
           "| What | Instructions | Goal | Today |\n|---|---|---|---|\n");
    print_family("text");
    print_family("missing letters");
    print_family("pixels");
    setup.length = stream.length = 0;
    mixed(&stream);
    obeyed = of_stream("mixed", feed_large, stream.length);
    whole = of_stream("mixed", queue_and_feed, stream.length);
    print_family("bars");
    print_family("rectangles and frames");
    print_whole_glass();
    start();
    line = instructions(queue_byte);
    checks = instructions(feed_nothing);
    time = instructions(pass_a_millisecond);
    print_row("mixed, a byte, in pieces of 4096", obeyed);
    print_row("arrive and take, a byte", line);
    print_row("a feed of no bytes", checks);
    print_row("a time", time);
    printf("| mixed, a byte that arrives, is taken and is fed in pieces of %d | %lu | %d | %s |\n", PIECE, whole, GOAL,
           whole <= GOAL ? "met" : "not met");
    printf("\nOf these %lu, arrive and take are %lu, a sixteenth of a feed's checks is %lu, and the rest is the byte "
           "obeyed. The goal is %s by %ld.\n", whole, line, checks / PIECE, whole <= GOAL ? "met" : "missed",
           labs((long)whole - GOAL));
    return 0;
}
