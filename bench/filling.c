#include "commands.h"
#include "display.h"
#include "plain.h"
#include "race.h"
#include "sides.h"
#include "tables.h"

#include <stdio.h>
#include <stdlib.h>
#include <string.h>

// A command, as often as it goes into a large piece.
typedef struct {
    const Side *side;
    uint8_t piece[PIECE];
    size_t length, count;
} Repeated;

static uint8_t glass[DISPLAY_LOW_FRAMEBUFFER_SIZE];

static Repeated *repeated(int side, const uint8_t *command, size_t length)
{
    Repeated *r = malloc(sizeof *r);
    if (!r)
        exit(1);
    r->side = &sides[side];
    for (r->count = r->length = 0; r->length + length <= PIECE; r->count++, r->length += length)
        memcpy(r->piece + r->length, command, length);
    return r;
}
#define REPEATED(side, ...) repeated(side, (const uint8_t[]){__VA_ARGS__}, sizeof(const uint8_t[]){__VA_ARGS__})

static void feed_repeated(const void *what, unsigned long times)
{
    static uint8_t replies[REPLIES];
    const Repeated *r = what;
    while (times-- > 0)
        r->side->feed(r->piece, r->length, replies);
}

static void feed_nothing(const void *what, unsigned long times)
{
    static uint8_t replies[REPLIES];
    const Side *side = what;
    while (times-- > 0)
        side->feed(glass, 0, replies);
}

static void pass_milliseconds(const void *what, unsigned long times)
{
    static uint8_t replies[REPLIES];
    const Side *side = what;
    while (times-- > 0)
        side->time(1, replies);
}

static void expect_byte(uint8_t taken, uint8_t sent)
{
    if (taken != sent) {
        fprintf(stderr, "bench: %u came out of the queue for %u\n", taken, sent);
        exit(1);
    }
}

typedef uint8_t Queued(uint8_t byte);

static void queue_bytes(const void *what, unsigned long times)
{
    Queued *const *queued = what;
    while (times-- > 0)
        expect_byte((*queued)((uint8_t)times), (uint8_t)times);
}

static void loop_pixels(const void *what, unsigned long times)
{
    const bool *black = what;
    while (times-- > 0)
        pixel_painters.fill(glass, 0, 0, DISPLAY_WIDTH - 1, DISPLAY_LOW_HEIGHT - 1, *black);
}

static void loop_bytes(const void *what, unsigned long times)
{
    const bool *black = what;
    while (times-- > 0)
        byte_painters.fill(glass, 0, 0, DISPLAY_WIDTH - 1, DISPLAY_LOW_HEIGHT - 1, *black);
}

// In another file, so that no call is left out.
static void loop_memset(const void *what, unsigned long times)
{
    (void)what;
    while (times-- > 0)
        clear_glass(glass);
}

static void loop_pixman(const void *what, unsigned long times)
{
    const bool *black = what;
    while (times-- > 0)
        pixman->fill(*black);
}

static void print_row(const char *name, double ours, const char *other, double theirs, double goal)
{
    double ratio = ours / theirs;
    printf("| %s | %.1f | %s | %.1f | %.*f | ", name, 1e9 * ours, other, 1e9 * theirs, ratio < 1 ? 3 : 1, ratio);
    if (goal == COUNTED)
        printf("in instructions | |\n");
    else
        printf("%g | %s |\n", goal, met(ratio <= goal));
}

// Every way must leave the same picture, or it is not worth timing.
static void check_fill(const char *name, const Repeated *r, bool black)
{
    unsigned pixels = black ? DISPLAY_WIDTH * DISPLAY_LOW_HEIGHT : 0;
    feed_repeated(r, 1);
    loop_pixels(&black, 1);
    if (pixman)
        loop_pixman(&black, 1);
    if (memcmp(our_glass, glass, sizeof glass) != 0 || (pixman && pixman->black_pixels() != pixels)) {
        fprintf(stderr, "bench: %s: not the same picture everywhere\n", name);
        exit(1);
    }
}

// One command of ours beside the four ways to fill a glass.
static void print_fill(const char *name, const Repeated *r, bool black, double shortest)
{
    enum { LIBRARY, PIXELS, BYTES, MEMSET, PIXMAN };
    Runner runners[] = {{feed_repeated, r, 0}, {loop_pixels, &black, 0}, {loop_bytes, &black, 0},
                        {loop_memset, NULL, 0}, {loop_pixman, &black, 0}};
    double ours;
    check_fill(name, r, black);
    race(runners, pixman ? PIXMAN + 1 : PIXMAN, shortest);
    ours = runners[LIBRARY].seconds / (double)r->count;
    print_row(name, ours, "set-pixel loop", runners[PIXELS].seconds, 1);
    print_row(name, ours, "fill by bytes", runners[BYTES].seconds, 1.5);
    print_row(name, ours, "memset of 1,920 bytes", runners[MEMSET].seconds, 10);
    if (pixman)
        print_row(name, ours, "pixman_fill", runners[PIXMAN].seconds, 1);
    else
        printf("| %s | %.1f | pixman_fill | pixman not installed | | 1 | not measured |\n", name, 1e9 * ours);
    fflush(stdout);
}

// Ours beside another that does the same, `count` times at each run.
static void print_pair(const char *name, Runner ours, const char *other, Runner theirs, double count, double goal,
                       double shortest)
{
    Runner runners[2];
    runners[0] = ours;
    runners[1] = theirs;
    race(runners, 2, shortest);
    print_row(name, runners[0].seconds / count, other, runners[1].seconds / count, goal);
    fflush(stdout);
}

static void print_overheads(double shortest)
{
    static Queued *const ours = our_queued, *const theirs = independent_queued;
    Repeated *colour = REPEATED(OURS, COMMAND, DRAWING_COLOUR, 1);
    Repeated *plain_colour = REPEATED(PLAIN_PIXELS, COMMAND, DRAWING_COLOUR, 1);
    Runner nothing = {feed_nothing, &sides[OURS], 0}, plain_nothing = {feed_nothing, &sides[PLAIN_PIXELS], 0};
    Runner time = {pass_milliseconds, &sides[OURS], 0}, plain_time = {pass_milliseconds, &sides[PLAIN_PIXELS], 0};
    print_pair("a command that paints nothing, `254 99 1`", (Runner){feed_repeated, colour, 0}, "plain C",
               (Runner){feed_repeated, plain_colour, 0}, (double)colour->count, 3, shortest);
    print_pair("a feed of no bytes, no files", nothing, "plain C", plain_nothing, 1, COUNTED, shortest);
    print_pair("a time, no files", time, "plain C", plain_time, 1, COUNTED, shortest);
    fill_directory(&sides[OURS]);
    fill_directory(&sides[PLAIN_PIXELS]);
    print_pair("a feed of no bytes, 63 files", nothing, "plain C", plain_nothing, 1, COUNTED, shortest);
    print_pair("arrive and take, a byte", (Runner){queue_bytes, &ours, 0}, "the independent one",
               (Runner){queue_bytes, &theirs, 0}, 1, COUNTED, shortest);
    free(colour);
    free(plain_colour);
}

void print_filling(double shortest)
{
    Repeated *clear = REPEATED(OURS, COMMAND, CLEAR);
    Repeated *solid = REPEATED(OURS, COMMAND, RECTANGLE, 1, 0, 0, DISPLAY_WIDTH - 1, DISPLAY_LOW_HEIGHT - 1);
    int i;
    for (i = 0; i < SIDES; i++)
        sides[i].start(DISPLAY_OLDER_EDITION);
    printf("The whole glass through display_feed, in pieces of %d bytes, and what calls cost without painting; ns.\n\n"
           "| What | Ours | Against | Theirs | Ratio | Goal | Today |\n"
           "|---|---|---|---|---|---|---|\n", PIECE);
    print_fill("clear, `254 88`", clear, false, shortest);
    print_fill("solid, `254 120 1 0 0 239 63`", solid, true, shortest);
    print_overheads(shortest);
    printf("\n");
    free(clear);
    free(solid);
}
