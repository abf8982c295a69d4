// One kind of work, so many times: `run` has callgrind count its instructions. What two times take above one is the work alone.
#include "display.h"
#include "sides.h"

#include <stdio.h>
#include <stdlib.h>
#include <string.h>

typedef struct {
    const char *name;
    unsigned goal;       // instructions of a unit, at most; 0: there is none
    void (*start)(void); // before the work
    void (*call)(void);  // a unit; NULL: a byte of the stream
    const char *stream;
    size_t piece;        // bytes of its pieces
} Work;

static void nothing(void)
{
}

static void store_files(void)
{
    fill_directory(&sides[OURS]);
}

static void queue_byte(void)
{
    our_queued(0);
}

static void feed_nothing(void)
{
    static uint8_t replies[REPLIES];
    sides[OURS].feed(replies, 0, replies);
}

static void pass_a_millisecond(void)
{
    static uint8_t replies[REPLIES];
    sides[OURS].time(1, replies);
}

static const Work works[] = {
    {"arrive and take, a byte", 1200, nothing, queue_byte, NULL, 0},
    {"a feed of no bytes, no files", 1500, nothing, feed_nothing, NULL, 0},
    {"a feed of no bytes, 63 files", 5000, store_files, feed_nothing, NULL, 0},
    {"a time, no files", 1500, nothing, pass_a_millisecond, NULL, 0},
    {"a time, 63 files", 5000, store_files, pass_a_millisecond, NULL, 0},
    {"text, a byte", 700, nothing, NULL, "text", PIECE},
    {"missing letters, a byte", 0, nothing, NULL, "missing letters", PIECE},
    {"pixels, a byte", 90, nothing, NULL, "pixels", PIECE},
    {"mixed, a byte", 700, nothing, NULL, "mixed", PIECE},
    {"bars, a byte", 0, nothing, NULL, "bars", PIECE},
    {"rectangles and frames, a byte", 0, nothing, NULL, "rectangles and frames", PIECE},
    {"rectangles of 3 by 3, a byte", 0, nothing, NULL, "rectangles of 3 by 3", PIECE},
    {"lines, a byte", 0, nothing, NULL, "lines", PIECE},
    {"strips, a byte", 0, nothing, NULL, "strips", PIECE},
    {"saved bitmaps, a byte", 0, nothing, NULL, "saved bitmaps", PIECE},
    {"in-line bitmaps, a byte", 0, nothing, NULL, "in-line bitmaps", PIECE},
    {"upload and delete, a byte", 0, nothing, NULL, "upload and delete", PIECE},
    {"upload and delete, newer edition, a byte", 0, nothing, NULL, "upload and delete, newer edition", PIECE},
    {"upload and delete, 59 other files, a byte", 0, nothing, NULL, "upload and delete, 59 other files", PIECE},
    {"upload and delete, a byte, one in a piece", 1500, nothing, NULL, "upload and delete", 1},
    {"upload and delete, 59 other files, a byte, one in a piece", 5000, nothing, NULL,
     "upload and delete, 59 other files", 1},
};

// As many copies as there is room for, so that pieces are full.
static void repeat(Stream *s)
{
    size_t once = s->length;
    while (s->length + once <= sizeof s->bytes)
        put(s, s->bytes, once);
}

// NULL for the mixed stream.
static const Family *family_of(const char *name)
{
    size_t i = 0;
    while (i < family_count && strcmp(families[i].name, name) != 0)
        i++;
    return i < family_count ? &families[i] : NULL;
}

static void build(Stream *setup, Stream *s, const Family *family, size_t piece)
{
    if (family) {
        family->setup(setup);
        family->timed(s);
    } else {
        mixed(s);
    }
    if (piece > 1)
        repeat(s);
}

// Prints the work's name, units and goal. There is none of that number: exits with 1.
int main(int count, char **arguments)
{
    static Stream setup, stream;
    const Work *work;
    const Family *family;
    unsigned long number, times, units = DISPLAY_QUEUE_CAPACITY, i;
    if (count != 3) {
        fprintf(stderr, "usage: %s WORK TIMES\n", arguments[0]);
        return 2;
    }
    number = strtoul(arguments[1], NULL, 10);
    times = strtoul(arguments[2], NULL, 10);
    if (number >= sizeof works / sizeof *works)
        return 1;
    work = &works[number];
    family = work->stream ? family_of(work->stream) : NULL;
    sides[OURS].start(family ? family->edition : DISPLAY_OLDER_EDITION);
    work->start();
    if (work->stream) {
        build(&setup, &stream, family, work->piece);
        feed_stream(&sides[OURS], &setup, PIECE);
        units = (unsigned long)stream.length;
    }
    printf("%s|%lu|%u\n", work->name, units, work->goal);
    while (times-- > 0) {
        if (work->stream)
            feed_stream(&sides[OURS], &stream, work->piece);
        else
            for (i = 0; i < units; i++)
                work->call();
    }
    return 0;
}
