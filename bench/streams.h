// The byte streams of the benchmark: one for each family of commands, and a mixed one of all. Each is the same at every
// run, is obeyed without a refusal, and leaves the display ready for itself again.
#ifndef STREAMS_H
#define STREAMS_H

#include <stddef.h>
#include <stdint.h>

typedef struct {
    uint8_t bytes[32768];
    size_t length;
} Stream;

typedef void Build(Stream *);

// How many times plain C's time is allowed: with its pixel loops, and by bytes, where that may be NONE.
enum { NONE = 0 };
typedef struct {
    double plain, by_bytes;
} Goal;

// A family: the edition of its hosts, what is sent before it, what is timed, its goal, and whether it is timed in pieces
// of one byte too, as a host sends them that waits for each reply.
typedef struct {
    const char *name;
    unsigned edition;
    Build *setup, *timed;
    Goal goal;
    int by_byte;
} Family;

extern const Family families[];
extern const size_t family_count;

// Appends; ends the program if there is no room.
void put(Stream *s, const uint8_t *bytes, size_t length);
#define PUT(s, ...) put(s, (const uint8_t[]){__VA_ARGS__}, sizeof(const uint8_t[]){__VA_ARGS__})

// Two rounds of everything, in an order in which pages are built; of the older edition.
void mixed(Stream *s);

// Every command of the display, with a font in the store whose characters wrap and scroll: what may reach deep; of the
// older edition.
void every_command(Stream *s);

#endif
