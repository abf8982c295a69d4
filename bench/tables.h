// The tables of the benchmark, each printed in Markdown. `shortest` is the least time of a round in seconds.
#ifndef TABLES_H
#define TABLES_H

// The goal of what has one in instructions.
enum { COUNTED = 0 };

// display_feed on each stream, beside the other sides.
void print_feeding(double shortest);

// Clear and solid rectangle of the whole glass, and the fixed cost of a call.
void print_filling(double shortest);

// What was found in the archive before the program ran.
typedef struct {
    unsigned long archive, linked; // bytes of code and constants
    unsigned long frame;           // the largest of a single function
    const char *function;
} Footprint;

// Code size and stack.
void print_footprint(const Footprint *f);

// "met" or "not met".
const char *met(int is_met);

// pixman's fill of a whole 240 by 64 surface; NULL where that library is not installed.
typedef struct {
    void (*fill)(int black);
    unsigned (*black_pixels)(void);
} Pixman;
extern const Pixman *const pixman;

#endif
