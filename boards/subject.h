// The display that is measured: the low glass, the older edition, with an empty store of the greatest size. A call that
// is refused ends the program.
#ifndef SUBJECT_H
#define SUBJECT_H

#include "display.h"
#include "streams.h"

extern uint8_t state[DISPLAY_STATE_RECORD_SIZE];

void start(void);
void feed(const uint8_t *piece, size_t length);
void pass_time(uint32_t milliseconds);
void arrive(uint8_t byte);
uint8_t take(void);

// Ends the program where anything of a stream was refused: it would not be what was to be measured.
void expect_no_refusal(const char *name);

#endif
