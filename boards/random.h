// Numbers and streams from a seed, the same on every processor.
#ifndef RANDOM_H
#define RANDOM_H

#include "streams.h"

void set_seed(uint32_t number);

// At most once in an expression, so that the order is fixed too.
unsigned below(unsigned limit);

// Any byte, most often a small one or one at an edge of screens and types.
uint8_t any_byte(void);

// At least `length` bytes of commands, characters, uploads and noise for a screen of so many rows, as hosts of an
// edition send them. Most is obeyed, and every refusal is met now and then.
void random_stream(Stream *s, size_t length, unsigned height, unsigned edition);

#endif
