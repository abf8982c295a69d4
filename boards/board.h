// One display's memory, the five calls on it, and a hash of all that they answer and leave.
#ifndef BOARD_H
#define BOARD_H

#include "display.h"

#include <stddef.h>

// In the order in which they stand in memory, each at any alignment, with bytes between them that nobody may touch.
enum { STATE, QUEUE, SCREEN, REPLIES, STORE, SLICES };

typedef struct {
    uint8_t *bytes;
    display_length length; // as lent
} Slice;

extern Slice lent[SLICES];

// A new place for each slice, with garbage in it, and an empty directory. Behind screen and store there is room for
// them to be lent as long as they may be.
void place_memory(unsigned height, size_t store_length, size_t replies_length);

// Memory as it was when it was saved; slices stay where they are.
void save_memory(void);
void restore_memory(void);

// The calls. Each goes into the hash: its answer, its outputs and what stands beside them, and the memory afterwards.
enum { START, FEED, TIME, ARRIVE, TAKE, CALL_KINDS };
uint32_t call_start(uint32_t height, uint32_t edition);
uint32_t call_feed(const uint8_t *piece, size_t length, size_t room, size_t *consumed);
uint32_t call_time(uint32_t milliseconds, size_t room);
uint32_t call_arrive(uint8_t byte);
uint32_t call_take(uint8_t *byte);

// Of all calls since it was begun.
extern uint64_t hash;
void begin_hash(void);

extern unsigned long calls, answers[CALL_KINDS][8];
extern unsigned long refusals[256]; // calls after which a number is the last refusal, and was not before
extern unsigned long dropped;       // times that ended an upload

#endif
