// What is timed side by side, behind one form: the library, the independent implementation, and the plain C in its two
// forms. Each side keeps one display, of the low glass, with an empty store of the greatest size at its start.
#ifndef SIDES_H
#define SIDES_H

#include "streams.h"

enum { OURS, INDEPENDENT, PLAIN_PIXELS, PLAIN_BYTES, SIDES };

// Bytes of a large piece, and reply bytes lent with every call.
enum { PIECE = 4096, REPLIES = 2 * PIECE };

typedef struct {
    const char *name;
    void (*start)(uint32_t edition);
    // Obeys the whole piece; the answer is the number of replies. Ends the program where it is not obeyed.
    size_t (*feed)(const uint8_t *piece, size_t length, uint8_t *replies);
    size_t (*time)(uint32_t milliseconds, uint8_t *replies); // likewise
    const uint8_t *(*glass)(void);
} Side;

extern const Side sides[SIDES];

// A byte through the queue and out of it again.
uint8_t our_queued(uint8_t byte);
uint8_t independent_queued(uint8_t byte);

// The library's own memory, for calls that only it has.
extern uint8_t our_glass[], our_store[], our_state[], our_queue[];

// Feeds a stream in pieces of this length, the replies unread.
void feed_stream(const Side *side, const Stream *s, size_t piece);

// As many files as the directory holds, of one byte each, by hosts of the older edition.
void fill_directory(const Side *side);

// Starts all sides and feeds them both streams, and at last an upload that is left lying; ends the program where a
// reply or a glass differs after any piece or time, or where the library refused anything of the streams.
void check_agreement(const char *name, uint32_t edition, const Stream *setup, const Stream *timed);

#endif
