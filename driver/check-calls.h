// Scaffolding of check-header.c, check-heights.c, check-editions.c, check-files.c, check-used.c and check-time.c: the
// memory of one display, the five calls on it, and checks that count themselves. Every call first copies the memory to
// `before`; outputs hold garbage until the library writes them; a slice of length 0 is lent as a null pointer.
#ifndef CHECK_CALLS_H
#define CHECK_CALLS_H

#include "display.h"

#include <stddef.h>
#include <string.h>

enum { GARBAGE = 0xA5, REPLIES = 64 };

// The display's commands and the handshake of an upload.
enum {
    COMMAND = 254, NO_COMMAND = 1, PURGE = 33, UPLOAD_FONT = 36, FONT = 49, SERIAL_NUMBER = 52, FLOW_ON = 58,
    BACKLIGHT_ON = 66, WRAP_OFF = 68, BACKLIGHT_OFF = 70, TEXT_CELL = 71, CONTRAST = 80, UPLOAD_BITMAP = 94,
    SHOW_BITMAP = 98, BITMAP_IN_LINE = 100, SET_BAR = 103, WRITE_BAR = 105, SET_STRIP = 106, PIXEL = 112,
    RECTANGLE = 120, TEXT_POINT = 121, DELETE_FILE = 173
};
enum { ACCEPTED = 1, DECLINED = 8, CONFIRM = 1 };

// Each slice has a byte to spare, for lengths that are one too long.
typedef struct {
    uint8_t glass[DISPLAY_TALL_FRAMEBUFFER_SIZE + 1];
    uint8_t store[DISPLAY_STORE_MOST + 1];
    uint8_t state[DISPLAY_STATE_RECORD_SIZE + 1];
    uint8_t queue[DISPLAY_QUEUE_RECORD_SIZE + 1];
} Memory;

typedef struct {
    display_length glass, store, state, queue;
} Lengths;

// A time consumes nothing.
typedef struct {
    uint32_t answer;
    display_length consumed, replied;
    uint8_t replies[REPLIES];
} Fed;

typedef struct {
    uint32_t answer;
    uint8_t byte, beside_byte[3], signal, beside_signal[3];
} Queued;

extern uint32_t height, edition; // of the display under test
extern Lengths right;            // for that height, with the smallest store
extern Memory memory, before;
extern unsigned checks, failures;
extern unsigned strays; // calls that wrote beside what they were lent, or behind their replies

void set_height(uint32_t rows);

#define HERE __FILE__, __LINE__

void check(const char *file, int line, const char *what, unsigned long long expected, unsigned long long got);
#define CHECK(what, expected, got) check(HERE, what, expected, got)

// Whether the last call changed any byte.
int changed(void);
#define NOTHING_CHANGES(what) CHECK(what ": bytes changed", 0, changed())

// The bytes at these offsets differ, and no others.
void check_changes(const char *file, int line, const char *what, const uint8_t *old, const uint8_t *now, size_t length,
                   const size_t *offsets, size_t count);
#define OFFSETS(...) (const size_t[]){__VA_ARGS__}, sizeof(const size_t[]){__VA_ARGS__} / sizeof(size_t)
#define CHANGES(slice, what, ...) \
    check_changes(HERE, what, before.slice, memory.slice, sizeof memory.slice, OFFSETS(__VA_ARGS__))

// The calls, with these lengths.
uint32_t start_as(uint32_t rows, uint32_t protocol, Lengths n);
uint32_t start(Lengths n);
Fed feed_with(Lengths n, const uint8_t *piece, display_length length, display_length room);
Fed pass_with(Lengths n, uint32_t milliseconds, display_length room);
Queued arrive(Lengths n, uint8_t byte);
Queued take(Lengths n);

// Garbage, and an empty directory.
void spoil(void);

// A display just started, with an empty store.
void fresh(void);

// Enough reply room: the whole piece is consumed.
Fed feed(const char *file, int line, const uint8_t *piece, display_length length);
#define BYTES(...) (const uint8_t[]){__VA_ARGS__}, sizeof(const uint8_t[]){__VA_ARGS__}
#define FEED(...) feed(HERE, BYTES(__VA_ARGS__))

// The command that begins an upload, as hosts of the edition under test send it, and a whole upload of few bytes.
Fed begin_upload(const char *file, int line, uint8_t code, unsigned number, uint32_t size);
void upload(const char *file, int line, uint8_t code, unsigned number, const uint8_t *bytes, display_length size);
#define BEGIN_UPLOAD(code, number, size) begin_upload(HERE, code, number, size)
#define UPLOAD(code, number, ...) upload(HERE, code, number, BYTES(__VA_ARGS__))

// What the directory begins with, and no more entries.
void check_entries(const char *file, int line, const char *what, const uint8_t *entries, display_length length);
#define CHECK_ENTRIES(what, ...) check_entries(HERE, what, BYTES(__VA_ARGS__))

void check_fed(const char *file, int line, const char *what, Fed fed, uint32_t answer, display_length consumed,
               display_length replied);
#define CHECK_FED(what, fed, answer, consumed, replied) check_fed(HERE, what, fed, answer, consumed, replied)

// A feed and a time are refused with the same answer; nothing changes.
void check_refused(const char *file, int line, const char *what, Lengths n, uint32_t answer, display_length room);
#define CHECK_REFUSED(what, n, answer, room) check_refused(HERE, what, n, answer, room)

void check_last_refusal(const char *file, int line, const char *what, unsigned count, unsigned last);
#define CHECK_LAST_REFUSAL(what, count, last) check_last_refusal(HERE, what, count, last)

void check_queued(const char *file, int line, const char *what, Queued queued, uint32_t answer, unsigned byte,
                  unsigned signal);
#define CHECK_QUEUED(what, queued, answer, byte, signal) check_queued(HERE, what, queued, answer, byte, signal)

// Arrive and take refuse the records; nothing changes.
void check_queue_refused(const char *file, int line, const char *what);

// A feed and a time refuse the state record too.
void check_state_refused(const char *file, int line, const char *what);

// What depends on the height of the glass.
void check_heights(void); // of any: unknown ones, and one mistaken for another
void check_rows(void);    // of the one that is set

// What depends on the edition: unknown ones, and one mistaken for the other.
void check_editions(void);
void check_files(void);       // at the height that is set, by both editions
void check_directories(void); // at the height and the edition that are set

void check_used(void); // likewise
void check_time(void);

#endif
