// Scaffolding of check-port.c, check-clock.c, check-flow.c and check-streams.c: one display behind the port driver, a
// host that reads no more than it is allowed, a clock that stands still unless it is moved, spies between driver and
// library, and checks that count themselves.
#ifndef CHECK_WIRE_H
#define CHECK_WIRE_H

#include "port.h"

#include <string.h>

enum { WIRE = 1 << 16, GARBAGE = 0xA5 };

typedef struct {
    uint8_t bytes[WIRE];
    size_t count;
} Bytes;

extern uint32_t height, edition; // of the display under test
extern uint32_t now;             // what the board's clock shows
extern Port port;
extern uint8_t store[DISPLAY_STORE_MOST + 1];
extern Bytes host;             // what the host has read
extern size_t allowance;       // how much more it reads
extern Bytes replies;          // what feeds and times gave, as they gave it
extern Bytes obeyed;           // what feeds consumed
extern unsigned calls;         // of feed, time, arrive and take
extern unsigned answers[8];    // of these calls, since the start
extern unsigned times;         // calls of time, since the start
extern uint32_t last_time;     // milliseconds of the last of them
extern size_t unfed;           // bytes taken and not yet fed
extern void (*interrupt)(void); // strikes during each of them
extern unsigned checks, failures;

// The display's commands and the handshake of an upload.
enum {
    COMMAND = 254, PURGE = 33, UPLOAD_FONT = 36, FONT = 49, METRICS = 50, SERIAL_NUMBER = 52, FLOW_ON = 58,
    FLOW_OFF = 59, CONTRAST = 80, CLEAR = 88, UPLOAD_BITMAP = 94, SHOW_BITMAP = 98, BITMAP_IN_LINE = 100, SET_BAR = 103,
    WRITE_BAR = 105, SET_STRIP = 106, SHIFT_STRIP = 107, LINE = 108, PIXEL = 112, RECTANGLE = 120, TEXT_POINT = 121,
    DELETE_FILE = 173
};
enum { ACCEPTED = 1, DECLINED = 8, CONFIRM = 1 };
enum { ERROR_PREFIX = 254, UPLOAD_TIMED_OUT = 212 }; // what an upload that is dropped answers
enum { QUEUE = DISPLAY_QUEUE_CAPACITY, RING = PORT_RECEIVE_SIZE, PIECE = PORT_PIECE_SIZE };

void check(const char *file, int line, const char *what, unsigned long expected, unsigned long got);
#define CHECK(what, expected, got) check(__FILE__, __LINE__, what, expected, got)

void check_bytes(const char *file, int line, const char *what, const Bytes *got, const uint8_t *expected, size_t count);
#define BYTES(...) (const uint8_t[]){__VA_ARGS__}, sizeof(const uint8_t[]){__VA_ARGS__}
#define CHECK_BYTES(what, got, ...) check_bytes(__FILE__, __LINE__, what, got, __VA_ARGS__)

// Forgets the wire, and starts the driver with a host that reads everything.
uint32_t start_as(uint32_t rows, uint32_t protocol, display_length store_length);
uint32_t start(display_length store_length);

// A display just started, with an empty store of the least size.
void fresh(void);

void receive(const uint8_t *bytes, size_t count);
#define RECEIVE(...) receive(BYTES(__VA_ARGS__))

// An upload that fills the queue: its header and so many bytes of data, 100, 101, ..., each confirmed.
enum { HEADER = 5, DATA = (QUEUE - HEADER) / 2 };
void receive_upload(void);

uint32_t poll(void);

// A round so many milliseconds later.
uint32_t poll_after(uint32_t milliseconds);

// Rounds until nothing waits any more; then the host must have read what the calls gave, in their order.
void drain(void);

// What no start and no round may do, whatever the wire does: counted all along, checked at the end.
void check_manners(void);

// The library's own calls, past the spies.
uint32_t __real_display_feed(uint8_t *glass, display_length glass_length, uint8_t *files, display_length files_length,
                             uint8_t *state, display_length state_length, const uint8_t *piece,
                             display_length piece_length, uint8_t *to, display_length to_length,
                             display_length *consumed, display_length *replied);
uint32_t __real_display_time(const uint8_t *glass, display_length glass_length, const uint8_t *files,
                             display_length files_length, uint8_t *state, display_length state_length,
                             uint32_t milliseconds, uint8_t *to, display_length to_length, display_length *replied);

void check_clock(void);
void check_flow(void);
void check_streams(void);

#endif
