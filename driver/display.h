// The C boundary of the display: five calls over lent memory, and the numbers that a driver needs. For C99 and C++11.
//
// `make archive` writes the library, which is crates/display_c, for x86-64 Linux, and with TARGET=.. also for a
// Cortex-M4, and for 64-bit Arm and RISC-V under Linux (docs/BOARDS.md).
//
// One display is four slices of memory, all of them the driver's own:
//
//   glass   the framebuffer, by the name that it has at this boundary: as many rows from the top down as the glass is
//           high, DISPLAY_STRIDE bytes to a row; bit 7 of a byte is its leftmost pixel, and a set bit is a black one
//   store   the fonts and bitmaps that hosts have uploaded: a directory of DISPLAY_DIRECTORY_SIZE bytes, then the
//           files. A new store has a directory of zeros. Its length is the board's choice between least and most
//   state   the state record: the command under way, settings, graphs, counters. What a board may read of it has an
//           offset below; the rest is the library's business
//   queue   the queue record: bytes that came on the wire and wait to be obeyed
//
// One library serves the low glass and the tall one. The board says at start which it has; the state record keeps the
// height, and from then on the framebuffer is lent at that height's length. It also says which edition of the upload
// protocol its hosts speak, and the record keeps that too. A store may be moved between heights and between editions.
//
// The state record also keeps how much of the store the files take. A board that puts a file into the store or takes
// one out by itself starts again: until then the directory adds up to something else, and nothing is fed.
//
// The library has no clock. The board hands in the milliseconds that pass, with display_time; without them an upload
// that its host has left lying is never dropped.
//
// The library looks at every length and every byte before it uses them, so no contents can harm it. Four things it
// cannot see, and the caller keeps to them:
//
//   - Each length is the number of bytes that really are at its pointer. Where it is 0 the pointer may be null.
//   - No two slices of a call share a byte.
//   - Each output is a variable of its own, aligned for its type and outside every slice.
//   - Two calls for the same display never run at once, not even one from an interrupt: display_arrive reads the state
//     record while display_feed may be writing it. A handler that strikes during a feed keeps its bytes in a buffer of
//     the driver's, and the main loop hands them to display_arrive after it.
//
// A driver's round: hand in what has come with display_arrive; send the replies of the round before; hand in the time
// that has passed with display_time; then, as often as DISPLAY_REPLY_ROOM reply bytes are free, get a byte with
// display_take and obey it with display_feed. Send each signal as it is given. Then bring framebuffer, contrast and
// backlight to the LCD. port.h and port.c are such a driver.
//
//   - Replies go out before more is fed: lent less than DISPLAY_REPLY_ROOM bytes for them, display_feed consumes none
//     of the bytes it is given and answers DISPLAY_NO_REPLY_ROOM, and so does display_time with its milliseconds.
//   - Time that has passed is handed in before the bytes that came after it, and once.
//   - A byte stays in the queue until there is room to feed it: from display_take to display_feed the driver holds the
//     only copy.

#ifndef DISPLAY_H
#define DISPLAY_H

#include <stdint.h>

#ifdef __cplusplus
extern "C" {
#endif

// Lengths and counts have 64 bits in the library for every processor, also where a size_t has 32.
typedef uint64_t display_length;
typedef char display_length_has_8_bytes[sizeof(display_length) == 8 ? 1 : -1];

// Editions of the upload protocol: how file numbers and sizes are sent, low byte first in both.
#define DISPLAY_OLDER_EDITION 1u // numbers of one byte, sizes of two
#define DISPLAY_NEWER_EDITION 2u // numbers of two bytes, sizes of four
#define DISPLAY_FILE_NUMBER_MOST 1023u
#define DISPLAY_UPLOAD_TIMEOUT 2100u // milliseconds without a byte, after which an upload is dropped

// Sizes: width and heights in pixels, all else in bytes.
#define DISPLAY_WIDTH 240u
#define DISPLAY_LOW_HEIGHT 64u
#define DISPLAY_TALL_HEIGHT 128u
#define DISPLAY_STRIDE 30u
#define DISPLAY_LOW_FRAMEBUFFER_SIZE 1920u
#define DISPLAY_TALL_FRAMEBUFFER_SIZE 3840u
#define DISPLAY_STORE_LEAST 1024u
#define DISPLAY_STORE_MOST 32768u
#define DISPLAY_DIRECTORY_SIZE 256u
#define DISPLAY_STATE_RECORD_SIZE 209u
#define DISPLAY_QUEUE_RECORD_SIZE 85u
#define DISPLAY_QUEUE_CAPACITY 80u // bytes that wait at most
#define DISPLAY_REPLY_ROOM 2u      // free reply bytes that a fed byte or a time needs, whether it replies or not

// Answers of the calls.
#define DISPLAY_OK 0u
#define DISPLAY_BAD_FRAMEBUFFER_SIZE 1u // not that of the height
#define DISPLAY_BAD_STORE_SIZE 2u
#define DISPLAY_BAD_RECORD 3u    // wrong length, unknown height or edition, wrong used room, or else not sound
#define DISPLAY_BAD_DIRECTORY 4u // broken, or at odds with the upload under way
#define DISPLAY_NO_REPLY_ROOM 5u // the only one of 1 to 7 after which bytes may have been obeyed
#define DISPLAY_QUEUE_EMPTY 6u
#define DISPLAY_QUEUE_FULL 7u

// Last refusal: why a command or character in the stream was not obeyed. The call that fed it answers as ever, and so
// does the call that dropped an upload.
#define DISPLAY_NO_REFUSAL 0u // none since start
#define DISPLAY_REFUSED_UNKNOWN_COMMAND 16u
#define DISPLAY_REFUSED_OUT_OF_BOUNDS 17u
#define DISPLAY_REFUSED_CORNERS_OUT_OF_ORDER 18u
#define DISPLAY_REFUSED_NUMBER_OUT_OF_RANGE 19u // bar graph, strip chart, or a file above DISPLAY_FILE_NUMBER_MOST
#define DISPLAY_REFUSED_UNKNOWN_TYPE 20u // or a purge without its two guard bytes
#define DISPLAY_REFUSED_NOT_SET_UP 21u   // bar graph or strip chart
#define DISPLAY_REFUSED_NO_SUCH_FILE 22u
#define DISPLAY_REFUSED_MALFORMED_FILE 23u
#define DISPLAY_REFUSED_NO_SPACE 24u // an upload too large, of no bytes, or with entries over 255 bytes together
#define DISPLAY_REFUSED_NUMBER_IN_USE 25u
#define DISPLAY_REFUSED_UPLOAD_ABORTED 26u // by its host, or dropped for want of bytes
#define DISPLAY_REFUSED_BAD_WATERMARKS 27u // flow control thresholds too large together
#define DISPLAY_REFUSED_NO_GLYPH 28u // no longer given: a character that the font lacks shows as a box
#define DISPLAY_REFUSED_GLYPH_DOES_NOT_FIT 29u

// Signals of flow control: bytes to send to the host as they are, but for NONE.
#define DISPLAY_SIGNAL_NONE 0u
#define DISPLAY_SIGNAL_ALMOST_FULL 254u
#define DISPLAY_SIGNAL_ALMOST_EMPTY 255u

// Offsets into the state record.
#define DISPLAY_STATE_REFUSAL_COUNT_LOW 44u
#define DISPLAY_STATE_REFUSAL_COUNT_HIGH 45u
#define DISPLAY_STATE_LAST_REFUSAL 46u
#define DISPLAY_STATE_HEIGHT 47u
#define DISPLAY_STATE_EDITION 48u
#define DISPLAY_STATE_CONTRAST 204u
#define DISPLAY_STATE_BACKLIGHT_ON 205u      // 0 or 1
#define DISPLAY_STATE_BACKLIGHT_MINUTES 206u // as sent, kept while the backlight is off
#define DISPLAY_STATE_USED_ROOM_LOW 207u     // bytes of the stored files together
#define DISPLAY_STATE_USED_ROOM_HIGH 208u

// Offsets into the queue record.
#define DISPLAY_QUEUE_LOST_COUNT_LOW 83u
#define DISPLAY_QUEUE_LOST_COUNT_HIGH 84u

// Power-up of a glass of `height` rows, DISPLAY_LOW_HEIGHT or DISPLAY_TALL_HEIGHT, for hosts that speak `edition`,
// DISPLAY_OLDER_EDITION or DISPLAY_NEWER_EDITION: white framebuffer, settings and counters as new, empty queue, and the
// used room that the directory adds up to. The store is only read and keeps its files, whichever height and edition
// they were uploaded at. The records may hold anything before.
// OK, or the first that applies of BAD_RECORD (another height, or the length of a record is wrong),
// BAD_FRAMEBUFFER_SIZE, BAD_STORE_SIZE, BAD_RECORD (another edition) and BAD_DIRECTORY; nothing is written then.
uint32_t display_start(uint32_t height, uint32_t edition, uint8_t *glass, display_length glass_length, uint8_t *store,
                       display_length store_length, uint8_t *state, display_length state_length, uint8_t *queue,
                       display_length queue_length);

// Obeys the bytes of `piece`, the next stretch of the stream, in order. A stream may be cut anywhere, also inside a
// command. What the bytes send is written to `replies` from its start; behind the first `*replied` bytes it keeps
// what it held.
// OK: all bytes are consumed. NO_REPLY_ROOM: the first `*consumed` are done for good; send the replies, then feed the
// others. The first that applies of BAD_RECORD (its length or its height is wrong), BAD_FRAMEBUFFER_SIZE,
// BAD_STORE_SIZE, BAD_RECORD (the rest of it but the used room), BAD_DIRECTORY and BAD_RECORD (the used room is not
// what the directory adds up to): nothing is done, and both counts are 0. An empty piece does nothing but these checks,
// and needs no reply room.
uint32_t display_feed(uint8_t *glass, display_length glass_length, uint8_t *store, display_length store_length,
                      uint8_t *state, display_length state_length, const uint8_t *piece, display_length piece_length,
                      uint8_t *replies, display_length replies_length, display_length *consumed,
                      display_length *replied);

// So many milliseconds have passed since the last call of this, any number of them. While an upload is under way they
// add up; its start, each byte of its data and each confirmation set the sum to 0. At DISPLAY_UPLOAD_TIMEOUT or more
// the upload is dropped: `replies` begins with 254 and 212, and UPLOAD_ABORTED is counted and the last refusal. What
// was confirmed of it stays in the store's free room. Outside an upload nothing happens.
// OK: the time has passed; behind the first `*replied` bytes, which are none or two, `replies` keeps what it held. The
// first that applies of what refuses a feed, or else NO_REPLY_ROOM, with fewer than DISPLAY_REPLY_ROOM bytes for
// replies and whatever is under way: nothing changes, `*replied` is 0, and the milliseconds are still to be handed in.
uint32_t display_time(const uint8_t *glass, display_length glass_length, const uint8_t *store,
                      display_length store_length, uint8_t *state, display_length state_length, uint32_t milliseconds,
                      uint8_t *replies, display_length replies_length, display_length *replied);

// Puts a byte that came on the wire at the end of the queue. Neither this call nor the next looks at the used room.
// OK: it waits there; `*signal` may ask the host to pause. QUEUE_FULL: it is thrown away and counted as lost.
// BAD_RECORD, of either record: nothing changes. `*signal` is NONE with both refusals.
uint32_t display_arrive(const uint8_t *state, display_length state_length, uint8_t *queue, display_length queue_length,
                        uint8_t byte, uint8_t *signal);

// Takes the byte that has waited longest out of the queue.
// OK: it is `*byte`; `*signal` may ask the host to go on. QUEUE_EMPTY, and BAD_RECORD of either record: nothing
// changes, `*byte` is 0 and `*signal` NONE.
uint32_t display_take(const uint8_t *state, display_length state_length, uint8_t *queue, display_length queue_length,
                      uint8_t *byte, uint8_t *signal);

// Commands and characters refused since start, and uploads dropped; 65,535 is followed by 0.
static inline unsigned display_refusal_count(const uint8_t *state)
{
    return state[DISPLAY_STATE_REFUSAL_COUNT_LOW] + 256u * state[DISPLAY_STATE_REFUSAL_COUNT_HIGH];
}

static inline unsigned display_last_refusal(const uint8_t *state)
{
    return state[DISPLAY_STATE_LAST_REFUSAL];
}

// Rows of the glass, as display_start was told.
static inline unsigned display_height(const uint8_t *state)
{
    return state[DISPLAY_STATE_HEIGHT];
}

// Of the upload protocol, as display_start was told.
static inline unsigned display_edition(const uint8_t *state)
{
    return state[DISPLAY_STATE_EDITION];
}

static inline unsigned display_contrast(const uint8_t *state)
{
    return state[DISPLAY_STATE_CONTRAST];
}

static inline int display_backlight_is_on(const uint8_t *state)
{
    return state[DISPLAY_STATE_BACKLIGHT_ON] != 0;
}

// Minutes until the board turns the backlight off by itself; 0 is never.
static inline unsigned display_backlight_minutes(const uint8_t *state)
{
    return state[DISPLAY_STATE_BACKLIGHT_MINUTES];
}

// Bytes of the store's file area that the stored files take, after every call that is answered OK or NO_REPLY_ROOM. An
// upload counts from its last confirmation on.
static inline unsigned display_used_room(const uint8_t *state)
{
    return state[DISPLAY_STATE_USED_ROOM_LOW] + 256u * state[DISPLAY_STATE_USED_ROOM_HIGH];
}

// The other bytes of the file area, in a store of this length.
static inline unsigned display_free_room(const uint8_t *state, display_length store_length)
{
    return (unsigned)store_length - DISPLAY_DIRECTORY_SIZE - display_used_room(state);
}

// Bytes dropped at a full queue since start; 65,535 is followed by 0.
static inline unsigned display_lost_count(const uint8_t *queue)
{
    return queue[DISPLAY_QUEUE_LOST_COUNT_LOW] + 256u * queue[DISPLAY_QUEUE_LOST_COUNT_HIGH];
}

#ifdef __cplusplus
}
#endif

#endif
