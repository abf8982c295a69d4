// The hot commands in plain C, as they would be written for the device without proofs: the library is timed beside it.
// Clear and scroll move whole bytes; all other painting has two forms, by the pixel and by the byte.
#ifndef PLAIN_H
#define PLAIN_H

#include "commands.h"
#include "display.h"

#include <stdbool.h>
#include <stddef.h>
#include <stdint.h>

enum { PLAIN_FONT_SIZE = 764, PLAIN_FILES = 63, PLAIN_DATA_SIZE = DISPLAY_STORE_MOST - DISPLAY_DIRECTORY_SIZE };

// Directory entries, in bytes: of a file in the older and in the newer edition, and all together at most.
enum { OLDER_ENTRY = 4, NEWER_ENTRY = 7, PLAIN_ENTRIES = DISPLAY_DIRECTORY_SIZE - 1 };

// Rectangles hold both their corners. What lies beyond the glass is clipped.
typedef struct {
    void (*fill)(uint8_t *glass, unsigned x1, unsigned y1, unsigned x2, unsigned y2, bool black);
    // One column left or right inside a rectangle on the glass; white comes in.
    void (*shift)(uint8_t *glass, unsigned x1, unsigned y1, unsigned x2, unsigned y2, bool right);
    // The first `count` bits of a byte, from (x, y) to the right.
    void (*row)(uint8_t *glass, unsigned x, unsigned y, unsigned count, uint8_t byte);
    // A glyph or saved bitmap, its rows without gaps.
    void (*packed)(uint8_t *glass, unsigned x, unsigned y, unsigned width, unsigned height, const uint8_t *bits);
} Painters;

extern const Painters pixel_painters, byte_painters;

static inline void set_pixel(uint8_t *glass, unsigned x, unsigned y, bool black)
{
    uint8_t mask = (uint8_t)(0x80 >> x % 8);
    if (x >= DISPLAY_WIDTH || y >= DISPLAY_LOW_HEIGHT)
        return;
    if (black)
        glass[y * DISPLAY_STRIDE + x / 8] |= mask;
    else
        glass[y * DISPLAY_STRIDE + x / 8] &= (uint8_t)~mask;
}

void draw_line(uint8_t *glass, int x1, int y1, int x2, int y2, bool black);
void clear_glass(uint8_t *glass);
void scroll_glass(uint8_t *glass, unsigned rows);

typedef struct {
    unsigned x1, y1, x2, y2;
} Box;

typedef struct {
    bool on;
    unsigned type, value;
    Box box;
} Bar;

typedef struct {
    bool on;
    Box box;
} Strip;

typedef struct {
    uint8_t kind, entry; // the latter in bytes
    uint16_t number;
    uint32_t size;
} File;

typedef enum { IDLE, PREFIX, ARGUMENTS, IN_LINE, UPLOAD } Phase;

typedef struct {
    uint8_t glass[DISPLAY_LOW_FRAMEBUFFER_SIZE];
    bool newer; // the edition
    const Painters *paint;
    const uint8_t *font;
    Phase phase;
    uint8_t code, arguments[6];
    unsigned gathered, needed;
    Box in_line;
    unsigned in_line_x, in_line_y;
    unsigned text_x, text_y, left, top, char_space, line_space, scroll_row;
    bool wrap, scroll, black;
    uint8_t line_x, line_y;
    Bar bars[BARS];
    Strip strips[STRIPS];
    uint16_t refusals;
    uint8_t last_refusal;
    File files[PLAIN_FILES], upload; // end to end in `data`, in this order
    unsigned file_count, entries, used, stored;
    uint32_t waited; // milliseconds since the upload's last byte
    bool echoed;
    uint8_t echo;
    uint8_t data[PLAIN_DATA_SIZE];
    uint8_t *replies;
    size_t replied;
} Plain;

void plain_start(Plain *p, uint32_t edition, const Painters *paint, const uint8_t *font);

// Obeys bytes while two reply bytes are free; the answer is how many. `p->replied` replies were written.
size_t plain_feed(Plain *p, const uint8_t *piece, size_t length, uint8_t *replies, size_t replies_length);

// Time passes, where two reply bytes are free.
bool plain_time(Plain *p, uint32_t milliseconds, uint8_t *replies, size_t replies_length);

void plain_refuse(Plain *p, uint8_t reason);

// The file number that the arguments begin with, and how many of them it takes.
static inline unsigned number_bytes(const Plain *p)
{
    return p->newer ? 2 : 1;
}

static inline unsigned number_at(const Plain *p, const uint8_t *arguments)
{
    return p->newer ? arguments[0] + 256u * arguments[1] : arguments[0];
}

// Files: `offset` is where the data of a found one begins. NULL where there is none.
const File *find_file(const Plain *p, uint8_t kind, unsigned number, unsigned *offset);
void begin_upload(Plain *p, uint8_t kind);
void take_upload_byte(Plain *p, uint8_t byte);
void delete_file(Plain *p);

#endif
