#include "streams.h"

#include "commands.h"
#include "display.h"

#include <stdio.h>
#include <stdlib.h>
#include <string.h>

enum { BITMAPS = 4, OTHERS = 59 };

void put(Stream *s, const uint8_t *bytes, size_t length)
{
    if (length > sizeof s->bytes - s->length) {
        fprintf(stderr, "bench: a stream is longer than %lu bytes\n", (unsigned long)sizeof s->bytes);
        exit(1);
    }
    memcpy(s->bytes + s->length, bytes, length);
    s->length += length;
}

// Below `limit`, from a fixed sequence of numbers. At most once in an expression, so that the order is fixed too.
static uint8_t pick(unsigned limit)
{
    static uint32_t seed = 1;
    seed = seed * 1664525u + 1013904223u;
    return (uint8_t)((seed >> 16) % limit);
}

static void text(Stream *s, unsigned lines)
{
    enum { COLUMNS = 48, FIRST = 32, CHARACTERS = 95 };
    unsigned i;
    for (i = 0; i < COLUMNS * lines; i++)
        PUT(s, (uint8_t)(FIRST + pick(CHARACTERS)));
}

// A whole page of the built-in font, wrapped at the end of each line.
static void text_page(Stream *s)
{
    PUT(s, COMMAND, CLEAR);
    text(s, 8);
}

// A page, and behind it lines each of which moves the screen up.
static void scrolled_text(Stream *s)
{
    text_page(s);
    text(s, 8);
}

// A page of characters that the built-in font lacks, each a box.
static void missing_letters(Stream *s)
{
    enum { COLUMNS = 48, LINES = 8, BEHIND = 127, CHARACTERS = 127 };
    unsigned i;
    PUT(s, COMMAND, CLEAR);
    for (i = 0; i < COLUMNS * LINES; i++)
        PUT(s, (uint8_t)(BEHIND + i % CHARACTERS));
}

// From all four sides; 57 rows high, 13 columns wide.
static void bars(Stream *s)
{
    unsigned n, round;
    for (n = 0; n < BARS; n++) {
        uint8_t x = (uint8_t)(15 * n), type = (uint8_t)(n % 4);
        PUT(s, COMMAND, SET_UP_BAR, (uint8_t)n, type, x, 4, (uint8_t)(x + 12), 60);
        PUT(s, COMMAND, WRITE_BAR, (uint8_t)n, 0);
    }
    for (round = 0; round < 24; round++)
        for (n = 0; n < BARS; n++)
            PUT(s, COMMAND, WRITE_BAR, (uint8_t)n, pick(n % 2 == 0 ? 58 : 14));
}

static void rectangles(Stream *s)
{
    unsigned i;
    for (i = 0; i < 60; i++) {
        uint8_t x = pick(180), y = pick(40), right = (uint8_t)(x + pick(60)), bottom = (uint8_t)(y + pick(40));
        PUT(s, COMMAND, i % 2 == 0 ? FRAME : RECTANGLE, (uint8_t)(i / 2 % 2), x, y, right, bottom);
    }
    PUT(s, COMMAND, RECTANGLE, 1, 0, 0, DISPLAY_WIDTH - 1, DISPLAY_LOW_HEIGHT - 1);
    PUT(s, COMMAND, RECTANGLE, 0, 0, 0, DISPLAY_WIDTH - 1, DISPLAY_LOW_HEIGHT - 1);
}

// 3 by 3, from every column of a byte.
static void small_rectangles(Stream *s)
{
    enum { COUNT = 64, SIZE = 3 };
    unsigned i;
    for (i = 0; i < COUNT; i++) {
        uint8_t x = (uint8_t)(11 * i % (DISPLAY_WIDTH - SIZE)), y = (uint8_t)(7 * i % (DISPLAY_LOW_HEIGHT - SIZE));
        PUT(s, COMMAND, RECTANGLE, (uint8_t)(i / 8 % 2), x, y, (uint8_t)(x + SIZE - 1), (uint8_t)(y + SIZE - 1));
    }
}

static void point(Stream *s)
{
    uint8_t x = pick(DISPLAY_WIDTH), y = pick(DISPLAY_LOW_HEIGHT);
    PUT(s, x, y);
}

static void lines(Stream *s)
{
    unsigned i;
    for (i = 0; i < 80; i++) {
        PUT(s, COMMAND, DRAWING_COLOUR, (uint8_t)(i % 3 != 0));
        PUT(s, COMMAND, LINE);
        point(s);
        point(s);
        PUT(s, COMMAND, LINE_ON);
        point(s);
    }
}

static void pixels(Stream *s)
{
    unsigned i;
    for (i = 0; i < 160; i++) {
        if (i % 8 == 0)
            PUT(s, COMMAND, DRAWING_COLOUR, (uint8_t)(i % 3 != 0));
        PUT(s, COMMAND, PIXEL);
        point(s);
    }
}

// Left and right in turn, so that what stands in the strips stays there.
static void strips(Stream *s)
{
    unsigned n, round;
    for (n = 0; n < STRIPS; n++)
        PUT(s, COMMAND, SET_UP_STRIP, (uint8_t)n, (uint8_t)(30 * n), 8, (uint8_t)(30 * n + 28), 55);
    for (round = 0; round < 24; round++)
        for (n = 0; n < STRIPS; n++)
            PUT(s, COMMAND, SHIFT_STRIP, (uint8_t)(n + (round % 2 == 0 ? 128 : 0)));
}

static const uint8_t sizes[BITMAPS][2] = {{16, 16}, {24, 24}, {48, 32}, {120, 40}};

// Of a bitmap's file: its header and its pixels.
static unsigned file_size(const uint8_t *size)
{
    return 2 + (size[0] * size[1] + 7u) / 8u;
}

// The file, each byte followed by the host's confirmation.
static void bitmap_file(Stream *s, const uint8_t *size)
{
    unsigned i;
    PUT(s, size[0], CONFIRM, size[1], CONFIRM);
    for (i = 2; i < file_size(size); i++)
        PUT(s, pick(256), CONFIRM);
}

// Bitmaps 1 to BITMAPS.
static void upload(Stream *s)
{
    unsigned n;
    for (n = 0; n < BITMAPS; n++) {
        unsigned size = file_size(sizes[n]);
        PUT(s, COMMAND, UPLOAD_BITMAP, (uint8_t)(n + 1), (uint8_t)(size % 256), (uint8_t)(size / 256));
        bitmap_file(s, sizes[n]);
    }
}

// The same of the newer edition, bitmaps 257 to 256 + BITMAPS.
static void newer_upload(Stream *s)
{
    unsigned n;
    for (n = 0; n < BITMAPS; n++) {
        unsigned size = file_size(sizes[n]);
        PUT(s, COMMAND, UPLOAD_BITMAP, (uint8_t)(n + 1), 1, (uint8_t)(size % 256), (uint8_t)(size / 256), 0, 0);
        bitmap_file(s, sizes[n]);
    }
}

// Bitmaps of one byte, as many as the directory holds beside those of `upload`.
static void other_files(Stream *s)
{
    unsigned n;
    for (n = 0; n < OTHERS; n++)
        PUT(s, COMMAND, UPLOAD_BITMAP, (uint8_t)(100 + n), 1, 0, 0, CONFIRM);
}

static void delete_uploaded(Stream *s)
{
    unsigned n;
    for (n = 0; n < BITMAPS; n++)
        PUT(s, COMMAND, DELETE_FILE, BITMAP, (uint8_t)(n + 1));
}

static void saved_bitmaps(Stream *s)
{
    unsigned i;
    for (i = 0; i < 48; i++) {
        PUT(s, COMMAND, SHOW_BITMAP, (uint8_t)(i % BITMAPS + 1));
        point(s);
    }
}

static void inline_bitmap(Stream *s, uint8_t x, uint8_t y, uint8_t width, uint8_t height)
{
    unsigned i, data = (width + 7u) / 8u * height;
    PUT(s, COMMAND, INLINE_BITMAP, x, y, (uint8_t)(x + width - 1), (uint8_t)(y + height - 1));
    for (i = 0; i < data; i++)
        PUT(s, pick(256));
}

static void inline_bitmaps(Stream *s)
{
    unsigned i;
    inline_bitmap(s, 0, 0, DISPLAY_WIDTH, DISPLAY_LOW_HEIGHT);
    for (i = 0; i < 8; i++) {
        uint8_t x = pick(200), y = pick(40), width = (uint8_t)(9 + pick(30)), height = (uint8_t)(4 + pick(20));
        inline_bitmap(s, x, y, width, height);
    }
}

static void upload_and_delete(Stream *s)
{
    upload(s);
    delete_uploaded(s);
}

static void newer_upload_and_delete(Stream *s)
{
    unsigned n;
    newer_upload(s);
    for (n = 0; n < BITMAPS; n++)
        PUT(s, COMMAND, DELETE_FILE, BITMAP, (uint8_t)(n + 1), 1);
}

static void newer_bitmaps(Stream *s)
{
    unsigned i;
    for (i = 0; i < 48; i++) {
        PUT(s, COMMAND, SHOW_BITMAP, (uint8_t)(i % BITMAPS + 1), 1);
        point(s);
    }
}

static void nothing(Stream *s)
{
    (void)s;
}

enum { OLDER = DISPLAY_OLDER_EDITION, NEWER = DISPLAY_NEWER_EDITION };

const Family families[] = {
    {"text", OLDER, nothing, text_page, {1, NONE}, 0},
    {"text that scrolls", OLDER, nothing, scrolled_text, {1, NONE}, 0},
    {"missing letters", OLDER, nothing, missing_letters, {1, NONE}, 0},
    {"bars", OLDER, nothing, bars, {1, 1.5}, 0},
    {"rectangles and frames", OLDER, nothing, rectangles, {1, 1.5}, 0},
    {"rectangles of 3 by 3", OLDER, nothing, small_rectangles, {3, NONE}, 0},
    {"lines", OLDER, nothing, lines, {1.2, NONE}, 0},
    {"pixels", OLDER, nothing, pixels, {3, NONE}, 0},
    {"strips", OLDER, text_page, strips, {1, NONE}, 0},
    {"saved bitmaps", OLDER, upload, saved_bitmaps, {1, NONE}, 0},
    {"in-line bitmaps", OLDER, nothing, inline_bitmaps, {1.2, NONE}, 0},
    {"upload and delete", OLDER, nothing, upload_and_delete, {3, NONE}, 1},
    {"saved bitmaps, newer edition", NEWER, newer_upload, newer_bitmaps, {1, NONE}, 0},
    {"upload and delete, newer edition", NEWER, nothing, newer_upload_and_delete, {3, NONE}, 0},
    {"upload and delete, 59 other files", OLDER, other_files, upload_and_delete, {3, NONE}, 1},
};
const size_t family_count = sizeof families / sizeof *families;

void mixed(Stream *s)
{
    unsigned round;
    for (round = 0; round < 2; round++) {
        upload(s);
        text_page(s);
        bars(s);
        text_page(s);
        rectangles(s);
        lines(s);
        pixels(s);
        saved_bitmaps(s);
        inline_bitmaps(s);
        text_page(s);
        strips(s);
        scrolled_text(s);
        delete_uploaded(s);
    }
}

// Font 2, 8 by 8, characters 32 to 126; they share one glyph.
static void upload_font(Stream *s)
{
    enum { FIRST = 32, LAST = 126, GLYPH = 4 + 3 * (LAST - FIRST + 1), SIZE = GLYPH + 8 };
    unsigned i;
    PUT(s, COMMAND, UPLOAD_FONT, 2, SIZE % 256, SIZE / 256);
    PUT(s, 8, CONFIRM, 8, CONFIRM, FIRST, CONFIRM, LAST, CONFIRM);
    for (i = FIRST; i <= LAST; i++)
        PUT(s, GLYPH / 256, CONFIRM, GLYPH % 256, CONFIRM, 8, CONFIRM);
    for (i = 0; i < 8; i++)
        PUT(s, pick(256), CONFIRM);
}

void every_command(Stream *s)
{
    upload(s);
    upload_font(s);
    PUT(s, COMMAND, METRICS, 2, 1, 1, 2, 62, COMMAND, CHOOSE_FONT, 2, COMMAND, TEXT_PLACE, 3, 2, COMMAND, HOME);
    PUT(s, COMMAND, WRAP_OFF, COMMAND, WRAP_ON, COMMAND, SCROLL_OFF, COMMAND, SCROLL_ON, COMMAND, TEXT_POINT, 0, 0);
    text(s, 6);
    missing_letters(s);
    PUT(s, COMMAND, CHOOSE_FONT, 1, COMMAND, TEXT_PLACE, 1, 1, COMMAND, CHOOSE_FONT, 2);
    saved_bitmaps(s);
    PUT(s, COMMAND, DELETE_FILE, FONT, 2);
    delete_uploaded(s);
    scrolled_text(s);
    missing_letters(s);
    bars(s);
    strips(s);
    rectangles(s);
    lines(s);
    pixels(s);
    inline_bitmaps(s);
    PUT(s, COMMAND, FLOW_ON, 20, 30, COMMAND, FLOW_OFF, COMMAND, CONTRAST, 100, COMMAND, SERIAL, 3, 4);
    PUT(s, COMMAND, BACKLIGHT_ON, 5, COMMAND, BACKLIGHT_OFF, COMMAND, PURGE, 89, 33);
}
