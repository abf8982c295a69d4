#include "random.h"

#include "commands.h"
#include "display.h"

static uint64_t seed;
static unsigned rows; // of the screen
static int newer;     // the edition

void set_seed(uint32_t number)
{
    seed = (number + 1) * 0x9E3779B97F4A7C15u;
}

unsigned below(unsigned limit)
{
    seed ^= seed << 13;
    seed ^= seed >> 7;
    seed ^= seed << 17;
    return (unsigned)(seed >> 33) % limit;
}

uint8_t any_byte(void)
{
    static const uint8_t edges[] = {0, 1, 7, 8, 29, 30, 39, 40, 63, 64, 65, 79, 80, 126, 127, 128, 129, 238, 239, 240,
                                    241, 254, 255};
    unsigned kind = below(8);
    if (kind < 4)
        return (uint8_t)below(8);
    return kind < 6 ? edges[below(sizeof edges)] : (uint8_t)below(256);
}

static void any_bytes(Stream *s, unsigned count)
{
    while (count-- > 0)
        PUT(s, any_byte());
}

// Of a file: one of few, so that it is found again. The newer edition has a few more, and two beyond the range.
static unsigned any_number(void)
{
    unsigned number = below(6);
    return newer && below(3) == 0 ? number + 256 * below(4) + 252 : number;
}

static void put_number(Stream *s, unsigned number)
{
    PUT(s, (uint8_t)(number % 256));
    if (newer)
        PUT(s, (uint8_t)(number / 256));
}

// Each byte confirmed, but for one now and then that breaks the upload off. One file in four is spoilt.
static void upload(Stream *s, uint8_t code, unsigned number, uint8_t *file, unsigned size)
{
    unsigned i, place = below(below(2) > 0 ? 8 : size) % size;
    if (below(4) == 0)
        file[place] = any_byte();
    PUT(s, COMMAND, code);
    put_number(s, number);
    PUT(s, (uint8_t)(size % 256), (uint8_t)(size / 256));
    if (newer)
        PUT(s, 0, 0);
    for (i = 0; i < size; i++) {
        PUT(s, file[i]);
        PUT(s, below(400) > 0 ? CONFIRM : CONFIRM + 1);
    }
}

static void upload_bitmap(Stream *s)
{
    uint8_t file[2 + 40 * 2];
    unsigned i, number = any_number(), width = 1 + below(40), height = 1 + below(16);
    unsigned size = 2 + (width * height + 7) / 8;
    file[0] = (uint8_t)width;
    file[1] = (uint8_t)height;
    for (i = 2; i < size; i++)
        file[i] = (uint8_t)below(256);
    upload(s, UPLOAD_BITMAP, number, file, size);
    PUT(s, COMMAND, SHOW_BITMAP);
    put_number(s, number);
    any_bytes(s, 2);
}

// A few characters from a digit or a letter on, each with a width of its own. One font in four is about as high as a
// screen, and one pixel wide.
static void upload_font(Stream *s)
{
    enum { MOST = 6, HEADER = 4 + 3 * MOST, GLYPH = 17 };
    static const uint8_t heights[] = {63, 64, 65, 127, 128, 129};
    uint8_t file[HEADER + MOST * GLYPH];
    unsigned i, number = any_number(), count = 1 + below(MOST), height = 1 + below(12);
    unsigned first = below(2) > 0 ? '0' : 'A', size = 4 + 3 * count, widest = 8;
    if (below(4) == 0) {
        height = heights[below(sizeof heights)];
        widest = 1;
    }
    file[0] = (uint8_t)(1 + below(12));
    file[1] = (uint8_t)height;
    file[2] = (uint8_t)first;
    file[3] = (uint8_t)(first + count - 1);
    for (i = 0; i < count; i++) {
        unsigned width = 1 + below(widest), end = size + (width * height + 7) / 8;
        file[4 + 3 * i] = 0;
        file[5 + 3 * i] = (uint8_t)size;
        file[6 + 3 * i] = (uint8_t)width;
        while (size < end)
            file[size++] = (uint8_t)below(256);
    }
    upload(s, UPLOAD_FONT, number, file, size);
    PUT(s, COMMAND, CHOOSE_FONT);
    put_number(s, number);
    PUT(s, file[2], file[3]);
}

// Corners on the screen and in their order.
static void corners(Stream *s)
{
    unsigned x = below(DISPLAY_WIDTH - 1), y = below(rows - 1);
    unsigned right = x + 1 + below(DISPLAY_WIDTH - 1 - x), bottom = y + 1 + below(rows - 1 - y);
    PUT(s, (uint8_t)x, (uint8_t)y, (uint8_t)right, (uint8_t)bottom);
}

// Partly beyond the screen now and then.
static void inline_bitmap(Stream *s)
{
    unsigned x = below(250), y = below(rows + 6), right = x + below(256 - x > 20 ? 20 : 256 - x), bottom = y + below(8);
    unsigned count = ((right - x) / 8 + 1) * (bottom - y + 1);
    PUT(s, COMMAND, INLINE_BITMAP, (uint8_t)x, (uint8_t)y, (uint8_t)right, (uint8_t)bottom);
    any_bytes(s, count);
}

static void draw(Stream *s)
{
    uint8_t number = (uint8_t)below(4);
    switch (below(5)) {
    case 0:
        PUT(s, COMMAND, SET_UP_BAR, number, (uint8_t)below(4));
        corners(s);
        PUT(s, COMMAND, WRITE_BAR, number, 0, COMMAND, WRITE_BAR, number, any_byte());
        break;
    case 1:
        PUT(s, COMMAND, SET_UP_STRIP, number);
        corners(s);
        PUT(s, COMMAND, SHIFT_STRIP, number, COMMAND, SHIFT_STRIP, (uint8_t)(number + 128));
        break;
    case 2:
        inline_bitmap(s);
        break;
    default:
        PUT(s, COMMAND, below(2) > 0 ? FRAME : RECTANGLE, number);
        corners(s);
    }
}

static void text(Stream *s)
{
    unsigned count = 1 + below(30), first = below(4) > 0 ? '0' : ' ', most = first == '0' ? 10 : 95;
    if (below(4) == 0) {
        PUT(s, COMMAND, CHOOSE_FONT);
        put_number(s, below(2) > 0 ? 1 : any_byte());
    }
    while (count-- > 0)
        PUT(s, (uint8_t)(first + below(most)));
}

// Bytes that a command has more in the newer edition: of a number one, of a size two.
static unsigned more_bytes(uint8_t code)
{
    if (!newer)
        return 0;
    if (code == UPLOAD_FONT || code == UPLOAD_BITMAP)
        return 3;
    return code == CHOOSE_FONT || code == SHOW_BITMAP || code == DELETE_FILE;
}

// A command with any arguments, as many as it takes.
static void any_command(Stream *s)
{
    static const uint8_t commands[][2] = {
        {PURGE, 2}, {UPLOAD_FONT, 3}, {CHOOSE_FONT, 1}, {METRICS, 5}, {SERIAL, 2}, {FLOW_ON, 2}, {FLOW_OFF, 0},
        {BACKLIGHT_ON, 1}, {WRAP_ON, 0}, {WRAP_OFF, 0}, {BACKLIGHT_OFF, 0}, {TEXT_PLACE, 2}, {HOME, 0}, {CONTRAST, 1},
        {SCROLL_ON, 0}, {SCROLL_OFF, 0}, {CLEAR, 0}, {UPLOAD_BITMAP, 3}, {SHOW_BITMAP, 3}, {SHOW_BITMAP, 3},
        {DRAWING_COLOUR, 1}, {LINE_ON, 2}, {SET_UP_BAR, 6}, {WRITE_BAR, 2}, {WRITE_BAR, 2},
        {SET_UP_STRIP, 5}, {SHIFT_STRIP, 1}, {LINE, 4}, {LINE, 4}, {PIXEL, 2}, {FRAME, 5}, {RECTANGLE, 5},
        {TEXT_POINT, 2}, {TEXT_POINT, 2}, {DELETE_FILE, 2}, {COMMAND, 0}, {1, 0}
    };
    const uint8_t *command = commands[below(sizeof commands / sizeof *commands)];
    PUT(s, COMMAND, command[0]);
    if (command[0] == PURGE && below(4) == 0)
        PUT(s, 89, 33);
    else
        any_bytes(s, command[1] + more_bytes(command[0]));
}

void random_stream(Stream *s, size_t length, unsigned height, unsigned edition)
{
    rows = height;
    newer = edition == DISPLAY_NEWER_EDITION;
    s->length = 0;
    while (s->length < length) {
        unsigned kind = below(16);
        if (kind < 8)
            any_command(s);
        else if (kind < 11)
            draw(s);
        else if (kind < 14)
            text(s);
        else if (kind == 14)
            any_bytes(s, 1 + below(8));
        else if (below(2) > 0)
            upload_bitmap(s);
        else
            upload_font(s);
    }
}
