// The interpreter of the plain version: a byte at a time, over one struct.
#include "plain.h"

#include <string.h>

// Arguments of each code in either edition, and one more; 0 is an unknown code.
#define SAME_NEEDS                                                                                                     \
    [CLEAR] = 1, [DRAWING_COLOUR] = 2, [INLINE_BITMAP] = 5, [LINE_ON] = 3, [SET_UP_BAR] = 7, [WRITE_BAR] = 3,          \
    [SET_UP_STRIP] = 6, [SHIFT_STRIP] = 2, [LINE] = 5, [PIXEL] = 3, [FRAME] = 6, [RECTANGLE] = 6
static const uint8_t needs[2][256] = {
    {SAME_NEEDS, [UPLOAD_BITMAP] = 4, [SHOW_BITMAP] = 4, [DELETE_FILE] = 3},
    {SAME_NEEDS, [UPLOAD_BITMAP] = 7, [SHOW_BITMAP] = 5, [DELETE_FILE] = 4},
};

void plain_start(Plain *p, uint32_t edition, const Painters *paint, const uint8_t *font)
{
    memset(p, 0, sizeof *p);
    p->newer = edition == DISPLAY_NEWER_EDITION;
    p->paint = paint;
    p->font = font;
    p->line_space = 1;
    p->scroll_row = DISPLAY_LOW_HEIGHT;
    p->wrap = p->scroll = p->black = true;
}

void plain_refuse(Plain *p, uint8_t reason)
{
    p->refusals++;
    p->last_refusal = reason;
}

// Where a character goes, and how many rows the screen moves up first. False where there is no room.
static bool find_place(const Plain *p, unsigned width, unsigned height, unsigned *x, unsigned *y, unsigned *up)
{
    *x = p->text_x;
    *y = p->text_y;
    *up = 0;
    if (*x + width > DISPLAY_WIDTH) {
        unsigned step = height + p->line_space;
        if (!p->wrap)
            return false;
        *x = p->left;
        if (*y + step + height <= p->scroll_row)
            *y += step;
        else if (p->scroll)
            *up = step;
        else
            *y = p->top;
    }
    return *x + width <= DISPLAY_WIDTH && *y + height <= DISPLAY_LOW_HEIGHT;
}

static void take_character(Plain *p, uint8_t character)
{
    bool missing = character < p->font[2] || character > p->font[3];
    const uint8_t *entry = missing ? NULL : p->font + 4 + 3 * (character - p->font[2]);
    unsigned x, y, up, width = missing ? p->font[0] : entry[2], height = p->font[1];
    if (missing && (character == '\r' || character == '\n' || character == '\b'))
        return;
    if (!find_place(p, width, height, &x, &y, &up)) {
        plain_refuse(p, DISPLAY_REFUSED_GLYPH_DOES_NOT_FIT);
        return;
    }
    if (up)
        scroll_glass(p->glass, up);
    if (missing)
        p->paint->fill(p->glass, x, y, x + width - 1, y + height - 1, true);
    else
        p->paint->packed(p->glass, x, y, width, height, p->font + 256 * entry[0] + entry[1]);
    p->text_x = x + width + p->char_space;
    p->text_y = y;
}

static void line_to(Plain *p, uint8_t x1, uint8_t y1, uint8_t x2, uint8_t y2)
{
    draw_line(p->glass, x1, y1, x2, y2, p->black);
    p->line_x = x2;
    p->line_y = y2;
}

// Frame and solid rectangle.
static void rectangle(Plain *p, const uint8_t *a, bool solid)
{
    bool black = a[0] != 0;
    if (a[1] > a[3] || a[2] > a[4]) {
        plain_refuse(p, DISPLAY_REFUSED_CORNERS_OUT_OF_ORDER);
    } else if (solid) {
        p->paint->fill(p->glass, a[1], a[2], a[3], a[4], black);
    } else {
        p->paint->fill(p->glass, a[1], a[2], a[3], a[2], black);
        p->paint->fill(p->glass, a[1], a[4], a[3], a[4], black);
        p->paint->fill(p->glass, a[1], a[2], a[1], a[4], black);
        p->paint->fill(p->glass, a[3], a[2], a[3], a[4], black);
    }
}

// Why a graph may not have these corners; 0 where it may.
static uint8_t graph_refused(const uint8_t *corners)
{
    if (corners[0] >= DISPLAY_WIDTH || corners[2] >= DISPLAY_WIDTH || corners[1] >= DISPLAY_LOW_HEIGHT ||
        corners[3] >= DISPLAY_LOW_HEIGHT)
        return DISPLAY_REFUSED_OUT_OF_BOUNDS;
    return corners[0] < corners[2] && corners[1] < corners[3] ? 0 : DISPLAY_REFUSED_CORNERS_OUT_OF_ORDER;
}

static Box box_of(const uint8_t *corners)
{
    return (Box){corners[0], corners[1], corners[2], corners[3]};
}

static void set_up_bar(Plain *p, const uint8_t *a)
{
    uint8_t refused = a[0] >= BARS ? DISPLAY_REFUSED_NUMBER_OUT_OF_RANGE
                      : a[1] > 3   ? DISPLAY_REFUSED_UNKNOWN_TYPE
                                   : graph_refused(a + 2);
    if (refused)
        plain_refuse(p, refused);
    else
        p->bars[a[0]] = (Bar){true, a[1], 0, box_of(a + 2)};
}

// Lengths `from` up to, and not with, `to` of a bar, counted from its side.
static void paint_bar(Plain *p, const Bar *bar, unsigned from, unsigned to, bool black)
{
    const Box *b = &bar->box;
    switch (bar->type) {
    case 0: p->paint->fill(p->glass, b->x1, b->y2 + 1 - to, b->x2, b->y2 - from, black); break;
    case 1: p->paint->fill(p->glass, b->x1 + from, b->y1, b->x1 + to - 1, b->y2, black); break;
    case 2: p->paint->fill(p->glass, b->x1, b->y1 + from, b->x2, b->y1 + to - 1, black); break;
    default: p->paint->fill(p->glass, b->x2 + 1 - to, b->y1, b->x2 - from, b->y2, black); break;
    }
}

static void write_bar(Plain *p, const uint8_t *a)
{
    Bar *bar = &p->bars[a[0] % BARS];
    unsigned length, value;
    if (a[0] >= BARS || !bar->on) {
        plain_refuse(p, a[0] >= BARS ? DISPLAY_REFUSED_NUMBER_OUT_OF_RANGE : DISPLAY_REFUSED_NOT_SET_UP);
        return;
    }
    length = bar->type % 2 == 0 ? bar->box.y2 - bar->box.y1 + 1 : bar->box.x2 - bar->box.x1 + 1;
    value = a[1] < length ? a[1] : length;
    if (value == 0)
        paint_bar(p, bar, 0, length, false);
    else if (value > bar->value)
        paint_bar(p, bar, bar->value, value, true);
    else if (value < bar->value)
        paint_bar(p, bar, value, bar->value, false);
    bar->value = value;
}

static void set_up_strip(Plain *p, const uint8_t *a)
{
    uint8_t refused = a[0] >= STRIPS ? DISPLAY_REFUSED_NUMBER_OUT_OF_RANGE : graph_refused(a + 1);
    if (refused)
        plain_refuse(p, refused);
    else
        p->strips[a[0]] = (Strip){true, box_of(a + 1)};
}

static void shift_strip(Plain *p, uint8_t a)
{
    const Strip *strip = &p->strips[a % STRIPS];
    if (a % 128 >= STRIPS || !strip->on)
        plain_refuse(p, a % 128 >= STRIPS ? DISPLAY_REFUSED_NUMBER_OUT_OF_RANGE : DISPLAY_REFUSED_NOT_SET_UP);
    else
        p->paint->shift(p->glass, strip->box.x1, strip->box.y1, strip->box.x2, strip->box.y2, a >= 128);
}

static void show_bitmap(Plain *p, const uint8_t *a)
{
    unsigned offset;
    const File *file = find_file(p, BITMAP, number_at(p, a), &offset);
    const uint8_t *data = p->data + offset, *place = a + number_bytes(p);
    if (!file)
        plain_refuse(p, DISPLAY_REFUSED_NO_SUCH_FILE);
    else if (file->size < 2 || data[0] == 0 || data[1] == 0 || file->size != 2 + (data[0] * data[1] + 7u) / 8u)
        plain_refuse(p, DISPLAY_REFUSED_MALFORMED_FILE);
    else
        p->paint->packed(p->glass, place[0], place[1], data[0], data[1], data + 2);
}

static void begin_in_line(Plain *p, const uint8_t *a)
{
    if (a[0] > a[2] || a[1] > a[3]) {
        plain_refuse(p, DISPLAY_REFUSED_CORNERS_OUT_OF_ORDER);
        return;
    }
    p->in_line = box_of(a);
    p->in_line_x = a[0];
    p->in_line_y = a[1];
    p->phase = IN_LINE;
}

static void take_in_line(Plain *p, uint8_t byte)
{
    unsigned left = p->in_line.x2 - p->in_line_x + 1;
    p->paint->row(p->glass, p->in_line_x, p->in_line_y, left < 8 ? left : 8, byte);
    p->in_line_x += 8;
    if (p->in_line_x > p->in_line.x2) {
        p->in_line_x = p->in_line.x1;
        if (p->in_line_y++ == p->in_line.y2)
            p->phase = IDLE;
    }
}

static void obey(Plain *p)
{
    const uint8_t *a = p->arguments;
    p->phase = IDLE;
    switch (p->code) {
    case CLEAR:
        clear_glass(p->glass);
        p->text_x = p->left;
        p->text_y = p->top;
        break;
    case UPLOAD_BITMAP: begin_upload(p, BITMAP); break;
    case SHOW_BITMAP: show_bitmap(p, a); break;
    case DRAWING_COLOUR: p->black = a[0] != 0; break;
    case INLINE_BITMAP: begin_in_line(p, a); break;
    case LINE: line_to(p, a[0], a[1], a[2], a[3]); break;
    case LINE_ON: line_to(p, p->line_x, p->line_y, a[0], a[1]); break;
    case SET_UP_BAR: set_up_bar(p, a); break;
    case WRITE_BAR: write_bar(p, a); break;
    case SET_UP_STRIP: set_up_strip(p, a); break;
    case SHIFT_STRIP: shift_strip(p, a[0]); break;
    case PIXEL: set_pixel(p->glass, a[0], a[1], p->black); break;
    case FRAME: rectangle(p, a, false); break;
    case RECTANGLE: rectangle(p, a, true); break;
    case DELETE_FILE: delete_file(p); break;
    }
}

static void take_code(Plain *p, uint8_t byte)
{
    p->code = byte;
    p->gathered = 0;
    p->needed = needs[p->newer][byte];
    if (p->needed == 0) {
        p->phase = IDLE;
        plain_refuse(p, DISPLAY_REFUSED_UNKNOWN_COMMAND);
    } else if (--p->needed == 0) {
        obey(p);
    } else {
        p->phase = ARGUMENTS;
    }
}

// Why there is no saved bitmap of the number that has come; 0 where there is one.
static uint8_t bitmap_refused(const Plain *p)
{
    unsigned offset, number = number_at(p, p->arguments);
    if (number > DISPLAY_FILE_NUMBER_MOST)
        return DISPLAY_REFUSED_NUMBER_OUT_OF_RANGE;
    return find_file(p, BITMAP, number, &offset) ? 0 : DISPLAY_REFUSED_NO_SUCH_FILE;
}

static void take_argument(Plain *p, uint8_t byte)
{
    uint8_t refused = 0;
    p->arguments[p->gathered++] = byte;
    if (p->code == SHOW_BITMAP && p->gathered == number_bytes(p))
        refused = bitmap_refused(p);
    if (refused) {
        p->phase = IDLE;
        plain_refuse(p, refused);
    } else if (p->gathered == p->needed) {
        obey(p);
    }
}

static void take_byte(Plain *p, uint8_t byte)
{
    switch (p->phase) {
    case IDLE:
        if (byte == COMMAND)
            p->phase = PREFIX;
        else
            take_character(p, byte);
        break;
    case PREFIX: take_code(p, byte); break;
    case ARGUMENTS: take_argument(p, byte); break;
    case IN_LINE: take_in_line(p, byte); break;
    case UPLOAD: take_upload_byte(p, byte); break;
    }
}

size_t plain_feed(Plain *p, const uint8_t *piece, size_t length, uint8_t *replies, size_t replies_length)
{
    size_t i;
    p->replies = replies;
    p->replied = 0;
    for (i = 0; i < length && replies_length - p->replied >= DISPLAY_REPLY_ROOM; i++)
        take_byte(p, piece[i]);
    return i;
}
