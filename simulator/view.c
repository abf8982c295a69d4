// Pixels and settings as text.
#include "simulator.h"

#include <errno.h>
#include <stdio.h>
#include <string.h>

unsigned view_columns(int blocks)
{
    return blocks ? DISPLAY_WIDTH : DISPLAY_WIDTH / 2;
}

unsigned view_scale(int blocks)
{
    return blocks ? 2 : 4;
}

unsigned view_rows(unsigned height, int blocks)
{
    return height / view_scale(blocks);
}

static unsigned pixel(const uint8_t *framebuffer, unsigned x, unsigned y)
{
    return framebuffer[y * DISPLAY_STRIDE + x / 8] >> (7 - x % 8) & 1;
}

// Two by four pixels. The characters from U+2800 on have a bit for each dot: three rows of the left column from the top
// down, three of the right one, then the two dots of the fourth row.
static size_t put_braille(char *text, const uint8_t *framebuffer, unsigned x, unsigned y)
{
    static const unsigned char dots[4][2] = {{0, 3}, {1, 4}, {2, 5}, {6, 7}};
    unsigned row, column, bits = 0;
    for (row = 0; row < 4; row++)
        for (column = 0; column < 2; column++)
            bits |= pixel(framebuffer, x + column, y + row) << dots[row][column];
    text[0] = (char)0xE2;
    text[1] = (char)(0xA0 | bits >> 6);
    text[2] = (char)(0x80 | (bits & 0x3F));
    return 3;
}

static size_t put_half_block(char *text, const uint8_t *framebuffer, unsigned x, unsigned y)
{
    static const char *const blocks[] = {" ", "\u2580", "\u2584", "\u2588"};
    const char *block = blocks[pixel(framebuffer, x, y) + 2 * pixel(framebuffer, x, y + 1)];
    memcpy(text, block, strlen(block));
    return strlen(block);
}

size_t view_row(char *text, const uint8_t *framebuffer, unsigned row, unsigned columns, int blocks)
{
    unsigned column;
    size_t length = 0;
    for (column = 0; column < columns && column < view_columns(blocks); column++)
        length += blocks ? put_half_block(text + length, framebuffer, column, 2 * row)
                         : put_braille(text + length, framebuffer, 2 * column, 4 * row);
    return length;
}

void view_status(char *text, const Port *port)
{
    char minutes[32] = "";
    unsigned limit = display_backlight_minutes(port->state);
    if (display_backlight_is_on(port->state) && limit > 0)
        snprintf(minutes, sizeof minutes, " for %u min", limit);
    snprintf(text, VIEW_STATUS_SIZE,
             "%scontrast %u, backlight %s%s, refused %u, last refusal %u, lost %u, store used %u, free %u",
             display_edition(port->state) == DISPLAY_NEWER_EDITION ? "newer edition, " : "",
             display_contrast(port->state), display_backlight_is_on(port->state) ? "on" : "off", minutes,
             display_refusal_count(port->state), display_last_refusal(port->state), display_lost_count(port->queue),
             display_used_room(port->state), display_free_room(port->state, port->store_length));
}

int view_print(const Port *port, int blocks)
{
    char text[VIEW_ROW_SIZE], status[VIEW_STATUS_SIZE];
    unsigned row;
    for (row = 0; row < view_rows(display_height(port->state), blocks); row++) {
        fwrite(text, 1, view_row(text, port->framebuffer, row, view_columns(blocks), blocks), stdout);
        putchar('\n');
    }
    view_status(status, port);
    puts(status);
    if (fflush(stdout) == 0 && !ferror(stdout))
        return 0;
    report("cannot write to standard output: %s", strerror(errno));
    return -1;
}
