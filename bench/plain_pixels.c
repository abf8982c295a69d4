// Painting pixel by pixel, and what needs no second form.
#include "plain.h"

#include <stdlib.h>
#include <string.h>

static bool pixel(const uint8_t *glass, unsigned x, unsigned y)
{
    return (glass[y * DISPLAY_STRIDE + x / 8] >> (7 - x % 8) & 1) != 0;
}

static void fill(uint8_t *glass, unsigned x1, unsigned y1, unsigned x2, unsigned y2, bool black)
{
    unsigned x, y;
    for (y = y1; y <= y2; y++)
        for (x = x1; x <= x2; x++)
            set_pixel(glass, x, y, black);
}

static void shift(uint8_t *glass, unsigned x1, unsigned y1, unsigned x2, unsigned y2, bool right)
{
    unsigned x, y;
    for (y = y1; y <= y2; y++) {
        if (right) {
            for (x = x2; x > x1; x--)
                set_pixel(glass, x, y, pixel(glass, x - 1, y));
            set_pixel(glass, x1, y, false);
        } else {
            for (x = x1; x < x2; x++)
                set_pixel(glass, x, y, pixel(glass, x + 1, y));
            set_pixel(glass, x2, y, false);
        }
    }
}

static void row(uint8_t *glass, unsigned x, unsigned y, unsigned count, uint8_t byte)
{
    unsigned i;
    for (i = 0; i < count; i++)
        set_pixel(glass, x + i, y, (byte >> (7 - i) & 1) != 0);
}

static void packed(uint8_t *glass, unsigned x, unsigned y, unsigned width, unsigned height, const uint8_t *bits)
{
    unsigned i, j, bit = 0;
    for (j = 0; j < height; j++)
        for (i = 0; i < width; i++, bit++)
            set_pixel(glass, x + i, y + j, (bits[bit / 8] >> (7 - bit % 8) & 1) != 0);
}

const Painters pixel_painters = {fill, shift, row, packed};

static int direction(int from, int to)
{
    return (to > from) - (to < from);
}

// From the start to the end; a half is rounded away from the start.
void draw_line(uint8_t *glass, int x1, int y1, int x2, int y2, bool black)
{
    int dx = abs(x2 - x1), dy = abs(y2 - y1), step_x = direction(x1, x2), step_y = direction(y1, y2);
    int across = dx >= dy ? dx : dy, down = dx >= dy ? dy : dx, error = across, i;
    for (i = 0; i <= across; i++) {
        set_pixel(glass, (unsigned)x1, (unsigned)y1, black);
        error += 2 * down;
        if (dx >= dy || error >= 2 * across)
            x1 += step_x;
        if (dx < dy || error >= 2 * across)
            y1 += step_y;
        if (error >= 2 * across)
            error -= 2 * across;
    }
}

void clear_glass(uint8_t *glass)
{
    memset(glass, 0, DISPLAY_LOW_FRAMEBUFFER_SIZE);
}

void scroll_glass(uint8_t *glass, unsigned rows)
{
    size_t moved = (rows < DISPLAY_LOW_HEIGHT ? rows : DISPLAY_LOW_HEIGHT) * DISPLAY_STRIDE;
    memmove(glass, glass + moved, DISPLAY_LOW_FRAMEBUFFER_SIZE - moved);
    memset(glass + DISPLAY_LOW_FRAMEBUFFER_SIZE - moved, 0, moved);
}
