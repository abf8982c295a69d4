// Painting by whole bytes, with masks at the edges.
#include "plain.h"

#include <string.h>

// From column x of a byte on, and up to it.
static uint8_t mask_from(unsigned x)
{
    return (uint8_t)(0xFF >> x % 8);
}

static uint8_t mask_to(unsigned x)
{
    return (uint8_t)(0xFF << (7 - x % 8));
}

static void stamp(uint8_t *byte, uint8_t mask, uint8_t bits)
{
    *byte = (uint8_t)((*byte & ~mask) | (bits & mask));
}

static void fill(uint8_t *glass, unsigned x1, unsigned y1, unsigned x2, unsigned y2, bool black)
{
    uint8_t bits = black ? 0xFF : 0, *first, *last;
    unsigned y;
    if (x1 >= DISPLAY_WIDTH)
        return;
    if (x2 >= DISPLAY_WIDTH)
        x2 = DISPLAY_WIDTH - 1;
    for (y = y1; y <= y2 && y < DISPLAY_LOW_HEIGHT; y++) {
        first = glass + y * DISPLAY_STRIDE + x1 / 8;
        last = glass + y * DISPLAY_STRIDE + x2 / 8;
        if (first == last) {
            stamp(first, mask_from(x1) & mask_to(x2), bits);
        } else {
            stamp(first, mask_from(x1), bits);
            memset(first + 1, bits, (size_t)(last - first - 1));
            stamp(last, mask_to(x2), bits);
        }
    }
}

static void shift_left(uint8_t *row, unsigned x1, unsigned x2)
{
    unsigned i, first = x1 / 8, last = x2 / 8;
    for (i = first; i <= last; i++) {
        uint8_t mask = (i == first ? mask_from(x1) : 0xFF) & (i == last ? mask_to(x2) : 0xFF);
        stamp(row + i, mask, (uint8_t)(row[i] << 1 | (i < last ? row[i + 1] >> 7 : 0)));
    }
    row[last] &= (uint8_t)~(0x80 >> x2 % 8);
}

static void shift_right(uint8_t *row, unsigned x1, unsigned x2)
{
    unsigned i, first = x1 / 8, last = x2 / 8;
    for (i = last + 1; i-- > first;) {
        uint8_t mask = (i == first ? mask_from(x1) : 0xFF) & (i == last ? mask_to(x2) : 0xFF);
        stamp(row + i, mask, (uint8_t)(row[i] >> 1 | (i > first ? row[i - 1] << 7 : 0)));
    }
    row[first] &= (uint8_t)~(0x80 >> x1 % 8);
}

static void shift(uint8_t *glass, unsigned x1, unsigned y1, unsigned x2, unsigned y2, bool right)
{
    unsigned y;
    for (y = y1; y <= y2; y++) {
        if (right)
            shift_right(glass + y * DISPLAY_STRIDE, x1, x2);
        else
            shift_left(glass + y * DISPLAY_STRIDE, x1, x2);
    }
}

static void row(uint8_t *glass, unsigned x, unsigned y, unsigned count, uint8_t byte)
{
    uint8_t *at, mask = (uint8_t)(0xFF << (8 - count));
    unsigned aside = x % 8;
    if (x >= DISPLAY_WIDTH || y >= DISPLAY_LOW_HEIGHT)
        return;
    at = glass + y * DISPLAY_STRIDE + x / 8;
    stamp(at, (uint8_t)(mask >> aside), (uint8_t)(byte >> aside));
    if (aside + count > 8 && x / 8 + 1 < DISPLAY_STRIDE)
        stamp(at + 1, (uint8_t)(mask << (8 - aside)), (uint8_t)(byte << (8 - aside)));
}

// `count` bits from number `first` on, the first of them highest.
static uint8_t bits_at(const uint8_t *bits, unsigned first, unsigned count)
{
    unsigned aside = first % 8;
    uint8_t byte = (uint8_t)(bits[first / 8] << aside);
    if (aside + count > 8)
        byte |= (uint8_t)(bits[first / 8 + 1] >> (8 - aside));
    return byte;
}

static void packed(uint8_t *glass, unsigned x, unsigned y, unsigned width, unsigned height, const uint8_t *bits)
{
    unsigned i, j;
    for (j = 0; j < height; j++)
        for (i = 0; i < width; i += 8) {
            unsigned count = width - i < 8 ? width - i : 8;
            row(glass, x + i, y + j, count, bits_at(bits, j * width + i, count));
        }
}

const Painters byte_painters = {fill, shift, row, packed};
