// The picture as a PNG: greyscale of one bit, each pixel SCALE by SCALE, a white margin around. The data is not
// compressed: it stands in one stored block.
#include "simulator.h"

#include <string.h>

enum {
    SCALE = 3,
    MARGIN = 12,
    WIDTH = DISPLAY_WIDTH * SCALE + 2 * MARGIN,
    LINE = 1 + (WIDTH + 7) / 8, // a filter byte ahead of each line
    MOST = (DISPLAY_TALL_HEIGHT * SCALE + 2 * MARGIN) * LINE
};

typedef char lines_fit_into_a_stored_block[MOST <= 65535 ? 1 : -1];

static const uint8_t signature[8] = {0x89, 'P', 'N', 'G', '\r', '\n', 0x1A, '\n'};

// The file as it grows.
static uint8_t file[MOST + 128];
static size_t length;

static void put(const void *bytes, size_t count)
{
    memcpy(file + length, bytes, count);
    length += count;
}

static void put_byte(unsigned byte)
{
    file[length++] = (uint8_t)byte;
}

static void put_number(uint32_t number)
{
    int shift;
    for (shift = 24; shift >= 0; shift -= 8)
        put_byte(number >> shift & 255);
}

static uint32_t crc32(const uint8_t *bytes, size_t count)
{
    uint32_t crc = 0xFFFFFFFF;
    int bit;
    while (count-- > 0) {
        crc ^= *bytes++;
        for (bit = 0; bit < 8; bit++)
            crc = crc >> 1 ^ (crc & 1 ? 0xEDB88320 : 0);
    }
    return crc ^ 0xFFFFFFFF;
}

static uint32_t adler32(const uint8_t *bytes, size_t count)
{
    uint32_t a = 1, b = 0;
    while (count-- > 0) {
        a = (a + *bytes++) % 65521;
        b = (b + a) % 65521;
    }
    return b << 16 | a;
}

static void begin_chunk(const char *type, size_t count)
{
    put_number((uint32_t)count);
    put(type, 4);
}

static void end_chunk(size_t count)
{
    put_number(crc32(file + length - count - 4, count + 4));
}

static unsigned lines_of(unsigned height)
{
    return height * SCALE + 2 * MARGIN;
}

static void put_header(unsigned height)
{
    begin_chunk("IHDR", 13);
    put_number(WIDTH);
    put_number(lines_of(height));
    put("\x01\0\0\0\0", 5); // one bit, greyscale, and the only ways to compress, filter and order lines
    end_chunk(13);
}

// A set bit is white here, and black in the framebuffer.
static void blacken(uint8_t *lines, unsigned column, unsigned row)
{
    unsigned x, y;
    for (y = MARGIN + row * SCALE; y < MARGIN + (row + 1) * SCALE; y++)
        for (x = MARGIN + column * SCALE; x < MARGIN + (column + 1) * SCALE; x++)
            lines[y * LINE + 1 + x / 8] &= (uint8_t)~(0x80 >> x % 8);
}

static void put_lines(const uint8_t *framebuffer, unsigned height)
{
    uint8_t *lines = file + length;
    unsigned column, row;
    memset(lines, 0xFF, lines_of(height) * LINE);
    for (row = 0; row < lines_of(height); row++)
        lines[row * LINE] = 0;
    for (row = 0; row < height; row++)
        for (column = 0; column < DISPLAY_WIDTH; column++)
            if (framebuffer[row * DISPLAY_STRIDE + column / 8] >> (7 - column % 8) & 1)
                blacken(lines, column, row);
    length += lines_of(height) * LINE;
}

static void put_data(const uint8_t *framebuffer, unsigned height)
{
    unsigned lines = lines_of(height) * LINE;
    const uint8_t zlib[] = {0x78, 0x01, 1, lines & 255, lines >> 8 & 255, ~lines & 255, ~lines >> 8 & 255};
    size_t count = sizeof zlib + lines + 4;
    begin_chunk("IDAT", count);
    put(zlib, sizeof zlib);
    put_lines(framebuffer, height);
    put_number(adler32(file + length - lines, lines));
    end_chunk(count);
}

int png_can_save(const char *path)
{
    uint8_t start[sizeof signature];
    size_t count;
    int found = file_read(path, start, sizeof start, &count);
    if (found == 0 && count > 0 && (count < sizeof start || memcmp(start, signature, sizeof start) != 0)) {
        report("%s is there and is no PNG; it stays as it is", path);
        return -1;
    }
    return found < 0 ? -1 : file_can_save(path);
}

int png_save(const char *path, const uint8_t *framebuffer, unsigned height)
{
    if (png_can_save(path) < 0)
        return -1;
    length = 0;
    put(signature, sizeof signature);
    put_header(height);
    put_data(framebuffer, height);
    begin_chunk("IEND", 0);
    end_chunk(0);
    return file_save(path, file, length);
}
