// A decoder for PNG files as the simulator may write them: one bit of grey, stored blocks.
#include "check-png.h"

#include <stdio.h>
#include <string.h>

// A file is as high as one of the two glasses, enlarged, and two margins.
enum { SCALE = 3, MARGIN = 12, WIDTH = 744, LOW_HEIGHT = 216, TALL_HEIGHT = 408, LINE = 94 };

static uint8_t file[1 << 17], data[1 << 17];
static size_t file_length, data_length;
static uint32_t height; // of the file

static uint32_t number(const uint8_t *bytes)
{
    return (uint32_t)bytes[0] << 24 | (uint32_t)bytes[1] << 16 | (uint32_t)bytes[2] << 8 | bytes[3];
}

// By division of polynomials, highest power first: bits are turned round on the way in and out.
static uint32_t crc(const uint8_t *bytes, size_t count)
{
    uint32_t rest = 0xFFFFFFFF, turned = 0;
    size_t i;
    int bit;
    for (i = 0; i < 8 * count; i++) {
        uint32_t top = rest >> 31 ^ (bytes[i / 8] >> i % 8 & 1);
        rest = rest << 1 ^ (top ? 0x04C11DB7 : 0);
    }
    for (bit = 0; bit < 32; bit++)
        turned |= (rest >> bit & 1) << (31 - bit);
    return ~turned;
}

// Width, height, one bit of grey, and 0 for compression, filter and interlace.
static int read_header(const uint8_t *type, size_t length)
{
    static const uint8_t depth[] = {1, 0, 0, 0, 0};
    if (length != 13 || memcmp(type, "IHDR", 4) != 0 || number(type + 4) != WIDTH)
        return 0;
    height = number(type + 8);
    return (height == LOW_HEIGHT || height == TALL_HEIGHT) && memcmp(type + 12, depth, sizeof depth) == 0;
}

// The chunks must be IHDR, IDAT.., IEND. Leaves the data of all IDAT in `data`.
static const char *read_chunks(void)
{
    size_t at = 8, length;
    int chunks = 0;
    data_length = 0;
    for (; at + 12 <= file_length; at += length + 12, chunks++) {
        const uint8_t *type = file + at + 4;
        length = number(file + at);
        if (length > file_length - at - 12)
            return "a chunk is longer than the file";
        if (crc(type, length + 4) != number(type + 4 + length))
            return "wrong CRC";
        if (chunks == 0 && !read_header(type, length))
            return "wrong header";
        if (memcmp(type, "IEND", 4) == 0)
            return length == 0 && at + 12 == file_length && chunks > 1 ? NULL : "wrong end";
        if (chunks > 0 && memcmp(type, "IDAT", 4) != 0)
            return "unknown chunk";
        if (chunks > 0) {
            memcpy(data + data_length, type + 4, length);
            data_length += length;
        }
    }
    return "no end";
}

// Stored blocks; the lines come to the start of `data`.
static const char *unpack(void)
{
    size_t at = 2, lines = 0, length, i;
    uint32_t a = 1, b = 0;
    int last = 0;
    if (data_length < 6 || (data[0] & 15) != 8 || (256 * data[0] + data[1]) % 31 != 0 || (data[1] & 32) != 0)
        return "wrong zlib header";
    for (; !last; at += 5 + length) {
        if (at + 5 > data_length || data[at] > 1)
            return "not a stored block";
        last = data[at];
        length = data[at + 1] + 256u * data[at + 2];
        if ((length ^ (data[at + 3] + 256u * data[at + 4])) != 0xFFFF || at + 5 + length > data_length)
            return "wrong length of a block";
        memmove(data + lines, data + at + 5, length);
        lines += length;
    }
    for (i = 0; i < lines; i++) {
        a = (a + data[i]) % 65521;
        b = (b + a) % 65521;
    }
    if (at + 4 != data_length || number(data + at) != (b << 16 | a))
        return "wrong Adler-32";
    return lines == height * LINE ? NULL : "wrong number of lines";
}

static unsigned is_black(unsigned x, unsigned y)
{
    return ~data[y * LINE + 1 + x / 8] >> (7 - x % 8) & 1;
}

// Every pixel of a square and of the margin must agree.
static const char *shrink(Picture *picture)
{
    unsigned x, y;
    picture->height = (height - 2 * MARGIN) / SCALE;
    for (y = 0; y < height; y++) {
        if (data[y * LINE] != 0)
            return "a line is filtered";
        for (x = 0; x < WIDTH; x++) {
            int inside = x >= MARGIN && x < WIDTH - MARGIN && y >= MARGIN && y < height - MARGIN;
            uint8_t *pixel = inside ? &picture->pixels[(y - MARGIN) / SCALE][(x - MARGIN) / SCALE] : NULL;
            if (!inside && is_black(x, y))
                return "the margin is not white";
            if (inside && (x - MARGIN) % SCALE == 0 && (y - MARGIN) % SCALE == 0)
                *pixel = (uint8_t)is_black(x, y);
            if (inside && *pixel != is_black(x, y))
                return "a pixel is not a square";
        }
    }
    return NULL;
}

const char *read_png(const char *path, Picture *picture)
{
    const char *wrong;
    FILE *stream = fopen(path, "rb");
    if (stream == NULL)
        return "cannot be opened";
    file_length = fread(file, 1, sizeof file, stream);
    fclose(stream);
    if (file_length < 8 || memcmp(file, "\x89PNG\r\n\x1A\n", 8) != 0)
        return "no PNG";
    wrong = read_chunks();
    if (wrong == NULL)
        wrong = unpack();
    return wrong != NULL ? wrong : shrink(picture);
}
