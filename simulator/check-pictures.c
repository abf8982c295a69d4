// Files and pictures as the checks expect them.
#define _XOPEN_SOURCE 700

#include "check-client.h"

#include <stdio.h>
#include <string.h>
#include <unistd.h>

void write_file(const char *path, const void *bytes, size_t count)
{
    FILE *file = fopen(path, "wb");
    if (file == NULL || fwrite(bytes, 1, count, file) != count || fclose(file) != 0)
        CHECK("a file for the tests written", 1, 0);
}

int file_is(const char *path, const void *bytes, size_t count)
{
    static uint8_t got[TEXT];
    FILE *file = fopen(path, "rb");
    size_t length;
    if (file == NULL)
        return 0;
    length = fread(got, 1, sizeof got, file);
    fclose(file);
    return length == count && memcmp(got, bytes, count) == 0;
}

int file_exists(const char *path)
{
    return access(path, F_OK) == 0;
}

// Kind 2, number, size; and the file at the start of the file area.
int store_has_bitmap(const char *path, uint8_t n)
{
    static uint8_t store[DISPLAY_STORE_MOST];
    memset(store, 0, sizeof store);
    store[0] = 2;
    store[1] = n;
    store[2] = 3;
    memcpy(store + DISPLAY_DIRECTORY_SIZE, BYTES(3, 1, 0xA0));
    return file_is(path, store, sizeof store);
}

void check_picture(const char *file, int line, const Picture *got, unsigned height, const unsigned (*rectangles)[4],
                   size_t count)
{
    unsigned x, y, wrong = 0;
    size_t i;
    check(file, line, "height of a picture", height, got->height);
    for (y = 0; y < got->height; y++)
        for (x = 0; x < DISPLAY_WIDTH; x++) {
            int black = 0;
            for (i = 0; i < count; i++) {
                const unsigned *r = rectangles[i];
                black |= r[0] <= x && x <= r[2] && r[1] <= y && y <= r[3];
            }
            wrong += got->pixels[y][x] != black;
        }
    check(file, line, "pixels of the wrong colour", 0, wrong);
}

void check_png(const char *file, int line, const char *path, unsigned height, const unsigned (*rectangles)[4],
               size_t count)
{
    static Picture picture;
    const char *wrong = read_png(path, &picture);
    check_contains(file, line, wrong == NULL ? "a picture" : wrong, "a picture");
    if (wrong == NULL)
        check_picture(file, line, &picture, height, rectangles, count);
}

// The dots of a braille character are numbered 1, 2, 3 down its left side, 4, 5, 6 down its right side, and 7, 8 below;
// dot n is bit n - 1 of its code from U+2800 on.
static const char *read_braille_row(const char *text, uint8_t (*pixels)[DISPLAY_WIDTH])
{
    static const struct { unsigned x, y; } dots[] = {{0, 0}, {0, 1}, {0, 2}, {1, 0}, {1, 1}, {1, 2}, {0, 3}, {1, 3}};
    unsigned column, dot;
    for (column = 0; column < DISPLAY_WIDTH; column += 2, text += 3) {
        const unsigned char *bytes = (const unsigned char *)text;
        unsigned code;
        if (bytes[0] != 0xE2 || (bytes[1] & 0xFC) != 0xA0 || (bytes[2] & 0xC0) != 0x80)
            return NULL;
        code = (bytes[1] & 3u) << 6 | (bytes[2] & 0x3Fu);
        for (dot = 0; dot < 8; dot++)
            pixels[dots[dot].y][column + dots[dot].x] = code >> dot & 1;
    }
    return *text == '\n' ? text + 1 : NULL;
}

static const char *read_block_row(const char *text, uint8_t (*pixels)[DISPLAY_WIDTH])
{
    static const char *const blocks[] = {" ", "\xE2\x96\x80", "\xE2\x96\x84", "\xE2\x96\x88"}; // upper 1, lower 2
    unsigned column, kind;
    for (column = 0; column < DISPLAY_WIDTH; column++) {
        for (kind = 0; kind < 4 && strncmp(text, blocks[kind], strlen(blocks[kind])) != 0; kind++)
            ;
        if (kind == 4)
            return NULL;
        text += strlen(blocks[kind]);
        pixels[0][column] = kind & 1;
        pixels[1][column] = (uint8_t)(kind >> 1);
    }
    return *text == '\n' ? text + 1 : NULL;
}

// Rows of characters, each of so many rows of pixels, until a line is none.
static const char *read_rows(const char *text, Picture *picture, unsigned scale,
                             const char *(*read_row)(const char *, uint8_t (*)[DISPLAY_WIDTH]))
{
    const char *next = text;
    picture->height = 0;
    while (picture->height < TALL && (next = read_row(text, picture->pixels + picture->height)) != NULL) {
        picture->height += scale;
        text = next;
    }
    return picture->height > 0 ? text : NULL;
}

const char *read_braille(const char *text, Picture *picture)
{
    return read_rows(text, picture, 4, read_braille_row);
}

const char *read_blocks(const char *text, Picture *picture)
{
    return read_rows(text, picture, 2, read_block_row);
}

void check_ending(const char *file, int line, unsigned height, const char *status_line)
{
    static Picture picture;
    const char *status = read_braille(ending.out, &picture);
    check(file, line, "exit status", 0, ending.status);
    check(file, line, "escape sequences", 0, strchr(ending.out, '\033') != NULL);
    check(file, line, "height of the picture", height, picture.height);
    check_contains(file, line, status == NULL ? "no picture" : status, status_line);
}
