// Reads the simulator's PNG files back, from the format's own rules.
#ifndef CHECK_PNG_H
#define CHECK_PNG_H

#include "display.h"

typedef struct {
    unsigned height;
    uint8_t pixels[DISPLAY_TALL_HEIGHT][DISPLAY_WIDTH]; // 1 is black
} Picture;

// A null pointer, or what is wrong with the file. Its header says how high the picture is.
const char *read_png(const char *path, Picture *picture);

#endif
