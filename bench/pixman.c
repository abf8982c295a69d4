// pixman's fill of an a1 surface of 240 by 64, where that library is installed.
#include "tables.h"

#ifdef WITH_PIXMAN

#include "display.h"

#include <pixman.h>
#include <stdint.h>

// Rows of whole 32-bit words, as pixman wants them.
enum { WORDS = 8 };

static uint32_t surface[WORDS * DISPLAY_LOW_HEIGHT];

static void fill(int black)
{
    pixman_fill(surface, WORDS, 1, 0, 0, DISPLAY_WIDTH, DISPLAY_LOW_HEIGHT, (uint32_t)black);
}

static unsigned black_pixels(void)
{
    unsigned i, count = 0;
    for (i = 0; i < 32 * WORDS * DISPLAY_LOW_HEIGHT; i++)
        count += surface[i / 32] >> i % 32 & 1;
    return count;
}

static const Pixman here = {fill, black_pixels};
const Pixman *const pixman = &here;

#else

const Pixman *const pixman = 0;

#endif
