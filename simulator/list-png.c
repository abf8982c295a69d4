// list-png FILE: the black pixels of a picture that the simulator wrote, as the listing program prints them.
#include "check-png.h"

#include <stdio.h>

static void list_row(const uint8_t *row, unsigned y)
{
    unsigned x, runs = 0;
    for (x = 0; x < DISPLAY_WIDTH; x++) {
        if (row[x] && (x == 0 || !row[x - 1])) {
            if (runs++ == 0)
                printf("%u:", y);
            printf(" %u", x);
        }
        if (row[x] && (x == DISPLAY_WIDTH - 1 || !row[x + 1]))
            printf("-%u", x);
    }
    if (runs > 0)
        printf("\n");
}

int main(int count, char **arguments)
{
    static Picture picture;
    const char *wrong = count == 2 ? read_png(arguments[1], &picture) : "one file must be given";
    unsigned y;
    if (wrong != NULL) {
        fprintf(stderr, "list-png: %s\n", wrong);
        return 1;
    }
    printf("glass %u %u\n", DISPLAY_WIDTH, picture.height);
    for (y = 0; y < picture.height; y++)
        list_row(picture.pixels[y], y);
    return 0;
}
