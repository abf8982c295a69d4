// The command line.
#include "simulator.h"

#include <stdio.h>
#include <stdlib.h>
#include <string.h>

static const char help[] =
    "usage: simulator [--height ROWS] [--edition NAME] [--store FILE] [--png FILE] [--blocks] [--replay FILE]\n"
    "\n"
    "A serial display of 240 by 64 or 128 pixels on a pseudo-terminal. Prints the terminal's name on the first line;\n"
    "open it as a serial port and write to it. Shows the picture live where standard output is a terminal, else\n"
    "prints it at the end.\n"
    "\n"
    "  --height ROWS  64 or 128; without it 64\n"
    "  --edition NAME older, where hosts send file numbers of one byte and sizes of two, or newer, where these have\n"
    "                 two and four; without it older\n"
    "  --store FILE   keep uploaded fonts and bitmaps in FILE, which is the display's store byte for byte and the\n"
    "                 same for both heights and editions; a FILE that does not exist is made, with 32,768 zero bytes\n"
    "  --png FILE     write the picture to FILE at the end, and at key p or signal USR1\n"
    "  --blocks       draw with half blocks, 240 by 32 characters; without it with braille, 120 by 16. At height 128\n"
    "                 these are 64 and 32 rows\n"
    "  --replay FILE  obey the bytes of FILE, or of standard input for -, print the picture and end. No terminal is\n"
    "                 opened, replies are thrown away, and no time passes\n"
    "  --help         print this\n"
    "\n"
    "An upload that has got no byte for 2.1 seconds is dropped, which 254 212 says to the client.\n"
    "\n"
    "Where the live picture is higher than the window, the cursor and page keys move it. Key q or signal INT, TERM or\n"
    "HUP ends it. Exit status: 0 done, 1 failed, 2 wrong options.\n";

static void misused(const char *why, const char *what)
{
    fprintf(stderr, "simulator: %s%s; see simulator --help\n", why, what);
    exit(MISUSED);
}

static uint32_t read_height(const char *word)
{
    if (strcmp(word, "128") == 0)
        return DISPLAY_TALL_HEIGHT;
    if (strcmp(word, "64") != 0)
        misused("the height must be 64 or 128, not ", word);
    return DISPLAY_LOW_HEIGHT;
}

static uint32_t read_edition(const char *word)
{
    if (strcmp(word, "newer") == 0)
        return DISPLAY_NEWER_EDITION;
    if (strcmp(word, "older") != 0)
        misused("the edition must be older or newer, not ", word);
    return DISPLAY_OLDER_EDITION;
}

static void print_help(void)
{
    int written = fputs(help, stdout) >= 0 && fflush(stdout) == 0;
    exit(written ? DONE : FAILED);
}

// What follows the option at this place.
static const char *value_of(int count, char **arguments, int i, const char *what)
{
    if (i + 1 == count)
        misused(what, arguments[i]);
    return arguments[i + 1];
}

Options read_options(int count, char **arguments)
{
    Options options = {NULL, NULL, NULL, DISPLAY_LOW_HEIGHT, DISPLAY_OLDER_EDITION, 0};
    int i;
    for (i = 1; i < count; i++) {
        const char *name = arguments[i];
        if (strcmp(name, "--help") == 0)
            print_help();
        else if (strcmp(name, "--blocks") == 0)
            options.blocks = 1;
        else if (strcmp(name, "--height") == 0)
            options.height = read_height(value_of(count, arguments, i++, "64 or 128 must follow "));
        else if (strcmp(name, "--edition") == 0)
            options.edition = read_edition(value_of(count, arguments, i++, "older or newer must follow "));
        else if (strcmp(name, "--png") == 0)
            options.png = value_of(count, arguments, i++, "a file must follow ");
        else if (strcmp(name, "--store") == 0)
            options.store = value_of(count, arguments, i++, "a file must follow ");
        else if (strcmp(name, "--replay") == 0)
            options.replay = value_of(count, arguments, i++, "a file must follow ");
        else
            misused("no such option: ", name);
    }
    return options;
}
