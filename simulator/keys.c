// Keys from the user's terminal.
#define _XOPEN_SOURCE 700

#include "simulator.h"

#include <termios.h>
#include <unistd.h>

static int are_open;
static struct termios found; // settings of the user's terminal

// Keys come one by one and are not shown. Control-C still interrupts; a stop would stop the display as well.
void keys_open(void)
{
    struct termios settings;
    are_open = isatty(STDIN_FILENO) && tcgetpgrp(STDIN_FILENO) == getpgrp() && tcgetattr(STDIN_FILENO, &found) == 0;
    if (!are_open)
        return;
    settings = found;
    settings.c_lflag &= ~(tcflag_t)(ICANON | ECHO);
    settings.c_iflag &= ~(tcflag_t)IXON;
    settings.c_cc[VSUSP] = _POSIX_VDISABLE;
    settings.c_cc[VMIN] = 0;
    settings.c_cc[VTIME] = 0;
    tcsetattr(STDIN_FILENO, TCSADRAIN, &settings);
}

void keys_close(void)
{
    if (are_open)
        tcsetattr(STDIN_FILENO, TCSADRAIN, &found);
    are_open = 0;
}

int keys_are_open(void)
{
    return are_open;
}

// Cursor and page keys send escape, then [ or O, then perhaps a number, and a letter or ~ at the end.
static int key_of(unsigned char byte)
{
    enum { ESCAPE = 27 };
    static enum { OUTSIDE, ESCAPED, INSIDE } place;
    static unsigned number;
    if (byte == ESCAPE) {
        place = ESCAPED;
        number = 0;
        return KEY_NONE;
    }
    if (place == ESCAPED && (byte == '[' || byte == 'O')) {
        place = INSIDE;
        return KEY_NONE;
    }
    if (place != INSIDE) {
        place = OUTSIDE;
        return byte;
    }
    if (byte < '@') {
        number = 10 * number + byte - '0';
        return KEY_NONE;
    }
    place = OUTSIDE;
    if (byte == 'A' || byte == 'B')
        return byte == 'A' ? KEY_UP : KEY_DOWN;
    if (byte == '~' && (number == 5 || number == 6))
        return number == 5 ? KEY_PAGE_UP : KEY_PAGE_DOWN;
    return KEY_NONE;
}

int keys_read(void)
{
    unsigned char byte;
    return read(STDIN_FILENO, &byte, 1) == 1 ? key_of(byte) : 'q';
}
