// The picture in the user's terminal, drawn again as it changes.
#define _XOPEN_SOURCE 700

#include "simulator.h"

#include <errno.h>
#include <stdarg.h>
#include <stdio.h>
#include <stdlib.h>
#include <string.h>
#include <sys/ioctl.h>
#include <time.h>
#include <unistd.h>

enum { FRAME_MILLISECONDS = 33, MESSAGE_SIZE = 256, LINE_SIZE = VIEW_STATUS_SIZE + 3 * MESSAGE_SIZE };

#define ENTER "\033[?1049h\033[?25l\033[2J" // the other page, no cursor, blank
#define LEAVE "\033[?25h\033[?1049l"
#define HOME "\033[H"
#define REST_OF_LINE "\033[K"
#define REST_OF_SCREEN "\033[J"

static int is_open, blocks;
static char heading[MESSAGE_SIZE], message[MESSAGE_SIZE];
static const char *keys = "";
static unsigned first; // row of characters in the first line of the window

// What was drawn last, and when.
static uint8_t drawn[PORT_FRAMEBUFFER_SIZE];
static char drawn_line[LINE_SIZE];
static struct winsize drawn_size;
static struct timespec drawn_at;

void report(const char *format, ...)
{
    va_list arguments;
    va_start(arguments, format);
    if (is_open) {
        vsnprintf(message, sizeof message, format, arguments);
    } else {
        fprintf(stderr, "simulator: ");
        vfprintf(stderr, format, arguments);
        fprintf(stderr, "\n");
    }
    va_end(arguments);
}

static int write_out(const char *text, size_t length)
{
    while (length > 0) {
        ssize_t count = write(STDOUT_FILENO, text, length);
        if (count < 0 && errno != EINTR && errno != EAGAIN)
            return -1;
        if (count > 0) {
            text += count;
            length -= (size_t)count;
        }
    }
    return 0;
}

int screen_is_possible(void)
{
    const char *kind = getenv("TERM");
    return isatty(STDOUT_FILENO) && kind != NULL && strcmp(kind, "dumb") != 0;
}

void screen_open(const char *name, const Options *options)
{
    blocks = options->blocks;
    snprintf(heading, sizeof heading, "%s", name);
    if (keys_are_open())
        keys = options->png != NULL ? "  p PNG  q quit" : "  q quit";
    is_open = 1;
    write_out(ENTER, strlen(ENTER));
}

void screen_close(void)
{
    if (!is_open)
        return;
    is_open = 0;
    write_out(LEAVE, strlen(LEAVE));
    if (message[0] != '\0')
        report("%s", message);
}

static struct winsize window_size(void)
{
    struct winsize size;
    if (ioctl(STDOUT_FILENO, TIOCGWINSZ, &size) < 0 || size.ws_col == 0 || size.ws_row == 0) {
        size.ws_col = 80;
        size.ws_row = 24;
    }
    return size;
}

// Lines of the window for the picture; the last one has the status.
static unsigned shown_rows(unsigned height, struct winsize size)
{
    unsigned rows = view_rows(height, blocks), lines = size.ws_row - 1u;
    return rows < lines ? rows : lines;
}

// A page ends with the line that the next one begins with.
void screen_scroll(int key)
{
    unsigned page = drawn_size.ws_row > 3 ? drawn_size.ws_row - 2u : 1;
    if (key == KEY_DOWN)
        first++;
    else if (key == KEY_PAGE_DOWN)
        first += page;
    else if (key == KEY_UP)
        first -= first > 0;
    else if (key == KEY_PAGE_UP)
        first -= first < page ? first : page;
}

// No further than to the end of the picture.
static void limit_scrolling(unsigned height, struct winsize size)
{
    unsigned most = view_rows(height, blocks) - shown_rows(height, size);
    if (first > most)
        first = most;
}

// Of a picture that is larger than the window its left part is shown, from the first row on that was scrolled to; the
// line below is always there.
static int draw(const Port *port, const char *line, struct winsize size)
{
    static char frame[DISPLAY_TALL_HEIGHT / 2 * (VIEW_ROW_SIZE + 8) + LINE_SIZE + 32];
    size_t length = 0, line_length = strlen(line);
    unsigned row, end = first + shown_rows(display_height(port->state), size);
    length += (size_t)sprintf(frame, HOME);
    for (row = first; row < end; row++) {
        length += view_row(frame + length, port->framebuffer, row, size.ws_col, blocks);
        length += (size_t)sprintf(frame + length, "%s\r\n", size.ws_col > view_columns(blocks) ? REST_OF_LINE : "");
    }
    if (line_length >= size.ws_col)
        line_length = size.ws_col - 1u;
    length += (size_t)sprintf(frame + length, "%.*s" REST_OF_LINE REST_OF_SCREEN, (int)line_length, line);
    return write_out(frame, length);
}

// What the window lacks, and which rows of pixels it shows if not all. It stands ahead of the status, and so do the
// keys, so that a narrow window has them.
static void make_need(char *need, size_t most, unsigned height, struct winsize size)
{
    unsigned rows = view_rows(height, blocks), shown = shown_rows(height, size), scale = view_scale(blocks);
    int length = 0;
    need[0] = '\0';
    if (size.ws_col < view_columns(blocks) || shown < rows)
        length = snprintf(need, most, "  [needs %u by %u]", view_columns(blocks), rows + 1);
    if (0 < shown && shown < rows)
        snprintf(need + length, most - (size_t)length, "  rows %u-%u%s", scale * first, scale * (first + shown) - 1,
                 keys_are_open() ? ", up/down" : "");
}

static void make_line(char *line, const Port *port, struct winsize size)
{
    char status[VIEW_STATUS_SIZE], need[64];
    make_need(need, sizeof need, display_height(port->state), size);
    view_status(status, port);
    snprintf(line, LINE_SIZE, "%s%s%s%s%s  %s", heading, need, message[0] != '\0' ? "  " : "", message, keys, status);
}

int screen_update(const Port *port, int *again)
{
    struct winsize size = window_size();
    char line[LINE_SIZE];
    struct timespec now;
    long waited;
    *again = -1;
    if (!is_open)
        return 0;
    limit_scrolling(display_height(port->state), size);
    make_line(line, port, size);
    if (memcmp(drawn, port->framebuffer, sizeof drawn) == 0 && strcmp(drawn_line, line) == 0 &&
        size.ws_col == drawn_size.ws_col && size.ws_row == drawn_size.ws_row)
        return 0;
    clock_gettime(CLOCK_MONOTONIC, &now);
    waited = (now.tv_sec - drawn_at.tv_sec) * 1000 + (now.tv_nsec - drawn_at.tv_nsec) / 1000000;
    if (drawn_line[0] != '\0' && waited < FRAME_MILLISECONDS) {
        *again = FRAME_MILLISECONDS - (int)waited;
        return 0;
    }
    memcpy(drawn, port->framebuffer, sizeof drawn);
    strcpy(drawn_line, line);
    drawn_size = size;
    drawn_at = now;
    return draw(port, line, size);
}
