// Checks the simulator with the tall glass: its picture in all forms, one store for both heights, and a live picture
// that is higher than the window.
#define _XOPEN_SOURCE 700

#include "check-client.h"

#include <signal.h>
#include <stdio.h>
#include <string.h>
#include <sys/ioctl.h>
#include <unistd.h>

// The last row of either glass, and the row behind the tall one's.
static void check_replays(void)
{
    static Picture picture;
    const char *status;
    Run run;
    write_file("stream", BYTES(254, 112, 0, 63, 254, 112, 239, 127, 254, 112, 9, 128, 254, 120, 1, 20, 60, 29, 67));
    run = START(PLAINLY, "--height", "128", "--replay", "stream", "--png", "tall.png");
    finish(&run);
    CHECK_ENDING(TALL, "contrast 128, backlight on, refused 0, last refusal 0, lost 0, store used 0, free 32512\n");
    read_braille(ending.out, &picture);
    CHECK_PICTURE(&picture, TALL, {0, 63, 0, 63}, {239, 127, 239, 127}, {20, 60, 29, 67});
    CHECK_PNG("tall.png", TALL, {0, 63, 0, 63}, {239, 127, 239, 127}, {20, 60, 29, 67});

    run = START(PLAINLY, "--blocks", "--replay", "stream", "--height", "128");
    finish(&run);
    status = read_blocks(ending.out, &picture);
    CHECK_CONTAINS(status == NULL ? "no picture" : status, "contrast 128");
    CHECK_PICTURE(&picture, TALL, {0, 63, 0, 63}, {239, 127, 239, 127}, {20, 60, 29, 67});

    run = START(PLAINLY, "--height", "64", "--replay", "stream", "--png", "tall.png");
    finish(&run);
    CHECK_ENDING(LOW, "refused 0");
    CHECK_PNG("tall.png", LOW, {0, 63, 0, 63}, {20, 60, 29, 63});

    run = START(PLAINLY, "--height", "64", "--replay", "stream", "--height", "128");
    finish(&run);
    CHECK_ENDING(TALL, "refused 0"); // the last one counts, as with the other options
}

// A bar as high as the glass, which the low one refuses. A dash wraps to a line at row 58, and is its fourth row.
static void check_line(void)
{
    Run run = START_NAMED(PLAINLY, "--png", "line.png", "--height", "128");
    int line = open_line(run.name);
    SEND(line, 254, 103, 0, 0, 10, 0, 12, 127, 254, 105, 0, 0, 254, 105, 0, 255, 254, 121, 236, 50, '-');
    settle(line);
    kill(run.id, SIGUSR1);
    CHECK_CONTAINS(read_until(run.err, "\n"), "wrote line.png");
    CHECK_PNG("line.png", TALL, {10, 0, 12, 127}, {0, 61, 3, 61});
    close(line);
    end_by(&run, SIGTERM);
    CHECK_ENDING(TALL, "refused 0");

    run = START_NAMED(PLAINLY, NULL);
    line = open_line(run.name);
    SEND(line, 254, 103, 0, 0, 10, 0, 12, 127);
    settle(line);
    close(line);
    end_by(&run, SIGTERM);
    CHECK_ENDING(LOW, "refused 1, last refusal 17");
}

// Font 2 has one character, 'A', a column of 100 black rows. The low glass stores it and does not show it.
static void check_one_store(void)
{
    enum { SIZE = 7 + 13 };
    static const uint8_t font[SIZE] = {1, 100, 'A', 'A', 0, 7, 1, 255, 255, 255, 255, 255, 255, 255, 255, 255, 255, 255,
                                       255, 255};
    static const uint8_t show[] = {254, 49, 2, 'A'};
    static uint8_t stream[5 + 2 * SIZE + sizeof show] = {254, 36, 2, SIZE, 0}, expected[DISPLAY_STORE_MOST];
    Run run;
    unsigned i;
    for (i = 0; i < SIZE; i++) {
        stream[5 + 2 * i] = font[i];
        stream[6 + 2 * i] = 1;
    }
    memcpy(stream + 5 + 2 * SIZE, show, sizeof show);
    memcpy(expected, BYTES(1, 2, SIZE, 0));
    memcpy(expected + DISPLAY_DIRECTORY_SIZE, font, SIZE);
    write_file("stream", stream, sizeof stream);
    run = START(PLAINLY, "--store", "both", "--replay", "stream");
    finish(&run);
    CHECK_ENDING(LOW, "refused 1, last refusal 23");
    CHECK("store", 1, file_is("both", expected, sizeof expected));

    write_file("stream", show, sizeof show);
    run = START(PLAINLY, "--store", "both", "--replay", "stream", "--height", "128", "--png", "both.png");
    finish(&run);
    CHECK_ENDING(TALL, "refused 0");
    CHECK_PNG("both.png", TALL, {0, 0, 0, 99});
    run = START(PLAINLY, "--store", "both", "--replay", "stream");
    finish(&run);
    CHECK_ENDING(LOW, "refused 1, last refusal 23");
    CHECK("store", 1, file_is("both", expected, sizeof expected));
}

// The frame that ends with this text: how many rows of the picture it has, and whether the last of them begins with the
// character that has its lower left dot.
static void check_frame(int at, int out, const char *text, long rows, int dot)
{
    const char *frame = read_until(out, text), *next, *last = frame;
    long count = 0;
    check_contains(__FILE__, at, frame, text);
    while ((next = strstr(frame, "\033[H")) != NULL)
        last = frame = next + 3;
    for (; (next = strstr(frame, "\r\n")) != NULL; count++) {
        last = frame;
        frame = next + 2;
    }
    check(__FILE__, at, "rows of a frame", rows, count);
    check(__FILE__, at, "the dot in its last row", dot, strncmp(last, "\xE2\xA1\x80", 3) == 0);
}
#define CHECK_FRAME(text, rows, dot) check_frame(__LINE__, run.out, text, rows, dot)

static void resize(int window, unsigned short lines, unsigned short columns)
{
    struct winsize size = {lines, columns, 0, 0};
    CHECK("window resized", 0, ioctl(window, TIOCSWINSZ, &size));
}

static void press(int window, const char *key)
{
    CHECK("key", (long)strlen(key), (long)write(window, key, strlen(key)));
}

// 24 lines show 23 of 32 rows, which are 92 rows of pixels. The pixel in row 127 is seen at the end.
static void check_scrolling(void)
{
    char all[300];
    Run run = START_NAMED(IN_TERMINAL, "--height", "128");
    int window = run.window, line = open_line(run.name);
    CHECK_FRAME("[needs 120 by 33]  rows 0-115, up/down", 29, 0);
    resize(window, 24, 80);
    CHECK_FRAME("[needs 120 by 33]  rows 0-91, up/down", 23, 0);
    SEND(line, 254, 112, 0, 127);
    settle(line);
    press(window, "\033[B");
    CHECK_FRAME("rows 4-95, up/down", 23, 0);
    press(window, "\033OB");
    CHECK_FRAME("rows 8-99, up/down", 23, 0);
    press(window, "\033[A");
    CHECK_FRAME("rows 4-95, up/down", 23, 0);
    press(window, "\033[6~");
    CHECK_FRAME("rows 36-127, up/down", 23, 1);
    press(window, "\033[6~\033[B\033[2~\033[1;5C\033[A"); // no further than the end; two keys that do nothing
    CHECK_FRAME("rows 32-123, up/down", 23, 0);
    press(window, "\033[B");
    CHECK_FRAME("rows 36-127, up/down", 23, 1);
    resize(window, 30, 120);
    CHECK_FRAME("rows 12-127, up/down", 29, 1);
    press(window, "\033[5~");
    CHECK_FRAME("rows 0-115, up/down", 29, 0);
    press(window, "\033[A\033[B");
    CHECK_FRAME("rows 4-119, up/down", 29, 0);
    resize(window, 1, 80);
    CHECK_FRAME("[needs 120 by 33]  q quit  contrast", 0, 0);
    resize(window, 33, 120);
    snprintf(all, sizeof all, "%s  q quit  contrast 128", run.name);
    CHECK_FRAME(all, 32, 1);
    press(window, "\033q");
    finish(&run);
    close(line);
    close(window);
    CHECK("exit status", 0, ending.status);
}

// The low glass in a window that is too low for it, with half blocks of two rows.
static void check_scrolling_low(void)
{
    Run run = START_NAMED(IN_TERMINAL, "--blocks");
    int window = run.window;
    CHECK_FRAME("[needs 240 by 33]  rows 0-57, up/down", 29, 0);
    press(window, "\033[6~");
    CHECK_FRAME("[needs 240 by 33]  rows 6-63, up/down", 29, 0);
    press(window, "q");
    finish(&run);
    close(window);
    CHECK("exit status", 0, ending.status);
}

void check_heights(void)
{
    check_replays();
    check_line();
    check_one_store();
    check_scrolling();
    check_scrolling_low();
}
