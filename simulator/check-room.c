// Checks the store's room in the status line: what files take that were there at the start, and what uploads, a delete
// and a purge make of it.
#define _XOPEN_SOURCE 700

#include "check-client.h"

#include <signal.h>
#include <stdio.h>
#include <string.h>
#include <unistd.h>

// A store of 2,048 bytes, 1,792 of them for files: font 9 of 9 bytes, and bitmap 300 of 256, of the newer edition.
static void write_store(const char *path)
{
    static uint8_t store[2048];
    memcpy(store, BYTES(1, 9, 9, 0, 4, 44, 1, 0, 1, 0, 0));
    write_file(path, store, sizeof store);
}

static void check_live_status(int at, int out, const char *status)
{
    check_contains(__FILE__, at, read_until(out, status), status);
}
#define STATUS(status) check_live_status(__LINE__, run.out, status)

// As it changes, in the window.
static void check_live(void)
{
    const char *text;
    Run run;
    int line;
    write_store("room");
    run = START_NAMED(IN_TERMINAL, "--store", "room");
    line = open_line(run.name);
    STATUS("refused 0, last refusal 0, lost 0, store used 265, free 1527");
    upload_bitmap(line, 7);
    text = read_until(run.out, "store used 268, free 1524");
    CHECK_CONTAINS(text, "store used 268, free 1524");
    CHECK("bytes that counted early", 0, strstr(text, "used 266") != NULL || strstr(text, "used 267") != NULL);
    SEND(line, 254, 94, 7, 3, 0);
    EXPECT(line, 8);
    STATUS("refused 1, last refusal 25, lost 0, store used 268, free 1524");
    SEND(line, 254, 173, 0, 9);
    STATUS("store used 259, free 1533");
    SEND(line, 254, 94, 8, 2, 0, 'B', 1, 'C', 0);
    EXPECT(line, 1, 'B', 'C');
    STATUS("refused 2, last refusal 26, lost 0, store used 259, free 1533");
    SEND(line, 254, 33, 89, 33);
    STATUS("store used 0, free 1792");
    CHECK("key q", 1, (long)write(run.window, "q", 1));
    finish(&run);
    close(line);
    close(run.window);
    CHECK("exit status", 0, ending.status);
}

// At the end, from one run to the next.
static void check_runs(void)
{
    Run run;
    int line;
    write_store("room");
    run = START_NAMED(PLAINLY, "--store", "room");
    line = open_line(run.name);
    upload_bitmap(line, 7);
    upload_bitmap(line, 8);
    SEND(line, 254, 173, 1, 7);
    settle(line);
    close(line);
    end_by(&run, SIGTERM);
    CHECK_ENDING(LOW, "refused 0, last refusal 0, lost 0, store used 268, free 1524\n");

    write_file("stream", BYTES('A'));
    run = START(PLAINLY, "--store", "room", "--replay", "stream", "--height", "128", "--edition", "newer");
    finish(&run);
    CHECK_ENDING(TALL, "refused 0, last refusal 0, lost 0, store used 268, free 1524\n");
    write_file("stream", BYTES(254, 33, 89, 33));
    run = START(PLAINLY, "--store", "room", "--replay", "stream");
    finish(&run);
    CHECK_ENDING(LOW, "refused 0, last refusal 0, lost 0, store used 0, free 1792\n");
    write_file("stream", BYTES('A'));
    run = START(PLAINLY, "--store", "room", "--replay", "stream");
    finish(&run);
    CHECK_ENDING(LOW, "refused 0, last refusal 0, lost 0, store used 0, free 1792\n");
}

// What is free can be uploaded, and no byte more. One that is still under way at the end does not count.
static void check_free(void)
{
    Run run;
    write_store("room");
    write_file("stream", BYTES(254, 94, 7, 0xF8, 5));
    run = START(PLAINLY, "--store", "room", "--replay", "stream");
    finish(&run);
    CHECK_ENDING(LOW, "refused 1, last refusal 24, lost 0, store used 265, free 1527\n");
    write_file("stream", BYTES(254, 94, 7, 0xF7, 5, 'B', 1, 'C', 1));
    run = START(PLAINLY, "--store", "room", "--replay", "stream");
    finish(&run);
    CHECK_ENDING(LOW, "refused 0, last refusal 0, lost 0, store used 265, free 1527\n");
}

void check_room(void)
{
    check_live();
    check_runs();
    check_free();
}
