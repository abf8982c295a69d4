// Checks the simulator with the newer edition of the upload protocol, one store for both, and the clock: an upload that
// is left lying is dropped after 2.1 seconds, and no other one is.
#define _XOPEN_SOURCE 700

#include "check-client.h"

#include <fcntl.h>
#include <signal.h>
#include <stdio.h>
#include <string.h>
#include <sys/stat.h>
#include <time.h>
#include <unistd.h>

// A bitmap of 3 by 1 pixels, black, white, black, shown at (10, 20): number 300 in the newer edition, 7 in the older.
// Number 1,068, whose low byte is that of 300, is beyond the range.
static void check_replays(void)
{
    Run run;
    write_file("stream", BYTES(254, 94, 44, 1, 3, 0, 0, 0, 3, 1, 1, 1, 0xA0, 1, 254, 98, 44, 1, 10, 20, 254, 173, 1, 44,
                               4));
    run = START(PLAINLY, "--edition", "newer", "--replay", "stream", "--png", "newer.png");
    finish(&run);
    CHECK_ENDING(LOW, "newer edition, contrast 128, backlight on, refused 1, last refusal 19, lost 0, store used 3, "
                      "free 32509\n");
    CHECK_PNG("newer.png", LOW, {10, 20, 10, 20}, {12, 20, 12, 20});
    run = START(PLAINLY, "--height", "128", "--replay", "stream", "--edition", "newer", "--png", "newer.png");
    finish(&run);
    CHECK_ENDING(TALL, "newer edition, contrast 128, backlight on, refused 1, last refusal 19, lost 0, store used 3, "
                       "free 32509\n");
    CHECK_PNG("newer.png", TALL, {10, 20, 10, 20}, {12, 20, 12, 20});

    write_file("stream", BYTES(254, 94, 7, 3, 0, 3, 1, 1, 1, 0xA0, 1, 254, 98, 7, 10, 20));
    run = START(PLAINLY, "--edition", "older", "--replay", "stream", "--png", "older.png");
    finish(&run);
    CHECK_ENDING(LOW, "refused 0");
    CHECK("the older edition named", 0, strstr(ending.out, "edition") != NULL);
    CHECK_PNG("older.png", LOW, {10, 20, 10, 20}, {12, 20, 12, 20});
    run = START(PLAINLY, "--edition", "newer", "--replay", "stream", "--edition", "older", "--png", "older.png");
    finish(&run);
    CHECK_ENDING(LOW, "refused 0"); // the last one counts
    CHECK_PNG("older.png", LOW, {10, 20, 10, 20}, {12, 20, 12, 20});
}

// Bitmap 7 of the newer edition stays in the store; the older one shows it, and adds its bitmap 9.
static void check_one_store(void)
{
    static const uint8_t picture[] = {3, 1, 0xA0};
    static uint8_t expected[DISPLAY_STORE_MOST];
    size_t i;
    Run run = START_NAMED(PLAINLY, "--edition", "newer", "--store", "editions");
    int line = open_line(run.name);
    SEND(line, 254, 94, 7, 0, 3, 0, 0, 0);
    EXPECT(line, 1);
    for (i = 0; i < sizeof picture; i++) {
        SEND(line, picture[i]);
        EXPECT(line, picture[i]);
        SEND(line, 1);
    }
    SEND(line, 254, 94, 0, 4, 3, 0, 0, 0);
    EXPECT(line, 8);
    settle(line);
    close(line);
    memcpy(expected, BYTES(4, 7, 0, 3, 0, 0, 0));
    memcpy(expected + DISPLAY_DIRECTORY_SIZE, picture, sizeof picture);
    CHECK("store of the newer edition", 1, file_is("editions", expected, sizeof expected));
    end_by(&run, SIGTERM);
    CHECK_ENDING(LOW, "newer edition, contrast 128, backlight on, refused 1, last refusal 19, lost 0, store used 3, "
                      "free 32509\n");

    run = START_NAMED(PLAINLY, "--store", "editions", "--png", "editions.png");
    line = open_line(run.name);
    SEND(line, 254, 98, 7, 10, 20);
    upload_bitmap(line, 9);
    settle(line);
    close(line);
    end_by(&run, SIGTERM);
    CHECK_ENDING(LOW, "refused 0");
    CHECK_PNG("editions.png", LOW, {10, 20, 10, 20}, {12, 20, 12, 20});
    memcpy(expected + 7, BYTES(2, 9, 3, 0));
    memcpy(expected + DISPLAY_DIRECTORY_SIZE + sizeof picture, picture, sizeof picture);
    CHECK("store of both editions", 1, file_is("editions", expected, sizeof expected));
}

static long milliseconds_since(const struct timespec *then)
{
    struct timespec now;
    clock_gettime(CLOCK_MONOTONIC, &now);
    return (now.tv_sec - then->tv_sec) * 1000 + (now.tv_nsec - then->tv_nsec) / 1000000;
}

// Two uploads are left lying, one of each edition. At the same time a slow one, with 1.2 seconds between its bytes, and
// one in a replay, where no time passes, come to their end.
typedef struct {
    Run run;
    int line;
} Client;

static Client start_client(const char *edition, const char *store)
{
    Client client;
    client.run = START_NAMED(PLAINLY, "--edition", edition, "--store", store);
    client.line = open_line(client.run.name);
    return client;
}

static void end_client(Client *client, const char *status)
{
    settle(client->line);
    close(client->line);
    end_by(&client->run, SIGTERM);
    CHECK_ENDING(LOW, status);
}

// Dropped in time, and what was confirmed stays in free room. A client may be kept from running, so there is no telling
// how late it sees it.
static void check_dropped(Client *client, const struct timespec *begun, const char *store, const char *status)
{
    static uint8_t expected[DISPLAY_STORE_MOST];
    EXPECT(client->line, 254, 212);
    CHECK("dropped too early", 0, milliseconds_since(begun) < 2099);
    CHECK("dropped far too late", 0, milliseconds_since(begun) > 2 * 2100);
    end_client(client, status);
    expected[DISPLAY_DIRECTORY_SIZE] = 'B';
    CHECK("store", 1, file_is(store, expected, sizeof expected));
}

static void check_clock(void)
{
    static const char dropped[] = "refused 1, last refusal 26, lost 0, store used 0, free 32512\n";
    const struct timespec pause = {1, 200000000};
    static Picture picture;
    Client older = start_client("older", "older-store"), newer = start_client("newer", "newer-store");
    Client slow = start_client("older", "slow-store");
    struct timespec begun;
    Run replay;
    int slow_file;
    CHECK("a slow file made", 0, mkfifo("slow-stream", 0644));
    replay = START(PLAINLY, "--replay", "slow-stream");
    slow_file = open("slow-stream", O_WRONLY);
    SEND(slow_file, 254, 94, 7, 3, 0, 3, 1, 1);
    SEND(slow.line, 254, 94, 7, 3, 0);
    EXPECT(slow.line, 1);
    SEND(slow.line, 3);
    EXPECT(slow.line, 3);
    SEND(older.line, 254, 94, 7, 9, 0);
    EXPECT(older.line, 1);
    SEND(newer.line, 254, 94, 44, 1, 9, 0, 0, 0);
    EXPECT(newer.line, 1);
    clock_gettime(CLOCK_MONOTONIC, &begun);
    SEND(older.line, 'B', 1, 'C');
    SEND(newer.line, 'B', 1);

    nanosleep(&pause, NULL);
    SEND(slow.line, 1);
    EXPECT(older.line, 'B', 'C');
    EXPECT(newer.line, 'B');
    check_dropped(&older, &begun, "older-store", dropped);
    check_dropped(&newer, &begun, "newer-store", dropped);

    SEND(slow.line, 1, 1, 0xA0, 1);
    EXPECT(slow.line, 1, 0xA0);
    end_client(&slow, "refused 0, last refusal 0, lost 0, store used 3, free 32509\n");
    CHECK("store", 1, store_has_bitmap("slow-store", 7));
    SEND(slow_file, 1, 0xA0, 1, 254, 98, 7, 10, 20);
    close(slow_file);
    finish(&replay);
    CHECK_ENDING(LOW, "refused 0");
    read_braille(ending.out, &picture);
    CHECK_PICTURE(&picture, LOW, {10, 20, 10, 20}, {12, 20, 12, 20});
}

void check_editions(void)
{
    check_replays();
    check_one_store();
    check_clock();
}
