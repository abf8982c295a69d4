// check-simulator PROGRAM: drives the simulator as a serial client does, in the folder where it is started. The rules
// of the wire say what must come back.
#define _XOPEN_SOURCE 700

#include "check-client.h"

#include <fcntl.h>
#include <poll.h>
#include <signal.h>
#include <stdio.h>
#include <stdlib.h>
#include <string.h>
#include <sys/ioctl.h>
#include <termios.h>
#include <unistd.h>

// Serial number, uploads accepted and refused. The first client leaves the terminal's settings alone, and they must do;
// the second finds the display as the first left it.
static void check_wire(void)
{
    Run run = START_NAMED(PLAINLY, NULL);
    int line = open(run.name, O_RDWR | O_NOCTTY);
    static Picture picture;
    SEND(line, 254, 52, 18, 52);
    EXPECT(line, 18, 52);
    SEND(line, 254, 52, 1, 2);
    EXPECT(line, 18, 52);
    upload_bitmap(line, 7);
    SEND(line, 254, 36, 1, 9, 0);
    EXPECT(line, 8);
    close(line);
    line = open_line(run.name);
    SEND(line, 254, 94, 7, 3, 0);
    EXPECT(line, 8);
    SEND(line, 254, 98, 7, 10, 20, 254, 52, 0, 0);
    EXPECT(line, 18, 52);
    close(line);
    end_by(&run, SIGTERM);
    CHECK_ENDING(LOW, "contrast 128, backlight on, refused 2, last refusal 25, lost 0, store used 3, free 32509\n");
    CHECK("nothing on standard error", 0, ending.err[0]);
    read_braille(ending.out, &picture);
    CHECK_PICTURE(&picture, LOW, {10, 20, 10, 20}, {12, 20, 12, 20});
}

// An upload of every byte there is: none of them may be eaten or changed on the way.
static void check_every_byte(void)
{
    Run run = START_NAMED(PLAINLY, NULL);
    int line = open_line(run.name);
    unsigned byte;
    SEND(line, 254, 94, 7, 0, 1);
    EXPECT(line, 1);
    for (byte = 0; byte < 256; byte++) {
        SEND(line, (uint8_t)byte);
        EXPECT(line, (uint8_t)byte);
        SEND(line, 1);
    }
    SEND(line, 254, 80, 200, 254, 66, 5);
    settle(line);
    close(line);
    end_by(&run, SIGINT);
    CHECK_ENDING(LOW, "contrast 200, backlight on for 5 min, refused 0, last refusal 0, lost 0, store used 256, "
                      "free 32256\n");
}

// Writes until the line has taken nothing for a while, then reads as well until all replies are there.
static size_t send_and_read_late(int line, const uint8_t *bytes, size_t count, uint8_t *replies, size_t wanted,
                                 size_t most)
{
    size_t sent = 0, early, length = 0, plain = 0;
    struct pollfd events = {line, POLLOUT, 0};
    fcntl(line, F_SETFL, O_NONBLOCK);
    while (sent < count && poll(&events, 1, 300) > 0) {
        ssize_t written = write(line, bytes + sent, count - sent);
        sent += written > 0 ? (size_t)written : 0;
    }
    early = sent;
    while (plain < wanted && length < most) {
        ssize_t got, written;
        events.events = (short)(POLLIN | (sent < count ? POLLOUT : 0));
        if (poll(&events, 1, LIMIT) <= 0)
            break;
        written = sent < count ? write(line, bytes + sent, count - sent) : 0;
        sent += written > 0 ? (size_t)written : 0;
        got = read(line, replies + length, most - length);
        for (; got > 0; got--)
            plain += replies[length++] < 254;
    }
    fcntl(line, F_SETFL, 0);
    CHECK("bytes sent", (long)count, (long)sent);
    CHECK("the line stands still for a client that does not read", 1, early < count);
    return length;
}

// 100,000 bytes at once, with replies that are read late. Each command is answered, and signals come in turn: 254 where
// the queue has filled up, 255 where it has emptied.
static void check_burst(void)
{
    enum { COMMANDS = 25000 };
    static uint8_t burst[4 * COMMANDS], replies[4 * COMMANDS];
    Run run = START_NAMED(PLAINLY, NULL);
    int line = open_line(run.name);
    size_t i, length, signals = 0, wrong = 0, plain = 0;
    for (i = 0; i < COMMANDS; i++)
        memcpy(burst + 4 * i, BYTES(254, 52, 'S', 'N'));
    SEND(line, 254, 58, 40, 39);
    length = send_and_read_late(line, burst, sizeof burst, replies, 2 * COMMANDS, sizeof replies);
    for (i = 0; i < length; i++) {
        if (replies[i] >= 254)
            wrong += replies[i] != 254 + signals++ % 2;
        else
            wrong += replies[i] != "SN"[plain++ % 2];
    }
    CHECK("replies", 2 * COMMANDS, (long)plain);
    CHECK("wrong bytes", 0, (long)wrong);
    CHECK("signals sent", 1, signals > 0);
    CHECK("255 at last", 0, (long)(signals % 2));
    settle(line);
    close(line);
    end_by(&run, SIGTERM);
    CHECK_ENDING(LOW, "refused 0, last refusal 0, lost 0, store used 0, free 32512\n");
}

static void check_png_files(void)
{
    Run run = START_NAMED(PLAINLY, "--png", "picture.png");
    int line = open_line(run.name);
    CHECK("no PNG at first", 0, file_exists("picture.png"));
    SEND(line, 254, 112, 0, 0, 254, 112, 239, 63);
    settle(line);
    kill(run.id, SIGUSR1);
    CHECK_CONTAINS(read_until(run.err, "\n"), "wrote picture.png");
    CHECK_PNG("picture.png", LOW, {0, 0, 0, 0}, {239, 63, 239, 63});
    SEND(line, 254, 120, 1, 2, 1, 4, 2);
    settle(line);
    CHECK_PNG("picture.png", LOW, {0, 0, 0, 0}, {239, 63, 239, 63});
    end_by(&run, SIGTERM);
    close(line);
    CHECK_ENDING(LOW, "refused 0");
    CHECK_PNG("picture.png", LOW, {0, 0, 0, 0}, {239, 63, 239, 63}, {2, 1, 4, 2});

    run = START_NAMED(PLAINLY, NULL);
    kill(run.id, SIGUSR1);
    CHECK_CONTAINS(read_until(run.err, "\n"), "no --png FILE");
    end_by(&run, SIGTERM);
    CHECK_ENDING(LOW, "refused 0");
}

// A solid rectangle, and what the status line says; then a frame with half blocks.
static void check_replay(void)
{
    static Picture picture;
    const char *status;
    Run run;
    write_file("stream", BYTES(254, 120, 1, 2, 1, 4, 2, 254, 80, 7, 254, 70, 254, 1));
    run = START(PLAINLY, "--replay", "stream", "--png", "replay.png");
    finish(&run);
    CHECK_ENDING(LOW, "contrast 7, backlight off, refused 1, last refusal 16, lost 0, store used 0, free 32512\n");
    CHECK("nothing on standard error", 0, ending.err[0]);
    read_braille(ending.out, &picture);
    CHECK_PICTURE(&picture, LOW, {2, 1, 4, 2});
    CHECK_PNG("replay.png", LOW, {2, 1, 4, 2});

    write_file("stream", BYTES(254, 114, 1, 0, 0, 239, 63, 254, 120, 1, 5, 5, 8, 7));
    run = START(PLAINLY, "--blocks", "--replay", "stream");
    finish(&run);
    CHECK("exit status", 0, ending.status);
    status = read_blocks(ending.out, &picture);
    CHECK_CONTAINS(status == NULL ? "no picture" : status, "contrast 128, backlight on, refused 0");
    CHECK_PICTURE(&picture, LOW, {0, 0, 239, 0}, {0, 63, 239, 63}, {0, 0, 0, 63}, {239, 0, 239, 63}, {5, 5, 8, 7});
}

// More than the queue holds, from standard input: 1,000 pixels.
static void check_long_replay(void)
{
    static uint8_t stream[4000];
    static Picture picture;
    Run run;
    unsigned i;
    for (i = 0; i < 1000; i++)
        memcpy(stream + 4 * i, BYTES(254, 112, (uint8_t)(i % 200), (uint8_t)(i / 200)));
    write_file("stream", stream, sizeof stream);
    run = START(FROM_STREAM, "--replay", "-");
    finish(&run);
    CHECK_ENDING(LOW, "refused 0, last refusal 0, lost 0, store used 0, free 32512\n");
    read_braille(ending.out, &picture);
    CHECK_PICTURE(&picture, LOW, {0, 0, 199, 4});
}

static struct termios settings_of(int terminal)
{
    struct termios settings;
    memset(&settings, 0, sizeof settings);
    CHECK("settings of a terminal", 0, tcgetattr(terminal, &settings));
    return settings;
}

// The live picture in a window of 130 by 30, which is then made too small.
static void check_live(void)
{
    struct winsize small = {10, 70, 0, 0};
    struct termios before, during, after;
    Run run = START_NAMED(IN_TERMINAL, "--png", "live.png");
    int window = run.window, line = open_line(run.name), fresh = posix_openpt(O_RDWR | O_NOCTTY);
    before = settings_of(fresh);
    CHECK_CONTAINS(read_until(run.out, "\033[?1049h"), "\033[?1049h");
    CHECK_CONTAINS(read_until(run.out, "free 32512"), "  p PNG  q quit  contrast 128, backlight on, refused 0, "
                                                      "last refusal 0, lost 0, store used 0, free 32512");
    during = settings_of(window);
    CHECK("keys are shown, or wait for a line's end", 0, (long)(during.c_lflag & (ECHO | ICANON)));
    SEND(line, 254, 112, 0, 0);
    CHECK_CONTAINS(read_until(run.out, "\xE2\xA0\x81"), "\xE2\xA0\x81");
    CHECK("key p", 1, (long)write(window, "p", 1));
    CHECK_CONTAINS(read_until(run.out, "wrote live.png"), "wrote live.png");
    CHECK_PNG("live.png", LOW, {0, 0, 0, 0});
    CHECK("window made smaller", 0, ioctl(window, TIOCSWINSZ, &small));
    CHECK_CONTAINS(read_until(run.out, "[needs 120 by 17]"), "[needs 120 by 17]");
    CHECK("key q", 1, (long)write(window, "q", 1));
    finish(&run);
    close(line);
    CHECK("exit status", 0, ending.status);
    CHECK_CONTAINS(ending.out, "\033[?25h\033[?1049l");
    after = settings_of(window);
    CHECK("local settings", (long)before.c_lflag, (long)after.c_lflag);
    CHECK("input settings", (long)before.c_iflag, (long)after.c_iflag);
    CHECK("output settings", (long)before.c_oflag, (long)after.c_oflag);
    CHECK("control characters", 0, memcmp(before.c_cc, after.c_cc, sizeof before.c_cc));
    close(window);
    close(fresh);
}

// Keys work also where the picture is not live.
static void check_keys(void)
{
    Run run = START_NAMED(WITH_KEYS, "--png", "keys.png");
    int line = open_line(run.name);
    settle(line);
    close(line);
    CHECK("key p", 1, (long)write(run.window, "p", 1));
    CHECK_CONTAINS(read_until(run.err, "\n"), "wrote keys.png");
    CHECK("key q", 1, (long)write(run.window, "q", 1));
    finish(&run);
    CHECK_ENDING(LOW, "contrast 128, backlight on, refused 0, last refusal 0, lost 0, store used 0, free 32512\n");
    close(run.window);
}

int main(int count, char **arguments)
{
    if (count != 2) {
        fprintf(stderr, "usage: check-simulator PROGRAM\n");
        return 2;
    }
    program = arguments[1];
    alarm(10 * LIMIT / 1000);
    signal(SIGPIPE, SIG_IGN);
    check_wire();
    check_every_byte();
    check_burst();
    check_png_files();
    check_replay();
    check_long_replay();
    check_live();
    check_keys();
    check_heights();
    check_editions();
    check_room();
    check_ends();
    if (failures != 0)
        printf("check-simulator: %u failed\n", failures);
    printf("check-simulator: %u checks\n", checks);
    return failures != 0;
}
