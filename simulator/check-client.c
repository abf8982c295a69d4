// Simulators as child processes, and the serial line to them.
#define _XOPEN_SOURCE 700

#include "check-client.h"

#include <errno.h>
#include <fcntl.h>
#include <poll.h>
#include <signal.h>
#include <stdio.h>
#include <stdlib.h>
#include <string.h>
#include <sys/ioctl.h>
#include <sys/stat.h>
#include <sys/wait.h>
#include <termios.h>
#include <unistd.h>

enum { NOBODY = 65534, MOST_ARGUMENTS = 8 };

const char *program;
unsigned checks, failures;
Ending ending;

void check(const char *file, int line, const char *what, long expected, long got)
{
    checks++;
    if (expected == got)
        return;
    failures++;
    printf("%s:%d: %s: expected %ld, got %ld\n", file, line, what, expected, got);
}

void check_contains(const char *file, int line, const char *text, const char *part)
{
    checks++;
    if (strstr(text, part) != NULL)
        return;
    failures++;
    printf("%s:%d: expected \"%s\", got \"%s\"\n", file, line, part, text);
}

static void must(int done, const char *what)
{
    if (done)
        return;
    perror(what);
    exit(1);
}

// In the child. A test that runs in the background has signals ignored, which the simulator would respect.
static void become(int how, const char *terminal, int out, int err)
{
    static const int signals[] = {SIGINT, SIGTERM, SIGHUP, SIGQUIT, SIGUSR1, SIGPIPE};
    size_t i;
    int in = open(how == FROM_STREAM ? "stream" : "/dev/null", O_RDONLY);
    for (i = 0; i < sizeof signals / sizeof *signals; i++)
        signal(signals[i], SIG_DFL);
    if (how >= WITH_KEYS) {
        setsid();
        in = open(terminal, O_RDWR);
        out = how == IN_TERMINAL ? in : out;
        setenv("TERM", "xterm", 1);
    }
    dup2(in, STDIN_FILENO);
    dup2(out, STDOUT_FILENO);
    dup2(err, STDERR_FILENO);
    if (how == OUT_CLOSED)
        close(STDOUT_FILENO);
    if (how == AS_NOBODY && geteuid() == 0 && (setgid(NOBODY) < 0 || setuid(NOBODY) < 0))
        _exit(127);
}

static int open_window(char *name, size_t size)
{
    struct winsize window = {30, 130, 0, 0};
    int master = posix_openpt(O_RDWR | O_NOCTTY);
    must(master >= 0 && grantpt(master) == 0 && unlockpt(master) == 0, "pseudo-terminal");
    must(ioctl(master, TIOCSWINSZ, &window) == 0, "window size");
    snprintf(name, size, "%s", ptsname(master));
    return master;
}

Run start(int how, const char *const *arguments)
{
    char terminal[256] = "", *copies[MOST_ARGUMENTS + 2] = {(char *)program};
    int out[2], err[2], i;
    Run run;
    for (i = 0; i < MOST_ARGUMENTS && arguments[i] != NULL; i++)
        copies[i + 1] = (char *)arguments[i];
    must(pipe(out) == 0 && pipe(err) == 0, "pipe");
    run.window = how >= WITH_KEYS ? open_window(terminal, sizeof terminal) : -1;
    if (how == IN_TERMINAL) {
        close(out[0]);
        out[0] = dup(run.window);
    }
    fflush(stdout);
    run.id = fork();
    must(run.id >= 0, "fork");
    if (run.id == 0) {
        close(out[0]);
        close(err[0]);
        close(run.window);
        become(how, terminal, out[1], err[1]);
        close(out[1]);
        close(err[1]);
        execv(program, copies);
        _exit(127);
    }
    close(out[1]);
    close(err[1]);
    run.out = out[0];
    run.err = err[0];
    run.name[0] = '\0';
    return run;
}

Run start_named(int how, const char *const *arguments)
{
    Run run = start(how, arguments);
    const char *line = read_until(run.out, "\n");
    snprintf(run.name, sizeof run.name, "%.*s", (int)strcspn(line, "\r\n"), line);
    CHECK_CONTAINS(run.name, "/dev/");
    return run;
}

static int is_ready(int file, short events)
{
    struct pollfd wanted = {file, events, 0};
    int count;
    do
        count = poll(&wanted, 1, LIMIT);
    while (count < 0 && errno == EINTR);
    return count > 0;
}

// One byte, so that nothing behind a line is taken away with it.
static int read_byte(int file, char *byte)
{
    return is_ready(file, POLLIN) && read(file, byte, 1) == 1;
}

const char *read_until(int file, const char *part)
{
    static char text[TEXT];
    size_t length = 0, end = strlen(part);
    while (length + 1 < sizeof text && read_byte(file, text + length)) {
        length++;
        if (length >= end && memcmp(text + length - end, part, end) == 0)
            break;
    }
    text[length] = '\0';
    return text;
}

// Whether the file has ended; that of a terminal which nobody has open gives an error.
static int read_rest(int file, char *text)
{
    size_t length = 0;
    int ready;
    ssize_t count = 1;
    while ((ready = is_ready(file, POLLIN)) && (count = read(file, text + length, TEXT - 1 - length)) > 0)
        length += (size_t)count;
    text[length] = '\0';
    return ready;
}

void finish(Run *run)
{
    int status, ended = read_rest(run->out, ending.out);
    if (!ended || !read_rest(run->err, ending.err))
        kill(run->id, SIGKILL);
    waitpid(run->id, &status, 0);
    ending.status = WIFEXITED(status) ? WEXITSTATUS(status) : -1;
    close(run->out);
    close(run->err);
}

void end_by(Run *run, int signal)
{
    kill(run->id, signal);
    finish(run);
}

int open_line(const char *name)
{
    struct termios settings;
    int line = open(name, O_RDWR | O_NOCTTY);
    must(line >= 0 && tcgetattr(line, &settings) == 0, name);
    settings.c_iflag &= ~(tcflag_t)(BRKINT | ICRNL | INLCR | IGNCR | ISTRIP | IXON | IXOFF | PARMRK);
    settings.c_oflag &= ~(tcflag_t)OPOST;
    settings.c_lflag &= ~(tcflag_t)(ECHO | ECHONL | ICANON | ISIG | IEXTEN);
    settings.c_cflag = CS8 | CREAD | CLOCAL;
    cfsetispeed(&settings, B19200);
    cfsetospeed(&settings, B19200);
    must(tcsetattr(line, TCSANOW, &settings) == 0, name);
    return line;
}

void send_bytes(int line, const uint8_t *bytes, size_t count)
{
    while (count > 0) {
        ssize_t written = is_ready(line, POLLOUT) ? write(line, bytes, count) : -1;
        must(written > 0, "the line takes no bytes");
        bytes += written;
        count -= (size_t)written;
    }
}

size_t receive_bytes(int line, uint8_t *bytes, size_t count)
{
    size_t length = 0;
    ssize_t got = 1;
    for (; length < count && got > 0; length += got > 0 ? (size_t)got : 0)
        got = is_ready(line, POLLIN) ? read(line, bytes + length, count - length) : -1;
    return length;
}

void check_reply(const char *file, int at, int line, const uint8_t *bytes, size_t count)
{
    uint8_t got[256];
    size_t i, length = receive_bytes(line, got, count);
    check(file, at, "length of a reply", (long)count, (long)length);
    for (i = 0; i < length; i++)
        check(file, at, "reply", bytes[i], got[i]);
}

void settle(int line)
{
    SEND(line, 254, 52, 'S', 'N');
    EXPECT(line, 'S', 'N');
    SEND(line, 254, 52, 'X', 'Y');
    EXPECT(line, 'S', 'N');
}

void upload_bitmap(int line, uint8_t n)
{
    static const uint8_t bitmap[] = {3, 1, 0xA0};
    size_t i;
    SEND(line, 254, 94, n, sizeof bitmap, 0);
    EXPECT(line, 1);
    for (i = 0; i < sizeof bitmap; i++) {
        SEND(line, bitmap[i]);
        EXPECT(line, bitmap[i]);
        SEND(line, 1);
    }
}
