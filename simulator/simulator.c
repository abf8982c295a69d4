// Start, the loop over wire, store, picture and keys, and the end.
#define _XOPEN_SOURCE 700

#include "simulator.h"

#include <errno.h>
#include <fcntl.h>
#include <signal.h>
#include <stdio.h>
#include <string.h>
#include <sys/select.h>
#include <time.h>
#include <unistd.h>

static Port port;
static StoreFile store;
static Terminal terminal;
static Options options;
static int live; // the picture is shown as it changes, and not at the end
static uint32_t obeyed_at; // when the display last had anything to do
static volatile sig_atomic_t ended, png_wanted;

static void catch_end(int number)
{
    (void)number;
    ended = 1;
}

static void catch_request(int number)
{
    png_wanted |= number == SIGUSR1;
}

// What the caller has had ignored stays so, as nohup asks for.
static void on_signal(int number, void (*handler)(int))
{
    struct sigaction action;
    sigaction(number, NULL, &action);
    if (action.sa_handler == SIG_IGN)
        return;
    memset(&action, 0, sizeof action);
    action.sa_handler = handler;
    sigemptyset(&action.sa_mask);
    sigaction(number, &action, NULL);
}

static void catch_signals(void)
{
    static const int ends[] = {SIGINT, SIGTERM, SIGHUP, SIGQUIT};
    size_t i;
    for (i = 0; i < sizeof ends / sizeof *ends; i++)
        on_signal(ends[i], catch_end);
    on_signal(SIGUSR1, catch_request);
    on_signal(SIGWINCH, catch_request);
    on_signal(SIGPIPE, SIG_IGN);
}

// A file opened later must not take the place of one of the first three.
static int open_standard_files(void)
{
    int number, closed = 0;
    for (number = 0; number < 3; number++) {
        if (fcntl(number, F_GETFD) >= 0)
            continue;
        closed |= number == STDOUT_FILENO;
        if (open("/dev/null", O_RDWR) < 0)
            return -1;
    }
    if (closed)
        report("standard output is closed");
    return closed ? -1 : 0;
}

// The board's clock, in milliseconds. In a replay it stands still: a file does not say when its bytes came.
static uint32_t clock_now(void)
{
    struct timespec now = {0, 0};
    if (options.replay == NULL)
        clock_gettime(CLOCK_MONOTONIC, &now);
    return (uint32_t)((uint64_t)now.tv_sec * 1000 + (uint64_t)now.tv_nsec / 1000000);
}

static int start(PortSend *send)
{
    uint32_t answer;
    if (store_open(&store, options.store) < 0)
        return -1;
    answer = port_start(&port, options.height, options.edition, store.bytes, store.length, send, &terminal,
                        clock_now());
    if (answer == DISPLAY_BAD_STORE_SIZE)
        report("%s is no store: it must have %u to %u bytes", store.path, DISPLAY_STORE_LEAST, DISPLAY_STORE_MOST);
    else if (answer == DISPLAY_BAD_DIRECTORY)
        report("%s is no store: its first %u bytes break the rules of a directory", store.path, DISPLAY_DIRECTORY_SIZE);
    if (answer != DISPLAY_OK)
        return -1;
    if (store.path != NULL && file_can_save(store.path) < 0)
        return -1;
    return options.png != NULL ? png_can_save(options.png) : 0;
}

// One round of the driver.
static int poll_port(uint32_t now)
{
    uint32_t answer = port_poll(&port, now);
    if (answer == DISPLAY_OK)
        return 0;
    report("the port driver has stopped with answer %lu", (unsigned long)answer);
    return -1;
}

// Bytes are only read while they find room in the queue; the others wait in the file or the terminal.
static size_t room(void)
{
    size_t waiting = port_waiting(&port);
    return waiting < DISPLAY_QUEUE_CAPACITY ? DISPLAY_QUEUE_CAPACITY - waiting : 0;
}

static void receive(const uint8_t *bytes, size_t count)
{
    size_t i;
    for (i = 0; i < count; i++)
        port_receive(&port, bytes[i]);
}

static size_t throw_away(void *wire, const uint8_t *bytes, size_t count)
{
    (void)wire;
    (void)bytes;
    return count;
}

static int replay(const char *path)
{
    uint8_t bytes[DISPLAY_QUEUE_CAPACITY];
    int file = strcmp(path, "-") == 0 ? STDIN_FILENO : open(path, O_RDONLY);
    ssize_t count = 1;
    while (file >= 0 && !ended && (count > 0 || port_waiting(&port) > 0)) {
        if (count > 0)
            count = read(file, bytes, room());
        if (count > 0)
            receive(bytes, (size_t)count);
        if (count < 0 && errno == EINTR)
            count = 1;
        if (poll_port(clock_now()) < 0)
            return -1;
    }
    if (file >= 0 && (count >= 0 || ended))
        return 0;
    report("cannot read %s: %s", path, strerror(errno));
    return -1;
}

static void save_png(void)
{
    if (options.png == NULL)
        report("no --png FILE was given");
    else if (png_save(options.png, port.framebuffer, options.height) == 0)
        report("wrote %s", options.png);
}

// Until the terminal can go on, a key is pressed, a signal comes or so many milliseconds are over, -1 for no limit.
static void wait_for_work(int milliseconds, const sigset_t *signals)
{
    struct timespec limit = {milliseconds / 1000, milliseconds % 1000 * 1000000L};
    fd_set readable, writable;
    FD_ZERO(&readable);
    FD_ZERO(&writable);
    if (room() > 0)
        FD_SET(terminal.master, &readable);
    if (terminal.blocked)
        FD_SET(terminal.master, &writable);
    if (keys_are_open())
        FD_SET(STDIN_FILENO, &readable);
    if (pselect(terminal.master + 1, &readable, &writable, NULL, milliseconds < 0 ? NULL : &limit, signals) > 0 &&
        FD_ISSET(STDIN_FILENO, &readable)) {
        int key = keys_read();
        ended |= key == 'q';
        png_wanted |= key == 'p';
        screen_scroll(key);
    }
}

// No longer than until an upload would be dropped: if one is under way, its last byte was obeyed when the display last
// had anything to do.
static int limited(int patience, uint32_t now)
{
    uint32_t idle = now - obeyed_at;
    int limit = idle < DISPLAY_UPLOAD_TIMEOUT ? (int)(DISPLAY_UPLOAD_TIMEOUT - idle) : -1;
    return patience < 0 || (0 <= limit && limit < patience) ? limit : patience;
}

// One round of everything. Sets `*patience` to the milliseconds for which there is nothing to do.
static int serve_round(int *patience)
{
    uint8_t bytes[DISPLAY_QUEUE_CAPACITY];
    size_t count, waiting;
    uint32_t now = clock_now();
    if (terminal_read(&terminal, bytes, room(), &count) < 0)
        return -1;
    receive(bytes, count);
    waiting = port_waiting(&port);
    terminal.sent = 0;
    if (poll_port(now) < 0)
        return -1;
    if (store_directory_changed(&store))
        store_save(&store);
    if (png_wanted)
        save_png();
    png_wanted = 0;
    ended |= screen_update(&port, patience) < 0;
    if (count > 0 || terminal.sent > 0 || port_waiting(&port) != waiting) {
        obeyed_at = now;
        *patience = 0;
    }
    *patience = limited(*patience, now);
    return 0;
}

// Signals strike while it waits and at no other time.
static int serve(void)
{
    sigset_t all, before;
    int patience, result = 0;
    sigfillset(&all);
    sigprocmask(SIG_BLOCK, &all, &before);
    while (!ended && result == 0) {
        result = serve_round(&patience);
        if (result == 0)
            wait_for_work(patience, &before);
    }
    sigprocmask(SIG_SETMASK, &before, NULL);
    return result;
}

static int serve_terminal(void)
{
    int result;
    if (terminal_open(&terminal) < 0)
        return -1;
    if (puts(terminal.name) < 0 || fflush(stdout) != 0) {
        report("cannot write to standard output: %s", strerror(errno));
        return -1;
    }
    keys_open();
    live = screen_is_possible();
    if (live)
        screen_open(terminal.name, &options);
    result = serve();
    screen_close();
    keys_close();
    return result;
}

// The store comes first, since writing the picture may fail or wait. After a failure there is no picture to show.
static int finish(int failed)
{
    int shown = !failed;
    if (port.answer == DISPLAY_OK && store_save(&store) < 0)
        failed = 1;
    if (shown && options.png != NULL && png_save(options.png, port.framebuffer, options.height) < 0)
        failed = 1;
    if (shown && !live && view_print(&port, options.blocks) < 0)
        failed = 1;
    return failed ? FAILED : DONE;
}

int main(int count, char **arguments)
{
    options = read_options(count, arguments);
    catch_signals();
    if (open_standard_files() < 0 || start(options.replay != NULL ? throw_away : terminal_send) < 0)
        return FAILED;
    return finish((options.replay != NULL ? replay(options.replay) : serve_terminal()) < 0);
}
