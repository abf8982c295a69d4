// Checks how the simulator ends: wrong options, files that are no store or no picture, signals, output that nobody
// reads. A file that it does not understand stays as it is; a store that has changed is saved.
#define _XOPEN_SOURCE 700

#include "check-client.h"

#include <dirent.h>
#include <fcntl.h>
#include <signal.h>
#include <stdio.h>
#include <string.h>
#include <sys/stat.h>
#include <unistd.h>

static void check_fails(const char *file, int line, int how, int status, const char *message,
                        const char *const *arguments)
{
    Run run = start(how, arguments);
    finish(&run);
    check(file, line, "exit status", status, ending.status);
    check_contains(file, line, ending.err, "simulator: ");
    check_contains(file, line, ending.err, message);
    check(file, line, "nothing on standard output", 0, ending.out[0]);
}
#define FAILS(how, status, message, ...) \
    check_fails(__FILE__, __LINE__, how, status, message, (const char *const[]){__VA_ARGS__, NULL})

static void check_usage(void)
{
    static const char *const heights[] = {"", "0", "63", "65", "127", "129", "256", "320", "064", "0128", "+64", " 64",
                                          "128 ", "128x", "64.0", "-128", "0x40", "4294967360", "low", "--png"};
    static const char *const editions[] = {"", "1", "2", "old", "new", "Newer", "OLDER", "newer ", " older", "newest",
                                           "older,newer", "--png"};
    size_t i;
    Run run;
    FAILS(PLAINLY, 2, "no such option: --colour", "--colour");
    FAILS(PLAINLY, 2, "no such option: stream", "stream");
    FAILS(PLAINLY, 2, "a file must follow --png", "--png");
    FAILS(PLAINLY, 2, "a file must follow --store", "--blocks", "--store");
    FAILS(PLAINLY, 2, "a file must follow --replay", "--replay");
    FAILS(PLAINLY, 2, "64 or 128 must follow --height", "--height");
    for (i = 0; i < sizeof heights / sizeof *heights; i++) {
        FAILS(PLAINLY, 2, "the height must be 64 or 128, not ", "--height", heights[i]);
        CHECK_CONTAINS(ending.err, heights[i]);
    }
    FAILS(PLAINLY, 2, "older or newer must follow --edition", "--height", "128", "--edition");
    for (i = 0; i < sizeof editions / sizeof *editions; i++) {
        FAILS(PLAINLY, 2, "the edition must be older or newer, not ", "--edition", editions[i]);
        CHECK_CONTAINS(ending.err, editions[i]);
    }
    FAILS(OUT_CLOSED, 1, "standard output is closed", "--blocks");
    FAILS(PLAINLY, 1, "cannot read missing: No such file", "--replay", "missing");
    FAILS(PLAINLY, 1, "cannot read folder: Is a directory", "--replay", "folder");
    run = START(PLAINLY, "--help");
    finish(&run);
    CHECK("exit status", 0, ending.status);
    CHECK_CONTAINS(ending.out, "usage: simulator");
    CHECK_CONTAINS(ending.out, "--height ROWS");
    CHECK_CONTAINS(ending.out, "--edition NAME");
}

// Temporary files, which have six characters behind a point.
static unsigned leftovers(void)
{
    DIR *folder = opendir(".");
    struct dirent *entry;
    unsigned count = 0;
    while (folder != NULL && (entry = readdir(folder)) != NULL) {
        const char *point = strrchr(entry->d_name, '.');
        count += point != NULL && strlen(point) == 7;
    }
    closedir(folder);
    return count;
}

static void check_bad_stores(void)
{
    static uint8_t bytes[DISPLAY_STORE_MOST + 1];
    struct stat status;
    write_file("long", bytes, sizeof bytes);
    write_file("short", bytes, DISPLAY_STORE_LEAST - 1);
    write_file("empty", bytes, 0);
    bytes[DISPLAY_DIRECTORY_SIZE - 1] = 1;
    write_file("broken", bytes, DISPLAY_STORE_LEAST);
    mkfifo("pipe", 0644);
    FAILS(PLAINLY, 1, "short is no store: it must have 1024 to 32768 bytes", "--store", "short");
    FAILS(PLAINLY, 1, "long is no store", "--store", "long");
    FAILS(PLAINLY, 1, "empty is no store", "--store", "empty");
    FAILS(PLAINLY, 1, "broken is no store: its first 256 bytes", "--store", "broken");
    FAILS(PLAINLY, 1, "broken is no store", "--replay", "stream", "--store", "broken");
    FAILS(PLAINLY, 1, "folder is not a regular file", "--store", "folder");
    FAILS(PLAINLY, 1, "pipe is not a regular file", "--store", "pipe");
    FAILS(PLAINLY, 1, "cannot write missing/store: No such file", "--store", "missing/store");
    FAILS(PLAINLY, 1, "cannot read short/store: Not a directory", "--store", "short/store");
    CHECK("pipe is still one", 1, stat("pipe", &status) == 0 && S_ISFIFO(status.st_mode));
    CHECK("broken unchanged", 1, file_is("broken", bytes, DISPLAY_STORE_LEAST));
    bytes[DISPLAY_DIRECTORY_SIZE - 1] = 0;
    CHECK("long unchanged", 1, file_is("long", bytes, sizeof bytes));
    CHECK("short unchanged", 1, file_is("short", bytes, DISPLAY_STORE_LEAST - 1));
    CHECK("empty unchanged", 1, file_is("empty", bytes, 0));
}

static void check_bad_pictures(void)
{
    static const uint8_t bytes[DISPLAY_STORE_LEAST];
    write_file("notes", "no picture", 10);
    write_file("store", bytes, sizeof bytes);
    FAILS(PLAINLY, 1, "notes is there and is no PNG; it stays as it is", "--png", "notes");
    FAILS(PLAINLY, 1, "store is there and is no PNG", "--png", "store", "--store", "store");
    FAILS(PLAINLY, 1, "pipe is not a regular file", "--png", "pipe");
    FAILS(PLAINLY, 1, "cannot write missing/picture: No such file", "--png", "missing/picture");
    CHECK("notes unchanged", 1, file_is("notes", "no picture", 10));
    CHECK("store unchanged", 1, file_is("store", bytes, sizeof bytes));
}

// What belongs to others: a folder that cannot be written, a store that cannot be read or not be written.
static void check_permissions(void)
{
    static const uint8_t bytes[DISPLAY_STORE_LEAST];
    mkdir("locked", 0755);
    write_file("locked/store", bytes, sizeof bytes);
    chmod("locked", 0555);
    write_file("secret", bytes, sizeof bytes);
    chmod("secret", 0);
    mkdir("shared", 0755);
    chmod("shared", 0777);
    write_file("shared/store", bytes, sizeof bytes);
    chmod("shared/store", 0444);
    FAILS(AS_NOBODY, 1, "locked/store: Permission denied", "--store", "locked/store");
    FAILS(AS_NOBODY, 1, "cannot write locked/new: Permission denied", "--store", "locked/new");
    FAILS(AS_NOBODY, 1, "cannot write locked/picture: Permission denied", "--png", "locked/picture");
    FAILS(AS_NOBODY, 1, "secret: Permission denied", "--store", "secret");
    FAILS(AS_NOBODY, 1, "shared/store: Permission denied", "--store", "shared/store");
    CHECK("store unchanged", 1, file_is("locked/store", bytes, sizeof bytes));
    chmod("locked", 0755);
}

// The store is made in the first run and saved at once when its directory changes, so that even a killed simulator has
// not lost it. The second run shows the bitmap of the first, through a link.
static void check_two_runs(void)
{
    static const uint8_t empty[DISPLAY_STORE_MOST];
    static Picture picture;
    struct stat status;
    Run run = START_NAMED(PLAINLY, "--store", "files");
    int line = open_line(run.name);
    CHECK_CONTAINS(read_until(run.err, "\n"), "files did not exist; made it as an empty store of 32768 bytes");
    CHECK("a new store", 1, file_is("files", empty, sizeof empty));
    upload_bitmap(line, 7);
    settle(line);
    close(line);
    end_by(&run, SIGKILL);
    CHECK("store after the first run", 1, store_has_bitmap("files", 7));

    chmod("files", 0640);
    CHECK("link", 0, symlink("files", "link"));
    run = START_NAMED(PLAINLY, "--store", "link");
    line = open_line(run.name);
    SEND(line, 254, 98, 7, 10, 20, 254, 173, 1, 7);
    settle(line);
    upload_bitmap(line, 9);
    settle(line);
    close(line);
    end_by(&run, SIGTERM);
    CHECK("exit status", 0, ending.status);
    CHECK("nothing on standard error", 0, ending.err[0]);
    CHECK("picture", 1, read_braille(ending.out, &picture) != NULL);
    CHECK_PICTURE(&picture, LOW, {10, 20, 10, 20}, {12, 20, 12, 20});
    CHECK("store after the second run", 1, store_has_bitmap("files", 9));
    CHECK("link is still one", 1, lstat("link", &status) == 0 && S_ISLNK(status.st_mode));
    CHECK("mode of the store", 0640, stat("files", &status) == 0 ? (long)(status.st_mode & 0777) : -1);
}

// An upload that is broken off leaves a byte in free room, and the directory as it was: the store is saved at the end.
static uint8_t spoilt[DISPLAY_STORE_LEAST];

static Run start_and_spoil(int how)
{
    Run run;
    int line;
    spoilt[DISPLAY_DIRECTORY_SIZE] = 0;
    write_file("store", spoilt, sizeof spoilt);
    unlink("end.png");
    run = START_NAMED(how, "--store", "store", "--png", "end.png");
    line = open_line(run.name);
    SEND(line, 254, 112, 0, 0, 254, 94, 7, 9, 0, 'B', 1, 'C', 0);
    EXPECT(line, 1, 'B', 'C');
    settle(line);
    close(line);
    CHECK("store before the end", 1, file_is("store", spoilt, sizeof spoilt));
    spoilt[DISPLAY_DIRECTORY_SIZE] = 'B';
    return run;
}

static void check_saved(int status)
{
    CHECK("exit status", status, ending.status);
    CHECK("store saved", 1, file_is("store", spoilt, sizeof spoilt));
    CHECK_PNG("end.png", LOW, {0, 0, 0, 0});
}

static void check_signals(void)
{
    static const int signals[] = {SIGTERM, SIGINT, SIGHUP, SIGQUIT};
    size_t i;
    for (i = 0; i < sizeof signals / sizeof *signals; i++) {
        Run run = start_and_spoil(PLAINLY);
        end_by(&run, signals[i]);
        check_saved(0);
        CHECK("nothing on standard error", 0, ending.err[0]);
    }
}

// The store's folder is removed: one message at the change, one at the end, and the display goes on between them.
static void check_unsaved(void)
{
    const char *at;
    long messages = 0;
    Run run;
    int line;
    mkdir("passing", 0755);
    run = START_NAMED(PLAINLY, "--store", "passing/store");
    line = open_line(run.name);
    read_until(run.err, "\n");
    unlink("passing/store");
    CHECK("folder removed", 0, rmdir("passing"));
    upload_bitmap(line, 7);
    settle(line);
    settle(line);
    close(line);
    end_by(&run, SIGTERM);
    CHECK("exit status", 1, ending.status);
    for (at = ending.err; (at = strstr(at, "store: No such file")) != NULL; at++)
        messages++;
    CHECK("messages", 2, messages);
}

static void close_output(Run *run)
{
    close(run->out);
    close(run->window);
    run->out = open("/dev/null", O_RDONLY);
}

// The other end of the output goes away: a pipe's reader, or the window of a live picture, which is a hangup.
static void check_output_gone(void)
{
    Run run = start_and_spoil(PLAINLY);
    close_output(&run);
    end_by(&run, SIGTERM);
    check_saved(1);
    CHECK_CONTAINS(ending.err, "cannot write to standard output: Broken pipe");
    run = start_and_spoil(IN_TERMINAL);
    close_output(&run);
    finish(&run);
    check_saved(0);
}

void check_ends(void)
{
    mkdir("folder", 0755);
    check_usage();
    check_bad_stores();
    check_bad_pictures();
    check_permissions();
    check_two_runs();
    check_signals();
    check_unsaved();
    check_output_gone();
    CHECK("temporary files left over", 0, leftovers());
}
