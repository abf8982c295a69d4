// Files read and replaced whole.
#define _XOPEN_SOURCE 700

#include "simulator.h"

#include <errno.h>
#include <fcntl.h>
#include <limits.h>
#include <stdio.h>
#include <stdlib.h>
#include <string.h>
#include <sys/stat.h>
#include <unistd.h>

static int fail(const char *what, const char *path)
{
    report("cannot %s %s: %s", what, path, strerror(errno));
    return -1;
}

// Only regular files are read or replaced: a device or a pipe that is named by mistake stays what it is.
static int is_regular(const char *path, const struct stat *status)
{
    if (S_ISREG(status->st_mode))
        return 1;
    report("%s is not a regular file", path);
    return 0;
}

static int read_open(int file, const char *path, uint8_t *bytes, size_t most, size_t *length)
{
    struct stat status;
    ssize_t count = 1;
    if (fstat(file, &status) < 0)
        return fail("read", path);
    if (!is_regular(path, &status))
        return -1;
    for (*length = 0; *length < most && count > 0; *length += (size_t)count) {
        count = read(file, bytes + *length, most - *length);
        if (count < 0)
            return fail("read", path);
    }
    return 0;
}

int file_read(const char *path, uint8_t *bytes, size_t most, size_t *length)
{
    int result, file = open(path, O_RDONLY | O_NONBLOCK | O_NOCTTY | O_CLOEXEC);
    if (file < 0)
        return errno == ENOENT ? 1 : fail("read", path);
    result = read_open(file, path, bytes, most, length);
    close(file);
    return result;
}

// A new file beside the one to be replaced, with the mode that it has or would get.
static int open_temporary(const char *path, char *temporary)
{
    struct stat status;
    mode_t mask = umask(0), mode = 0666 & ~mask;
    int file;
    umask(mask);
    if (stat(path, &status) == 0) {
        if (!is_regular(path, &status))
            return -1;
        if (access(path, W_OK) < 0)
            return fail("write", path);
        mode = status.st_mode & 0777;
    }
    if (snprintf(temporary, PATH_MAX, "%s.XXXXXX", path) >= PATH_MAX) {
        errno = ENAMETOOLONG;
        return fail("write", path);
    }
    file = mkstemp(temporary);
    if (file < 0)
        return fail("write", path);
    fchmod(file, mode);
    return file;
}

static int write_all(int file, const uint8_t *bytes, size_t length)
{
    while (length > 0) {
        ssize_t count = write(file, bytes, length);
        if (count < 0 && errno != EINTR)
            return -1;
        if (count > 0) {
            bytes += count;
            length -= (size_t)count;
        }
    }
    return fsync(file);
}

int file_save(const char *path, const uint8_t *bytes, size_t length)
{
    char temporary[PATH_MAX];
    int error = 0, file = open_temporary(path, temporary);
    if (file < 0)
        return -1;
    if (write_all(file, bytes, length) < 0)
        error = errno;
    if (close(file) < 0 && error == 0)
        error = errno;
    if (error == 0 && rename(temporary, path) == 0)
        return 0;
    errno = error != 0 ? error : errno;
    fail("write", path);
    unlink(temporary);
    return -1;
}

int file_can_save(const char *path)
{
    char temporary[PATH_MAX];
    int file = open_temporary(path, temporary);
    if (file < 0)
        return -1;
    close(file);
    unlink(temporary);
    return 0;
}
