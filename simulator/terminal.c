// The pseudo-terminal that clients open as a serial port.
#define _XOPEN_SOURCE 700

#include "simulator.h"

#include <errno.h>
#include <fcntl.h>
#include <stdlib.h>
#include <string.h>
#include <termios.h>
#include <unistd.h>

static int fail(const char *what)
{
    report("cannot %s the pseudo-terminal: %s", what, strerror(errno));
    return -1;
}

// Bytes as they are, both ways. The speed is the display's; a pseudo-terminal does not keep to it.
static int make_raw(int file)
{
    struct termios settings;
    if (tcgetattr(file, &settings) < 0)
        return -1;
    settings.c_iflag = 0;
    settings.c_oflag = 0;
    settings.c_lflag = 0;
    settings.c_cflag = CS8 | CREAD | CLOCAL;
    settings.c_cc[VMIN] = 1;
    settings.c_cc[VTIME] = 0;
    cfsetispeed(&settings, B19200);
    cfsetospeed(&settings, B19200);
    return tcsetattr(file, TCSANOW, &settings);
}

// The slave side is kept open too, so that the master sees no hangup when a client closes it.
int terminal_open(Terminal *terminal)
{
    terminal->master = posix_openpt(O_RDWR | O_NOCTTY);
    if (terminal->master < 0 || grantpt(terminal->master) < 0 || unlockpt(terminal->master) < 0)
        return fail("open");
    terminal->name = ptsname(terminal->master);
    if (terminal->name == NULL)
        return fail("name");
    terminal->slave = open(terminal->name, O_RDWR | O_NOCTTY);
    if (terminal->slave < 0 || make_raw(terminal->slave) < 0)
        return fail("set up");
    if (fcntl(terminal->master, F_SETFL, O_NONBLOCK) < 0)
        return fail("set up");
    return 0;
}

int terminal_read(Terminal *terminal, uint8_t *bytes, size_t most, size_t *length)
{
    ssize_t count = most > 0 ? read(terminal->master, bytes, most) : 0;
    *length = count > 0 ? (size_t)count : 0;
    return count < 0 && errno != EAGAIN && errno != EINTR ? fail("read") : 0;
}

size_t terminal_send(void *wire, const uint8_t *bytes, size_t count)
{
    Terminal *terminal = wire;
    ssize_t written = write(terminal->master, bytes, count);
    size_t accepted = written > 0 ? (size_t)written : 0;
    terminal->sent += accepted;
    terminal->blocked = accepted < count;
    return accepted;
}
