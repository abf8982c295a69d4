// Checks the board's clock on its way through the port driver: each millisecond is handed in once, ahead of the bytes
// that came after it, and an upload that its host has left lying is dropped.
#include "check-wire.h"

enum { TIMEOUT = DISPLAY_UPLOAD_TIMEOUT };

// A round in which nothing has passed makes no call for it, and one in which something has makes one.
static void check_times(void)
{
    static const uint32_t steps[] = {1, 2, 7, 1000, TIMEOUT, 65536, 0x80000000, UINT32_MAX};
    unsigned i;
    fresh();
    for (i = 0; i < 100; i++)
        poll();
    RECEIVE('A', COMMAND, SERIAL_NUMBER, 'S', 'N');
    drain();
    CHECK("times while the clock stands still", 0, times);
    for (i = 0; i < sizeof steps / sizeof *steps; i++) {
        RECEIVE('A');
        poll_after(steps[i]);
        CHECK("times", i + 1, times);
        CHECK("milliseconds", steps[i], last_time);
        RECEIVE('A');
        poll();
        CHECK("times, once round later", i + 1, times);
    }
}

static void begin_upload(void)
{
    fresh();
    RECEIVE(COMMAND, UPLOAD_BITMAP, 7, 3, 0);
    drain();
    CHECK_BYTES("an upload", &host, BYTES(ACCEPTED));
}

static void check_goes_on(const char *what)
{
    CHECK(what, 1, host.count);
    CHECK(what, 0, display_refusal_count(port.state));
}

static void check_dropped(const char *what)
{
    CHECK_BYTES(what, &host, BYTES(ACCEPTED, ERROR_PREFIX, UPLOAD_TIMED_OUT));
    CHECK(what, 1, display_refusal_count(port.state));
    CHECK(what, DISPLAY_REFUSED_UPLOAD_ABORTED, display_last_refusal(port.state));
}

// In the round in which it is due, however the time comes.
static void check_dropped_by(uint32_t step)
{
    uint32_t passed = 0;
    begin_upload();
    while (step < TIMEOUT - passed) {
        passed += step;
        CHECK("round", DISPLAY_OK, poll_after(step));
        check_goes_on("not yet");
    }
    CHECK("round", DISPLAY_OK, poll_after(step));
    check_dropped("dropped");
    poll_after(step);
    check_dropped("dropped once");
}

static void check_steps(void)
{
    static const uint32_t steps[] = {1, 7, 100, 699, 700, 1050, 2099, 2100, 2101, 60000, 65536, UINT32_MAX};
    size_t i;
    for (i = 0; i < sizeof steps / sizeof *steps; i++)
        check_dropped_by(steps[i]);
}

// The clock begins anew while an upload waits.
static void check_wrap(void)
{
    static const uint32_t before[] = {0, 1, 2, 1000, TIMEOUT - 2, TIMEOUT - 1, TIMEOUT, TIMEOUT + 1};
    size_t i;
    for (i = 0; i < sizeof before / sizeof *before; i++) {
        now = 0 - before[i];
        begin_upload();
        poll_after(TIMEOUT - 1);
        check_goes_on("over the end of the clock");
        poll_after(1);
        check_dropped("over the end of the clock");
    }
    now = 0 - 1000u;
    check_dropped_by(1);
    now = 0;
}

// Data and confirmation each start anew, and all that comes in a round comes behind the time that has passed.
static void check_order(void)
{
    begin_upload();
    RECEIVE('-');
    poll_after(TIMEOUT - 1);
    CHECK_BYTES("in time", &host, BYTES(ACCEPTED, '-'));
    poll_after(TIMEOUT - 1);
    RECEIVE(CONFIRM);
    poll();
    poll_after(TIMEOUT - 1);
    RECEIVE('B', CONFIRM, 'C');
    poll();
    poll_after(TIMEOUT - 1);
    RECEIVE(CONFIRM);
    poll();
    CHECK_BYTES("in time to the end", &host, BYTES(ACCEPTED, '-', 'B', 'C'));
    CHECK("directory", 0, memcmp(store, BYTES(2, 7, 3, 0, 0)) != 0);

    begin_upload();
    RECEIVE('-');
    poll_after(TIMEOUT);
    check_dropped("too late");
    CHECK("what came too late is a character", 0xF0, port.framebuffer[3 * DISPLAY_STRIDE]);
}

// An upload stands still, since its host does not read: no room is left to hand in time.
static void stand_still(void)
{
    unsigned i;
    fresh();
    allowance = 0;
    receive_upload();
    for (i = 0; i < 100; i++)
        poll();
    CHECK("bytes that wait", 1, port_waiting(&port) > 0);
}

// Time is kept as long as there is no room, in any number of rounds, and then handed in at once. The host reads `pace`
// bytes in a round.
static void check_kept(uint32_t rounds, uint32_t step, size_t pace)
{
    size_t given, i;
    stand_still();
    given = replies.count;
    for (i = 0; i < rounds; i++)
        CHECK("round", DISPLAY_OK, poll_after(step));
    CHECK("times without room", 0, times);
    for (i = 0; times == 0 && i < PORT_TRANSMIT_SIZE; i++) {
        allowance = pace;
        CHECK("round", DISPLAY_OK, poll());
    }
    CHECK("times with room", 1, times);
    CHECK("milliseconds", rounds * step, last_time);
    allowance = WIRE;
    drain();
    CHECK("times", 1, times);
    if (rounds * step < TIMEOUT) {
        CHECK("replies", 1 + DATA, replies.count);
        CHECK("directory", 0, memcmp(store, BYTES(2, 7, DATA, 0, 0)) != 0);
    } else {
        CHECK("replies", given + 2, replies.count);
        CHECK("dropped", ERROR_PREFIX, replies.bytes[given]);
        CHECK("dropped", UPLOAD_TIMED_OUT, replies.bytes[given + 1]);
        CHECK("directory", 0, store[0]);
        CHECK("last refusal", DISPLAY_REFUSED_UPLOAD_ABORTED, display_last_refusal(port.state));
    }
}

// More than the number holds is no less than it holds.
static void check_kept_for_months(void)
{
    stand_still();
    poll_after(0x80000000);
    poll_after(0x80000000);
    allowance = WIRE;
    poll();
    CHECK("times", 1, times);
    CHECK("milliseconds", UINT32_MAX, last_time);
    CHECK("last refusal", DISPLAY_REFUSED_UPLOAD_ABORTED, display_last_refusal(port.state));
    poll();
    CHECK("times", 1, times);
}

// A time's replies find the transmit buffer as full as it may be, and the signal of an arrival comes behind them. The
// bytes that the wire gets are checked by drain.
static void check_room_left(unsigned commands, size_t reads)
{
    unsigned i;
    fresh();
    RECEIVE(COMMAND, FLOW_ON, 79, 0);
    drain();
    allowance = 0;
    for (i = 0; i < commands; i++) {
        RECEIVE(COMMAND, SERIAL_NUMBER, 'S', 'N');
        poll();
    }
    RECEIVE(COMMAND, UPLOAD_BITMAP, 7, 3, 0);
    poll();
    allowance = reads;
    for (i = 0; i < 3; i++) {
        poll_after(TIMEOUT);
        RECEIVE('A');
        poll();
    }
    allowance = WIRE;
    drain();
    CHECK("lost", 0, display_lost_count(port.queue));
}

static void check_rooms(void)
{
    unsigned commands;
    size_t reads;
    for (commands = 0; commands <= PORT_TRANSMIT_SIZE / 2; commands++)
        for (reads = 0; reads <= PORT_TRANSMIT_SIZE; reads++)
            check_room_left(commands, reads);
}

// Everything but an upload that is under way at a round's end.
static void make_rounds(uint32_t step)
{
    fresh();
    RECEIVE('A', 'B', COMMAND);
    poll_after(step);
    RECEIVE(RECTANGLE, 1, 2);
    poll_after(step);
    RECEIVE(1, 4, 2, COMMAND, SERIAL_NUMBER, 'S', 'N', COMMAND, BITMAP_IN_LINE, 0, 30, 15, 31, 0xFF);
    poll_after(step);
    RECEIVE(0xFF, 0xFF, 0xFF, COMMAND, UPLOAD_BITMAP, 7, 3, 0, 3, CONFIRM, 1, CONFIRM, 0xA0, CONFIRM);
    poll_after(step);
    RECEIVE(COMMAND, SHOW_BITMAP, 7, 40, 40, COMMAND, UPLOAD_BITMAP, 7, 3, 0, COMMAND, FONT, 9);
    poll_after(step);
    poll_after(step);
    drain();
}

// Outside uploads it does not show whether a clock runs.
static void check_unseen(void)
{
    static const uint32_t steps[] = {1, 999, TIMEOUT, UINT32_MAX};
    static Port standing;
    static uint8_t files[sizeof store];
    static Bytes heard;
    size_t i;
    make_rounds(0);
    CHECK("times while the clock stands still", 0, times);
    standing = port;
    heard = host;
    memcpy(files, store, sizeof files);
    CHECK("refused", 2, display_refusal_count(port.state));
    for (i = 0; i < sizeof steps / sizeof *steps; i++) {
        make_rounds(steps[i]);
        CHECK("times", 6, times);
        CHECK("framebuffer", 0, memcmp(standing.framebuffer, port.framebuffer, sizeof port.framebuffer) != 0);
        CHECK("state", 0, memcmp(standing.state, port.state, sizeof port.state) != 0);
        CHECK("queue", 0, memcmp(standing.queue, port.queue, sizeof port.queue) != 0);
        CHECK("store", 0, memcmp(files, store, sizeof files) != 0);
        CHECK_BYTES("sent", &host, heard.bytes, heard.count);
    }
}

void check_clock(void)
{
    size_t pace;
    check_times();
    check_steps();
    check_wrap();
    check_order();
    for (pace = 1; pace <= PORT_TRANSMIT_SIZE; pace += 7) {
        check_kept(TIMEOUT - 1, 1, pace);
        check_kept(TIMEOUT, 1, pace);
        check_kept(3, 699, pace);
        check_kept(3, 700, pace);
        check_kept(1, TIMEOUT, pace);
    }
    check_kept_for_months();
    check_rooms();
    check_unseen();
}
