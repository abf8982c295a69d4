// Checks the signals of flow control on their way through the port driver.
#include "check-wire.h"

enum { FULL = DISPLAY_SIGNAL_ALMOST_FULL, EMPTY = DISPLAY_SIGNAL_ALMOST_EMPTY };

// An upload with signals. All of it has come before the first take, so 254 is ahead of all replies. 255 is given by the
// take that leaves 39 bytes: behind the replies of the pieces fed before that take, ahead of the others.
static void check_order(void)
{
    enum { TAKES = HEADER + 2 * DATA - 39, FED = (TAKES - 1) / PIECE * PIECE, ECHOED = (FED - HEADER + 1) / 2 };
    uint8_t expected[3 + DATA] = {FULL, ACCEPTED};
    size_t i, pace, count = 2;
    for (i = 0; i < DATA; i++) {
        if (i == ECHOED)
            expected[count++] = EMPTY;
        expected[count++] = (uint8_t)(100 + i);
    }
    for (pace = 1; pace <= PORT_TRANSMIT_SIZE; pace++) {
        fresh();
        RECEIVE(COMMAND, FLOW_ON, 40, 39);
        drain();
        allowance = 0;
        receive_upload();
        for (i = 0; i < 100; i++) {
            poll();
            allowance = pace;
        }
        drain();
        CHECK_BYTES("signals among replies", &host, expected, sizeof expected);
    }
}

// Thresholds 79 and 0: a byte that comes to an empty queue gives 254, and the take that empties it 255. Bytes come in
// clusters while the host reads nothing, until a take has no room; the 254 after it needs the byte that is kept free.
// Then the host reads at its pace.
static void check_kept_room(size_t cluster, size_t pace)
{
    static const uint8_t commands[] = {COMMAND, SERIAL_NUMBER, 'S', 'N'};
    size_t i, signals = 0;
    fresh();
    RECEIVE(COMMAND, FLOW_ON, 79, 0);
    drain();
    allowance = 0;
    for (i = 0; i < QUEUE; i++) {
        receive(commands + i % sizeof commands, 1);
        if (i % cluster == 0)
            CHECK("round", DISPLAY_OK, poll());
    }
    for (i = 0; i < 2 * QUEUE; i++) {
        allowance = pace;
        poll();
    }
    allowance = WIRE;
    drain();
    CHECK("replies", QUEUE / 2, replies.count);
    for (i = 0; i < host.count; i++)
        if (host.bytes[i] >= FULL)
            CHECK("254 and 255 in turn", signals++ % 2 == 0 ? FULL : EMPTY, host.bytes[i]);
    CHECK("255 at last", 0, signals % 2);
    CHECK("254 sent", 1, signals > 0);
    CHECK("lost", 0, display_lost_count(port.queue));
}

static void check_every_kept_room(void)
{
    size_t cluster, pace;
    for (cluster = 1; cluster <= PIECE + 1; cluster++)
        for (pace = 1; pace <= 8; pace++)
            check_kept_room(cluster, pace);
}

// So many characters come at once. 254 is given if they leave at most `full` bytes free, 255 in the round whose takes
// leave at most `empty` in the queue.
static void check_signals_at(unsigned full, unsigned empty, unsigned count)
{
    unsigned i, held = count, marked = count > 0 && QUEUE - count <= full;
    size_t expected = marked;
    fresh();
    RECEIVE(COMMAND, FLOW_ON, (uint8_t)full, (uint8_t)empty);
    drain();
    for (i = 0; i < count; i++)
        RECEIVE('A');
    while (held > 0) {
        poll();
        held -= held < PIECE ? held : PIECE;
        expected += marked && held <= empty;
        marked = marked && held > empty;
        CHECK("signals so far", expected, host.count);
    }
    if (expected > 0)
        CHECK_BYTES("signals", &host, BYTES(FULL, EMPTY));
}

static void check_signals(void)
{
    static const uint8_t thresholds[][2] = {{10, 5}, {79, 0}, {40, 39}, {0, 79}, {0, 0}, {1, 78}, {39, 40}};
    unsigned i, count;
    for (i = 0; i < sizeof thresholds / sizeof *thresholds; i++)
        for (count = 0; count <= QUEUE; count++)
            check_signals_at(thresholds[i][0], thresholds[i][1], count);
    fresh();
    RECEIVE(COMMAND, FLOW_ON, 40, 40);
    drain();
    CHECK("thresholds too large", DISPLAY_REFUSED_BAD_WATERMARKS, display_last_refusal(port.state));
    for (i = 0; i < QUEUE; i++)
        RECEIVE('A');
    drain();
    CHECK("signals with flow off", 0, host.count);
}

// Flow control is turned off while the mark is up: no 255, and the mark is down when it is on again.
static void check_flow_off(void)
{
    unsigned i;
    fresh();
    RECEIVE(COMMAND, FLOW_ON, 40, 39);
    drain();
    RECEIVE(COMMAND, FLOW_OFF);
    for (i = 2; i < QUEUE; i++)
        RECEIVE('A');
    drain();
    CHECK_BYTES("254 alone", &host, BYTES(FULL));
    RECEIVE(COMMAND, FLOW_ON, 40, 39);
    drain();
    for (i = 0; i < 40; i++)
        RECEIVE('A');
    drain();
    CHECK_BYTES("254 again", &host, BYTES(FULL, FULL, EMPTY));
}

void check_flow(void)
{
    check_order();
    check_every_kept_room();
    check_signals();
    check_flow_off();
}
