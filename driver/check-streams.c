// Random streams through the port driver. Bytes come in any clusters, also during calls, the host reads by fits and
// starts, and the clock goes on or stands still; framebuffer, store, state record and replies must be those of one feed
// of the whole stream.
#include "check-wire.h"

enum { STREAMS = 150, LENGTH = 3000 };

static uint64_t seed;
static Bytes stream;
static size_t received; // bytes of the stream

static unsigned below(unsigned limit)
{
    seed ^= seed << 13;
    seed ^= seed >> 7;
    seed ^= seed << 17;
    return (unsigned)(seed >> 33) % limit;
}

static void add(unsigned byte)
{
    stream.bytes[stream.count++] = (uint8_t)byte;
}

// Mostly small numbers, so that files are found again and corners are on the screen.
static void add_arguments(unsigned count)
{
    while (count-- > 0)
        add(below(4) > 0 ? below(12) : below(256));
}

// Of a file, mostly a small one.
static void add_number(void)
{
    unsigned number = below(8) > 0 ? below(6) : below(2) > 0 ? 250 + below(12) : 1020 + below(8);
    add(number % 256);
    if (edition == DISPLAY_NEWER_EDITION)
        add(number / 256);
}

static void add_file_command(void)
{
    add(COMMAND);
    switch (below(3)) {
    case 0:
        add(FONT);
        add_number();
        break;
    case 1:
        add(SHOW_BITMAP);
        add_number();
        add_arguments(2);
        break;
    default:
        add(DELETE_FILE);
        add(below(3));
        add_number();
    }
}

// A file of few bytes, every one confirmed but for the one that breaks an upload off.
static void add_upload(void)
{
    unsigned i, size = 1 + below(20);
    add(COMMAND);
    add(below(3) > 0 ? UPLOAD_BITMAP : UPLOAD_FONT);
    add_number();
    add(size);
    for (i = edition == DISPLAY_NEWER_EDITION ? 3 : 1; i > 0; i--)
        add(0);
    for (i = 0; i < size; i++) {
        add(i < 2 ? 1 + below(5) : below(256));
        add(below(50) > 0 ? CONFIRM : 0);
    }
}

static void add_command(void)
{
    static const uint8_t commands[][2] = {
        {PURGE, 2}, {METRICS, 5}, {SERIAL_NUMBER, 2}, {SERIAL_NUMBER, 2}, {FLOW_ON, 2}, {FLOW_ON, 2}, {FLOW_OFF, 0},
        {CONTRAST, 1}, {CLEAR, 0}, {BITMAP_IN_LINE, 4}, {SET_BAR, 6}, {WRITE_BAR, 2}, {SET_STRIP, 5}, {SHIFT_STRIP, 1},
        {LINE, 4}, {PIXEL, 2}, {RECTANGLE, 5}, {TEXT_POINT, 2}, {COMMAND, 0}
    };
    const uint8_t *command = commands[below(sizeof commands / sizeof *commands)];
    add(COMMAND);
    add(command[0]);
    add_arguments(command[1]);
}

static void make_stream(void)
{
    stream.count = 0;
    while (stream.count < LENGTH) {
        unsigned kind = below(10);
        if (kind < 3)
            add_upload();
        else if (kind < 7)
            add_command();
        else if (kind < 8)
            add_file_command();
        else
            add(below(2) > 0 ? ' ' + below(95) : below(256));
    }
}

static void receive_some(unsigned most)
{
    unsigned count = below(most + 1);
    while (count-- > 0 && received < stream.count && port_waiting(&port) < DISPLAY_QUEUE_CAPACITY)
        port_receive(&port, stream.bytes[received++]);
}

static void strike(void)
{
    receive_some(below(8) == 0 ? 3 : 0);
}

// `cluster`: bytes that come between two rounds at most. `pace`: bytes that the host reads in a round at most. `tick`:
// milliseconds that pass between two rounds at most. In every `pause` rounds there is one as long as a host may take.
static void run_through_driver(unsigned cluster, unsigned pace, unsigned tick, unsigned pause)
{
    unsigned rounds;
    received = 0;
    interrupt = strike;
    for (rounds = 0; received < stream.count && rounds < 100 * LENGTH; rounds++) {
        receive_some(cluster);
        allowance = below(3) > 0 ? below(pace + 1) : 0;
        if (poll_after(pause > 0 && below(pause) == 0 ? DISPLAY_UPLOAD_TIMEOUT : below(tick + 1)) != DISPLAY_OK)
            return;
    }
    CHECK("bytes of the stream received", stream.count, received);
    interrupt = NULL;
    allowance = WIRE;
    drain();
}

static const unsigned clusters[] = {1, 7, 80}, paces[] = {1, 4, 100}, ticks[] = {0, 1, 3};

// At the end an upload that is still under way is dropped on both sides, and with it what it has waited.
static void check_stream(display_length store_length)
{
    static uint8_t framebuffer[PORT_FRAMEBUFFER_SIZE], files[sizeof store], state[DISPLAY_STATE_RECORD_SIZE];
    static uint8_t sent[WIRE];
    display_length consumed, replied, dropped;
    make_stream();
    now = below(2) > 0 ? UINT32_MAX - below(1000) : below(1000);
    fresh();
    CHECK("start", DISPLAY_OK, start(store_length));
    memcpy(framebuffer, port.framebuffer, sizeof framebuffer);
    memcpy(files, store, sizeof files);
    memcpy(state, port.state, sizeof state);
    CHECK("one feed", DISPLAY_OK, __real_display_feed(framebuffer, height * DISPLAY_STRIDE, files, store_length, state,
                                                      sizeof state, stream.bytes, stream.count, sent, sizeof sent,
                                                      &consumed, &replied));
    CHECK("one time", DISPLAY_OK, __real_display_time(framebuffer, height * DISPLAY_STRIDE, files, store_length, state,
                                                      sizeof state, DISPLAY_UPLOAD_TIMEOUT, sent + replied,
                                                      sizeof sent - (size_t)replied, &dropped));
    run_through_driver(clusters[below(3)], paces[below(3)], ticks[below(3)], 0);
    poll_after(DISPLAY_UPLOAD_TIMEOUT);
    drain();
    CHECK("framebuffer", 0, memcmp(framebuffer, port.framebuffer, sizeof framebuffer) != 0);
    CHECK("store", 0, memcmp(files, store, sizeof files) != 0);
    CHECK("state", 0, memcmp(state, port.state, sizeof state) != 0);
    CHECK_BYTES("replies", &replies, sent, (size_t)(replied + dropped));
    CHECK("lost", 0, display_lost_count(port.queue) + port.overruns);
}

// A stream that its host leaves lying now and then, so that uploads are dropped wherever they stand.
static unsigned dropped_of_stream(void)
{
    size_t i;
    unsigned dropped = 0;
    make_stream();
    fresh();
    run_through_driver(clusters[below(3)], paces[below(3)], 3, 20);
    CHECK_BYTES("bytes obeyed", &obeyed, stream.bytes, stream.count);
    CHECK("lost", 0, display_lost_count(port.queue) + port.overruns);
    for (i = 1; i < replies.count; i++)
        dropped += replies.bytes[i - 1] == ERROR_PREFIX && replies.bytes[i] == UPLOAD_TIMED_OUT;
    return dropped;
}

// In the last eight rows of the glass.
static int is_painted(void)
{
    size_t i;
    for (i = (height - 8) * DISPLAY_STRIDE; i < height * DISPLAY_STRIDE; i++)
        if (port.framebuffer[i] != 0)
            return 1;
    return 0;
}

void check_streams(void)
{
    unsigned i, starved = 0, painted = 0, dropped = 0;
    for (i = 1; i <= STREAMS; i++) {
        seed = i * 0x9E3779B97F4A7C15u;
        edition = i % 2 > 0 ? DISPLAY_OLDER_EDITION : DISPLAY_NEWER_EDITION;
        check_stream(DISPLAY_STORE_LEAST + below(DISPLAY_STORE_MOST - DISPLAY_STORE_LEAST));
        starved += answers[DISPLAY_NO_REPLY_ROOM] > 0;
        painted += is_painted();
        dropped += dropped_of_stream() > 0;
    }
    edition = DISPLAY_OLDER_EDITION;
    CHECK("streams that ran out of reply room", 1, starved > 0);
    CHECK("streams that painted down to the end", 1, painted > STREAMS / 10);
    CHECK("streams with an upload that was dropped", 1, dropped > STREAMS / 10);
}
