// Checks the port driver: start, replies, a host that does not read, losses and faults.
#include "check-wire.h"

#include <stdio.h>

static void check_refused_start_as(uint32_t rows, uint32_t protocol, display_length length, uint32_t answer)
{
    static uint8_t before[sizeof store];
    static Port port_before;
    unsigned calls_before = calls;
    memcpy(before, store, sizeof store);
    port_before = port;
    CHECK("start", answer, start_as(rows, protocol, length));
    CHECK("framebuffer changed", 0, memcmp(port_before.framebuffer, port.framebuffer, sizeof port.framebuffer) != 0);
    CHECK("state changed", 0, memcmp(port_before.state, port.state, sizeof port.state) != 0);
    CHECK("queue changed", 0, memcmp(port_before.queue, port.queue, sizeof port.queue) != 0);
    RECEIVE('A');
    CHECK("round after a refused start", answer, poll_after(1));
    CHECK("calls after a refused start", 0, calls - calls_before);
    CHECK("sent after a refused start", 0, host.count);
    CHECK("store changed", 0, memcmp(before, store, sizeof store) != 0);
}

static void check_refused_start(uint32_t rows, display_length length, uint32_t answer)
{
    check_refused_start_as(rows, edition, length, answer);
}

static void check_start(void)
{
    fresh();
    check_refused_start(height, DISPLAY_STORE_LEAST - 1, DISPLAY_BAD_STORE_SIZE);
    check_refused_start(height, DISPLAY_STORE_MOST + 1, DISPLAY_BAD_STORE_SIZE);
    store[DISPLAY_DIRECTORY_SIZE - 1] = 1;
    check_refused_start(height, DISPLAY_STORE_LEAST, DISPLAY_BAD_DIRECTORY);
    store[DISPLAY_DIRECTORY_SIZE - 1] = 0;
    CHECK("start after the board has mended it", DISPLAY_OK, start(DISPLAY_STORE_LEAST));
    CHECK("bytes of before the start", 0, port_waiting(&port));
    CHECK("round", DISPLAY_OK, poll());
}

// The tall glass in a framebuffer of the low one is refused for its length. Unknown heights come before that, and both
// before the store.
static void check_heights(void)
{
    static const uint32_t unknown[] = {0, 63, 65, 127, 129, 255, 256, 320, 0x80000040, UINT32_MAX};
    size_t i;
    fresh();
    CHECK("height", height, display_height(port.state));
    CHECK("length of the glass", height * DISPLAY_STRIDE, (unsigned long)port.framebuffer_length);
    for (i = 0; i < sizeof unknown / sizeof *unknown; i++) {
        check_refused_start(unknown[i], DISPLAY_STORE_LEAST, DISPLAY_BAD_RECORD);
        check_refused_start(unknown[i], DISPLAY_STORE_LEAST - 1, DISPLAY_BAD_RECORD);
    }
    if (sizeof port.framebuffer < DISPLAY_TALL_FRAMEBUFFER_SIZE) {
        check_refused_start(DISPLAY_TALL_HEIGHT, DISPLAY_STORE_LEAST, DISPLAY_BAD_FRAMEBUFFER_SIZE);
        check_refused_start(DISPLAY_TALL_HEIGHT, DISPLAY_STORE_LEAST - 1, DISPLAY_BAD_FRAMEBUFFER_SIZE);
    }
    CHECK("start at the right one", DISPLAY_OK, start(DISPLAY_STORE_LEAST));
    RECEIVE(COMMAND, PIXEL, 0, (uint8_t)(height - 1), COMMAND, PIXEL, 1, (uint8_t)height);
    drain();
    CHECK("the last row", 0x80, port.framebuffer[(height - 1) * DISPLAY_STRIDE]);
}

// Unknown editions come behind the store's size and ahead of its directory.
static void check_editions(void)
{
    static const uint32_t unknown[] = {0, 3, 255, 256, 257, 258, 0x80000001, UINT32_MAX};
    static const uint32_t known[] = {DISPLAY_NEWER_EDITION, DISPLAY_OLDER_EDITION};
    size_t i;
    fresh();
    store[DISPLAY_DIRECTORY_SIZE - 1] = 1;
    for (i = 0; i < sizeof unknown / sizeof *unknown; i++) {
        check_refused_start_as(height, unknown[i], DISPLAY_STORE_LEAST, DISPLAY_BAD_RECORD);
        check_refused_start_as(height, unknown[i], DISPLAY_STORE_LEAST - 1, DISPLAY_BAD_STORE_SIZE);
    }
    store[DISPLAY_DIRECTORY_SIZE - 1] = 0;
    for (i = 0; i < sizeof known / sizeof *known; i++) {
        CHECK("start", DISPLAY_OK, start_as(height, known[i], DISPLAY_STORE_LEAST));
        CHECK("edition", known[i], display_edition(port.state));
    }
    CHECK("start", DISPLAY_OK, start_as(height, DISPLAY_NEWER_EDITION, DISPLAY_STORE_LEAST));
    RECEIVE(COMMAND, UPLOAD_BITMAP, 44, 1, 3, 0, 0, 0, 3, CONFIRM, 1, CONFIRM, 0xA0, CONFIRM);
    drain();
    CHECK_BYTES("replies of a newer upload", &host, BYTES(ACCEPTED, 3, 1, 0xA0));
    CHECK("directory", 0, memcmp(store, BYTES(4, 44, 1, 3, 0, 0, 0, 0)) != 0);
}

static unsigned black_pixels(void)
{
    unsigned i, count = 0;
    for (i = 0; i < DISPLAY_WIDTH * height; i++)
        count += port.framebuffer[i / 8] >> (7 - i % 8) & 1;
    return count;
}

// A bitmap of 3 by 1 pixels, black, white, black; shown at (10, 20) it is bits 5 and 3 of the second byte of row 20.
static void check_upload(void)
{
    fresh();
    RECEIVE(COMMAND, UPLOAD_BITMAP, 7, 3, 0);
    CHECK("round", DISPLAY_OK, poll());
    CHECK_BYTES("an upload accepted", &host, BYTES(ACCEPTED));
    RECEIVE(3);
    CHECK("round", DISPLAY_OK, poll());
    CHECK_BYTES("its first byte echoed", &host, BYTES(ACCEPTED, 3));
    RECEIVE(CONFIRM, 1, CONFIRM, 0xA0, CONFIRM, COMMAND, SHOW_BITMAP, 7, 10, 20, COMMAND, UPLOAD_FONT, 1, 9, 0);
    drain();
    CHECK_BYTES("replies of both uploads", &host, BYTES(ACCEPTED, 3, 1, 0xA0, DECLINED));
    CHECK("directory", 0, memcmp(store, BYTES(2, 7, 3, 0, 0)) != 0);
    CHECK("used room", 3, display_used_room(port.state));
    CHECK("free room", DISPLAY_STORE_LEAST - DISPLAY_DIRECTORY_SIZE - 3,
          display_free_room(port.state, port.store_length));
    CHECK("file", 0, memcmp(store + DISPLAY_DIRECTORY_SIZE, BYTES(3, 1, 0xA0)) != 0);
    CHECK("pixels", 2, black_pixels());
    CHECK("picture", 0x28, port.framebuffer[20 * DISPLAY_STRIDE + 1]);
}

// More replies than the transmit buffer holds. The upload stands still until the host reads, and goes on byte by byte.
static void check_silent_host(void)
{
    uint8_t expected[1 + DATA] = {ACCEPTED};
    size_t i;
    for (i = 0; i < DATA; i++)
        expected[1 + i] = (uint8_t)(100 + i);
    fresh();
    allowance = 0;
    receive_upload();
    for (i = 0; i < 100; i++)
        CHECK("round", DISPLAY_OK, poll());
    CHECK("feeds that ran out of reply room", 1, answers[DISPLAY_NO_REPLY_ROOM] > 0);
    CHECK("read so far", 0, host.count);
    CHECK("bytes taken that could not be fed", 1, unfed > 0);
    CHECK("bytes that wait", port.queued + unfed, port_waiting(&port));
    for (i = 1; i <= sizeof expected; i++) {
        allowance = 1;
        CHECK("round", DISPLAY_OK, poll());
        CHECK("read so far", i, host.count);
    }
    CHECK_BYTES("replies read one by one", &host, expected, sizeof expected);
    drain();
    CHECK("directory", 0, memcmp(store, BYTES(2, 7, DATA, 0, 0)) != 0);
}

// Of 128 bytes the last 48 find the queue full, and what comes after them finds the ring full. The pixels of the first
// 80 bytes are drawn, (0, 0) to (19, 0).
static void check_losses(void)
{
    unsigned i;
    fresh();
    for (i = 0; i < RING / 4; i++)
        RECEIVE(COMMAND, PIXEL, (uint8_t)i, 0);
    CHECK("overruns of a ring just full", 0, port.overruns);
    for (i = 1; i <= 300; i++) {
        RECEIVE('A');
        CHECK("overruns", i < 255 ? i : 255, port.overruns);
    }
    CHECK("bytes that wait", RING, port_waiting(&port));
    CHECK("round", DISPLAY_OK, poll());
    CHECK("lost", RING - QUEUE, display_lost_count(port.queue));
    CHECK("bytes that wait", QUEUE - PIECE, port_waiting(&port));
    drain();
    CHECK("pixels", QUEUE / 4, black_pixels());
    CHECK("last of them", 0xF0, port.framebuffer[2]);
    for (i = 0; i < DISPLAY_WIDTH; i++) {
        RECEIVE(COMMAND, PIXEL, (uint8_t)i, (uint8_t)(height - 1));
        drain();
    }
    CHECK("pixels drawn while the ring goes round", QUEUE / 4 + DISPLAY_WIDTH, black_pixels());
    CHECK("lost", RING - QUEUE, display_lost_count(port.queue));
}

static unsigned striking; // interrupts to come

static void strike(void)
{
    if (striking > 0) {
        striking--;
        RECEIVE('A');
    }
}

// Bytes that come during the calls of a round wait for the next one, so that a round ends however fast they come.
static void check_bounded_round(void)
{
    fresh();
    interrupt = strike;
    striking = 60;
    RECEIVE('A');
    poll();
    CHECK("no take for nothing", 0, answers[DISPLAY_QUEUE_EMPTY]);
    CHECK("calls of a round: arrival, take, feed", 60 - 3, striking);
    CHECK("bytes for the next", 3, port_waiting(&port));
    poll_after(1);
    CHECK("of the next: three arrivals, time, three takes, feed", 60 - 3 - 8, striking);
    CHECK("bytes for the one after it", 8, port_waiting(&port));
    striking = 0;
    interrupt = NULL;
    drain();
}

static void damage_state(void)
{
    port.state[DISPLAY_STATE_BACKLIGHT_ON] = 2;
}

static void damage_height(void)
{
    port.state[DISPLAY_STATE_HEIGHT]++;
}

static void mistake_height(void)
{
    port.state[DISPLAY_STATE_HEIGHT] = height == DISPLAY_LOW_HEIGHT ? DISPLAY_TALL_HEIGHT : DISPLAY_LOW_HEIGHT;
}

static void damage_edition(void)
{
    port.state[DISPLAY_STATE_EDITION] = 0;
}

static void damage_used_room(void)
{
    port.state[DISPLAY_STATE_USED_ROOM_LOW]++;
}

static void damage_queue(void)
{
    memset(port.queue, 0xFF, sizeof port.queue);
}

static void damage_directory(void)
{
    store[DISPLAY_DIRECTORY_SIZE - 1] = 1;
}

static void add_file(void)
{
    memcpy(store, BYTES(2, 7, 1, 0));
}

static void damage_length(void)
{
    port.store_length = DISPLAY_STORE_LEAST - 1;
}

static unsigned last_call;

static void read_again(void)
{
    allowance = calls == last_call ? WIRE : 0;
}

// Damage is done while replies wait that the host has not read, and `waiting` more bytes; then so many milliseconds
// pass. The call that sees it is the last one: the host would read from then on, and gets nothing.
static void check_fault(void (*damage)(void), size_t waiting, uint32_t milliseconds, uint32_t answer,
                        unsigned calls_left)
{
    static Port damaged;
    static uint8_t files[sizeof store];
    fresh();
    allowance = 0;
    RECEIVE(COMMAND, SERIAL_NUMBER, 'S', 'N');
    CHECK("round before", DISPLAY_OK, poll());
    receive((const uint8_t *)"ABC", waiting);
    damage();
    damaged = port;
    memcpy(files, store, sizeof store);
    last_call = calls + calls_left;
    interrupt = read_again;
    CHECK("fault", answer, poll_after(milliseconds));
    interrupt = NULL;
    CHECK("framebuffer", 0, memcmp(damaged.framebuffer, port.framebuffer, sizeof port.framebuffer) != 0);
    CHECK("state", 0, memcmp(damaged.state, port.state, sizeof port.state) != 0);
    damaged = port;
    CHECK("answer kept", answer, poll());
    CHECK("last call", last_call, calls);
    CHECK("sent after it", 0, host.count);
    CHECK("driver", 0, memcmp(&damaged, &port, sizeof port) != 0);
    CHECK("store", 0, memcmp(files, store, sizeof store) != 0);
}

// Damage is done while bytes wait in the queue for a host that does not read. It reads on, and the first take is the
// last call.
static void check_fault_at_take(void (*damage)(void))
{
    unsigned before;
    fresh();
    allowance = 0;
    do {
        RECEIVE(COMMAND, SERIAL_NUMBER, 'S', 'N');
        CHECK("round before", DISPLAY_OK, poll());
    } while (port_waiting(&port) == 0);
    damage();
    before = calls;
    allowance = WIRE;
    CHECK("fault", DISPLAY_BAD_RECORD, poll());
    CHECK("answer kept", DISPLAY_BAD_RECORD, poll());
    CHECK("last call", before + 1, calls);
}

static void check_faults(void)
{
    check_fault_at_take(damage_state);
    check_fault_at_take(damage_height);
    check_fault_at_take(damage_queue);
    check_fault(damage_state, 3, 0, DISPLAY_BAD_RECORD, 1); // seen by the first arrival
    check_fault(damage_height, 3, 0, DISPLAY_BAD_RECORD, 1);
    check_fault(damage_queue, 3, 1, DISPLAY_BAD_RECORD, 1);
    check_fault(damage_directory, 3, 0, DISPLAY_BAD_DIRECTORY, 3 + 3 + 1); // by the feed after arrivals and takes
    check_fault(damage_used_room, 3, 0, DISPLAY_BAD_RECORD, 3 + 3 + 1);
    check_fault(add_file, 3, 0, DISPLAY_BAD_RECORD, 3 + 3 + 1);
    check_fault(damage_length, 3, 0, DISPLAY_BAD_STORE_SIZE, 3 + 3 + 1);
    check_fault(mistake_height, 3, 0, DISPLAY_BAD_FRAMEBUFFER_SIZE, 3 + 3 + 1);
    check_fault(damage_directory, 3, 1, DISPLAY_BAD_DIRECTORY, 3 + 1); // by the time after the arrivals
    check_fault(damage_used_room, 3, 1, DISPLAY_BAD_RECORD, 3 + 1);
    check_fault(damage_length, 3, 1, DISPLAY_BAD_STORE_SIZE, 3 + 1);
    check_fault(damage_state, 0, 1, DISPLAY_BAD_RECORD, 1); // by the time alone
    check_fault(damage_height, 0, 1, DISPLAY_BAD_RECORD, 1);
    check_fault(mistake_height, 0, 1, DISPLAY_BAD_FRAMEBUFFER_SIZE, 1);
    check_fault(damage_edition, 0, 1, DISPLAY_BAD_RECORD, 1);
}

static void check_all(uint32_t rows)
{
    height = rows;
    check_start();
    check_heights();
    check_editions();
    check_upload();
    check_silent_host();
    check_losses();
    check_bounded_round();
    check_faults();
    check_clock();
    check_flow();
    check_streams();
}

int main(void)
{
    check_all(DISPLAY_LOW_HEIGHT);
    if (PORT_FRAMEBUFFER_SIZE >= DISPLAY_TALL_FRAMEBUFFER_SIZE)
        check_all(DISPLAY_TALL_HEIGHT);
    check_manners();
    if (failures != 0)
        printf("check-port: %u failed\n", failures);
    printf("check-port: %u checks\n", checks);
    return failures != 0;
}
