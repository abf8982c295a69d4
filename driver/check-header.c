// Checks each number of display.h against what the library does: sizes by the calls that accept and refuse them,
// offsets by the bytes that a command changes, answers, refusals and signals by what provokes them. No number of the
// header is repeated here.
#include "check-calls.h"

#include <stdio.h>

#define GLASS right.glass
#define STORE DISPLAY_STORE_LEAST
#define STATE DISPLAY_STATE_RECORD_SIZE
#define QUEUE DISPLAY_QUEUE_RECORD_SIZE

// Beyond a length of 32 bits. A refused length is refused unread, so nothing need be there.
#define FAR ((display_length)1 << 32)

// A feed and a time are not lent the queue; arrive and take are lent the records alone.
static void check_lengths_of(const char *what, Lengths n, uint32_t started, uint32_t fed)
{
    uint32_t queued = n.queue != QUEUE || n.state != STATE ? DISPLAY_BAD_RECORD : DISPLAY_OK;
    spoil();
    CHECK(what, started, start(n));
    CHECK(what, started == DISPLAY_OK, changed());
    fresh();
    CHECK_FED(what, feed_with(n, BYTES('A'), REPLIES), fed, fed == DISPLAY_OK, 0);
    CHECK(what, fed == DISPLAY_OK, changed());
    CHECK_FED(what, pass_with(n, 1, REPLIES), fed, 0, 0);
    CHECK(what, 0, changed());
    CHECK_QUEUED(what, arrive(n, 'A'), queued, 0, DISPLAY_SIGNAL_NONE);
    CHECK(what, queued == DISPLAY_OK, changed());
    CHECK_QUEUED(what, take(n), queued, queued == DISPLAY_OK ? 'A' : 0, DISPLAY_SIGNAL_NONE);
    CHECK(what, queued == DISPLAY_OK, changed());
}

static void check_lengths(void)
{
    enum { OK = DISPLAY_OK, FRAMEBUFFER = DISPLAY_BAD_FRAMEBUFFER_SIZE, FILES = DISPLAY_BAD_STORE_SIZE,
           RECORD = DISPLAY_BAD_RECORD };
    const display_length most = DISPLAY_STORE_MOST;
    const struct {
        const char *what;
        Lengths lengths;
        uint32_t started, fed;
    } cases[] = {
        {"smallest store", {GLASS, STORE, STATE, QUEUE}, OK, OK},
        {"largest store", {GLASS, most, STATE, QUEUE}, OK, OK},
        {"no framebuffer", {0, STORE, STATE, QUEUE}, FRAMEBUFFER, FRAMEBUFFER},
        {"framebuffer short", {GLASS - 1, STORE, STATE, QUEUE}, FRAMEBUFFER, FRAMEBUFFER},
        {"framebuffer long", {GLASS + 1, STORE, STATE, QUEUE}, FRAMEBUFFER, FRAMEBUFFER},
        {"no store", {GLASS, 0, STATE, QUEUE}, FILES, FILES},
        {"store short", {GLASS, STORE - 1, STATE, QUEUE}, FILES, FILES},
        {"store long", {GLASS, most + 1, STATE, QUEUE}, FILES, FILES},
        {"no state", {GLASS, STORE, 0, QUEUE}, RECORD, RECORD},
        {"state short", {GLASS, STORE, STATE - 1, QUEUE}, RECORD, RECORD},
        {"state long", {GLASS, STORE, STATE + 1, QUEUE}, RECORD, RECORD},
        {"no queue", {GLASS, STORE, STATE, 0}, RECORD, OK},
        {"queue short", {GLASS, STORE, STATE, QUEUE - 1}, RECORD, OK},
        {"queue long", {GLASS, STORE, STATE, QUEUE + 1}, RECORD, OK},
        {"framebuffer far too long", {GLASS + FAR, STORE, STATE, QUEUE}, FRAMEBUFFER, FRAMEBUFFER},
        {"store far too long", {GLASS, STORE + FAR, STATE, QUEUE}, FILES, FILES},
        {"state far too long", {GLASS, STORE, STATE + FAR, QUEUE}, RECORD, RECORD},
        {"queue far too long", {GLASS, STORE, STATE, QUEUE + FAR}, RECORD, OK},
        {"framebuffer, store, state", {GLASS + 1, STORE - 1, STATE + 1, QUEUE}, RECORD, RECORD},
        {"framebuffer, store, queue", {GLASS - 1, STORE - 1, STATE, QUEUE - 1}, RECORD, FRAMEBUFFER},
        {"framebuffer, store", {GLASS + 1, most + 1, STATE, QUEUE}, FRAMEBUFFER, FRAMEBUFFER},
        {"store, state", {GLASS, most + 1, STATE - 1, QUEUE}, RECORD, RECORD},
        {"store, queue", {GLASS, STORE - 1, STATE, QUEUE + 1}, RECORD, FILES},
    };
    size_t i;
    for (i = 0; i < sizeof cases / sizeof *cases; i++)
        check_lengths_of(cases[i].what, cases[i].lengths, cases[i].started, cases[i].fed);
}

// The four corners of the panel are bits of the framebuffer, and what lies one beyond is not.
static void check_screen(void)
{
    uint8_t last = (uint8_t)(height - 1);
    fresh();
    FEED(COMMAND, PIXEL, 0, 0);
    CHANGES(glass, "first pixel", 0);
    CHECK("first pixel", 0x80, memory.glass[0]);
    FEED(COMMAND, PIXEL, DISPLAY_WIDTH - 1, 0);
    CHANGES(glass, "end of the first row", DISPLAY_STRIDE - 1);
    CHECK("end of the first row", 0x01, memory.glass[DISPLAY_STRIDE - 1]);
    FEED(COMMAND, PIXEL, 0, last);
    CHANGES(glass, "start of the last row", GLASS - DISPLAY_STRIDE);
    CHECK("start of the last row", 0x80, memory.glass[GLASS - DISPLAY_STRIDE]);
    FEED(COMMAND, PIXEL, DISPLAY_WIDTH - 1, last);
    CHANGES(glass, "last pixel", GLASS - 1);
    CHECK("last pixel", 0x01, memory.glass[GLASS - 1]);
    FEED(COMMAND, PIXEL, DISPLAY_WIDTH, 0);
    NOTHING_CHANGES("a column too far");
    FEED(COMMAND, PIXEL, 0, (uint8_t)(last + 1));
    NOTHING_CHANGES("a row too far");
}

static void check_directory(void)
{
    const Lengths short_state = {GLASS, STORE, STATE - 1, QUEUE};
    size_t most = DISPLAY_STORE_LEAST - DISPLAY_DIRECTORY_SIZE;
    Fed fed;
    fresh();
    memory.store[DISPLAY_DIRECTORY_SIZE - 1] = GARBAGE;
    CHECK("a stray byte at its end", DISPLAY_BAD_DIRECTORY, start(right));
    NOTHING_CHANGES("start with a broken directory");
    CHECK_REFUSED("a stray byte at its end", right, DISPLAY_BAD_DIRECTORY, REPLIES);
    CHECK("a wrong record too", DISPLAY_BAD_RECORD, start(short_state));
    CHECK_REFUSED("a wrong record too", short_state, DISPLAY_BAD_RECORD, REPLIES);

    fresh();
    fed = FEED(COMMAND, UPLOAD_BITMAP, 3, most % 256, most / 256);
    CHECK("replies to an upload of all the room", 1, fed.replied);
    CHECK("an upload of all the room", ACCEPTED, fed.replies[0]);
    FEED('B', CONFIRM);
    CHECK("first byte of the first file", 'B', memory.store[DISPLAY_DIRECTORY_SIZE]);
    CHECK("byte behind it", GARBAGE, memory.store[DISPLAY_DIRECTORY_SIZE + 1]);
    memcpy(memory.store, BYTES(2, 3, 1, 0)); // meanwhile the directory has got a bitmap 3
    CHECK_REFUSED("upload of a file that is there", right, DISPLAY_BAD_DIRECTORY, REPLIES);

    fresh();
    fed = FEED(COMMAND, UPLOAD_BITMAP, 3, (most + 1) % 256, (most + 1) / 256);
    CHECK("an upload of more than the room", DECLINED, fed.replies[0]);
    CHECK("an upload of more than the room", DISPLAY_REFUSED_NO_SPACE, display_last_refusal(memory.state));
}

static void check_reply_room(void)
{
    static const uint8_t twice[] = {COMMAND, SERIAL_NUMBER, 'S', 'N', COMMAND, SERIAL_NUMBER, 'X', 'Y'};
    Fed fed;
    fresh();
    CHECK_FED("room too small", feed_with(right, BYTES('A'), DISPLAY_REPLY_ROOM - 1), DISPLAY_NO_REPLY_ROOM, 0, 0);
    NOTHING_CHANGES("room too small");
    CHECK_FED("no room", feed_with(right, BYTES('A'), 0), DISPLAY_NO_REPLY_ROOM, 0, 0);
    NOTHING_CHANGES("no room");
    CHECK_FED("empty piece without room", feed_with(right, NULL, 0, 0), DISPLAY_OK, 0, 0);
    NOTHING_CHANGES("empty piece without room");
    CHECK_FED("empty piece", feed_with(right, NULL, 0, REPLIES), DISPLAY_OK, 0, 0);
    NOTHING_CHANGES("empty piece");
    CHECK_FED("room for a byte", feed_with(right, BYTES('A'), DISPLAY_REPLY_ROOM), DISPLAY_OK, 1, 0);

    fed = feed_with(right, twice, sizeof twice, 2 * DISPLAY_REPLY_ROOM - 1);
    CHECK_FED("room for the first reply", fed, DISPLAY_NO_REPLY_ROOM, sizeof twice / 2, DISPLAY_REPLY_ROOM);
    CHECK("serial number", 0, memcmp(fed.replies, BYTES('S', 'N')) != 0);
    fed = feed_with(right, twice + sizeof twice / 2, sizeof twice / 2, DISPLAY_REPLY_ROOM);
    CHECK_FED("the rest with room", fed, DISPLAY_OK, sizeof twice / 2, DISPLAY_REPLY_ROOM);
    CHECK("serial number again", 0, memcmp(fed.replies, BYTES('S', 'N')) != 0);
}

static void check_settings(void)
{
    unsigned contrast, wrong = 0;
    fresh();
    CHECK("backlight at start", 1, display_backlight_is_on(memory.state));
    CHECK("minutes at start", 0, display_backlight_minutes(memory.state));
    FEED(COMMAND, CONTRAST, 17);
    CHANGES(state, "contrast", DISPLAY_STATE_CONTRAST);
    for (contrast = 0; contrast < 256; contrast++) {
        feed_with(right, BYTES(COMMAND, CONTRAST, (uint8_t)contrast), REPLIES);
        wrong += display_contrast(memory.state) != contrast;
    }
    CHECK("contrasts that read as another", 0, wrong);
    FEED(COMMAND, BACKLIGHT_OFF);
    CHANGES(state, "backlight off", DISPLAY_STATE_BACKLIGHT_ON);
    CHECK("backlight off", 0, display_backlight_is_on(memory.state));
    FEED(COMMAND, BACKLIGHT_ON, 201);
    CHANGES(state, "backlight on", DISPLAY_STATE_BACKLIGHT_ON, DISPLAY_STATE_BACKLIGHT_MINUTES);
    CHECK("backlight on", 1, display_backlight_is_on(memory.state));
    CHECK("minutes", 201, display_backlight_minutes(memory.state));
    FEED(COMMAND, BACKLIGHT_ON, 7);
    CHANGES(state, "minutes alone", DISPLAY_STATE_BACKLIGHT_MINUTES);
    FEED(COMMAND, BACKLIGHT_OFF);
    CHECK("minutes while off", 7, display_backlight_minutes(memory.state));
}

#define REFUSAL(name, ...) {#name, name, sizeof(const uint8_t[]){__VA_ARGS__}, {__VA_ARGS__}}

// Each stream is refused once, by its last command or character.
static const struct {
    const char *name;
    unsigned refusal;
    size_t length;
    uint8_t stream[12];
} refusals[] = {
    REFUSAL(DISPLAY_REFUSED_UNKNOWN_COMMAND, COMMAND, NO_COMMAND),
    REFUSAL(DISPLAY_REFUSED_OUT_OF_BOUNDS, COMMAND, TEXT_CELL, 0, 1),
    REFUSAL(DISPLAY_REFUSED_CORNERS_OUT_OF_ORDER, COMMAND, RECTANGLE, 1, 5, 0, 4, 0),
    REFUSAL(DISPLAY_REFUSED_NUMBER_OUT_OF_RANGE, COMMAND, WRITE_BAR, 99, 0),
    REFUSAL(DISPLAY_REFUSED_UNKNOWN_TYPE, COMMAND, DELETE_FILE, 99, 0),
    REFUSAL(DISPLAY_REFUSED_UNKNOWN_TYPE, COMMAND, PURGE, 0, 0),
    REFUSAL(DISPLAY_REFUSED_NOT_SET_UP, COMMAND, WRITE_BAR, 0, 1),
    REFUSAL(DISPLAY_REFUSED_NO_SUCH_FILE, COMMAND, SHOW_BITMAP, 7),
    REFUSAL(DISPLAY_REFUSED_MALFORMED_FILE, COMMAND, UPLOAD_BITMAP, 7, 1, 0, 5, CONFIRM, COMMAND, SHOW_BITMAP, 7, 0, 0),
    REFUSAL(DISPLAY_REFUSED_NO_SPACE, COMMAND, UPLOAD_BITMAP, 7, 0, 0),
    REFUSAL(DISPLAY_REFUSED_NUMBER_IN_USE, COMMAND, UPLOAD_FONT, 1, 1, 0),
    REFUSAL(DISPLAY_REFUSED_UPLOAD_ABORTED, COMMAND, UPLOAD_BITMAP, 7, 1, 0, 5, CONFIRM + 1),
    REFUSAL(DISPLAY_REFUSED_BAD_WATERMARKS, COMMAND, FLOW_ON, DISPLAY_QUEUE_CAPACITY, 0),
    REFUSAL(DISPLAY_REFUSED_GLYPH_DOES_NOT_FIT, COMMAND, WRAP_OFF, COMMAND, TEXT_POINT, DISPLAY_WIDTH - 1, 0, 'A'),
};

static void check_refusals(void)
{
    size_t i;
    for (i = 0; i < sizeof refusals / sizeof *refusals; i++) {
        fresh();
        CHECK("last refusal at start", DISPLAY_NO_REFUSAL, display_last_refusal(memory.state));
        CHECK("refusal count at start", 0, display_refusal_count(memory.state));
        feed(HERE, refusals[i].stream, refusals[i].length - 1);
        CHECK(refusals[i].name, 0, display_refusal_count(memory.state));
        feed(HERE, refusals[i].stream + refusals[i].length - 1, 1);
        CHECK(refusals[i].name, 1, display_refusal_count(memory.state));
        CHECK(refusals[i].name, refusals[i].refusal, display_last_refusal(memory.state));
    }
}

// No byte outside a command is refused with the number that is no longer given, though its name is there still.
static void check_no_glyph(void)
{
    unsigned byte, given = 0, refused = 0;
    for (byte = 0; byte < 256; byte++) {
        fresh();
        feed(HERE, (const uint8_t[]){(uint8_t)byte}, 1);
        given += display_last_refusal(memory.state) == DISPLAY_REFUSED_NO_GLYPH;
        refused += display_refusal_count(memory.state) != 0;
    }
    CHECK("characters refused for want of a glyph", 0, given);
    CHECK("characters refused at home", 0, refused);
}

static void refuse(unsigned times)
{
    static uint8_t unknown[2 * 65536];
    size_t i;
    for (i = 0; i < times; i++) {
        unknown[2 * i] = COMMAND;
        unknown[2 * i + 1] = NO_COMMAND;
    }
    feed(HERE, unknown, 2 * (size_t)times);
}

static void check_refusal_count(void)
{
    fresh();
    refuse(1);
    CHANGES(state, "first refusal", DISPLAY_STATE_REFUSAL_COUNT_LOW, DISPLAY_STATE_LAST_REFUSAL);
    CHECK("refusal count", 1, display_refusal_count(memory.state));
    refuse(254);
    CHECK("refusal count", 255, display_refusal_count(memory.state));
    refuse(1);
    CHANGES(state, "refusal 256", DISPLAY_STATE_REFUSAL_COUNT_LOW, DISPLAY_STATE_REFUSAL_COUNT_HIGH);
    CHECK("refusal count", 256, display_refusal_count(memory.state));
    refuse(65535 - 256);
    CHECK("refusal count", 65535, display_refusal_count(memory.state));
    refuse(1);
    CHANGES(state, "refusal 65,536", DISPLAY_STATE_REFUSAL_COUNT_LOW, DISPLAY_STATE_REFUSAL_COUNT_HIGH);
    CHECK("refusal count", 0, display_refusal_count(memory.state));
}

static void fill_queue(void)
{
    unsigned i, wrong = 0;
    for (i = 0; i < DISPLAY_QUEUE_CAPACITY; i++)
        wrong += arrive(right, (uint8_t)(i + 1)).answer != DISPLAY_OK;
    CHECK("arrivals refused before the queue is full", 0, wrong);
}

static void check_queue(void)
{
    unsigned i, wrong = 0;
    fresh();
    CHECK_QUEUED("empty queue", take(right), DISPLAY_QUEUE_EMPTY, 0, DISPLAY_SIGNAL_NONE);
    NOTHING_CHANGES("empty queue");
    fill_queue();
    CHECK("lost count of a full queue", 0, display_lost_count(memory.queue));
    CHECK_QUEUED("full queue", arrive(right, 'A'), DISPLAY_QUEUE_FULL, 0, DISPLAY_SIGNAL_NONE);
    CHANGES(queue, "first byte lost", DISPLAY_QUEUE_LOST_COUNT_LOW);
    for (i = 2; i <= 256; i++) {
        arrive(right, 'A');
        wrong += display_lost_count(memory.queue) != i;
    }
    CHANGES(queue, "byte 256 lost", DISPLAY_QUEUE_LOST_COUNT_LOW, DISPLAY_QUEUE_LOST_COUNT_HIGH);
    for (i = 257; i <= 65536; i++) {
        arrive(right, 'A');
        wrong += display_lost_count(memory.queue) != i % 65536;
    }
    CHANGES(queue, "byte 65,536 lost", DISPLAY_QUEUE_LOST_COUNT_LOW, DISPLAY_QUEUE_LOST_COUNT_HIGH);
    CHECK("lost counts that read as another", 0, wrong);
    for (i = 0; i < DISPLAY_QUEUE_CAPACITY; i++)
        CHECK_QUEUED("a byte of the full queue", take(right), DISPLAY_OK, i + 1, DISPLAY_SIGNAL_NONE);
    CHECK("all taken", DISPLAY_QUEUE_EMPTY, take(right).answer);
}

// Signals come once, where the free room has shrunk to `full` bytes and where the held bytes have shrunk to `empty`.
static void check_signals(void)
{
    enum { FULL = 10, EMPTY = 5 };
    unsigned i, expected;
    fresh();
    FEED(COMMAND, FLOW_ON, FULL, EMPTY);
    for (i = 1; i <= DISPLAY_QUEUE_CAPACITY; i++) {
        expected = DISPLAY_QUEUE_CAPACITY - i == FULL ? DISPLAY_SIGNAL_ALMOST_FULL : DISPLAY_SIGNAL_NONE;
        CHECK_QUEUED("signal of an arrival", arrive(right, 'A'), DISPLAY_OK, 0, expected);
    }
    for (i = 1; i <= DISPLAY_QUEUE_CAPACITY; i++) {
        expected = DISPLAY_QUEUE_CAPACITY - i == EMPTY ? DISPLAY_SIGNAL_ALMOST_EMPTY : DISPLAY_SIGNAL_NONE;
        CHECK_QUEUED("signal of a take", take(right), DISPLAY_OK, 'A', expected);
    }
}

// The place of a flow threshold is found by two records that differ in it.
static void check_damage(void)
{
    size_t threshold = 0;
    fresh();
    FEED(COMMAND, FLOW_ON, DISPLAY_QUEUE_CAPACITY - 10, 8);
    FEED(COMMAND, FLOW_ON, DISPLAY_QUEUE_CAPACITY - 10, 9);
    while (threshold < DISPLAY_STATE_RECORD_SIZE && before.state[threshold] == memory.state[threshold])
        threshold++;
    CHECK("thresholds as large as they may be", 0, display_refusal_count(memory.state));
    FEED('A');
    memory.state[threshold]++;
    check_state_refused(HERE, "thresholds too large");
    CHECK("start over a damaged record", DISPLAY_OK, start(right));
    memory.state[DISPLAY_STATE_BACKLIGHT_ON] = 2;
    check_state_refused(HERE, "backlight neither on nor off");
    memset(memory.state, 0xFF, DISPLAY_STATE_RECORD_SIZE);
    check_state_refused(HERE, "state of ones");
    fresh();
    memset(memory.queue, 0xFF, DISPLAY_QUEUE_RECORD_SIZE);
    check_queue_refused(HERE, "queue of ones");
}

static void check_all(uint32_t rows)
{
    set_height(rows);
    check_lengths();
    check_screen();
    check_rows();
    check_directory();
    check_reply_room();
    check_settings();
    check_refusals();
    check_no_glyph();
    check_refusal_count();
    check_queue();
    check_signals();
    check_damage();
}

int main(void)
{
    check_all(DISPLAY_LOW_HEIGHT);
    check_all(DISPLAY_TALL_HEIGHT);
    check_heights();
    check_editions();
    CHECK("calls that wrote beside what they were lent", 0, strays);
    if (failures != 0)
        printf("check-header: %u failed\n", failures);
    printf("check-header: %u checks\n", checks);
    return failures != 0;
}
