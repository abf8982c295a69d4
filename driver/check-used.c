// Checks the used room: which bytes of the record have it, that it is true after starts, uploads, deletes, purges,
// times and refusals, and what comes of one that is not the directory's.
#include "check-calls.h"

enum { LOW = DISPLAY_STATE_USED_ROOM_LOW, HIGH = DISPLAY_STATE_USED_ROOM_HIGH };
enum { FONT_TYPE = 0, BITMAP_TYPE = 1, NO_TYPE = 2 };
enum { AREA = DISPLAY_STORE_LEAST - DISPLAY_DIRECTORY_SIZE }; // of the files

static void check_room(const char *file, int line, const char *what, display_length store, unsigned used)
{
    check(file, line, what, used, display_used_room(memory.state));
    check(file, line, what, store - DISPLAY_DIRECTORY_SIZE - used, display_free_room(memory.state, store));
}
#define USED(what, used) check_room(HERE, what, right.store, used)

// Whatever the file is: no upload looks at what it is sent.
static void upload_bytes(uint8_t code, unsigned number, display_length size)
{
    static const uint8_t bytes[AREA] = {3, 1, 0xA0};
    upload(HERE, code, number, bytes, size);
}

static void delete_file(uint8_t type, uint8_t number)
{
    if (edition == DISPLAY_NEWER_EDITION)
        FEED(COMMAND, DELETE_FILE, type, number, 0);
    else
        FEED(COMMAND, DELETE_FILE, type, number);
}

// The record of a display with files, and that of one without.
static void check_offsets(void)
{
    static uint8_t empty[sizeof memory.state];
    fresh();
    memcpy(empty, memory.state, sizeof empty);
    upload_bytes(UPLOAD_BITMAP, 7, 1);
    check_changes(HERE, "1 byte", empty, memory.state, sizeof empty, OFFSETS(LOW));
    upload_bytes(UPLOAD_FONT, 7, 255);
    check_changes(HERE, "256 bytes", empty, memory.state, sizeof empty, OFFSETS(HIGH));
    upload_bytes(UPLOAD_BITMAP, 8, 2);
    check_changes(HERE, "258 bytes", empty, memory.state, sizeof empty, OFFSETS(LOW, HIGH));
    CHECK("start with 258 bytes", DISPLAY_OK, start(right));
    NOTHING_CHANGES("start with 258 bytes");
    delete_file(BITMAP_TYPE, 8);
    CHANGES(state, "256 bytes", LOW);
    delete_file(FONT_TYPE, 7);
    CHANGES(state, "1 byte", LOW, HIGH);
    FEED(COMMAND, PURGE, 89, 33);
    CHANGES(state, "a purge", LOW);
    check_changes(HERE, "no bytes", empty, memory.state, sizeof empty, NULL, 0);
}

// A start adds up what it finds, whatever the record held, and calls behind it agree.
static void check_start(const char *what, display_length store, unsigned used, const uint8_t *entries, size_t length)
{
    Lengths n = right;
    n.store = store;
    spoil();
    memcpy(memory.store, entries, length);
    CHECK(what, DISPLAY_OK, start(n));
    check_room(HERE, what, store, used);
    CHECK_FED(what, feed_with(n, BYTES('A'), REPLIES), DISPLAY_OK, 1, 0);
    CHECK_FED(what, pass_with(n, 1, REPLIES), DISPLAY_OK, 0, 0);
    check_room(HERE, what, store, used);
    memory.state[LOW] = GARBAGE;
    CHECK(what, DISPLAY_OK, start(n));
    check_room(HERE, what, store, used);
}
#define STARTS(what, store, used, ...) check_start(what, store, used, BYTES(__VA_ARGS__))

// Kind, number and size: four bytes in the older edition, seven in the newer.
static void check_starts(void)
{
    STARTS("no files", DISPLAY_STORE_LEAST, 0, 0);
    STARTS("the largest store", DISPLAY_STORE_MOST, 0, 0);
    STARTS("a byte", DISPLAY_STORE_LEAST, 1, 2, 7, 1, 0);
    STARTS("all of a byte", DISPLAY_STORE_LEAST, 255, 1, 7, 255, 0);
    STARTS("the next", DISPLAY_STORE_LEAST, 256, 1, 7, 0, 1);
    STARTS("of the newer edition", DISPLAY_STORE_LEAST, 513, 4, 44, 1, 1, 2, 0, 0);
    STARTS("of all kinds", DISPLAY_STORE_LEAST, 3 + 4 + 5 + 256, 1, 7, 3, 0, 2, 7, 4, 0, 3, 44, 1, 5, 0, 0, 0, 4, 44, 1,
           0, 1, 0, 0);
    STARTS("all the room", DISPLAY_STORE_LEAST, AREA, 2, 7, 0, 3);
    STARTS("all the room, in two", DISPLAY_STORE_LEAST, AREA, 2, 7, 255, 1, 4, 8, 0, 1, 1, 0, 0);
    STARTS("all the room of the largest", DISPLAY_STORE_MOST, 32512, 2, 7, 0, 127);
    STARTS("all but a byte of it", DISPLAY_STORE_MOST, 32511, 1, 7, 255, 63, 3, 8, 0, 0, 63, 0, 0);
}

// Beside a file of so many bytes: not before the last confirmation, and then all of it.
static void check_upload(unsigned others)
{
    enum { SIZE = 300 };
    unsigned i, early = 0;
    fresh();
    if (others > 0)
        upload_bytes(UPLOAD_BITMAP, 7, others);
    USED("before", others);
    CHECK("an upload", ACCEPTED, BEGIN_UPLOAD(UPLOAD_FONT, 7, SIZE).replies[0]);
    for (i = 0; i < SIZE; i++) {
        early += display_used_room(memory.state) != others;
        FEED('B');
        pass_with(right, DISPLAY_UPLOAD_TIMEOUT - 1, REPLIES);
        early += display_used_room(memory.state) != others;
        FEED(CONFIRM);
    }
    CHECK("bytes that counted early", 0, early);
    USED("after", others + SIZE);
}

// 63 files of 1 to 12 bytes, deleted in an order in which the next is the eighth behind the last one.
static void check_one_by_one(void)
{
    enum { FILES = 63, FIRST = 100 };
    unsigned i, n, used = 0;
    spoil();
    for (i = 0; i < FILES; i++) {
        memcpy(memory.store + 4 * i, (const uint8_t[]){2, (uint8_t)(FIRST + i), (uint8_t)(1 + i % 12), 0}, 4);
        used += 1 + i % 12;
    }
    CHECK("start", DISPLAY_OK, start(right));
    for (i = 0; i < FILES; i++) {
        USED("files that are left", used);
        n = 8 * i % FILES;
        delete_file(BITMAP_TYPE, (uint8_t)(FIRST + n));
        used -= 1 + n % 12;
    }
    USED("none", 0);
    CHECK_LAST_REFUSAL("all deleted", 0, DISPLAY_NO_REFUSAL);
}

// Nothing of these is done but for the count and the last refusal.
static void check_refusals(void)
{
    fresh();
    upload_bytes(UPLOAD_BITMAP, 7, 3);
    CHECK("a number in use", DECLINED, BEGIN_UPLOAD(UPLOAD_BITMAP, 7, 1).replies[0]);
    USED("a number in use", 3);
    CHECK("no bytes", DECLINED, BEGIN_UPLOAD(UPLOAD_BITMAP, 8, 0).replies[0]);
    USED("no bytes", 3);
    CHECK("too many", DECLINED, BEGIN_UPLOAD(UPLOAD_BITMAP, 8, AREA - 3 + 1).replies[0]);
    USED("too many", 3);
    CHECK("as many as are free", ACCEPTED, BEGIN_UPLOAD(UPLOAD_BITMAP, 8, AREA - 3).replies[0]);
    FEED('B', CONFIRM, 'C', CONFIRM + 1);
    USED("broken off", 3);
    delete_file(BITMAP_TYPE, 8);
    USED("no such bitmap", 3);
    delete_file(FONT_TYPE, 7);
    USED("no such font", 3);
    delete_file(NO_TYPE, 7);
    USED("no such type", 3);
    FEED(COMMAND, PURGE, 89, 34);
    USED("a purge without its guard bytes", 3);
    CHECK_LAST_REFUSAL("all of them", 8, DISPLAY_REFUSED_UNKNOWN_TYPE);
}

static void check_dropped(void)
{
    fresh();
    upload_bytes(UPLOAD_BITMAP, 7, 3);
    BEGIN_UPLOAD(UPLOAD_BITMAP, 8, 2);
    FEED('B', CONFIRM, 'C');
    CHECK_FED("a time", pass_with(right, DISPLAY_UPLOAD_TIMEOUT, REPLIES), DISPLAY_OK, 0, 2);
    USED("dropped", 3);
    upload_bytes(UPLOAD_BITMAP, 8, 2);
    USED("uploaded again", 5);
}

// A piece of which only the beginning is consumed.
static void check_no_reply_room(void)
{
    fresh();
    BEGIN_UPLOAD(UPLOAD_BITMAP, 7, 1);
    FEED('B');
    CHECK_FED("no room", feed_with(right, BYTES(CONFIRM), 1), DISPLAY_NO_REPLY_ROOM, 0, 0);
    USED("no room", 0);
    CHECK_FED("room as far as the number",
              feed_with(right, BYTES(CONFIRM, COMMAND, SERIAL_NUMBER, 'S', 'N', COMMAND, PURGE, 89, 33), 2),
              DISPLAY_NO_REPLY_ROOM, 5, 2);
    USED("the end of an upload", 1);
    CHECK_FED("no room for a time", pass_with(right, 1, 1), DISPLAY_NO_REPLY_ROOM, 0, 0);
    USED("no room for a time", 1);
    CHECK_FED("room as far as the number",
              feed_with(right, BYTES(COMMAND, PURGE, 89, 33, COMMAND, SERIAL_NUMBER, 'S', 'N', 'A'), 2),
              DISPLAY_NO_REPLY_ROOM, 8, 2);
    USED("a purge", 0);
}

static void put_used(unsigned used)
{
    memory.state[LOW] = (uint8_t)used;
    memory.state[HIGH] = (uint8_t)(used >> 8);
}

// Found behind a directory that is broken, and ahead of reply room that is wanting. Arrive and take go on.
static void check_wrong(unsigned wrong)
{
    unsigned used = display_used_room(memory.state);
    put_used(wrong);
    CHECK_REFUSED("wrong used room", right, DISPLAY_BAD_RECORD, REPLIES);
    CHECK_REFUSED("the same, no reply room", right, DISPLAY_BAD_RECORD, 0);
    CHECK_FED("the same, an empty piece", feed_with(right, NULL, 0, 0), DISPLAY_BAD_RECORD, 0, 0);
    memory.store[DISPLAY_DIRECTORY_SIZE - 1] = GARBAGE;
    CHECK_REFUSED("the same, a broken directory", right, DISPLAY_BAD_DIRECTORY, 0);
    memory.store[DISPLAY_DIRECTORY_SIZE - 1] = 0;
    CHECK_QUEUED("the same", arrive(right, 'A'), DISPLAY_OK, 0, DISPLAY_SIGNAL_NONE);
    CHECK_QUEUED("the same", take(right), DISPLAY_OK, 'A', DISPLAY_SIGNAL_NONE);
    put_used(used);
    CHECK_FED("put right", feed_with(right, NULL, 0, 0), DISPLAY_OK, 0, 0);
}

// Of 256 numbers in each byte one is right.
static void check_wrongs(void)
{
    unsigned used = display_used_room(memory.state), i, passed = 0;
    for (i = 0; i < 256; i++) {
        put_used((used & 0xFF00) + i);
        passed += feed_with(right, NULL, 0, 0).answer == DISPLAY_OK;
        put_used((used & 0xFF) + 256 * i);
        passed += pass_with(right, 0, REPLIES).answer == DISPLAY_OK;
    }
    CHECK("numbers that are right", 2, passed);
    put_used(used);
    check_wrong((used + 1) & 0xFFFF);
    check_wrong((used - 1) & 0xFFFF);
    check_wrong((used + 256) & 0xFFFF);
    check_wrong(65535);
}

static void check_damage(void)
{
    fresh();
    check_wrongs();
    upload_bytes(UPLOAD_BITMAP, 7, 259);
    check_wrongs();
    BEGIN_UPLOAD(UPLOAD_FONT, 8, 5);
    FEED('B', CONFIRM, 'C');
    check_wrongs();
    check_wrong(259 + 1);
    check_wrong(259 + 5);
    FEED(CONFIRM, 'D', CONFIRM, 'E', CONFIRM, 'F', CONFIRM);
    USED("the end of an upload", 259 + 5);
    check_wrong(259);
    check_wrong(5);
    check_wrong(0);
}

// The board puts another directory in the place of the one that the display has run with.
static void check_other_directory(void)
{
    fresh();
    upload_bytes(UPLOAD_BITMAP, 7, 3);
    memcpy(memory.store, BYTES(2, 7, 4, 0));
    CHECK_REFUSED("a larger file", right, DISPLAY_BAD_RECORD, REPLIES);
    memcpy(memory.store, BYTES(0, 0, 0, 0));
    CHECK_REFUSED("no file", right, DISPLAY_BAD_RECORD, REPLIES);
    memcpy(memory.store, BYTES(2, 7, 3, 0, 1, 9, 1, 0));
    CHECK_REFUSED("a file more", right, DISPLAY_BAD_RECORD, REPLIES);
    memcpy(memory.store, BYTES(2, 9, 2, 0, 1, 9, 1, 0));
    CHECK_FED("other files, as large", feed_with(right, BYTES('A'), REPLIES), DISPLAY_OK, 1, 0);
    memcpy(memory.store, BYTES(2, 9, 2, 0, 1, 9, 9, 0));
    CHECK("start again", DISPLAY_OK, start(right));
    USED("start again", 11);
}

void check_used(void)
{
    check_offsets();
    check_starts();
    check_upload(0);
    check_upload(1);
    check_upload(AREA - 300);
    check_one_by_one();
    check_refusals();
    check_dropped();
    check_no_reply_room();
    check_damage();
    check_other_directory();
}
