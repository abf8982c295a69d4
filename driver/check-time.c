// Checks the time call: what adds up, what starts anew, when an upload is dropped and what is left of it, and that time
// does nothing else.
#include "check-calls.h"

enum { TIMEOUT = DISPLAY_UPLOAD_TIMEOUT, ROOM = DISPLAY_REPLY_ROOM, NUMBER = 7, SIZE = 3 };

// What an upload that is dropped answers.
enum { ERROR_PREFIX = 254, UPLOAD_TIMED_OUT = 212 };

static const uint32_t times[] = {0, 1, 2, 255, 256, TIMEOUT - 1, TIMEOUT, TIMEOUT + 1, 65535, 65536, 65536 + 1,
                                 0x80000000, UINT32_MAX - 1, UINT32_MAX};
enum { TIMES = sizeof times / sizeof *times };

static void begin(void)
{
    fresh();
    CHECK("an upload", ACCEPTED, BEGIN_UPLOAD(UPLOAD_BITMAP, NUMBER, SIZE).replies[0]);
}

// The upload goes on, and no byte that a board reads has changed.
static void check_goes_on(const char *file, int line, const char *what, uint32_t milliseconds)
{
    Fed fed = pass_with(right, milliseconds, ROOM);
    check_fed(file, line, what, fed, DISPLAY_OK, 0, 0);
    check_last_refusal(file, line, what, 0, DISPLAY_NO_REFUSAL);
    memcpy(before.state, memory.state, DISPLAY_STATE_REFUSAL_COUNT_LOW); // where it is kept what is under way
    check(file, line, what, 0, changed());
}
#define GOES_ON(what, milliseconds) check_goes_on(HERE, what, milliseconds)

// Nothing else than the state has changed, and the next byte is a character.
static void check_dropped(const char *file, int line, const char *what, uint32_t milliseconds)
{
    Fed fed = pass_with(right, milliseconds, ROOM);
    check_fed(file, line, what, fed, DISPLAY_OK, 0, 2);
    check(file, line, what, ERROR_PREFIX, fed.replies[0]);
    check(file, line, what, UPLOAD_TIMED_OUT, fed.replies[1]);
    check_last_refusal(file, line, what, 1, DISPLAY_REFUSED_UPLOAD_ABORTED);
    memcpy(before.state, memory.state, sizeof before.state);
    check(file, line, what, 0, changed());
    fed = feed(file, line, BYTES('-'));
    check(file, line, what, 0, fed.replied);
    check(file, line, what, 0xF0, memory.glass[3 * DISPLAY_STRIDE]);
}
#define DROPPED(what, milliseconds) check_dropped(HERE, what, milliseconds)

static void check_at_once(void)
{
    size_t i;
    for (i = 0; i < TIMES; i++) {
        begin();
        if (times[i] < TIMEOUT)
            GOES_ON("a time at once", times[i]);
        else
            DROPPED("a time at once", times[i]);
    }
}

// The last sums would be small again with 16 or 32 bits.
static void check_adding_up(void)
{
    static const uint32_t last[] = {1, 2, TIMEOUT, 65536 - TIMEOUT + 1, 65536, UINT32_MAX - TIMEOUT + 2, UINT32_MAX};
    unsigned i;
    begin();
    for (i = 1; i < TIMEOUT; i++)
        GOES_ON("one by one", 1);
    GOES_ON("none", 0);
    DROPPED("the last one", 1);
    for (i = 0; i < sizeof last / sizeof *last; i++) {
        begin();
        GOES_ON("all but one", TIMEOUT - 1);
        DROPPED("one or more", last[i]);
    }
    begin();
    GOES_ON("a part", 1000);
    GOES_ON("another", 1000);
    GOES_ON("nearly all", 99);
    DROPPED("too many", 2);
}

// Time passes inside the command of an upload, before which it does not count.
static void begin_slowly(void)
{
    fresh();
    FEED(COMMAND, UPLOAD_BITMAP, NUMBER);
    if (edition == DISPLAY_NEWER_EDITION)
        FEED(0);
    FEED(SIZE);
    pass_with(right, TIMEOUT, ROOM);
    NOTHING_CHANGES("inside the command");
    if (edition == DISPLAY_NEWER_EDITION)
        FEED(0, 0);
    CHECK("an upload", ACCEPTED, FEED(0).replies[0]);
}

// The command's last byte, a byte of data and a confirmation each start anew.
static void check_starting_anew(void)
{
    begin_slowly();
    GOES_ON("after the command", TIMEOUT - 1);
    FEED('B');
    GOES_ON("after data", TIMEOUT - 1);
    FEED(CONFIRM);
    GOES_ON("after a confirmation", TIMEOUT - 1);
    FEED('C', CONFIRM);
    GOES_ON("after both", TIMEOUT - 1);
    DROPPED("in the end", 1);

    begin();
    FEED('B');
    DROPPED("after data", TIMEOUT);
    begin();
    FEED('B', CONFIRM);
    DROPPED("after a confirmation", TIMEOUT);
}

// What was confirmed stays in free room, there is no entry, and the number can be uploaded again.
static void check_left_over(void)
{
    begin();
    FEED('B', CONFIRM, 'C');
    DROPPED("two bytes sent, one confirmed", TIMEOUT);
    CHECK("no entry", 0, memory.store[0]);
    CHECK("the byte confirmed", 'B', memory.store[DISPLAY_DIRECTORY_SIZE]);
    CHECK("the byte not confirmed", GARBAGE, memory.store[DISPLAY_DIRECTORY_SIZE + 1]);
    CHECK_FED("the next time", pass_with(right, UINT32_MAX, ROOM), DISPLAY_OK, 0, 0);
    NOTHING_CHANGES("the next time");
    UPLOAD(UPLOAD_BITMAP, NUMBER, 3, 1, 0xA0);
    CHECK("an entry", NUMBER, memory.store[1]);
    CHECK("refused", 1, display_refusal_count(memory.state));
}

// An upload waits from its own start, whatever came of the one before it.
static void check_next_upload(void)
{
    begin();
    FEED('B', CONFIRM);
    DROPPED("the first", TIMEOUT);
    BEGIN_UPLOAD(UPLOAD_BITMAP, NUMBER, SIZE);
    CHECK_FED("the second", pass_with(right, TIMEOUT - 1, ROOM), DISPLAY_OK, 0, 0);
    FEED('B');
    CHECK_FED("the second", pass_with(right, TIMEOUT - 1, ROOM), DISPLAY_OK, 0, 0);
    FEED(CONFIRM + 1);
    BEGIN_UPLOAD(UPLOAD_BITMAP, NUMBER, SIZE);
    CHECK_FED("the third", pass_with(right, TIMEOUT - 1, ROOM), DISPLAY_OK, 0, 0);
    CHECK_FED("the third", pass_with(right, 1, ROOM), DISPLAY_OK, 0, 2);
    CHECK_LAST_REFUSAL("all three", 3, DISPLAY_REFUSED_UPLOAD_ABORTED);
}

static void check_nothing_happens(const char *what)
{
    size_t i;
    for (i = 0; i < TIMES; i++) {
        CHECK_FED(what, pass_with(right, times[i], ROOM), DISPLAY_OK, 0, 0);
        CHECK(what, 0, changed());
        CHECK_FED(what, pass_with(right, times[i], REPLIES), DISPLAY_OK, 0, 0);
        CHECK(what, 0, changed());
    }
}

static void check_outside_uploads(void)
{
    fresh();
    check_nothing_happens("at start");
    FEED(COMMAND);
    check_nothing_happens("behind the prefix");
    FEED(RECTANGLE, 1, 2);
    check_nothing_happens("inside a command");
    FEED(1, 4, 2, COMMAND, BITMAP_IN_LINE, 0, 0, 15, 1, 0xFF);
    check_nothing_happens("inside data in line");
    FEED(0xFF, 0xFF, 0xFF);
    UPLOAD(UPLOAD_BITMAP, NUMBER, 3, 1, 0xA0);
    check_nothing_happens("behind an upload");
    BEGIN_UPLOAD(UPLOAD_BITMAP, NUMBER + 1, SIZE);
    FEED('B', CONFIRM + 1);
    CHECK_LAST_REFUSAL("broken off", 1, DISPLAY_REFUSED_UPLOAD_ABORTED);
    check_nothing_happens("behind an upload that was broken off");
    CHECK("an upload declined", DECLINED, BEGIN_UPLOAD(UPLOAD_BITMAP, NUMBER, SIZE).replies[0]);
    check_nothing_happens("behind an upload that was declined");
}

// Whatever is under way and however little time it is.
static void check_no_room(void)
{
    display_length room;
    size_t i;
    for (room = 0; room < ROOM; room++)
        for (i = 0; i < TIMES; i++) {
            fresh();
            CHECK_FED("no room", pass_with(right, times[i], room), DISPLAY_NO_REPLY_ROOM, 0, 0);
            NOTHING_CHANGES("no room");
            begin();
            CHECK_FED("no room", pass_with(right, times[i], room), DISPLAY_NO_REPLY_ROOM, 0, 0);
            NOTHING_CHANGES("no room");
        }
    begin();
    for (i = 0; i < 10; i++)
        pass_with(right, TIMEOUT - 1, ROOM - 1);
    GOES_ON("what found no room has not passed", TIMEOUT - 1);
    CHECK_FED("no room again", pass_with(right, UINT32_MAX, 0), DISPLAY_NO_REPLY_ROOM, 0, 0);
    DROPPED("with room", 1);
}

// The sum is found by a record that differs in it, low byte first. One that has run out is not sound.
static void check_damage(void)
{
    size_t sum = 0;
    begin();
    pass_with(right, TIMEOUT - 1, ROOM);
    while (sum < DISPLAY_STATE_RECORD_SIZE && before.state[sum] == memory.state[sum])
        sum++;
    CHANGES(state, "the sum", sum, sum + 1);
    CHECK("the sum", TIMEOUT - 1, memory.state[sum] + 256u * memory.state[sum + 1]);
    CHECK_FED("one below", feed_with(right, NULL, 0, 0), DISPLAY_OK, 0, 0);
    memory.state[sum]++;
    check_state_refused(HERE, "an upload that has waited too long");
    memory.state[sum + 1] = 255;
    check_state_refused(HERE, "one that has waited for a minute");
}

void check_time(void)
{
    check_at_once();
    check_adding_up();
    check_starting_anew();
    check_left_over();
    check_next_upload();
    check_outside_uploads();
    check_no_room();
    check_damage();
}
