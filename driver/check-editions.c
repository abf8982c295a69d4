// Checks the editions of the upload protocol: which there are, where the record keeps it, and what comes of one that is
// mistaken for the other.
#include "check-calls.h"

enum { OLDER = DISPLAY_OLDER_EDITION, NEWER = DISPLAY_NEWER_EDITION };

// Over garbage and over a display that runs; behind the sizes of framebuffer and store, and ahead of the directory.
static void check_unknown_at_start(uint32_t unknown)
{
    Lengths n = right;
    spoil();
    CHECK("start with an unknown edition", DISPLAY_BAD_RECORD, start_as(height, unknown, right));
    NOTHING_CHANGES("start with an unknown edition");
    fresh();
    FEED('A');
    CHECK("the same, later", DISPLAY_BAD_RECORD, start_as(height, unknown, right));
    NOTHING_CHANGES("the same, later");
    memory.store[DISPLAY_DIRECTORY_SIZE - 1] = GARBAGE;
    CHECK("a broken directory too", DISPLAY_BAD_RECORD, start_as(height, unknown, right));
    NOTHING_CHANGES("a broken directory too");
    n.store--;
    CHECK("a short store too", DISPLAY_BAD_STORE_SIZE, start_as(height, unknown, n));
    n.glass--;
    CHECK("a short framebuffer too", DISPLAY_BAD_FRAMEBUFFER_SIZE, start_as(height, unknown, n));
    NOTHING_CHANGES("a short framebuffer too");
}

static void check_unknown_starts(void)
{
    static const uint32_t editions[] = {0, 3, 4, 127, 128, 255, 256, 257, 258, 65536 + 1, 65536 + 2, 0x80000001,
                                        0x80000002, UINT32_MAX - 1, UINT32_MAX};
    size_t i;
    uint32_t number, known = 0;
    for (i = 0; i < sizeof editions / sizeof *editions; i++)
        check_unknown_at_start(editions[i]);
    spoil();
    for (number = 0; number < 2048; number++)
        known += start_as(height, number, right) != DISPLAY_BAD_RECORD;
    CHECK("editions that there are", 2, known);
}

// The byte that waits in the queue would be taken, were it not for the edition.
static void check_unknown_in_record(void)
{
    Lengths short_store = right, short_glass = right;
    unsigned byte;
    short_store.store--;
    short_glass.glass--;
    for (byte = 0; byte < 256; byte++) {
        if (byte == OLDER || byte == NEWER)
            continue;
        fresh();
        arrive(right, 'A');
        memory.state[DISPLAY_STATE_EDITION] = (uint8_t)byte;
        check_state_refused(HERE, "unknown edition in a record");
        CHECK_FED("the same, an empty piece", feed_with(right, NULL, 0, 0), DISPLAY_BAD_RECORD, 0, 0);
        CHECK_REFUSED("the same, a short framebuffer", short_glass, DISPLAY_BAD_FRAMEBUFFER_SIZE, REPLIES);
        CHECK_REFUSED("the same, a short store", short_store, DISPLAY_BAD_STORE_SIZE, REPLIES);
    }
}

// The records of the two starts differ in the edition alone.
static void check_edition_kept(void)
{
    static uint8_t older[DISPLAY_STATE_RECORD_SIZE + 1];
    edition = OLDER;
    fresh();
    CHECK("edition", OLDER, display_edition(memory.state));
    memcpy(older, memory.state, sizeof older);
    edition = NEWER;
    fresh();
    CHECK("edition", NEWER, display_edition(memory.state));
    check_changes(HERE, "records of the two starts", older, memory.state, sizeof older,
                  OFFSETS(DISPLAY_STATE_EDITION));
    FEED('A', COMMAND, PIXEL, 0, 0, COMMAND, NO_COMMAND, COMMAND, PURGE, 89, 33);
    pass_with(right, 1, REPLIES);
    CHECK("edition after a purge and a time", NEWER, display_edition(memory.state));
}

// Arrive and take do not look at the directory, nor at an upload's number.
static void check_number_refused(const char *what)
{
    CHECK_REFUSED(what, right, DISPLAY_BAD_DIRECTORY, REPLIES);
    CHECK_QUEUED(what, arrive(right, 'A'), DISPLAY_OK, 0, DISPLAY_SIGNAL_NONE);
    CHECK_QUEUED(what, take(right), DISPLAY_OK, 'A', DISPLAY_SIGNAL_NONE);
}

// The place of an upload's number is found by two records that differ in its high byte.
static void check_number_in_record(void)
{
    static uint8_t state[DISPLAY_STATE_RECORD_SIZE];
    size_t high = 0;
    fresh();
    BEGIN_UPLOAD(UPLOAD_BITMAP, 256, 1);
    memcpy(state, memory.state, sizeof state);
    fresh();
    BEGIN_UPLOAD(UPLOAD_BITMAP, 3 * 256, 1);
    while (high < sizeof state && state[high] == memory.state[high])
        high++;
    CHECK("high byte", 3, memory.state[high]);
    CHECK_FED("below the range's end", feed_with(right, NULL, 0, 0), DISPLAY_OK, 0, 0);
    memory.state[high] = 4;
    check_number_refused("beyond the range");
}

// The record is told that it is of the other edition. An upload that the other can name goes on there, and one that it
// cannot is at odds with the directory. A command that would have come to its end there is not sound.
static void check_mistaken(void)
{
    edition = NEWER;
    fresh();
    BEGIN_UPLOAD(UPLOAD_BITMAP, 200, 1);
    memory.state[DISPLAY_STATE_EDITION] = OLDER;
    FEED('B', CONFIRM);
    CHECK_ENTRIES("the entry is of the edition at the end", 2, 200, 1, 0);
    fresh();
    BEGIN_UPLOAD(UPLOAD_BITMAP, 256, 1);
    memory.state[DISPLAY_STATE_EDITION] = OLDER;
    check_number_refused("a number that the edition cannot name");
    check_number_in_record();
    fresh();
    FEED(COMMAND, FONT, 1);
    memory.state[DISPLAY_STATE_EDITION] = OLDER;
    check_state_refused(HERE, "a command of one byte, which has come");
}

static void check_edition(uint32_t protocol)
{
    edition = protocol;
    check_unknown_starts();
    check_unknown_in_record();
    check_directories();
    check_used();
    check_time();
}

void check_editions(void)
{
    static const uint32_t heights[] = {DISPLAY_LOW_HEIGHT, DISPLAY_TALL_HEIGHT};
    size_t i;
    for (i = 0; i < sizeof heights / sizeof *heights; i++) {
        set_height(heights[i]);
        check_edition(OLDER);
        check_edition(NEWER);
        check_edition_kept();
        check_files();
        check_mistaken();
    }
    edition = OLDER;
}
