// Checks the heights of the glass: which there are, where the record keeps it, what comes of one mistaken for another,
// and the rows that commands and characters find on either.
#include "check-calls.h"

enum { LOW = DISPLAY_LOW_HEIGHT, TALL = DISPLAY_TALL_HEIGHT };

// Lengths for the glass that is not under test.
static Lengths with_other_glass(void)
{
    Lengths n = right;
    n.glass = height == LOW ? DISPLAY_TALL_FRAMEBUFFER_SIZE : DISPLAY_LOW_FRAMEBUFFER_SIZE;
    return n;
}

static uint8_t other_height(void)
{
    return height == LOW ? TALL : LOW;
}

// Over garbage, over a display that runs, and ahead of all that a start refuses.
static void check_unknown_at_start(uint32_t rows)
{
    const Lengths wrong = {right.glass - 1, DISPLAY_STORE_LEAST - 1, right.state, right.queue};
    spoil();
    CHECK("start at an unknown height", DISPLAY_BAD_RECORD, start_as(rows, edition, right));
    NOTHING_CHANGES("start at an unknown height");
    fresh();
    FEED('A');
    CHECK("the same, later", DISPLAY_BAD_RECORD, start_as(rows, edition, right));
    NOTHING_CHANGES("the same, later");
    memory.store[DISPLAY_DIRECTORY_SIZE - 1] = GARBAGE;
    CHECK("the same, with all else wrong", DISPLAY_BAD_RECORD, start_as(rows, 0, wrong));
    NOTHING_CHANGES("the same, with all else wrong");
}

static void check_unknown_starts(void)
{
    static const uint32_t heights[] = {0, 1, 32, 63, 65, 96, 127, 129, 192, 255, 256, 320, 384, 16384, 32768,
                                       65536 + 64, 65536 + 128, 0x40000000, 0x80000000, 0x80000000 + 64,
                                       UINT32_MAX - 64, UINT32_MAX};
    size_t i;
    uint32_t rows, known = 0;
    for (i = 0; i < sizeof heights / sizeof *heights; i++)
        check_unknown_at_start(heights[i]);
    spoil();
    for (rows = 0; rows < 2048; rows++)
        known += start_as(rows, edition, right) != DISPLAY_BAD_RECORD;
    CHECK("heights that there are", 2, known);
}

// The byte that waits in the queue would be taken, were it not for the height.
static void check_unknown_in_record(void)
{
    unsigned byte;
    for (byte = 0; byte < 256; byte++) {
        if (byte == LOW || byte == TALL)
            continue;
        fresh();
        arrive(right, 'A');
        memory.state[DISPLAY_STATE_HEIGHT] = (uint8_t)byte;
        check_state_refused(HERE, "unknown height in a record");
        CHECK_FED("the same, an empty piece", feed_with(right, NULL, 0, 0), DISPLAY_BAD_RECORD, 0, 0);
        CHECK_REFUSED("the same, with the other glass", with_other_glass(), DISPLAY_BAD_RECORD, REPLIES);
    }
}

// Either record is sound, so arrive and take, which are lent no glass, go on.
static void check_mistaken(void)
{
    Lengths other = with_other_glass();
    spoil();
    CHECK("start with the other glass", DISPLAY_BAD_FRAMEBUFFER_SIZE, start(other));
    NOTHING_CHANGES("start with the other glass");
    fresh();
    CHECK_REFUSED("the other glass", other, DISPLAY_BAD_FRAMEBUFFER_SIZE, REPLIES);
    memory.state[DISPLAY_STATE_HEIGHT] = other_height();
    CHECK_REFUSED("the other height", right, DISPLAY_BAD_FRAMEBUFFER_SIZE, REPLIES);
    CHECK_FED("the other height and its glass", feed_with(other, BYTES('A'), REPLIES), DISPLAY_OK, 1, 0);
    CHECK_FED("the same, a time", pass_with(other, 1, REPLIES), DISPLAY_OK, 0, 0);
    CHECK_QUEUED("the other height", arrive(right, 'A'), DISPLAY_OK, 0, DISPLAY_SIGNAL_NONE);
    CHECK_QUEUED("the other height", take(right), DISPLAY_OK, 'A', DISPLAY_SIGNAL_NONE);
}

// A bar that is on the tall glass and not on the low one.
static void check_too_low(void)
{
    set_height(TALL);
    fresh();
    FEED(COMMAND, SET_BAR, 0, 0, 0, 0, 9, LOW);
    CHECK("refused", 0, display_refusal_count(memory.state));
    memory.state[DISPLAY_STATE_HEIGHT] = LOW;
    CHECK_REFUSED("the tall glass", right, DISPLAY_BAD_FRAMEBUFFER_SIZE, REPLIES);
    set_height(LOW);
    check_state_refused(HERE, "a bar below the glass");
}

// Everything is wrong at once, and mended in the order of the answers.
static void check_order_of_start(void)
{
    Lengths n = with_other_glass();
    n.store--;
    n.state++;
    n.queue--;
    spoil();
    memory.store[DISPLAY_DIRECTORY_SIZE - 1] = GARBAGE;
    CHECK("height", DISPLAY_BAD_RECORD, start_as(height + 1, 0, n));
    CHECK("length of the state", DISPLAY_BAD_RECORD, start_as(height, 0, n));
    n.state--;
    CHECK("length of the queue", DISPLAY_BAD_RECORD, start_as(height, 0, n));
    n.queue++;
    CHECK("framebuffer", DISPLAY_BAD_FRAMEBUFFER_SIZE, start_as(height, 0, n));
    n.glass = right.glass;
    CHECK("store", DISPLAY_BAD_STORE_SIZE, start_as(height, 0, n));
    n.store++;
    CHECK("edition", DISPLAY_BAD_RECORD, start_as(height, 0, n));
    NOTHING_CHANGES("edition");
    CHECK("directory", DISPLAY_BAD_DIRECTORY, start(n));
    NOTHING_CHANGES("directory");
    memory.store[DISPLAY_DIRECTORY_SIZE - 1] = 0;
    CHECK("nothing", DISPLAY_OK, start(n));
}

// Of a feed and of a time.
static void check_order_of_refusals(void)
{
    Lengths n = with_other_glass();
    fresh();
    n.store--;
    n.state++;
    memory.state[DISPLAY_STATE_HEIGHT]++;
    memory.state[DISPLAY_STATE_EDITION] = 0;
    memory.state[DISPLAY_STATE_BACKLIGHT_ON] = 2;
    memory.state[DISPLAY_STATE_USED_ROOM_HIGH] = 1;
    memory.store[DISPLAY_DIRECTORY_SIZE - 1] = GARBAGE;
    CHECK_REFUSED("length of the state", n, DISPLAY_BAD_RECORD, 0);
    n.state--;
    CHECK_REFUSED("height", n, DISPLAY_BAD_RECORD, 0);
    memory.state[DISPLAY_STATE_HEIGHT]--;
    CHECK_REFUSED("framebuffer", n, DISPLAY_BAD_FRAMEBUFFER_SIZE, 0);
    n.glass = right.glass;
    CHECK_REFUSED("store", n, DISPLAY_BAD_STORE_SIZE, 0);
    n.store++;
    CHECK_REFUSED("edition and the rest of the record", n, DISPLAY_BAD_RECORD, 0);
    memory.state[DISPLAY_STATE_BACKLIGHT_ON] = 1;
    CHECK_REFUSED("edition", n, DISPLAY_BAD_RECORD, 0);
    memory.state[DISPLAY_STATE_EDITION] = (uint8_t)edition;
    CHECK_REFUSED("directory", n, DISPLAY_BAD_DIRECTORY, 0);
    memory.store[DISPLAY_DIRECTORY_SIZE - 1] = 0;
    CHECK_REFUSED("used room", n, DISPLAY_BAD_RECORD, 0);
    memory.state[DISPLAY_STATE_USED_ROOM_HIGH] = 0;
    CHECK_REFUSED("reply room", n, DISPLAY_NO_REPLY_ROOM, 0);
    CHECK_FED("nothing", feed_with(n, BYTES('A'), DISPLAY_REPLY_ROOM), DISPLAY_OK, 1, 0);
    CHECK_FED("nothing", pass_with(n, 1, DISPLAY_REPLY_ROOM), DISPLAY_OK, 0, 0);
}

// The records of the two starts differ in the height and the scroll row alone, and in both by the height.
static void check_height_kept(void)
{
    static uint8_t low[DISPLAY_STATE_RECORD_SIZE];
    size_t i;
    unsigned differing = 0;
    set_height(LOW);
    fresh();
    CHECK("height", LOW, display_height(memory.state));
    memcpy(low, memory.state, sizeof low);
    set_height(TALL);
    fresh();
    CHECK("height", TALL, display_height(memory.state));
    for (i = 0; i < sizeof low; i++) {
        if (low[i] == memory.state[i])
            continue;
        differing++;
        CHECK("byte of the low one", LOW, low[i]);
        CHECK("byte of the tall one", TALL, memory.state[i]);
    }
    CHECK("bytes that differ", 2, differing);
    CHECK("height of the low one", LOW, low[DISPLAY_STATE_HEIGHT]);
    FEED('A', COMMAND, PIXEL, 0, TALL - 1, COMMAND, PURGE, 89, 33);
    CHECK("height after a purge", TALL, display_height(memory.state));
}

void check_heights(void)
{
    static const uint32_t heights[] = {LOW, TALL};
    size_t i;
    for (i = 0; i < sizeof heights / sizeof *heights; i++) {
        set_height(heights[i]);
        check_unknown_starts();
        check_unknown_in_record();
        check_mistaken();
        check_order_of_start();
        check_order_of_refusals();
    }
    check_too_low();
    check_height_kept();
}

// Four black pixels from column 0 on, or white ones.
static unsigned row_starts(size_t row)
{
    return memory.glass[row * DISPLAY_STRIDE];
}

// A dash is the fourth of a character's seven rows. One that does not fit at the end of its line goes on a line of
// eight rows lower, while that ends at the scroll row at the latest; else all moves up by these eight, the pixel in row
// 20 too.
static void check_scroll_row(const char *what)
{
    uint8_t last = (uint8_t)(height - 15);
    FEED(COMMAND, PIXEL, 0, 20, COMMAND, TEXT_POINT, DISPLAY_WIDTH - 4, last, '-');
    CHECK(what, 0xF0, row_starts(height - 4));
    CHECK(what, 0x80, row_starts(20));
    FEED(COMMAND, TEXT_POINT, DISPLAY_WIDTH - 4, (uint8_t)(last + 1), '-');
    CHECK(what, 0xF0, row_starts(height - 11));
    CHECK(what, 0, row_starts(height - 12)); // where the first dash has come to, and the second one's box is white
    CHECK(what, 0x80, row_starts(12));
    CHECK(what, 0, row_starts(20) | row_starts(height - 4));
}

static void check_scroll_rows(void)
{
    enum { METRICS = 50 };
    fresh();
    check_scroll_row("scroll row at start");
    fresh();
    FEED(COMMAND, METRICS, 3, 4, 5, 6, 40, COMMAND, TEXT_POINT, 9, 9, COMMAND, PURGE, 89, 33);
    check_scroll_row("scroll row after a purge");
}

// One character, 'A', of one column and so many rows, all black.
static void upload_font(uint8_t n, unsigned rows)
{
    unsigned i, size = 7 + (rows + 7) / 8;
    Fed fed = FEED(COMMAND, UPLOAD_FONT, n, (uint8_t)size, 0);
    CHECK("a font is taken, however high", ACCEPTED, fed.replies[0]);
    FEED(1, CONFIRM, (uint8_t)rows, CONFIRM, 'A', CONFIRM, 'A', CONFIRM, 0, CONFIRM, 7, CONFIRM, 1, CONFIRM);
    for (i = 7; i < size; i++)
        FEED(0xFF, CONFIRM);
}

static void check_font_height(void)
{
    unsigned row, black = 0;
    fresh();
    upload_font(2, height);
    upload_font(3, height + 1);
    FEED(COMMAND, FONT, 2, 'A');
    CHECK("refused", 0, display_refusal_count(memory.state));
    for (row = 0; row < height; row++)
        black += row_starts(row) == 0x80;
    CHECK("rows of a font as high as the glass", height, black);
    FEED(COMMAND, FONT, 3);
    CHECK("a font that is higher", DISPLAY_REFUSED_MALFORMED_FILE, display_last_refusal(memory.state));
    CHECK("refused", 1, display_refusal_count(memory.state));
}

// A piece whose byte at this place is the last that fits; one more is refused.
static void check_bound(const char *what, unsigned refusal, uint8_t *piece, size_t length, size_t place)
{
    fresh();
    feed(HERE, piece, length);
    CHECK(what, 0, display_refusal_count(memory.state));
    piece[place]++;
    feed(HERE, piece, length);
    CHECK(what, 1, display_refusal_count(memory.state));
    CHECK(what, refusal, display_last_refusal(memory.state));
}

// Lines of text are eight rows high, characters seven.
static void check_bounds(void)
{
    uint8_t bar[] = {COMMAND, SET_BAR, 0, 0, 0, 0, 9, (uint8_t)(height - 1)};
    uint8_t strip[] = {COMMAND, SET_STRIP, 0, 0, 0, 9, (uint8_t)(height - 1)};
    uint8_t cell[] = {COMMAND, TEXT_CELL, 1, (uint8_t)(height / 8)};
    uint8_t character[] = {COMMAND, TEXT_POINT, 0, (uint8_t)(height - 7), 'A'};
    check_bound("bar", DISPLAY_REFUSED_OUT_OF_BOUNDS, bar, sizeof bar, 7);
    check_bound("strip", DISPLAY_REFUSED_OUT_OF_BOUNDS, strip, sizeof strip, 6);
    check_bound("text cell", DISPLAY_REFUSED_OUT_OF_BOUNDS, cell, sizeof cell, 3);
    check_bound("character", DISPLAY_REFUSED_GLYPH_DOES_NOT_FIT, character, sizeof character, 3);
}

void check_rows(void)
{
    check_scroll_rows();
    check_font_height();
    check_bounds();
}
