// Checks files by number and size: the commands of the newer edition, a store that goes from one edition to the other,
// and the entries of the directory.
#include "check-calls.h"

enum { OLDER = DISPLAY_OLDER_EDITION, NEWER = DISPLAY_NEWER_EDITION, MOST = DISPLAY_FILE_NUMBER_MOST };
enum { FONT_TYPE = 0, BITMAP_TYPE = 1, NO_TYPE = 2 };

// As the newer edition has it, in commands and in the directory.
#define NUMBER(number) (uint8_t)((number) & 0xFF), (uint8_t)((number) >> 8)

// A bitmap of 3 by 1 pixels, black, white, black; at (8, 20) it is bits 7 and 5 of a byte.
static unsigned shown(void)
{
    return memory.glass[20 * DISPLAY_STRIDE + 1];
}
#define PICTURE 3, 1, 0xA0
enum { SHOWN = 0xA0 };

// One character, 'A', of one black pixel.
#define LETTER 1, 1, 'A', 'A', 0, 7, 1, 0x80

static void start_again(uint32_t protocol)
{
    edition = protocol;
    CHECK("start with the same store", DISPLAY_OK, start(right));
}

static void check_newer_files(void)
{
    fresh();
    UPLOAD(UPLOAD_BITMAP, 300, PICTURE);
    UPLOAD(UPLOAD_FONT, 300, LETTER);
    CHECK_ENTRIES("entries of the newer edition", 4, NUMBER(300), 3, 0, 0, 0, 3, NUMBER(300), 8, 0, 0, 0);
    FEED(COMMAND, SHOW_BITMAP, NUMBER(300), 8, 20, COMMAND, FONT, NUMBER(300), 'A');
    CHECK("picture", SHOWN, shown());
    CHECK("letter", 0x80, memory.glass[0]);
    FEED(COMMAND, DELETE_FILE, FONT_TYPE, NUMBER(300));
    CHECK_ENTRIES("the bitmap of that number stays", 4, NUMBER(300), 3, 0, 0, 0);
    FEED(COMMAND, DELETE_FILE, BITMAP_TYPE, NUMBER(300));
    CHECK("no entries", 0, memory.store[0]);
    UPLOAD(UPLOAD_BITMAP, 1, PICTURE);
    UPLOAD(UPLOAD_FONT, 257, LETTER); // its low byte is that of the built-in font
    UPLOAD(UPLOAD_BITMAP, MOST, PICTURE);
    FEED(COMMAND, FONT, NUMBER(257), COMMAND, FONT, NUMBER(1), COMMAND, SHOW_BITMAP, NUMBER(MOST), 0, 0);
    CHECK_LAST_REFUSAL("refused", 0, DISPLAY_NO_REFUSAL);
    FEED(COMMAND, PURGE, 89, 33);
    CHECK("no entries", 0, memory.store[0]);
}

// Fonts 300 and 44 have the same low byte; the one is deleted while the other is in use.
static void check_font_kept(void)
{
    fresh();
    UPLOAD(UPLOAD_FONT, 300, LETTER);
    UPLOAD(UPLOAD_FONT, 44, LETTER);
    FEED(COMMAND, FONT, NUMBER(300), COMMAND, DELETE_FILE, FONT_TYPE, NUMBER(44), 'A');
    CHECK("letter", 0x80, memory.glass[0]);
    FEED(COMMAND, DELETE_FILE, FONT_TYPE, NUMBER(300), COMMAND, TEXT_POINT, 0, 0, '-');
    CHECK("dash of the built-in font", 0xF0, memory.glass[3 * DISPLAY_STRIDE]);
    CHECK_LAST_REFUSAL("refused", 0, DISPLAY_NO_REFUSAL);
}

// What the one edition has uploaded, the other shows, knows to be there, and deletes.
static void check_either_reads_both(void)
{
    edition = OLDER;
    fresh();
    UPLOAD(UPLOAD_BITMAP, 7, PICTURE);
    start_again(NEWER);
    UPLOAD(UPLOAD_BITMAP, 8, PICTURE);
    CHECK_ENTRIES("entries of both", 2, 7, 3, 0, 4, NUMBER(8), 3, 0, 0, 0);
    FEED(COMMAND, SHOW_BITMAP, NUMBER(7), 8, 20);
    CHECK("an older one, shown by the newer", SHOWN, shown());
    CHECK("its number is in use", DECLINED, BEGIN_UPLOAD(UPLOAD_BITMAP, 7, 3).replies[0]);
    CHECK_LAST_REFUSAL("its number is in use", 1, DISPLAY_REFUSED_NUMBER_IN_USE);
    FEED(COMMAND, DELETE_FILE, BITMAP_TYPE, NUMBER(7));
    CHECK_ENTRIES("it is deleted", 4, NUMBER(8), 3, 0, 0, 0);

    start_again(OLDER);
    FEED(COMMAND, SHOW_BITMAP, 8, 8, 20);
    CHECK("a newer one, shown by the older", SHOWN, shown());
    CHECK("its number is in use", DECLINED, BEGIN_UPLOAD(UPLOAD_BITMAP, 8, 3).replies[0]);
    CHECK_LAST_REFUSAL("its number is in use", 1, DISPLAY_REFUSED_NUMBER_IN_USE);
    FEED(COMMAND, DELETE_FILE, BITMAP_TYPE, 8);
    CHECK("no entries", 0, memory.store[0]);
}

#define REFUSES(what, refusal, ...) check_refuses(HERE, what, refusal, BYTES(__VA_ARGS__))

// The last byte is where it is refused, and the dash behind it is a character again: the fourth of its rows.
static void check_refuses(const char *file, int line, const char *what, unsigned refusal, const uint8_t *bytes,
                          display_length length)
{
    fresh();
    feed(file, line, bytes, length - 1);
    check_last_refusal(file, line, what, 0, DISPLAY_NO_REFUSAL);
    feed(file, line, bytes + length - 1, 1);
    check_last_refusal(file, line, what, 1, refusal);
    feed(file, line, BYTES('-'));
    check(file, line, what, 0xF0, memory.glass[3 * DISPLAY_STRIDE]);
    check(file, line, what, 1, display_refusal_count(memory.state));
}

static void check_number_range(void)
{
    enum { RANGE = DISPLAY_REFUSED_NUMBER_OUT_OF_RANGE, NONE = DISPLAY_REFUSED_NO_SUCH_FILE };
    static const unsigned beyond[] = {MOST + 1, MOST + 2, 2048, 65535};
    size_t i;
    for (i = 0; i < sizeof beyond / sizeof *beyond; i++) {
        unsigned n = beyond[i];
        REFUSES("font", RANGE, COMMAND, FONT, NUMBER(n));
        REFUSES("saved bitmap, at its number", RANGE, COMMAND, SHOW_BITMAP, NUMBER(n));
        REFUSES("delete a font", RANGE, COMMAND, DELETE_FILE, FONT_TYPE, NUMBER(n));
        REFUSES("delete a bitmap", RANGE, COMMAND, DELETE_FILE, BITMAP_TYPE, NUMBER(n));
        REFUSES("the type first", DISPLAY_REFUSED_UNKNOWN_TYPE, COMMAND, DELETE_FILE, NO_TYPE, NUMBER(n));
        REFUSES("upload a font", RANGE, COMMAND, UPLOAD_FONT, NUMBER(n), 1, 0, 0, 0);
        REFUSES("upload a bitmap, of no bytes", RANGE, COMMAND, UPLOAD_BITMAP, NUMBER(n), 0, 0, 0, 0);
    }
    REFUSES("font", NONE, COMMAND, FONT, NUMBER(MOST));
    REFUSES("saved bitmap, at its number", NONE, COMMAND, SHOW_BITMAP, NUMBER(MOST));
    REFUSES("delete a font", NONE, COMMAND, DELETE_FILE, FONT_TYPE, NUMBER(MOST));
    REFUSES("built-in font, of no bytes", DISPLAY_REFUSED_NUMBER_IN_USE, COMMAND, UPLOAD_FONT, NUMBER(1), 0, 0, 0, 0);
}

// An upload is answered, and the whole size counts.
static void check_upload_replies(void)
{
    static const struct {
        unsigned number;
        uint32_t size;
        unsigned reply, refusal;
    } cases[] = {
        {MOST, 1, ACCEPTED, DISPLAY_NO_REFUSAL},
        {MOST + 1, 1, DECLINED, DISPLAY_REFUSED_NUMBER_OUT_OF_RANGE},
        {MOST, DISPLAY_STORE_LEAST - DISPLAY_DIRECTORY_SIZE, ACCEPTED, DISPLAY_NO_REFUSAL},
        {MOST, DISPLAY_STORE_LEAST - DISPLAY_DIRECTORY_SIZE + 1, DECLINED, DISPLAY_REFUSED_NO_SPACE},
        {MOST, 0, DECLINED, DISPLAY_REFUSED_NO_SPACE},
        {MOST, 1 << 16, DECLINED, DISPLAY_REFUSED_NO_SPACE},
        {MOST, (1 << 16) + 1, DECLINED, DISPLAY_REFUSED_NO_SPACE},
        {MOST, (1 << 24) + 1, DECLINED, DISPLAY_REFUSED_NO_SPACE},
        {MOST, UINT32_MAX, DECLINED, DISPLAY_REFUSED_NO_SPACE},
    };
    size_t i;
    for (i = 0; i < sizeof cases / sizeof *cases; i++) {
        fresh();
        CHECK("reply", cases[i].reply, BEGIN_UPLOAD(UPLOAD_BITMAP, cases[i].number, cases[i].size).replies[0]);
        CHECK("last refusal", cases[i].refusal, display_last_refusal(memory.state));
    }
}

// Bitmaps of one byte, `from` and the numbers behind it.
static void upload_many(unsigned from, unsigned count)
{
    for (; count > 0; from++, count--)
        UPLOAD(UPLOAD_BITMAP, from, 'B');
}

static void check_no_entry_fits(const char *what)
{
    unsigned refused = display_refusal_count(memory.state);
    CHECK(what, DECLINED, BEGIN_UPLOAD(UPLOAD_BITMAP, 255, 1).replies[0]);
    CHECK_LAST_REFUSAL(what, refused + 1, DISPLAY_REFUSED_NO_SPACE);
}

// Entries have four bytes in the older edition and seven in the newer, 255 together at most.
static void check_full_directory(void)
{
    edition = OLDER;
    fresh();
    upload_many(10, 63);
    check_no_entry_fits("63 of four bytes");
    start_again(NEWER);
    check_no_entry_fits("252 bytes and seven");
    FEED(COMMAND, DELETE_FILE, BITMAP_TYPE, NUMBER(10));
    upload_many(300, 1);
    check_no_entry_fits("255 bytes");
    start_again(OLDER);
    check_no_entry_fits("255 bytes and four");
    CHECK("the last byte", 0, memory.store[DISPLAY_DIRECTORY_SIZE - 1]);

    edition = NEWER;
    fresh();
    upload_many(300, 36);
    check_no_entry_fits("36 of seven bytes");
    start_again(OLDER);
    check_no_entry_fits("252 bytes and four");
    start_again(NEWER);
    FEED(COMMAND, DELETE_FILE, BITMAP_TYPE, NUMBER(300));
    start_again(OLDER);
    upload_many(10, 1);
    start_again(NEWER);
    check_no_entry_fits("249 bytes and seven");
    start_again(OLDER);
    upload_many(11, 1);
    check_no_entry_fits("253 bytes and four");
}

static void check_entries_refused(const char *file, int line, const char *what, const uint8_t *entries,
                                  display_length length)
{
    fresh();
    memcpy(memory.store, entries, (size_t)length);
    check(file, line, what, DISPLAY_BAD_DIRECTORY, start(right));
    check(file, line, what, 0, changed());
    check_refused(file, line, what, right, DISPLAY_BAD_DIRECTORY, REPLIES);
}
#define REFUSES_ENTRIES(what, ...) check_entries_refused(HERE, what, BYTES(__VA_ARGS__))

// 64 entries of four bytes leave no byte that ends them.
static void check_no_end(void)
{
    uint8_t entries[DISPLAY_DIRECTORY_SIZE];
    unsigned i;
    for (i = 0; i < sizeof entries; i += 4)
        memcpy(entries + i, (const uint8_t[]){2, (uint8_t)i, 1, 0}, 4);
    check_entries_refused(HERE, "256 bytes of entries", entries, sizeof entries);
}

void check_directories(void)
{
    check_no_end();
    REFUSES_ENTRIES("a number beyond the range", 4, NUMBER(MOST + 1), 1, 0, 0, 0);
    REFUSES_ENTRIES("the built-in font", 3, NUMBER(1), 1, 0, 0, 0);
    REFUSES_ENTRIES("a file of no bytes", 4, NUMBER(300), 0, 0, 0, 0);
    REFUSES_ENTRIES("a file too large", 4, NUMBER(300), 1, 0, 1, 0);
    REFUSES_ENTRIES("a number twice", 4, NUMBER(300), 1, 0, 0, 0, 4, NUMBER(300), 1, 0, 0, 0);
    REFUSES_ENTRIES("a number in both kinds", 2, 7, 1, 0, 4, NUMBER(7), 1, 0, 0, 0);
    REFUSES_ENTRIES("the same of fonts", 3, NUMBER(7), 1, 0, 0, 0, 1, 7, 1, 0);
    REFUSES_ENTRIES("no such kind", 5, NUMBER(300), 1, 0, 0, 0);
}

void check_files(void)
{
    edition = NEWER;
    check_newer_files();
    check_font_kept();
    check_number_range();
    check_upload_replies();
    check_either_reads_both();
    check_full_directory();
}
