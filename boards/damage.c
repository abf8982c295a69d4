#include "damage.h"

#include "board.h"
#include "random.h"

#include <string.h>

unsigned other_height(unsigned height)
{
    return height == DISPLAY_LOW_HEIGHT ? DISPLAY_TALL_HEIGHT : DISPLAY_LOW_HEIGHT;
}

// A length that is not the right one. What is not refused by its length alone is really there: screens of either
// height, store lengths within bounds. A length whose low half is right must not pass for it.
static void damage_length(void)
{
    unsigned slice = below(4) == 0 ? STORE : below(REPLIES);
    display_length right = lent[slice].length;
    switch (below(7)) {
    case 0:
        lent[slice].length = 0;
        break;
    case 1:
        lent[slice].length = right - 1;
        break;
    case 2:
        lent[slice].length = right + 1;
        break;
    case 3:
        lent[slice].length = slice == STORE ? DISPLAY_STORE_MOST : right + 256;
        break;
    case 4:
        lent[slice].length = slice == STORE ? DISPLAY_STORE_MOST + 1 : right + 65536;
        break;
    case 5:
        lent[slice].length = right + ((display_length)1 << (32 + below(32)));
        break;
    default:
        lent[slice].length = UINT64_MAX;
    }
}

static void damage_byte(uint8_t *byte)
{
    if (below(2) > 0)
        *byte ^= (uint8_t)(1 << below(8));
    else
        *byte = any_byte();
}

// The record's height and the screen's length, or one of them: those of the other screen. Now and then a height that
// there is not.
static void damage_height(unsigned height)
{
    unsigned kind = below(4);
    if (kind < 2)
        lent[SCREEN].length = other_height(height) * DISPLAY_STRIDE;
    if (kind == 0 || kind == 2)
        lent[STATE].bytes[DISPLAY_STATE_HEIGHT] = (uint8_t)other_height(height);
    if (kind == 3)
        damage_byte(lent[STATE].bytes + DISPLAY_STATE_HEIGHT);
}

// The record's edition is the other one, now and then one that there is not.
static void damage_edition(void)
{
    uint8_t *byte = lent[STATE].bytes + DISPLAY_STATE_EDITION;
    if (below(4) == 0)
        damage_byte(byte);
    else
        *byte = (uint8_t)(DISPLAY_OLDER_EDITION + DISPLAY_NEWER_EDITION - *byte);
}

// Entries of the directory are four bytes, kind, number and size, or seven, with a number of two and a size of four.
enum { OLDER_ENTRY = 4, NEWER_ENTRY = 7 };

static void damage_directory(void)
{
    unsigned length = below(2) > 0 ? OLDER_ENTRY : NEWER_ENTRY;
    uint8_t *entry = lent[STORE].bytes + length * below(8);
    if (below(2) > 0) {
        damage_byte(lent[STORE].bytes + below(DISPLAY_DIRECTORY_SIZE));
        return;
    }
    memset(entry, 0, length);
    entry[0] = (uint8_t)below(6);
    entry[1] = (uint8_t)below(6);
    entry[length / 2] = any_byte();
    entry[length / 2 + 1] = (uint8_t)below(3);
    if (length == NEWER_ENTRY)
        entry[2] = (uint8_t)below(5);
}

static uint8_t *put_entry(uint8_t *entry, unsigned length, unsigned number)
{
    memset(entry, 0, length);
    entry[0] = length == OLDER_ENTRY ? 2 : 4;
    entry[1] = (uint8_t)number;
    entry[length / 2] = 1;
    return entry + length;
}

// Files of one byte, with about as many entries as the directory holds, which is 255 bytes of them.
static void fill_directory(void)
{
    uint8_t *entry = lent[STORE].bytes, *end = entry + DISPLAY_DIRECTORY_SIZE;
    unsigned length = below(2) > 0 ? OLDER_ENTRY : NEWER_ENTRY, other = OLDER_ENTRY + NEWER_ENTRY - length;
    unsigned i, count = DISPLAY_DIRECTORY_SIZE / length - below(3);
    for (i = 0; i < count; i++)
        entry = put_entry(entry, length, i + 2);
    if (below(2) > 0 && end - entry >= (int)other)
        put_entry(entry, other, 1);
}

// Of all files together. What it is of a directory that is not sound does not matter.
static unsigned sum_of_sizes(void)
{
    const uint8_t *directory = lent[STORE].bytes;
    unsigned at = 0, sum = 0;
    while (directory[at] != 0) {
        unsigned length = directory[at] <= 2 ? OLDER_ENTRY : NEWER_ENTRY;
        if (at + length >= DISPLAY_DIRECTORY_SIZE)
            break;
        sum += directory[at + length / 2] + 256u * directory[at + length / 2 + 1];
        at += length;
    }
    return sum;
}

static void put_used_room(unsigned used)
{
    lent[STATE].bytes[DISPLAY_STATE_USED_ROOM_LOW] = (uint8_t)used;
    lent[STATE].bytes[DISPLAY_STATE_USED_ROOM_HIGH] = (uint8_t)(used >> 8);
}

// Behind a change of the directory, three times in four, so that calls go on with what the directory is now.
static void mend_used_room(void)
{
    if (below(4) > 0)
        put_used_room(sum_of_sizes());
}

// One more or less, or a wrong bit.
static void damage_used_room(void)
{
    unsigned used = sum_of_sizes();
    put_used_room(below(2) > 0 ? used + 2 * below(2) - 1 : used ^ (1u << below(16)));
}

// The next refusal and the next byte lost roll over.
static void fill_counts(void)
{
    lent[STATE].bytes[DISPLAY_STATE_REFUSAL_COUNT_LOW] = lent[STATE].bytes[DISPLAY_STATE_REFUSAL_COUNT_HIGH] = 255;
    lent[QUEUE].bytes[DISPLAY_QUEUE_LOST_COUNT_LOW] = lent[QUEUE].bytes[DISPLAY_QUEUE_LOST_COUNT_HIGH] = 255;
}

void damage(unsigned height)
{
    switch (below(14)) {
    case 0:
    case 1:
        damage_byte(lent[STATE].bytes + below(DISPLAY_STATE_RECORD_SIZE));
        break;
    case 2:
    case 3: // what is under way and the settings
        damage_byte(lent[STATE].bytes + below(DISPLAY_STATE_LAST_REFUSAL));
        break;
    case 4: // the numbers behind the ring
        damage_byte(lent[QUEUE].bytes + DISPLAY_QUEUE_RECORD_SIZE - 1 - below(5));
        break;
    case 5:
    case 6:
        damage_directory();
        mend_used_room();
        break;
    case 7:
        fill_directory();
        mend_used_room();
        break;
    case 8:
        fill_counts();
        break;
    case 9:
    case 10:
        damage_height(height);
        break;
    case 11:
        damage_edition();
        break;
    case 12:
        damage_used_room();
        break;
    default:
        damage_length();
    }
}
