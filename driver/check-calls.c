#include "check-calls.h"

#include <stdio.h>

uint32_t height, edition = DISPLAY_OLDER_EDITION;
Lengths right;
Memory memory, before;
unsigned checks, failures, strays;

void set_height(uint32_t rows)
{
    height = rows;
    right.glass = rows == DISPLAY_TALL_HEIGHT ? DISPLAY_TALL_FRAMEBUFFER_SIZE : DISPLAY_LOW_FRAMEBUFFER_SIZE;
    right.store = DISPLAY_STORE_LEAST;
    right.state = DISPLAY_STATE_RECORD_SIZE;
    right.queue = DISPLAY_QUEUE_RECORD_SIZE;
}

void check(const char *file, int line, const char *what, unsigned long long expected, unsigned long long got)
{
    checks++;
    if (expected == got)
        return;
    failures++;
    printf("%s:%d: %lu rows, edition %lu: %s: expected %llu, got %llu\n", file, line, (unsigned long)height,
           (unsigned long)edition, what, expected, got);
}

int changed(void)
{
    return memcmp(&before, &memory, sizeof memory) != 0;
}

void check_changes(const char *file, int line, const char *what, const uint8_t *old, const uint8_t *now, size_t length,
                   const size_t *offsets, size_t count)
{
    size_t i, k, wrong = 0;
    for (i = 0; i < length; i++) {
        int expected = 0;
        for (k = 0; k < count; k++)
            expected |= offsets[k] == i;
        if (expected == (old[i] != now[i]))
            continue;
        wrong++;
        printf("%s:%d: %s: expected %s byte %lu, got %u after %u\n", file, line, what,
               expected ? "a change of" : "no change of", (unsigned long)i, now[i], old[i]);
    }
    checks++;
    failures += wrong != 0;
}

static uint8_t *lend(uint8_t *slice, display_length length)
{
    return length == 0 ? NULL : slice;
}
#define LEND(slice) lend(memory.slice, n.slice), n.slice

static int differ(const uint8_t *bytes, const uint8_t *others, display_length from, size_t to)
{
    return from < to && memcmp(bytes + from, others + from, to - (size_t)from) != 0;
}
#define CHANGED_BEHIND(slice) differ(memory.slice, before.slice, n.slice, sizeof memory.slice)

static void look_behind(Lengths n)
{
    strays += CHANGED_BEHIND(glass) || CHANGED_BEHIND(store) || CHANGED_BEHIND(state) || CHANGED_BEHIND(queue);
}

uint32_t start_as(uint32_t rows, uint32_t protocol, Lengths n)
{
    uint32_t answer;
    before = memory;
    answer = display_start(rows, protocol, LEND(glass), LEND(store), LEND(state), LEND(queue));
    look_behind(n);
    return answer;
}

uint32_t start(Lengths n)
{
    return start_as(height, edition, n);
}

Fed feed_with(Lengths n, const uint8_t *piece, display_length length, display_length room)
{
    Fed fed, garbage;
    memset(&garbage, GARBAGE, sizeof garbage);
    fed = garbage;
    before = memory;
    fed.answer = display_feed(LEND(glass), LEND(store), LEND(state), piece, length, lend(fed.replies, room), room,
                              &fed.consumed, &fed.replied);
    look_behind(n);
    strays += differ(fed.replies, garbage.replies, fed.replied, REPLIES);
    return fed;
}

Fed pass_with(Lengths n, uint32_t milliseconds, display_length room)
{
    Fed fed, garbage;
    memset(&garbage, GARBAGE, sizeof garbage);
    fed = garbage;
    before = memory;
    fed.answer = display_time(LEND(glass), LEND(store), LEND(state), milliseconds, lend(fed.replies, room), room,
                              &fed.replied);
    fed.consumed = 0;
    look_behind(n);
    strays += differ(fed.replies, garbage.replies, fed.replied, REPLIES);
    return fed;
}

static Queued queued_by(Lengths n, int taking, uint8_t byte)
{
    Queued queued, garbage;
    memset(&garbage, GARBAGE, sizeof garbage);
    queued = garbage;
    before = memory;
    if (taking) {
        queued.answer = display_take(LEND(state), LEND(queue), &queued.byte, &queued.signal);
    } else {
        queued.answer = display_arrive(LEND(state), LEND(queue), byte, &queued.signal);
        queued.byte = 0;
    }
    look_behind(n);
    strays += differ(queued.beside_byte, garbage.beside_byte, 0, sizeof garbage.beside_byte);
    strays += differ(queued.beside_signal, garbage.beside_signal, 0, sizeof garbage.beside_signal);
    return queued;
}

Queued arrive(Lengths n, uint8_t byte)
{
    return queued_by(n, 0, byte);
}

Queued take(Lengths n)
{
    return queued_by(n, 1, 0);
}

void spoil(void)
{
    memset(&memory, GARBAGE, sizeof memory);
    memset(memory.store, 0, DISPLAY_DIRECTORY_SIZE);
}

void fresh(void)
{
    spoil();
    CHECK("start", DISPLAY_OK, start(right));
}

Fed feed(const char *file, int line, const uint8_t *piece, display_length length)
{
    Fed fed = feed_with(right, piece, length, REPLIES);
    check(file, line, "answer of a feed", DISPLAY_OK, fed.answer);
    check(file, line, "bytes consumed", length, fed.consumed);
    return fed;
}

Fed begin_upload(const char *file, int line, uint8_t code, unsigned number, uint32_t size)
{
    const uint8_t older[] = {COMMAND, code, (uint8_t)number, (uint8_t)size, (uint8_t)(size >> 8)};
    const uint8_t newer[] = {COMMAND, code, (uint8_t)number, (uint8_t)(number >> 8), (uint8_t)size,
                             (uint8_t)(size >> 8), (uint8_t)(size >> 16), (uint8_t)(size >> 24)};
    Fed fed = edition == DISPLAY_NEWER_EDITION ? feed(file, line, newer, sizeof newer)
                                               : feed(file, line, older, sizeof older);
    check(file, line, "replies to the command of an upload", 1, fed.replied);
    return fed;
}

void upload(const char *file, int line, uint8_t code, unsigned number, const uint8_t *bytes, display_length size)
{
    display_length i;
    Fed fed = begin_upload(file, line, code, number, (uint32_t)size);
    check(file, line, "an upload", ACCEPTED, fed.replies[0]);
    for (i = 0; i < size; i++) {
        fed = feed(file, line, (const uint8_t[]){bytes[i], CONFIRM}, 2);
        check(file, line, "replies to a byte and its confirmation", 1, fed.replied);
        check(file, line, "echo", bytes[i], fed.replies[0]);
    }
}

void check_entries(const char *file, int line, const char *what, const uint8_t *entries, display_length length)
{
    check(file, line, what, 0, (unsigned)(memcmp(memory.store, entries, (size_t)length) != 0));
    check(file, line, what, 0, memory.store[length]);
}

void check_fed(const char *file, int line, const char *what, Fed fed, uint32_t answer, display_length consumed,
               display_length replied)
{
    check(file, line, what, answer, fed.answer);
    check(file, line, what, consumed, fed.consumed);
    check(file, line, what, replied, fed.replied);
}

void check_refused(const char *file, int line, const char *what, Lengths n, uint32_t answer, display_length room)
{
    check_fed(file, line, what, feed_with(n, BYTES('A'), room), answer, 0, 0);
    check(file, line, what, 0, changed());
    check_fed(file, line, what, pass_with(n, DISPLAY_UPLOAD_TIMEOUT, room), answer, 0, 0);
    check(file, line, what, 0, changed());
}

void check_last_refusal(const char *file, int line, const char *what, unsigned count, unsigned last)
{
    check(file, line, what, count, display_refusal_count(memory.state));
    check(file, line, what, last, display_last_refusal(memory.state));
}

void check_queued(const char *file, int line, const char *what, Queued queued, uint32_t answer, unsigned byte,
                  unsigned signal)
{
    check(file, line, what, answer, queued.answer);
    check(file, line, what, byte, queued.byte);
    check(file, line, what, signal, queued.signal);
}

void check_queue_refused(const char *file, int line, const char *what)
{
    check_queued(file, line, what, arrive(right, 'A'), DISPLAY_BAD_RECORD, 0, DISPLAY_SIGNAL_NONE);
    check(file, line, what, 0, changed());
    check_queued(file, line, what, take(right), DISPLAY_BAD_RECORD, 0, DISPLAY_SIGNAL_NONE);
    check(file, line, what, 0, changed());
}

void check_state_refused(const char *file, int line, const char *what)
{
    check_refused(file, line, what, right, DISPLAY_BAD_RECORD, REPLIES);
    check_queue_refused(file, line, what);
}
