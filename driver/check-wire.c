// The linker puts the spies between driver and library (--wrap). They note what the calls give, in order.
#include "check-wire.h"

#include <stdio.h>

uint32_t height, edition = DISPLAY_OLDER_EDITION, now;
Port port;
uint8_t store[DISPLAY_STORE_MOST + 1];
Bytes host, replies, obeyed;
size_t allowance, unfed;
unsigned calls, answers[8], times, checks, failures;
uint32_t last_time;
void (*interrupt)(void);

static Bytes given;              // signals and replies
static size_t given_by_arrivals; // length of `given` at the last arrival
static size_t unfed_before;      // the round
static size_t just_taken;        // since the last feed
static uint32_t handed_in;       // the clock, as far as its time has been handed in
static int in_call;
static unsigned overlaps, late, hoarded, stranded, starved, overlent, untimely, idle;

void check(const char *file, int line, const char *what, unsigned long expected, unsigned long got)
{
    checks++;
    if (expected == got)
        return;
    failures++;
    printf("%s:%d: %lu rows, edition %lu: %s: expected %lu, got %lu\n", file, line, (unsigned long)height,
           (unsigned long)edition, what, expected, got);
}

void check_bytes(const char *file, int line, const char *what, const Bytes *got, const uint8_t *expected, size_t count)
{
    size_t i = 0;
    check(file, line, what, count, got->count);
    while (i < count && i < got->count && got->bytes[i] == expected[i])
        i++;
    if (i < count && i < got->count)
        check(file, line, what, expected[i], got->bytes[i]);
}

static void append(Bytes *to, const uint8_t *bytes, size_t count)
{
    memcpy(to->bytes + to->count, bytes, count);
    to->count += count;
}

static size_t host_reads(void *wire, const uint8_t *bytes, size_t count)
{
    if (count > allowance)
        count = allowance;
    allowance -= count;
    append((Bytes *)wire, bytes, count);
    return count;
}

static void enter(void)
{
    calls++;
    overlaps += in_call != 0;
    in_call = 1;
    if (interrupt != NULL)
        interrupt();
}

static uint32_t leave(uint32_t answer, const uint8_t *bytes, size_t count)
{
    in_call = 0;
    answers[answer]++;
    append(&given, bytes, count);
    return answer;
}

// At most the framebuffer that there is.
static void look_at(const uint8_t *glass, display_length glass_length)
{
    overlent += glass != port.framebuffer || glass_length > sizeof port.framebuffer;
}

uint32_t __real_display_start(uint32_t, uint32_t, uint8_t *, display_length, uint8_t *, display_length, uint8_t *,
                              display_length, uint8_t *, display_length);
uint32_t __real_display_arrive(const uint8_t *, display_length, uint8_t *, display_length, uint8_t, uint8_t *);
uint32_t __real_display_take(const uint8_t *, display_length, uint8_t *, display_length, uint8_t *, uint8_t *);

uint32_t __wrap_display_start(uint32_t rows, uint32_t protocol, uint8_t *glass, display_length glass_length,
                              uint8_t *files, display_length files_length, uint8_t *state, display_length state_length,
                              uint8_t *queue, display_length queue_length)
{
    look_at(glass, glass_length);
    return __real_display_start(rows, protocol, glass, glass_length, files, files_length, state, state_length, queue,
                                queue_length);
}

uint32_t __wrap_display_feed(uint8_t *glass, display_length glass_length, uint8_t *files, display_length files_length,
                             uint8_t *state, display_length state_length, const uint8_t *piece,
                             display_length piece_length, uint8_t *to, display_length to_length,
                             display_length *consumed, display_length *replied)
{
    uint32_t answer;
    late += allowance > 0 && host.count < given_by_arrivals;
    look_at(glass, glass_length);
    enter();
    answer = __real_display_feed(glass, glass_length, files, files_length, state, state_length, piece, piece_length, to,
                                 to_length, consumed, replied);
    append(&replies, to, (size_t)*replied);
    append(&obeyed, piece, (size_t)*consumed);
    starved += to_length < DISPLAY_REPLY_ROOM;
    untimely += handed_in != now;
    unfed -= (size_t)*consumed;
    just_taken = 0;
    return leave(answer, to, (size_t)*replied);
}

uint32_t __wrap_display_time(const uint8_t *glass, display_length glass_length, const uint8_t *files,
                             display_length files_length, uint8_t *state, display_length state_length,
                             uint32_t milliseconds, uint8_t *to, display_length to_length, display_length *replied)
{
    uint32_t answer;
    look_at(glass, glass_length);
    enter();
    answer = __real_display_time(glass, glass_length, files, files_length, state, state_length, milliseconds, to,
                                 to_length, replied);
    append(&replies, to, (size_t)*replied);
    starved += to_length < DISPLAY_REPLY_ROOM;
    idle += milliseconds == 0;
    times++;
    last_time = milliseconds;
    if (answer == DISPLAY_OK)
        handed_in = milliseconds == UINT32_MAX ? now : handed_in + milliseconds; // the largest stands for any larger
    return leave(answer, to, (size_t)*replied);
}

uint32_t __wrap_display_arrive(const uint8_t *state, display_length state_length, uint8_t *queue,
                               display_length queue_length, uint8_t byte, uint8_t *signal)
{
    uint32_t answer;
    enter();
    answer = __real_display_arrive(state, state_length, queue, queue_length, byte, signal);
    leave(answer, signal, *signal != DISPLAY_SIGNAL_NONE);
    given_by_arrivals = given.count;
    return answer;
}

uint32_t __wrap_display_take(const uint8_t *state, display_length state_length, uint8_t *queue,
                             display_length queue_length, uint8_t *byte, uint8_t *signal)
{
    uint32_t answer;
    enter();
    answer = __real_display_take(state, state_length, queue, queue_length, byte, signal);
    hoarded += unfed_before > 0;
    unfed += answer == DISPLAY_OK;
    just_taken += answer == DISPLAY_OK;
    return leave(answer, signal, *signal != DISPLAY_SIGNAL_NONE);
}

uint32_t start_as(uint32_t rows, uint32_t protocol, display_length store_length)
{
    host.count = given.count = replies.count = obeyed.count = given_by_arrivals = unfed = just_taken = 0;
    allowance = WIRE;
    times = 0;
    handed_in = now;
    memset(answers, 0, sizeof answers);
    return port_start(&port, rows, protocol, store, store_length, host_reads, &host, now);
}

uint32_t start(display_length store_length)
{
    return start_as(height, edition, store_length);
}

void fresh(void)
{
    memset(&port, GARBAGE, sizeof port);
    memset(store, GARBAGE, sizeof store);
    memset(store, 0, DISPLAY_DIRECTORY_SIZE);
    CHECK("start", DISPLAY_OK, start(DISPLAY_STORE_LEAST));
}

void receive(const uint8_t *bytes, size_t count)
{
    size_t i;
    for (i = 0; i < count; i++)
        port_receive(&port, bytes[i]);
}

void receive_upload(void)
{
    uint8_t i;
    RECEIVE(COMMAND, UPLOAD_BITMAP, 7, DATA, 0);
    for (i = 0; i < DATA; i++)
        RECEIVE((uint8_t)(100 + i), CONFIRM);
}

uint32_t poll(void)
{
    uint32_t answer;
    unfed_before = unfed;
    answer = port_poll(&port, now);
    late += answer == DISPLAY_OK && allowance > 0 && host.count < given.count;
    stranded += answer == DISPLAY_OK && just_taken > 0;
    return answer;
}

uint32_t poll_after(uint32_t milliseconds)
{
    now += milliseconds;
    return poll();
}

// Of the framebuffer only the rows of the glass are used.
static unsigned bytes_behind_glass(void)
{
    size_t i;
    unsigned count = 0;
    for (i = height * DISPLAY_STRIDE; i < sizeof port.framebuffer; i++)
        count += port.framebuffer[i] != GARBAGE;
    return count;
}

void drain(void)
{
    unsigned rounds = 0;
    while ((port_waiting(&port) > 0 || host.count < given.count || handed_in != now) && rounds < WIRE &&
           poll() == DISPLAY_OK)
        rounds++;
    CHECK("bytes left waiting", 0, port_waiting(&port));
    CHECK("time handed in, up to what the clock shows", now, handed_in);
    CHECK_BYTES("the wire, in the order of the calls", &host, given.bytes, given.count);
    CHECK("bytes written behind the glass", 0, bytes_behind_glass());
}

void check_manners(void)
{
    CHECK("calls during a call", 0, overlaps);
    CHECK("rounds that kept back what the host would have read", 0, late);
    CHECK("takes while older bytes were still to be fed", 0, hoarded);
    CHECK("rounds that took bytes and fed none", 0, stranded);
    CHECK("feeds and times without room for a reply", 0, starved);
    CHECK("feeds ahead of time that had passed", 0, untimely);
    CHECK("times of nothing", 0, idle);
    CHECK("calls that were lent more than the framebuffer", 0, overlent);
}
