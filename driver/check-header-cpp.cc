// display.h in C++: the types of its numbers and calls, and calls that link without mangled names.
#include "display.h"

#include <type_traits>

#define IS_UNSIGNED(number) static_assert(std::is_same<decltype(number), unsigned>::value, #number)

IS_UNSIGNED(DISPLAY_OLDER_EDITION);
IS_UNSIGNED(DISPLAY_NEWER_EDITION);
IS_UNSIGNED(DISPLAY_FILE_NUMBER_MOST);
IS_UNSIGNED(DISPLAY_UPLOAD_TIMEOUT);
IS_UNSIGNED(DISPLAY_WIDTH);
IS_UNSIGNED(DISPLAY_LOW_HEIGHT);
IS_UNSIGNED(DISPLAY_TALL_HEIGHT);
IS_UNSIGNED(DISPLAY_STRIDE);
IS_UNSIGNED(DISPLAY_LOW_FRAMEBUFFER_SIZE);
IS_UNSIGNED(DISPLAY_TALL_FRAMEBUFFER_SIZE);
IS_UNSIGNED(DISPLAY_STORE_LEAST);
IS_UNSIGNED(DISPLAY_STORE_MOST);
IS_UNSIGNED(DISPLAY_DIRECTORY_SIZE);
IS_UNSIGNED(DISPLAY_STATE_RECORD_SIZE);
IS_UNSIGNED(DISPLAY_QUEUE_RECORD_SIZE);
IS_UNSIGNED(DISPLAY_QUEUE_CAPACITY);
IS_UNSIGNED(DISPLAY_REPLY_ROOM);
IS_UNSIGNED(DISPLAY_OK);
IS_UNSIGNED(DISPLAY_BAD_FRAMEBUFFER_SIZE);
IS_UNSIGNED(DISPLAY_BAD_STORE_SIZE);
IS_UNSIGNED(DISPLAY_BAD_RECORD);
IS_UNSIGNED(DISPLAY_BAD_DIRECTORY);
IS_UNSIGNED(DISPLAY_NO_REPLY_ROOM);
IS_UNSIGNED(DISPLAY_QUEUE_EMPTY);
IS_UNSIGNED(DISPLAY_QUEUE_FULL);
IS_UNSIGNED(DISPLAY_NO_REFUSAL);
IS_UNSIGNED(DISPLAY_REFUSED_UNKNOWN_COMMAND);
IS_UNSIGNED(DISPLAY_REFUSED_OUT_OF_BOUNDS);
IS_UNSIGNED(DISPLAY_REFUSED_CORNERS_OUT_OF_ORDER);
IS_UNSIGNED(DISPLAY_REFUSED_NUMBER_OUT_OF_RANGE);
IS_UNSIGNED(DISPLAY_REFUSED_UNKNOWN_TYPE);
IS_UNSIGNED(DISPLAY_REFUSED_NOT_SET_UP);
IS_UNSIGNED(DISPLAY_REFUSED_NO_SUCH_FILE);
IS_UNSIGNED(DISPLAY_REFUSED_MALFORMED_FILE);
IS_UNSIGNED(DISPLAY_REFUSED_NO_SPACE);
IS_UNSIGNED(DISPLAY_REFUSED_NUMBER_IN_USE);
IS_UNSIGNED(DISPLAY_REFUSED_UPLOAD_ABORTED);
IS_UNSIGNED(DISPLAY_REFUSED_BAD_WATERMARKS);
IS_UNSIGNED(DISPLAY_REFUSED_NO_GLYPH);
IS_UNSIGNED(DISPLAY_REFUSED_GLYPH_DOES_NOT_FIT);
IS_UNSIGNED(DISPLAY_SIGNAL_NONE);
IS_UNSIGNED(DISPLAY_SIGNAL_ALMOST_FULL);
IS_UNSIGNED(DISPLAY_SIGNAL_ALMOST_EMPTY);
IS_UNSIGNED(DISPLAY_STATE_REFUSAL_COUNT_LOW);
IS_UNSIGNED(DISPLAY_STATE_REFUSAL_COUNT_HIGH);
IS_UNSIGNED(DISPLAY_STATE_LAST_REFUSAL);
IS_UNSIGNED(DISPLAY_STATE_HEIGHT);
IS_UNSIGNED(DISPLAY_STATE_EDITION);
IS_UNSIGNED(DISPLAY_STATE_CONTRAST);
IS_UNSIGNED(DISPLAY_STATE_BACKLIGHT_ON);
IS_UNSIGNED(DISPLAY_STATE_BACKLIGHT_MINUTES);
IS_UNSIGNED(DISPLAY_STATE_USED_ROOM_LOW);
IS_UNSIGNED(DISPLAY_STATE_USED_ROOM_HIGH);
IS_UNSIGNED(DISPLAY_QUEUE_LOST_COUNT_LOW);
IS_UNSIGNED(DISPLAY_QUEUE_LOST_COUNT_HIGH);

#define IS_CALL(name, ...) static_assert(std::is_same<decltype(name), uint32_t(__VA_ARGS__)>::value, #name)

IS_CALL(display_start, uint32_t, uint32_t, uint8_t *, uint64_t, uint8_t *, uint64_t, uint8_t *, uint64_t, uint8_t *,
        uint64_t);
IS_CALL(display_feed, uint8_t *, uint64_t, uint8_t *, uint64_t, uint8_t *, uint64_t, const uint8_t *, uint64_t,
        uint8_t *, uint64_t, uint64_t *, uint64_t *);
IS_CALL(display_time, const uint8_t *, uint64_t, const uint8_t *, uint64_t, uint8_t *, uint64_t, uint32_t, uint8_t *,
        uint64_t, uint64_t *);
IS_CALL(display_arrive, const uint8_t *, uint64_t, uint8_t *, uint64_t, uint8_t, uint8_t *);
IS_CALL(display_take, const uint8_t *, uint64_t, uint8_t *, uint64_t, uint8_t *, uint8_t *);
static_assert(std::is_same<display_length, uint64_t>::value, "display_length");

// The sizes suit each other.
static_assert(DISPLAY_LOW_HEIGHT * DISPLAY_STRIDE == DISPLAY_LOW_FRAMEBUFFER_SIZE, "low");
static_assert(DISPLAY_TALL_HEIGHT * DISPLAY_STRIDE == DISPLAY_TALL_FRAMEBUFFER_SIZE, "tall");

static uint8_t glass[DISPLAY_TALL_FRAMEBUFFER_SIZE];
static uint8_t store[DISPLAY_STORE_LEAST];
static uint8_t state[DISPLAY_STATE_RECORD_SIZE];
static uint8_t queue[DISPLAY_QUEUE_RECORD_SIZE];

// One byte and one time through all five calls.
static bool is_obeyed(uint32_t height, uint32_t edition, display_length glass_length)
{
    uint8_t byte = 0, signal = 0, replies[DISPLAY_REPLY_ROOM];
    display_length consumed = 0, replied = 0;
    bool done = display_start(height, edition, glass, glass_length, store, sizeof store, state, sizeof state, queue,
                              sizeof queue) == DISPLAY_OK;
    done = done && display_arrive(state, sizeof state, queue, sizeof queue, 'A', &signal) == DISPLAY_OK;
    done = done && display_take(state, sizeof state, queue, sizeof queue, &byte, &signal) == DISPLAY_OK;
    done = done && display_feed(glass, glass_length, store, sizeof store, state, sizeof state, &byte, 1, replies,
                                sizeof replies, &consumed, &replied) == DISPLAY_OK;
    done = done && byte == 'A' && consumed == 1 && replied == 0 && signal == DISPLAY_SIGNAL_NONE;
    done = done && display_time(glass, glass_length, store, sizeof store, state, sizeof state, 1, replies,
                                sizeof replies, &replied) == DISPLAY_OK && replied == 0;
    done = done && display_refusal_count(state) == 0 && display_last_refusal(state) == DISPLAY_NO_REFUSAL;
    done = done && display_height(state) == height && display_edition(state) == edition;
    done = done && display_used_room(state) == 0;
    done = done && display_free_room(state, sizeof store) == DISPLAY_STORE_LEAST - DISPLAY_DIRECTORY_SIZE;
    return done && display_lost_count(queue) == 0 && display_backlight_is_on(state);
}

int main()
{
    bool low = is_obeyed(DISPLAY_LOW_HEIGHT, DISPLAY_OLDER_EDITION, DISPLAY_LOW_FRAMEBUFFER_SIZE);
    bool tall = is_obeyed(DISPLAY_TALL_HEIGHT, DISPLAY_NEWER_EDITION, DISPLAY_TALL_FRAMEBUFFER_SIZE);
    return low && tall ? 0 : 1;
}
