// A program of all five calls, to see what of the library it links.
#include "display.h"

static uint8_t glass[DISPLAY_LOW_FRAMEBUFFER_SIZE], store[DISPLAY_STORE_LEAST], state[DISPLAY_STATE_RECORD_SIZE];
static uint8_t queue[DISPLAY_QUEUE_RECORD_SIZE], replies[DISPLAY_REPLY_ROOM];

int main(void)
{
    uint8_t byte = 0, signal = 0;
    display_length consumed, replied;
    display_start(DISPLAY_LOW_HEIGHT, DISPLAY_OLDER_EDITION, glass, sizeof glass, store, sizeof store, state,
                  sizeof state, queue, sizeof queue);
    display_arrive(state, sizeof state, queue, sizeof queue, 254, &signal);
    display_take(state, sizeof state, queue, sizeof queue, &byte, &signal);
    display_time(glass, sizeof glass, store, sizeof store, state, sizeof state, 1, replies, sizeof replies, &replied);
    return (int)display_feed(glass, sizeof glass, store, sizeof store, state, sizeof state, &byte, 1, replies,
                             sizeof replies, &consumed, &replied);
}
