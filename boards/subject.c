#include "subject.h"

#include <stdio.h>
#include <stdlib.h>
#include <string.h>

static uint8_t screen[DISPLAY_LOW_FRAMEBUFFER_SIZE], store[DISPLAY_STORE_MOST], queue[DISPLAY_QUEUE_RECORD_SIZE];
static uint8_t replies[2 * sizeof((Stream *)0)->bytes];
uint8_t state[DISPLAY_STATE_RECORD_SIZE];

static void expect_ok(uint32_t answer)
{
    if (answer != DISPLAY_OK) {
        printf("a call answers %lu\n", (unsigned long)answer);
        exit(1);
    }
}

void start(void)
{
    memset(store, 0, sizeof store);
    expect_ok(display_start(DISPLAY_LOW_HEIGHT, DISPLAY_OLDER_EDITION, screen, sizeof screen, store, sizeof store,
                            state, sizeof state, queue, sizeof queue));
}

void feed(const uint8_t *piece, size_t length)
{
    display_length consumed, replied;
    expect_ok(display_feed(screen, sizeof screen, store, sizeof store, state, sizeof state, piece, length, replies,
                           sizeof replies, &consumed, &replied));
}

void pass_time(uint32_t milliseconds)
{
    display_length replied;
    expect_ok(display_time(screen, sizeof screen, store, sizeof store, state, sizeof state, milliseconds, replies,
                           sizeof replies, &replied));
}

void arrive(uint8_t byte)
{
    uint8_t signal;
    expect_ok(display_arrive(state, sizeof state, queue, sizeof queue, byte, &signal));
}

uint8_t take(void)
{
    uint8_t byte, signal;
    expect_ok(display_take(state, sizeof state, queue, sizeof queue, &byte, &signal));
    return byte;
}

void expect_no_refusal(const char *name)
{
    if (display_refusal_count(state) != 0) {
        printf("%s: %u refused, the last with %u\n", name, display_refusal_count(state), display_last_refusal(state));
        exit(1);
    }
}
