#define _POSIX_C_SOURCE 199309L

#include "race.h"

#include <time.h>

enum { ROUNDS = 16, RUNNERS = 8 };

// Time of this process alone: other programs on the machine do not count.
static double now(void)
{
    struct timespec t;
    clock_gettime(CLOCK_PROCESS_CPUTIME_ID, &t);
    return (double)t.tv_sec + 1e-9 * (double)t.tv_nsec;
}

static double timed(const Runner *r, unsigned long times)
{
    double from = now();
    r->run(r->what, times);
    return now() - from;
}

// Further down the stack at every round, a page in all: where frames fall in it changes the time.
static double timed_below(const Runner *r, unsigned long times, int levels)
{
    volatile char room[4096 / ROUNDS] = {0};
    double passed = levels == 0 ? timed(r, times) : timed_below(r, times, levels - 1);
    return passed + room[0];
}

void race(Runner *runners, size_t count, double shortest)
{
    unsigned long times[RUNNERS];
    size_t i;
    int round;
    for (i = 0; i < count; i++) {
        double passed;
        times[i] = 1;
        while ((passed = timed(&runners[i], times[i])) < shortest)
            times[i] *= passed > shortest / 8 ? 2 : 8;
        runners[i].seconds = passed / (double)times[i];
    }
    for (round = 0; round < ROUNDS; round++)
        for (i = 0; i < count; i++) {
            double seconds = timed_below(&runners[i], times[i], round) / (double)times[i];
            if (seconds < runners[i].seconds)
                runners[i].seconds = seconds;
        }
}
