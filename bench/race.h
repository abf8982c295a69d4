// Timing: each runner is timed in turn, round after round, and its best round counts.
#ifndef RACE_H
#define RACE_H

#include <stddef.h>

typedef struct {
    void (*run)(const void *what, unsigned long times);
    const void *what;
    double seconds; // of one time, at best
} Runner;

// A round of a runner takes at least so many seconds of the processor's time.
void race(Runner *runners, size_t count, double shortest);

#endif
