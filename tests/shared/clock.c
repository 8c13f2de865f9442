#define _POSIX_C_SOURCE 200809L /* for clock_gettime, which C11 has not */

#include "clock.h"

#include <stdint.h>
#include <stdio.h>
#include <stdlib.h>
#include <time.h>

double processor_seconds(void)
{
    struct timespec time;

    if (clock_gettime(CLOCK_PROCESS_CPUTIME_ID, &time) != 0) {
        perror("clock_gettime");
        exit(2);
    }
    return (double)time.tv_sec + (double)time.tv_nsec / 1e9;
}

/* The clock is read once in a batch. */
static double seconds_in_a_row(timed_call *call, const void *what, double least)
{
    double begin = processor_seconds(), passed;
    uint64_t calls = 0, batch = 1;

    do {
        for (uint64_t done = 0; done < batch; done++)
            call(what);
        calls += batch;
        passed = processor_seconds() - begin;
        if (passed < least / 16)
            batch *= 2;
    } while (passed < least);
    return passed / (double)calls;
}

double seconds_a_call(timed_call *call, const void *what, double least, int round)
{
    volatile char aside[1 + 720 * round];

    (void)(aside[0] = 0);
    return seconds_in_a_row(call, what, least);
}

void keep_best(double *best, double seconds, int round)
{
    if (round == 0 || seconds < *best)
        *best = seconds;
}
