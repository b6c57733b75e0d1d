/* timing.c: processor time of calls that are timed in turn, round by round. */
#define _POSIX_C_SOURCE 200809L
#include "timing.h"

#include <stdlib.h>
#include <time.h>

static double microseconds(void)
{
    struct timespec now;
    clock_gettime(CLOCK_PROCESS_CPUTIME_ID, &now);
    return 1e6 * (double)now.tv_sec + 1e-3 * (double)now.tv_nsec;
}

static double time_of(void (*call)(void), unsigned repeats)
{
    double before = microseconds();
    for (unsigned i = 0; i < repeats; i++)
        call();
    return (microseconds() - before) / repeats;
}

static int ascending(const void *one, const void *other)
{
    double difference = *(const double *)one - *(const double *)other;
    return (difference > 0) - (difference < 0);
}

static Spread spread_of(double *times)
{
    qsort(times, TIMING_ROUNDS, sizeof times[0], ascending);
    Spread spread = {times[TIMING_ROUNDS / 2], times[TIMING_ROUNDS / 4], times[3 * TIMING_ROUNDS / 4]};
    return spread;
}

void time_in_turn(void (*const *calls)(void), unsigned count, unsigned repeats, Spread *spreads)
{
    static double times[TIMING_MOST_CALLS][TIMING_ROUNDS];
    for (unsigned i = 0; i < count; i++)
        time_of(calls[i], repeats);
    for (unsigned round = 0; round < TIMING_ROUNDS; round++)
        for (unsigned i = 0; i < count; i++) {
            unsigned turn = (i + round) % count;
            times[turn][round] = time_of(calls[turn], repeats);
        }
    for (unsigned i = 0; i < count; i++)
        spreads[i] = spread_of(times[i]);
}
