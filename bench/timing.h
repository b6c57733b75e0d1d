/* timing.h: processor time of calls that are timed in turn, round by round. */
#ifndef TIMING_H
#define TIMING_H

enum { TIMING_ROUNDS = 41, TIMING_MOST_CALLS = 5 };

/* What the rounds give for one call, in microseconds. */
typedef struct {
    double median, low, high; /* low and high are the quartiles */
} Spread;

/* Times each call, repeated so often in every round, all calls taking turns within a round. */
void time_in_turn(void (*const *calls)(void), unsigned count, unsigned repeats, Spread *spreads);

#endif
