/*
 * bench.c: times the real solve beside C of the same algorithm in whole numbers, with one
 * channel and with four, and with one channel beside the old way in double precision, on
 * the same records, and prints how the time grows and how much stack each call takes. All
 * ways must agree before they are timed.
 */
#include "doubles.h"
#include "records.h"
#include "stacks.h"
#include "timing.h"
#include "whole.h"

#include <math.h>
#include <stdio.h>
#include <stdlib.h>
#include <string.h>

enum { ENTRIES = D * (N + 1) };

/* The record to solve, and the tables of each way. */
static Record task;
static uint8_t costs[8 * ENTRIES], starts[2 * ENTRIES];
static uint8_t whole_costs[8 * ENTRIES], whole_starts[2 * ENTRIES];
static double double_costs[ENTRIES];
static uint16_t double_starts[ENTRIES];

/* What the real solve answers last. */
static uint64_t reply;

static void solve_really(void)
{
    reply = tawinrak_solve(task.body, body_bytes(&task), task.channels, channel_bytes(&task), task.dmax, costs,
                           sizeof costs, starts, sizeof starts);
}

static void solve_in_c(void)
{
    whole_solve(task.body, body_bytes(&task), task.channels, channel_bytes(&task), task.dmax, whole_costs,
                sizeof whole_costs, whole_starts, sizeof whole_starts);
}

static void solve_in_doubles(void)
{
    doubles_solve(task.body, body_bytes(&task), task.channels[0], task.dmax, double_costs, double_starts);
}

#ifdef OTHER_COMPILER
uint64_t whole_solve_other(const uint8_t *body, size_t body_len, const uint8_t *channels, size_t channels_len,
                           uint64_t dmax, uint8_t *costs, size_t costs_len, uint8_t *starts, size_t starts_len);

static void solve_in_c_otherwise(void)
{
    whole_solve_other(task.body, body_bytes(&task), task.channels, channel_bytes(&task), task.dmax, whole_costs,
                      sizeof whole_costs, whole_starts, sizeof whole_starts);
}
#endif

/* The ways, the real one first and the doubles last. */
static void (*const ways[])(void) = {
    solve_really, solve_in_c,
#ifdef OTHER_COMPILER
    solve_in_c_otherwise,
#endif
    solve_in_doubles};
static const char *const way_names[] = {
    "tawinrak", "C, whole (" COMPILER ")",
#ifdef OTHER_COMPILER
    "C, whole (" OTHER_COMPILER ")",
#endif
    "C, doubles (" COMPILER ")"};
enum { WAYS = sizeof ways / sizeof ways[0] };

/* The doubles take one channel. */
static unsigned ways_of(const Record *record)
{
    return record->channel_count == 1 ? WAYS : WAYS - 1;
}

static void fail(const char *what)
{
    fprintf(stderr, "%s, %s, n %zu, Dmax %u\n", what, task.name, task.n, (unsigned)task.dmax);
    exit(1);
}

/* The doubles must come near the units, less than one a segment below the true cost. */
static void check_doubles(void)
{
    for (unsigned d = 1; d <= task.dmax; d++) {
        size_t entry = (d - 1) * (task.n + 1) + task.n;
        uint64_t units;
        memcpy(&units, costs + 8 * entry, sizeof units);
        double gap = 4096 * double_costs[entry] - (double)units;
        if (fabs(gap) > d + 1e-9 * (double)units)
            fail("the doubles are far off");
    }
}

static void check_whole(void (*way)(void))
{
    memset(whole_costs, 1, sizeof whole_costs);
    memset(whole_starts, 1, sizeof whole_starts);
    way();
    if (memcmp(costs, whole_costs, sizeof costs) != 0 || memcmp(starts, whole_starts, sizeof starts) != 0)
        fail("the tables differ");
}

static void check_ways(void)
{
    memset(costs, 1, sizeof costs);
    memset(starts, 1, sizeof starts);
    solve_really();
    if (reply != TAWINRAK_DONE)
        fail("the record is refused");
    for (unsigned way = 1; way < WAYS - 1; way++)
        check_whole(ways[way]);
    if (ways_of(&task) == WAYS) {
        solve_in_doubles();
        check_doubles();
    }
}

/* As many repeats as make a round about equally long for every record. */
static unsigned repeats_for(size_t n, uint64_t dmax)
{
    return 1 + (unsigned)(2 * N * N * (D + 4) / (n * n * (dmax + 4)));
}

static void print_spread(Spread spread)
{
    printf("  %7.1f (%6.1f -%7.1f)", spread.median, spread.low, spread.high);
}

static void time_ways(void)
{
    Spread spreads[WAYS];
    unsigned count = ways_of(&task);
    check_ways();
    time_in_turn(ways, count, repeats_for(task.n, task.dmax), spreads);
    printf("%-8s %4zu", task.name, task.n);
    for (unsigned way = 0; way < count; way++)
        print_spread(spreads[way]);
    for (unsigned way = 1; way < count; way++)
        printf("  %5.2f", spreads[0].median / spreads[way].median);
    printf("  %7.0f\n", 1e6 / spreads[0].median);
}

static void print_names(const char *first, unsigned count)
{
    printf("%-8s %4s", first, "n");
    for (unsigned way = 0; way < count; way++)
        printf("  %-25s", way_names[way]);
    printf("  %-*s solves\n", 7 * ((int)count - 1), "over");
}

static void print_ways(void)
{
    printf("\nSolve at Dmax = %d. Microseconds of processor time a solve: median (quartiles) of %d rounds.\n", D,
           TIMING_ROUNDS);
    printf("Then the first median over each of the others, and solves a second by the first.\n");
    print_names("kernel", WAYS);
    for (uint64_t kernel = TAWINRAK_LINEAR; kernel <= TAWINRAK_ENERGY; kernel++)
        for (size_t n = 100; n <= N; n *= 2) {
            draw_record(&task, n, kernel, D);
            time_ways();
        }
    printf("\nFour channels: linear counts, shares by energy, spellings, linear counts.\n");
    print_names("channels", WAYS - 1);
    for (size_t n = 100; n <= N; n *= 2) {
        draw_four(&task, n, D);
        time_ways();
    }
}

static double time_growth(size_t n, uint64_t dmax, double before)
{
    Spread spread;
    draw_record(&task, n, TAWINRAK_LINEAR, dmax);
    check_ways();
    time_in_turn(ways, 1, repeats_for(n, dmax), &spread);
    printf("n %3zu Dmax %2u ", n, (unsigned)dmax);
    print_spread(spread);
    if (before > 0)
        printf("  %5.2f times the line above", spread.median / before);
    printf("\n");
    return spread.median;
}

static void print_growth(void)
{
    static const uint64_t dmaxes[] = {1, 2, 4, 8, 12};
    double before = 0;
    printf("\nHow the real solve grows with n, one linear channel, microseconds:\n");
    for (size_t n = 25; n <= N; n *= 2)
        before = time_growth(n, D, before);
    printf("\nHow it grows with Dmax:\n");
    before = 0;
    for (unsigned i = 0; i < sizeof dmaxes / sizeof dmaxes[0]; i++)
        before = time_growth(N, dmaxes[i], before);
}

int main(void)
{
    print_ways();
    print_growth();
    print_stacks();
    return 0;
}
