/*
 * doubles.c: the old way: the same recurrence in double precision, which keeps the
 * first cutting that looks cheapest.
 */
#include "doubles.h"

#include <math.h>
#include <string.h>

enum { MOST_OBSERVATIONS = 400, OBSERVATION = 12 };

static void read_samples(const uint8_t *body, size_t n, double *x)
{
    for (size_t index = 0; index < n; index++) {
        int64_t count;
        memcpy(&count, body + OBSERVATION * index + 4, sizeof count);
        x[index] = (double)count;
    }
}

static inline double distance(uint64_t kernel, double x, double y)
{
    if (kernel == 1)
        return (x - y) * (x - y);
    if (kernel == 2)
        return x == y ? 0 : 2;
    return fabs(x - y);
}

/* Grows the column by the observation t-1 and works the cost of every segment that ends there. */
static inline void segment_costs(uint64_t kernel, const double *x, size_t t, double *column, double *cost)
{
    double r = 0;
    column[t - 1] = 0;
    for (size_t s = 0; s + 1 < t; s++)
        column[s] += distance(kernel, x[s], x[t - 1]);
    for (size_t s = t; s-- > 0;) {
        r += column[s];
        cost[s] = r / (double)(t - s);
    }
}

static void fill_entry(size_t n, size_t d, size_t t, const double *cost, double *costs, uint16_t *starts)
{
    const double *above = costs + (d - 2) * (n + 1);
    double least = INFINITY;
    size_t start = 65535;
    for (size_t s = d - 1; s < t; s++) {
        if (above[s] + cost[s] < least) {
            least = above[s] + cost[s];
            start = s;
        }
    }
    costs[(d - 1) * (n + 1) + t] = least;
    starts[(d - 1) * (n + 1) + t] = (uint16_t)start;
}

static inline __attribute__((always_inline)) void fill(uint64_t kernel, const double *x, size_t n, size_t dmax,
                                                       double *costs, uint16_t *starts)
{
    double column[MOST_OBSERVATIONS], cost[MOST_OBSERVATIONS];
    for (size_t t = 0; t <= n; t++) {
        costs[t] = INFINITY;
        starts[t] = 0;
        if (t > 0) {
            segment_costs(kernel, x, t, column, cost);
            costs[t] = cost[0];
        }
        for (size_t d = 2; d <= dmax; d++)
            fill_entry(n, d, t, cost, costs, starts);
    }
}

void doubles_solve(const uint8_t *body, size_t body_len, uint64_t kernel, uint64_t dmax,
                   double *costs, uint16_t *starts)
{
    double x[MOST_OBSERVATIONS];
    size_t n = body_len / OBSERVATION;
    read_samples(body, n, x);
    if (kernel == 1)
        fill(1, x, n, dmax, costs, starts);
    else if (kernel == 2)
        fill(2, x, n, dmax, costs, starts);
    else
        fill(3, x, n, dmax, costs, starts);
}
