/*
 * whole.c: solve in C, in whole numbers: running tails of distances, summed over
 * the channels, whose suffix sums are R, units from R, and row by row the earliest
 * least total.
 */
#include "whole.h"

#include <math.h>
#include <string.h>

enum { MOST_OBSERVATIONS = 400, MOST_SEGMENTS = 12, MOST_CHANNELS = 4, LIMIT = 1000000 };

/* What is lent of a record: its body, and two bytes for each channel, kernel and sample kind. */
typedef struct {
    const uint8_t *body, *channels;
    size_t body_len, channels_len;
    uint64_t dmax;
} Asked;

/* A record's samples, judged: each is x + LIMIT, one run for each channel. */
typedef uint32_t Run[MOST_OBSERVATIONS];

typedef struct {
    uint64_t n;
    Run *level;
} Levels;

static uint64_t reply_at(uint64_t code, uint64_t place)
{
    return code + 256 * place;
}

static uint64_t channel_count(const Asked *asked)
{
    return asked->channels_len / 2;
}

static uint8_t kernel_of(const Asked *asked, uint64_t channel)
{
    return asked->channels[2 * channel];
}

static uint8_t kind_of(const Asked *asked, uint64_t channel)
{
    return asked->channels[2 * channel + 1];
}

/* The bytes of an observation: the day, then a sample for each channel. */
static uint64_t width_of(const Asked *asked)
{
    return 4 + 8 * channel_count(asked);
}

static uint64_t observations(const Asked *asked)
{
    return asked->body_len / width_of(asked);
}

static uint32_t day_at(const Asked *asked, uint64_t index)
{
    uint32_t day;
    memcpy(&day, asked->body + width_of(asked) * index, sizeof day);
    return day;
}

static uint64_t judge_count(const uint8_t *bytes, int64_t *x)
{
    memcpy(x, bytes, sizeof *x);
    return *x < -LIMIT || *x > LIMIT ? 10 : 0;
}

static uint64_t judge_share(const uint8_t *bytes, int64_t *x)
{
    double share;
    memcpy(&share, bytes, sizeof share);
    if (!isfinite(share))
        return 9;
    double scaled = share * 65536.0;
    if (scaled < -LIMIT || scaled > LIMIT)
        return 10;
    *x = (int64_t)scaled;
    return (double)*x == scaled ? 0 : 11;
}

static uint64_t judge_kinds(const Asked *asked)
{
    for (uint64_t channel = 0; channel < channel_count(asked); channel++)
        if (kind_of(asked, channel) > 1)
            return 24;
    return 0;
}

static uint64_t judge_kernels(const Asked *asked)
{
    for (uint64_t channel = 0; channel < channel_count(asked); channel++)
        if (kernel_of(asked, channel) < 1 || kernel_of(asked, channel) > 3)
            return 6;
    return 0;
}

static uint64_t judge_numbers(const Asked *asked)
{
    uint64_t n = observations(asked);
    if (asked->body_len % width_of(asked) != 0)
        return 3;
    if (n == 0)
        return 1;
    if (n > MOST_OBSERVATIONS)
        return 2;
    if (asked->dmax == 0 || asked->dmax > MOST_SEGMENTS)
        return 4;
    if (asked->dmax > n)
        return 5;
    return 0;
}

static uint64_t judge_lent(const Asked *asked, size_t costs_len, size_t starts_len)
{
    if (asked->channels_len == 0 || asked->channels_len % 2 != 0 || channel_count(asked) > MOST_CHANNELS)
        return 29;
    uint64_t reply = judge_kinds(asked);
    if (reply == 0)
        reply = judge_numbers(asked);
    if (reply == 0)
        reply = judge_kernels(asked);
    uint64_t entries = asked->dmax * (observations(asked) + 1);
    if (reply == 0 && (costs_len / 8 < entries || starts_len / 2 < entries))
        reply = 7;
    return reply;
}

/* Judges one sample, and puts it into its channel's run. */
static uint64_t judge_sample(const Asked *asked, uint64_t index, uint64_t channel, Levels *levels)
{
    const uint8_t *bytes = asked->body + width_of(asked) * index + 4 + 8 * channel;
    int64_t x;
    uint64_t code = kind_of(asked, channel) == 0 ? judge_count(bytes, &x) : judge_share(bytes, &x);
    if (code != 0)
        return reply_at(code, index);
    levels->level[channel][index] = (uint32_t)(x + LIMIT);
    return 0;
}

static uint64_t judge_observations(const Asked *asked, Levels *levels)
{
    for (uint64_t index = 1; index < levels->n; index++)
        if (day_at(asked, index) <= day_at(asked, index - 1))
            return reply_at(8, index);
    for (uint64_t index = 0; index < levels->n; index++)
        for (uint64_t channel = 0; channel < channel_count(asked); channel++) {
            uint64_t reply = judge_sample(asked, index, channel, levels);
            if (reply != 0)
                return reply;
        }
    return 0;
}

static void put_cost(uint8_t *costs, uint64_t entry, uint64_t cost)
{
    memcpy(costs + 8 * entry, &cost, sizeof cost);
}

static void put_start(uint8_t *starts, uint64_t entry, uint64_t start)
{
    uint16_t narrow = (uint16_t)start;
    memcpy(starts + 2 * entry, &narrow, sizeof narrow);
}

static uint64_t cost_at(const uint8_t *costs, uint64_t entry)
{
    uint64_t cost;
    memcpy(&cost, costs + 8 * entry, sizeof cost);
    return cost;
}

static inline uint64_t distance(uint64_t kernel, uint32_t x, uint32_t y)
{
    uint64_t gap = x > y ? x - y : y - x;
    if (kernel == 1)
        return gap * gap;
    if (kernel == 2)
        return gap == 0 ? 0 : 2;
    return gap;
}

static uint64_t units(uint64_t r, uint64_t m)
{
    return 4096 * (r / m) + 4096 * (r % m) / m;
}

/* Adds the distances from the newest observation to all before it to their tails. */
static inline void add_distances(uint64_t kernel, const uint32_t *level, uint64_t newest, uint64_t *tails)
{
    for (uint64_t s = 0; s < newest; s++)
        tails[s] += distance(kernel, level[s], level[newest]);
}

/* Grows the tails by an observation, channel by channel. */
static void grow_tails(const Asked *asked, const Levels *levels, uint64_t newest, uint64_t *tails)
{
    tails[newest] = 0;
    for (uint64_t channel = 0; channel < channel_count(asked); channel++) {
        const uint32_t *level = levels->level[channel];
        switch (kernel_of(asked, channel)) {
        case 1:
            add_distances(1, level, newest, tails);
            break;
        case 2:
            add_distances(2, level, newest, tails);
            break;
        default:
            add_distances(3, level, newest, tails);
        }
    }
}

/* Works the cost of every segment that ends before t. */
static void segment_costs(uint64_t t, const uint64_t *tails, uint64_t *cost)
{
    uint64_t r = 0;
    for (uint64_t s = t; s-- > 0;) {
        r += tails[s];
        cost[s] = units(r, t - s);
    }
}

/* Fills row d of column t where d is at least 2 and at most t. */
static void fill_entry(uint64_t n, uint64_t d, uint64_t t, const uint64_t *cost, uint8_t *costs, uint8_t *starts)
{
    uint64_t above = (d - 2) * (n + 1);
    uint64_t least = UINT64_MAX, start = 0;
    for (uint64_t s = d - 1; s < t; s++) {
        uint64_t total = cost_at(costs, above + s) + cost[s];
        if (total < least) {
            least = total;
            start = s;
        }
    }
    put_cost(costs, above + n + 1 + t, least);
    put_start(starts, above + n + 1 + t, start);
}

static void fill_none(uint64_t n, uint64_t d, uint64_t t, uint8_t *costs, uint8_t *starts)
{
    put_cost(costs, (d - 1) * (n + 1) + t, UINT64_MAX);
    put_start(starts, (d - 1) * (n + 1) + t, 65535);
}

static void fill(const Asked *asked, const Levels *levels, uint8_t *costs, uint8_t *starts)
{
    uint64_t tails[MOST_OBSERVATIONS], cost[MOST_OBSERVATIONS];
    uint64_t n = levels->n;
    for (uint64_t d = 1; d <= asked->dmax; d++)
        fill_none(n, d, 0, costs, starts);
    for (uint64_t t = 1; t <= n; t++) {
        grow_tails(asked, levels, t - 1, tails);
        segment_costs(t, tails, cost);
        put_cost(costs, t, cost[0]);
        put_start(starts, t, 0);
        for (uint64_t d = 2; d <= asked->dmax; d++) {
            if (t < d)
                fill_none(n, d, t, costs, starts);
            else
                fill_entry(n, d, t, cost, costs, starts);
        }
    }
}

uint64_t whole_solve(const uint8_t *body, size_t body_len, const uint8_t *channels, size_t channels_len, uint64_t dmax,
                     uint8_t *costs, size_t costs_len, uint8_t *starts, size_t starts_len)
{
    Asked asked = {body, channels, body_len, channels_len, dmax};
    uint64_t reply = judge_lent(&asked, costs_len, starts_len);
    if (reply != 0)
        return reply;
    Run level[channel_count(&asked)];
    Levels levels = {observations(&asked), level};
    reply = judge_observations(&asked, &levels);
    if (reply != 0)
        return reply;
    fill(&asked, &levels, costs, starts);
    return 0;
}
