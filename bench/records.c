/* records.c: the records that are solved to be timed. */
#include "records.h"

#include <string.h>

size_t body_bytes(const Record *record)
{
    return TAWINRAK_OBSERVATION_BYTES(record->channel_count) * record->n;
}

size_t channel_bytes(const Record *record)
{
    return TAWINRAK_CHANNEL_BYTES * record->channel_count;
}

static uint32_t drawn(void)
{
    static uint64_t state = 1;
    state = state * 6364136223846793005u + 1442695040888963407u;
    return (uint32_t)(state >> 33);
}

static void draw_days(Record *record)
{
    for (uint32_t i = 0; i < record->n; i++)
        memcpy(record->body + TAWINRAK_OBSERVATION_BYTES(record->channel_count) * i, &i, 4);
}

static void put_sample(uint8_t *bytes, uint8_t kind, int64_t x)
{
    double share = (double)x / 65536;
    memcpy(bytes, kind == TAWINRAK_SHARE ? (void *)&share : (void *)&x, 8);
}

static void draw_channel(Record *record, size_t channel)
{
    const uint8_t *asked = record->channels + TAWINRAK_CHANNEL_BYTES * channel;
    uint8_t *bytes = record->body + TAWINRAK_OBSERVATION_BYTES(channel);
    int64_t level = 0;
    for (size_t i = 0; i < record->n; i++) {
        if (drawn() % 40 == 0)
            level = (int64_t)(drawn() % 1800001) - 900000;
        int64_t x = asked[0] == TAWINRAK_SPELLING ? level / 300000 + drawn() % 2 : level + drawn() % 50000;
        put_sample(bytes, asked[1], x);
        bytes += TAWINRAK_OBSERVATION_BYTES(record->channel_count);
    }
}

static void draw(Record *record, size_t n, uint64_t dmax)
{
    record->n = n;
    record->dmax = dmax;
    draw_days(record);
    for (size_t channel = 0; channel < record->channel_count; channel++)
        draw_channel(record, channel);
}

void draw_record(Record *record, size_t n, uint64_t kernel, uint64_t dmax)
{
    static const char *const names[] = {"", "linear", "spelling", "energy"};
    record->name = names[kernel];
    record->channel_count = 1;
    record->channels[0] = (uint8_t)kernel;
    record->channels[1] = TAWINRAK_COUNT;
    draw(record, n, dmax);
}

void draw_four(Record *record, size_t n, uint64_t dmax)
{
    static const uint8_t four[] = {TAWINRAK_LINEAR,   TAWINRAK_COUNT, TAWINRAK_ENERGY, TAWINRAK_SHARE,
                                   TAWINRAK_SPELLING, TAWINRAK_COUNT, TAWINRAK_LINEAR, TAWINRAK_COUNT};
    record->name = "four";
    record->channel_count = 4;
    memcpy(record->channels, four, sizeof four);
    draw(record, n, dmax);
}
