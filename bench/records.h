/* records.h: the records that are solved to be timed. */
#ifndef RECORDS_H
#define RECORDS_H

#include "tawinrak.h"

enum { N = TAWINRAK_MOST_OBSERVATIONS, D = TAWINRAK_MOST_SEGMENTS };

/* A record, and up to how many segments it is cut into. */
typedef struct {
    const char *name; /* its kernel's, or how many channels it has */
    uint8_t body[TAWINRAK_OBSERVATION_BYTES(TAWINRAK_MOST_CHANNELS) * N];
    uint8_t channels[TAWINRAK_CHANNEL_BYTES * TAWINRAK_MOST_CHANNELS];
    size_t n, channel_count;
    uint64_t dmax;
} Record;

size_t body_bytes(const Record *record);
size_t channel_bytes(const Record *record);

/* Draws a record of plateaus with noise, of one channel of counts; for the spelling kernel, of few codes. */
void draw_record(Record *record, size_t n, uint64_t kernel, uint64_t dmax);

/* Draws such a record of four channels: linear counts, shares by energy, spellings, and linear counts. */
void draw_four(Record *record, size_t n, uint64_t dmax);

#endif
