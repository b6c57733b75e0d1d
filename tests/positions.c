/*
 * positions.c: lends the writer 64 entries of the most observations and channels that an entry can name, and
 * runs of bodies far longer than the driver's slices, round the longest that ends inside a body. Holds code, place
 * and position to what is due, and the output to what it was, byte for byte.
 */
#include "tawinrak.h"

#include <stdio.h>
#include <stdlib.h>
#include <string.h>

enum {
    MOST = 65535,                                                     /* observations of each entry */
    BODY = TAWINRAK_OBSERVATION_BYTES(TAWINRAK_MOST_CHANNELS) * MOST, /* 2,359,260 bytes */
    ALL = TAWINRAK_MOST_RECORDS * BODY,                               /* 150,992,640 bytes */
    PAINT = 0xC7
};

/* A run's length, and what is due for it. */
typedef struct {
    size_t length;
    unsigned code, place, position;
} Run;

/* Among them the largest position there is, and positions round 2^24, which a place is below. */
static const Run runs[] = {
    {0, TAWINRAK_BODY_PAST_END, 0, 0},
    {(1 << 24) - 1, TAWINRAK_BODY_PAST_END, 7, 16777215},
    {1 << 24, TAWINRAK_BODY_PAST_END, 7, 16777216},
    {(1 << 24) + 5, TAWINRAK_BODY_PAST_END, 7, 16777221},
    {63 * BODY - 1, TAWINRAK_BODY_PAST_END, 62, 148633379},
    {63 * BODY, TAWINRAK_BODY_PAST_END, 63, 148633380},
    {ALL - 1, TAWINRAK_BODY_PAST_END, 63, 150992639},
    {ALL, TAWINRAK_FILE_TOO_LONG, 0, 0},
    {ALL + 1, TAWINRAK_BYTES_LEFT_OVER, 0, 0},
};

static uint8_t entries[TAWINRAK_ENTRY_BYTES * TAWINRAK_MOST_RECORDS];
static uint8_t out[TAWINRAK_MOST_FILE_BYTES], painted[TAWINRAK_MOST_FILE_BYTES];

static void make_entries(void)
{
    for (unsigned i = 0; i < TAWINRAK_MOST_RECORDS; i++) {
        uint8_t *entry = entries + TAWINRAK_ENTRY_BYTES * i;
        entry[0] = (uint8_t)i;
        entry[2] = TAWINRAK_MOST_CHANNELS;
        for (unsigned channel = 0; channel < TAWINRAK_MOST_CHANNELS; channel++)
            entry[3 + TAWINRAK_CHANNEL_BYTES * channel] = TAWINRAK_LINEAR;
        entry[11] = 1;
        entry[13] = entry[14] = 255;
    }
}

/* Whether the writer answers a run with what is due and leaves the output alone. */
static int holds(const uint8_t *bodies, const Run *run)
{
    memset(out, PAINT, sizeof out);
    uint64_t reply = tawinrak_write_file(TAWINRAK_FORM_CHANNELS, entries, sizeof entries, bodies, run->length, out,
                                         sizeof out);
    unsigned code = TAWINRAK_CODE(reply), place = TAWINRAK_PLACE(reply), position = TAWINRAK_POSITION(reply);
    int untouched = memcmp(out, painted, sizeof out) == 0;
    if (code == run->code && place == run->place && position == run->position && untouched)
        return 1;
    printf("a run of %zu bytes: code %u place %u position %u, due are %u, %u and %u; the output is %s\n", run->length,
           code, place, position, run->code, run->place, run->position, untouched ? "untouched" : "written");
    return 0;
}

int main(void)
{
    unsigned failed = 0;
    uint8_t *bodies = calloc(ALL + 1, 1);
    if (bodies == NULL) {
        fprintf(stderr, "positions: no memory\n");
        return 3;
    }
    memset(painted, PAINT, sizeof painted);
    make_entries();
    for (size_t i = 0; i < sizeof runs / sizeof runs[0]; i++)
        failed += !holds(bodies, &runs[i]);
    free(bodies);
    return failed > 0;
}
