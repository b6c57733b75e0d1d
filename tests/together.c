/*
 * together.c: runs the five C functions on several threads at the same time, each thread
 * on slices of its own, and holds all that they leave to what the same calls leave alone.
 */
#define _GNU_SOURCE
#include "tawinrak.h"

#include <pthread.h>
#include <stdio.h>
#include <stdlib.h>
#include <string.h>

enum {
    THREADS = 4,
    ROUNDS = 400,
    N = 90,
    D = TAWINRAK_MOST_SEGMENTS,
    CALLS = 5,
    WIDEST = TAWINRAK_OBSERVATION_BYTES(TAWINRAK_MOST_CHANNELS),
    CHANNELS = TAWINRAK_CHANNEL_BYTES * TAWINRAK_MOST_CHANNELS
};

/* All that one thread lends, and the replies. */
typedef struct {
    uint64_t count, replies[CALLS]; /* count of channels */
    uint8_t body[WIDEST * N], channels[CHANNELS];
    uint8_t costs[TAWINRAK_COST_BYTES(N, D)], starts[TAWINRAK_START_BYTES(N, D)];
    uint8_t cuts[TAWINRAK_STARTS_OUT_BYTES];
    uint8_t entry[TAWINRAK_ENTRY_BYTES];
    uint8_t file[TAWINRAK_FILE_HEAD_BYTES + TAWINRAK_FILE_ENTRY_BYTES(TAWINRAK_FORM_CHANNELS) + WIDEST * N];
    uint8_t summaries[TAWINRAK_SUMMARIES_OUT_BYTES];
} Slices;

static Slices fresh[THREADS], alone[THREADS];
static unsigned differing[THREADS];
static pthread_barrier_t start;

static void check(int good, const char *what)
{
    if (!good) {
        fprintf(stderr, "together: %s\n", what);
        exit(3);
    }
}

/* Another record for each thread, of one channel more than that of the thread before, and the kernels in turn. */
static void draw(Slices *slices, unsigned thread)
{
    memset(slices, 0, sizeof *slices);
    slices->count = 1 + thread % TAWINRAK_MOST_CHANNELS;
    for (unsigned i = 0; i < N; i++) {
        uint8_t *observation = slices->body + TAWINRAK_OBSERVATION_BYTES(slices->count) * i;
        observation[0] = (uint8_t)i;
        for (unsigned channel = 0; channel < slices->count; channel++)
            observation[4 + 8 * channel] = (uint8_t)((thread + 3) * i * i / (7 + channel) % (thread + channel + 5));
    }
    for (unsigned channel = 0; channel < slices->count; channel++)
        slices->channels[TAWINRAK_CHANNEL_BYTES * channel] = (uint8_t)(TAWINRAK_LINEAR + (thread + channel) % 3);
    slices->entry[0] = (uint8_t)thread;
    slices->entry[2] = (uint8_t)slices->count;
    memcpy(slices->entry + 3, slices->channels, sizeof slices->channels);
    slices->entry[13] = N;
}

static void call_all(Slices *lent)
{
    size_t body = TAWINRAK_OBSERVATION_BYTES(lent->count) * N, channels = TAWINRAK_CHANNEL_BYTES * lent->count;
    lent->replies[0] = tawinrak_solve(lent->body, body, lent->channels, channels, D, lent->costs, sizeof lent->costs,
                                      lent->starts, sizeof lent->starts);
    lent->replies[1] = tawinrak_read_cuts(lent->starts, sizeof lent->starts, N, D, lent->channels[0], lent->cuts,
                                          sizeof lent->cuts);
    lent->replies[2] = tawinrak_write_file(TAWINRAK_FORM_CHANNELS, lent->entry, sizeof lent->entry, lent->body, body,
                                           lent->file, sizeof lent->file);
    lent->replies[3] = tawinrak_read_file(lent->file, sizeof lent->file - sizeof lent->body + body);
    lent->replies[4] = tawinrak_summarize(lent->body, body, lent->channels, channels, 1, N - 2, lent->summaries,
                                          sizeof lent->summaries);
}

static void *run_thread(void *number)
{
    unsigned thread = *(unsigned *)number;
    pthread_barrier_wait(&start);
    for (unsigned round = 0; round < ROUNDS; round++) {
        Slices lent;
        memcpy(&lent, &fresh[thread], sizeof lent);
        call_all(&lent);
        differing[thread] += memcmp(&lent, &alone[thread], sizeof lent) != 0;
    }
    return NULL;
}

static void run_alone(void)
{
    for (unsigned i = 0; i < THREADS; i++) {
        draw(&fresh[i], i);
        memcpy(&alone[i], &fresh[i], sizeof alone[i]);
        call_all(&alone[i]);
        for (unsigned call = 0; call < CALLS; call++)
            check(alone[i].replies[call] == TAWINRAK_DONE, "a call is refused");
    }
}

int main(void)
{
    pthread_t threads[THREADS];
    unsigned numbers[THREADS], total = 0;
    run_alone();
    check(pthread_barrier_init(&start, NULL, THREADS) == 0, "cannot make a barrier");
    for (unsigned i = 0; i < THREADS; i++) {
        numbers[i] = i;
        check(pthread_create(&threads[i], NULL, run_thread, &numbers[i]) == 0, "cannot start a thread");
    }
    for (unsigned i = 0; i < THREADS; i++) {
        check(pthread_join(threads[i], NULL) == 0, "cannot wait for a thread");
        total += differing[i];
    }
    if (total > 0)
        printf("%u of %u rounds differ from the calls alone\n", total, THREADS * ROUNDS);
    return total > 0;
}
