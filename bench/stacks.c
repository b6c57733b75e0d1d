/* stacks.c: how much stack each C call takes, on records and files as large as may be. */
#include "stacks.h"
#include "records.h"
#include "stack.h"
#include "whole.h"

#include <stdio.h>
#include <stdlib.h>
#include <string.h>

static Record record;
static uint8_t costs[TAWINRAK_COST_BYTES(N, D)], starts[TAWINRAK_START_BYTES(N, D)];
static uint8_t summaries[TAWINRAK_SUMMARIES_OUT_BYTES], cuts[TAWINRAK_STARTS_OUT_BYTES];

/* A file of as many records of four channels as there may be, each with as many observations as there is room for. */
enum { RECORDS = TAWINRAK_MOST_RECORDS, EACH = 27, BODY = EACH * TAWINRAK_OBSERVATION_BYTES(4) };
static uint8_t entries[RECORDS * TAWINRAK_ENTRY_BYTES], bodies[RECORDS * BODY];
static uint8_t file[TAWINRAK_FILE_HEAD_BYTES + RECORDS * (TAWINRAK_FILE_ENTRY_BYTES(TAWINRAK_FORM_CHANNELS) + BODY)];

/* The reply of the last call. */
static uint64_t reply;

static void solve(void)
{
    reply = tawinrak_solve(record.body, body_bytes(&record), record.channels, channel_bytes(&record), record.dmax, costs,
                           sizeof costs, starts, sizeof starts);
}

static void solve_in_c(void)
{
    reply = whole_solve(record.body, body_bytes(&record), record.channels, channel_bytes(&record), record.dmax, costs,
                        sizeof costs, starts, sizeof starts);
}

static void read_cuts(void)
{
    reply = tawinrak_read_cuts(starts, sizeof starts, N, D, record.channels[0], cuts, sizeof cuts);
}

static void summarize(void)
{
    reply = tawinrak_summarize(record.body, body_bytes(&record), record.channels, channel_bytes(&record), 0, record.n,
                               summaries, sizeof summaries);
}

static void write_file(void)
{
    reply = tawinrak_write_file(TAWINRAK_FORM_CHANNELS, entries, sizeof entries, bodies, sizeof bodies, file, sizeof file);
}

static void read_file(void)
{
    reply = tawinrak_read_file(file, sizeof file);
}

static void make_entries(void)
{
    for (unsigned i = 0; i < RECORDS; i++) {
        uint8_t *entry = entries + TAWINRAK_ENTRY_BYTES * i;
        entry[0] = (uint8_t)i;
        entry[2] = 4;
        entry[13] = EACH;
    }
}

/* The stack of a call that is to be done. */
static unsigned stack_of(void (*call)(void), const char *name)
{
    unsigned used = run_on_stack(BESIDE_STACK, call);
    if (reply != TAWINRAK_DONE) {
        fprintf(stderr, "%s: %s\n", name, tawinrak_text(TAWINRAK_CODE(reply)));
        exit(1);
    }
    return used;
}

static void print_call(const char *name, void (*call)(void))
{
    printf("%-16s  tawinrak %5u\n", name, stack_of(call, name));
}

static void print_solve(void)
{
    char name[32];
    snprintf(name, sizeof name, "solve, %s", record.name);
    unsigned really = stack_of(solve, name), in_c = stack_of(solve_in_c, name);
    printf("%-16s  tawinrak %5u, C in whole numbers %5u\n", name, really, in_c);
}

void print_stacks(void)
{
    printf("\nStack of each call, bytes, of %d observations or %d records:\n", N, RECORDS);
    for (uint64_t kernel = TAWINRAK_LINEAR; kernel <= TAWINRAK_ENERGY; kernel++) {
        draw_record(&record, N, kernel, D);
        print_solve();
    }
    draw_four(&record, N, D);
    print_solve();
    print_call("read cuts", read_cuts);
    print_call("summarize, four", summarize);
    make_entries();
    print_call("write file", write_file);
    print_call("read file", read_file);
}
