/*
 * cuts_of_file.c: prints the cuts of a record file through the C functions, as
 * `./cuts` does.
 *
 *   cuts_of_file [FILE]     without FILE, or for -, it reads standard input
 *
 * For every record it prints the term, the reply's code and place, then for every
 * count of segments the least cost in units and, for each segment after the first,
 * its first index and its change date. Of a refused file it prints one line, the
 * reply's code, place and position. A refusal is also told in a sentence on standard
 * error.
 */
#include "tawinrak.h"

#include <errno.h>
#include <inttypes.h>
#include <signal.h>
#include <stdio.h>
#include <string.h>

/* What the program ends with. */
enum { ALL_DONE = 0, TERM_REFUSED = 1, FILE_REFUSED = 2, NOT_ANSWERED = 3 };

/* One record of a file: the fields of its entry, where its channels stand, and its body. */
typedef struct {
    unsigned term, channel_count, dmax, n;
    const uint8_t *channels, *body;
} Record;

/* One byte more than a file may have, so that a longer one is told. */
static uint8_t file[TAWINRAK_MOST_FILE_BYTES + 1];
static uint8_t costs[TAWINRAK_COST_BYTES(TAWINRAK_MOST_OBSERVATIONS, TAWINRAK_MOST_SEGMENTS)];
static uint8_t starts[TAWINRAK_START_BYTES(TAWINRAK_MOST_OBSERVATIONS, TAWINRAK_MOST_SEGMENTS)];

static uint64_t number_at(const uint8_t *bytes, unsigned width)
{
    uint64_t number = 0;
    while (width-- > 0)
        number = 256 * number + bytes[width];
    return number;
}

/* Behind the term stand, in form 1 alone, the count of channels, then the channels; Dmax, n and offset come last. */
static Record record_at(unsigned index)
{
    unsigned form = file[1], width = TAWINRAK_FILE_ENTRY_BYTES(form);
    const uint8_t *entry = file + TAWINRAK_FILE_HEAD_BYTES + width * index, *end = entry + width;
    Record record;
    record.term = (unsigned)number_at(entry, 2);
    record.channel_count = form == TAWINRAK_FORM_SINGLE ? 1 : entry[2];
    record.channels = entry + (form == TAWINRAK_FORM_SINGLE ? 2 : 3);
    record.dmax = (unsigned)number_at(end - 8, 2);
    record.n = (unsigned)number_at(end - 6, 2);
    record.body = file + number_at(end - 4, 4);
    return record;
}

static uint64_t day_at(const Record *record, unsigned index)
{
    return number_at(record->body + TAWINRAK_OBSERVATION_BYTES(record->channel_count) * index, 4);
}

/* Halfway between the last day before the segment and its first day, rounded down: of neighbouring days the earlier. */
static uint64_t change_date(const Record *record, unsigned start)
{
    return (day_at(record, start - 1) + day_at(record, start)) / 2;
}

/* Tells a refusal of a file or of a term in words. Where a file has a position it is not 0. */
static void tell(const char *who, uint64_t reply)
{
    unsigned code = TAWINRAK_CODE(reply);
    fprintf(stderr, "%s: %s", who, tawinrak_text(code));
    if (tawinrak_counted(code)[0] != '\0')
        fprintf(stderr, ", at %s %u", tawinrak_counted(code), TAWINRAK_PLACE(reply));
    if (TAWINRAK_POSITION(reply) != 0)
        fprintf(stderr, ", byte %u", TAWINRAK_POSITION(reply));
    fprintf(stderr, " (code %u)\n", code);
}

/* Prints the line of one count of segments, off the tables that solve has filled: they always hold a walk. */
static void print_cutting(const Record *record, unsigned count)
{
    uint8_t cuts[TAWINRAK_STARTS_OUT_BYTES];
    unsigned last = (count - 1) * (record->n + 1) + record->n;
    tawinrak_read_cuts(starts, sizeof starts, record->n, count, record->channels[0], cuts, sizeof cuts);
    printf("%u %" PRIu64, count, number_at(costs + 8 * last, 8));
    for (unsigned segment = 1; segment < count; segment++) {
        unsigned start = (unsigned)number_at(cuts + 2 * segment, 2);
        printf(" %u:%" PRIu64, start, change_date(record, start));
    }
    printf("\n");
}

static uint64_t solve(const Record *record)
{
    return tawinrak_solve(record->body, TAWINRAK_OBSERVATION_BYTES(record->channel_count) * record->n, record->channels,
                          TAWINRAK_CHANNEL_BYTES * record->channel_count, record->dmax, costs, sizeof costs, starts,
                          sizeof starts);
}

static int print_record(const Record *record)
{
    char who[16];
    uint64_t reply = solve(record);
    printf("term %u code %u place %u\n", record->term, TAWINRAK_CODE(reply), TAWINRAK_PLACE(reply));
    if (TAWINRAK_CODE(reply) != TAWINRAK_DONE) {
        snprintf(who, sizeof who, "term %u", record->term);
        tell(who, reply);
        return TERM_REFUSED;
    }
    for (unsigned count = 1; count <= record->dmax; count++)
        print_cutting(record, count);
    return ALL_DONE;
}

static int print_file(size_t length)
{
    int status = ALL_DONE;
    uint64_t reply = tawinrak_read_file(file, length);
    if (TAWINRAK_CODE(reply) != TAWINRAK_DONE) {
        printf("file code %u place %u at %u\n", TAWINRAK_CODE(reply), TAWINRAK_PLACE(reply), TAWINRAK_POSITION(reply));
        tell("file", reply);
        return FILE_REFUSED;
    }
    for (unsigned index = 0; index < file[0]; index++) {
        Record record = record_at(index);
        if (print_record(&record) != ALL_DONE)
            status = TERM_REFUSED;
    }
    return status;
}

/* Says why there is no answer, unless its reader has gone. */
static int not_answered(const char *what)
{
    if (errno != EPIPE)
        fprintf(stderr, "'%s': %s\n", what, strerror(errno));
    return NOT_ANSWERED;
}

int main(int argc, char **argv)
{
    if (argc > 2) {
        fprintf(stderr, "usage: cuts_of_file [FILE]\n");
        return NOT_ANSWERED;
    }
    signal(SIGPIPE, SIG_IGN);
    const char *name = argc > 1 ? argv[1] : "-";
    FILE *input = strcmp(name, "-") == 0 ? stdin : fopen(name, "rb");
    if (input == NULL)
        return not_answered(name);
    size_t length = fread(file, 1, sizeof file, input);
    if (ferror(input))
        return not_answered(name);
    int status = print_file(length);
    return fflush(stdout) == 0 && !ferror(stdout) ? status : not_answered("standard output");
}
