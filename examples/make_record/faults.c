#include "faults.h"

#include <stdio.h>

/* So many are told, the first by their lines. */
#define MOST_FAULTS 100u

typedef struct {
    unsigned line;
    char words[160];
} Fault;

static Fault faults[MOST_FAULTS + 1];
static unsigned fault_count;

void note_fault(unsigned line, const char *words, const char *field)
{
    unsigned at = fault_count < MOST_FAULTS ? fault_count : MOST_FAULTS;
    for (; at > 0 && faults[at - 1].line > line; at--)
        faults[at] = faults[at - 1];
    faults[at].line = line;
    if (field == NULL)
        snprintf(faults[at].words, sizeof faults[at].words, "%s", words);
    else
        snprintf(faults[at].words, sizeof faults[at].words, "'%.40s' %s", field, words);
    fault_count++;
}

bool any_fault(void)
{
    return fault_count > 0;
}

void tell_faults(void)
{
    for (unsigned i = 0; i < fault_count && i < MOST_FAULTS; i++)
        fprintf(stderr, "line %u: %s\n", faults[i].line, faults[i].words);
    if (fault_count > MOST_FAULTS)
        fprintf(stderr, "and %u faults more\n", fault_count - MOST_FAULTS);
}
