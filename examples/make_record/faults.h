/* faults.h: what is wrong with a text, told in the order of its lines. */
#ifndef FAULTS_H
#define FAULTS_H

#include <stdbool.h>

/* Notes a fault of a line, and of one of its fields unless that is NULL. */
void note_fault(unsigned line, const char *words, const char *field);

/* Whether a fault is noted. */
bool any_fault(void);

/* Writes the faults to standard error, a line each. */
void tell_faults(void);

#endif
