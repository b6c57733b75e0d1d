/* values.h: what a field stands for: a number, a date, a share. */
#ifndef VALUES_H
#define VALUES_H

#include <stdbool.h>
#include <stdint.h>

/* Reads a number written in digits alone. One above most, which is 9 at least, becomes most. */
bool read_number(const char *text, uint64_t most, uint64_t *number);

/* Reads a date from 1970-01-01 to 9999-12-31, written like these, as the days from 1970-01-01. */
bool read_date(const char *text, uint32_t *day);

/*
 * Reads a number in decimals, with or without an exponent, or NaN or infinity, as the double
 * nearest to it. A number too large for a double stays finite, and one too small is not 0.
 */
bool read_share(const char *text, double *share);

/* The nearest multiple of 1/65,536, halves away from 0; a share that is far out of range stays as it is. */
double rounded_share(double share);

#endif
