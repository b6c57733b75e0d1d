/* doubles.h: the old way to solve, in double precision. */
#ifndef DOUBLES_H
#define DOUBLES_H

#include <stddef.h>
#include <stdint.h>

/*
 * Solves an accepted record of counts. Tables have Dmax * (n+1) entries, row by row
 * as tawinrak_solve's; costs are true costs, R/m summed, as near as doubles come.
 */
void doubles_solve(const uint8_t *body, size_t body_len, uint64_t kernel, uint64_t dmax,
                   double *costs, uint16_t *starts);

#endif
