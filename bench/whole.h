/* whole.h: the segmenter's solve written plainly in C, in whole numbers. */
#ifndef WHOLE_H
#define WHOLE_H

#include <stddef.h>
#include <stdint.h>

/* As tawinrak_solve: the same arguments, the same reply, the same bytes written. */
uint64_t whole_solve(const uint8_t *body, size_t body_len, const uint8_t *channels, size_t channels_len, uint64_t dmax,
                     uint8_t *costs, size_t costs_len, uint8_t *starts, size_t starts_len);

#endif
