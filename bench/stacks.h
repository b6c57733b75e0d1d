/* stacks.h: how much stack each C call takes. */
#ifndef STACKS_H
#define STACKS_H

/* Prints the bytes of stack that each C call takes, and beside solve those of C in whole numbers. */
void print_stacks(void);

#endif
