/* stack.h: runs a function on a small stack and tells how much of it was used. */
#ifndef STACK_H
#define STACK_H

#include <stdint.h>

enum {
    SMALL_STACK = 16384,  /* a thread whose whole stack is 16 KiB, what the system's library keeps on it included */
    BESIDE_STACK = 24576, /* a thread with 16 KiB for the call, and room beside them for what the library keeps */
    MOST_STACK = 16384    /* what a call may use */
};

/*
 * Runs the function on a new thread whose whole stack has so many bytes, at most BESIDE_STACK,
 * against unreadable memory, and returns how many of them the call used. Ends the program
 * where they are more than MOST_STACK.
 */
uint32_t run_on_stack(uint32_t whole, void (*call)(void));

#endif
