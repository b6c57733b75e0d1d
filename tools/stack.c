/* stack.c: runs a function on a small painted stack. */
#define _GNU_SOURCE
#include "stack.h"
#include "room.h"

#include <pthread.h>
#include <stdio.h>
#include <stdlib.h>
#include <string.h>

enum { PAINT = 0xC7 };

static struct {
    Room room;
    void (*call)(void);
    uint32_t used;
} run;

/* The lowest byte of the stack that is not painted any more. */
static const uint8_t *lowest_touched(void)
{
    const uint8_t *byte = run.room.start;
    while (*byte == PAINT)
        byte++;
    return byte;
}

static void *run_and_measure(void *unused)
{
    const uint8_t *entry = __builtin_frame_address(0);
    run.call();
    run.used = (uint32_t)(entry - lowest_touched());
    return unused;
}

static void check(int error, const char *what)
{
    if (error != 0) {
        fprintf(stderr, "%s: %s\n", what, strerror(error));
        exit(3);
    }
}

uint32_t run_on_stack(uint32_t whole, void (*call)(void))
{
    pthread_attr_t attributes;
    pthread_t thread;
    if (run.room.start == NULL)
        run.room = take_room(ROOM_PAGE);
    run.call = call;
    memset(run.room.start, PAINT, whole);
    check(pthread_attr_init(&attributes), "cannot describe a thread");
    check(pthread_attr_setstack(&attributes, run.room.start, whole), "so small a stack is not allowed");
    check(pthread_create(&thread, &attributes, run_and_measure, NULL), "cannot start a thread");
    check(pthread_join(thread, NULL), "cannot wait for a thread");
    check(pthread_attr_destroy(&attributes), "cannot end a thread");
    if (run.used > MOST_STACK) {
        fprintf(stderr, "a call used %u bytes of stack, more than 16 KiB\n", (unsigned)run.used);
        exit(3);
    }
    return run.used;
}
