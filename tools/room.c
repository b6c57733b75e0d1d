/* room.c: memory between two unreadable pages. */
#define _GNU_SOURCE
#include "room.h"

#include <stdio.h>
#include <stdlib.h>
#include <sys/mman.h>

static void check(int good, const char *what)
{
    if (!good) {
        perror(what);
        exit(3);
    }
}

Room take_room(size_t size)
{
    uint8_t *taken = mmap(NULL, size + 3 * ROOM_PAGE, PROT_READ | PROT_WRITE, MAP_PRIVATE | MAP_ANONYMOUS, -1, 0);
    check(taken != MAP_FAILED, "no memory");
    uint8_t *before = taken + (ROOM_PAGE - (uintptr_t)taken % ROOM_PAGE) % ROOM_PAGE;
    Room room = {before + ROOM_PAGE, before + ROOM_PAGE + size};
    check(mprotect(before, ROOM_PAGE, PROT_NONE) == 0, "cannot make a page unreadable");
    check(mprotect(room.end, ROOM_PAGE, PROT_NONE) == 0, "cannot make a page unreadable");
    return room;
}
