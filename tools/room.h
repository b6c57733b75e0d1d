/* room.h: memory between two unreadable pages. */
#ifndef ROOM_H
#define ROOM_H

#include <stddef.h>
#include <stdint.h>

enum { ROOM_PAGE = 65536 }; /* no machine that runs the tests has larger pages */

typedef struct {
    uint8_t *start; /* the first readable byte; the one before it is unreadable */
    uint8_t *end;   /* the first unreadable byte after it */
} Room;

/* Takes memory of the size, a multiple of ROOM_PAGE. Ends the program if it cannot. */
Room take_room(size_t size);

#endif
