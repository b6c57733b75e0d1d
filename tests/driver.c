/*
 * driver.c: runs the five C functions on requests from standard input and answers
 * with the reply and every lent byte. Each slice lies right against unreadable
 * memory. Each call runs on a thread whose whole stack is 16 KiB; a solve of several
 * channels on one that has 16 KiB for the call.
 *
 * A request: call (1 byte), placing (1 byte), three numbers (8 bytes each), then
 * for every slice of that call its length (8 bytes) and its bytes.
 * Calls: 0 idle, 1 solve (dmax; body, channels, costs, starts),
 * 2 read cuts (n, d, kernel; starts, out), 3 read file (file),
 * 4 write file (form; entries, bodies, out),
 * 5 summarize (first, length; body, channels, out).
 * Placing, bit 0: the unreadable memory comes after each slice (0) or before it (1);
 * bit 1: an empty slice is NULL (0) or a pointer to unreadable memory (1).
 * An answer: the reply (8 bytes), the stack bytes used (4), 1 if bytes beside a
 * slice changed and 0 if not (4), then the bytes of every slice after the call.
 * All numbers are little-endian.
 */
#define _GNU_SOURCE
#include "room.h"
#include "stack.h"
#include "tawinrak.h"

#include <stdio.h>
#include <stdlib.h>
#include <string.h>
#include <unistd.h>

enum {
    SLICE_ROOM = 32 * ROOM_PAGE,
    MARGIN = 256, /* bytes beside a slice that are watched */
    MOST_SLICES = 4,
    SECONDS = 60, /* after which a call counts as endless */
    PAINT = 0xC7
};

typedef struct {
    uint8_t *bytes; /* NULL where the slice is empty and lent as NULL */
    size_t length;
    uint8_t *margin;
} Lent;

static struct {
    uint8_t call, placing;
    uint64_t number[3];
    Lent slice[MOST_SLICES];
    uint64_t reply;
} request;

static void fail(const char *what)
{
    fprintf(stderr, "driver: %s\n", what);
    exit(3);
}

static void read_exactly(void *into, size_t length)
{
    if (length > 0 && fread(into, 1, length, stdin) != length)
        fail("a request is cut short");
}

static void write_all(const void *from, size_t length)
{
    if (length > 0 && fwrite(from, 1, length, stdout) != length)
        fail("cannot answer");
}

static uint8_t *empty_slice(Room room, uint8_t placing)
{
    if ((placing & 2) == 0)
        return NULL;
    return placing & 1 ? room.start - 1 : room.end;
}

static Lent read_slice(Room room, uint8_t placing)
{
    uint64_t length;
    Lent lent;
    read_exactly(&length, sizeof length);
    if (length > SLICE_ROOM - MARGIN)
        fail("a slice is too long");
    lent.length = length;
    lent.bytes = placing & 1 ? room.start : room.end - length;
    lent.margin = placing & 1 ? lent.bytes + length : lent.bytes - MARGIN;
    memset(lent.margin, PAINT, MARGIN);
    read_exactly(lent.bytes, length);
    if (length == 0)
        lent.bytes = empty_slice(room, placing);
    return lent;
}

static unsigned slices_of(uint8_t call)
{
    static const unsigned count[] = {0, 4, 2, 1, 3, 3};
    if (call >= sizeof count / sizeof count[0])
        fail("no such call");
    return count[call];
}

static void run_call(void)
{
    const Lent *lent = request.slice;
    const uint64_t *number = request.number;
    switch (request.call) {
    case 1:
        request.reply = tawinrak_solve(lent[0].bytes, lent[0].length, lent[1].bytes, lent[1].length, number[0],
                                       lent[2].bytes, lent[2].length, lent[3].bytes, lent[3].length);
        break;
    case 2:
        request.reply = tawinrak_read_cuts(lent[0].bytes, lent[0].length, number[0], number[1], number[2],
                                           lent[1].bytes, lent[1].length);
        break;
    case 3:
        request.reply = tawinrak_read_file(lent[0].bytes, lent[0].length);
        break;
    case 4:
        request.reply = tawinrak_write_file(number[0], lent[0].bytes, lent[0].length, lent[1].bytes, lent[1].length,
                                            lent[2].bytes, lent[2].length);
        break;
    case 5:
        request.reply = tawinrak_summarize(lent[0].bytes, lent[0].length, lent[1].bytes, lent[1].length, number[0],
                                           number[1], lent[2].bytes, lent[2].length);
        break;
    }
}

static uint32_t margins_changed(unsigned slices)
{
    for (unsigned i = 0; i < slices; i++)
        for (unsigned j = 0; j < MARGIN; j++)
            if (request.slice[i].margin[j] != PAINT)
                return 1;
    return 0;
}

static void read_request(const Room *rooms, unsigned slices)
{
    read_exactly(&request.placing, 1);
    read_exactly(request.number, sizeof request.number);
    for (unsigned i = 0; i < slices; i++)
        request.slice[i] = read_slice(rooms[i], request.placing);
    request.reply = 0;
}

/* The whole stack of the thread that the call runs on. */
static uint32_t stack_of_call(void)
{
    return request.call == 1 && request.slice[1].length > TAWINRAK_CHANNEL_BYTES ? BESIDE_STACK : SMALL_STACK;
}

static void answer_request(const Room *rooms)
{
    unsigned slices = slices_of(request.call);
    read_request(rooms, slices);
    alarm(SECONDS);
    uint32_t used = run_on_stack(stack_of_call(), run_call);
    alarm(0);
    uint32_t changed = margins_changed(slices);
    write_all(&request.reply, sizeof request.reply);
    write_all(&used, sizeof used);
    write_all(&changed, sizeof changed);
    for (unsigned i = 0; i < slices; i++)
        write_all(request.slice[i].bytes, request.slice[i].length);
    if (fflush(stdout) != 0)
        fail("cannot answer");
}

int main(void)
{
    Room rooms[MOST_SLICES];
    for (unsigned i = 0; i < MOST_SLICES; i++)
        rooms[i] = take_room(SLICE_ROOM);
    while (fread(&request.call, 1, 1, stdin) == 1)
        answer_request(rooms);
    return 0;
}
