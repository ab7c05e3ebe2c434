/* Rooms between two pages that nobody may touch: a step outside a room ends the program. */
#ifndef ROOM_H
#define ROOM_H
#include <stddef.h>

struct room {
    unsigned char *first;
    size_t bytes;
};

/* A room for at least so many bytes. Ends the program, with a line of why, if there is none. */
struct room room_of(size_t bytes);

/* Where so many bytes begin that end at the room's end, or begin at its front. */
void *lent(struct room room, size_t bytes, int at_front);

/* From here on the room can be read and not written, or both again. */
void read_only(struct room room, int yes);

#endif
