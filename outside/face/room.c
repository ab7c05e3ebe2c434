#define _GNU_SOURCE
#include "room.h"
#include <stdio.h>
#include <stdlib.h>
#include <sys/mman.h>
#include <unistd.h>

static void stop(const char *why)
{
    perror(why);
    exit(2);
}

struct room room_of(size_t bytes)
{
    size_t page = (size_t)sysconf(_SC_PAGESIZE);
    size_t inner = (bytes + page - 1) / page * page;
    unsigned char *outer = mmap(NULL, inner + 2 * page, PROT_NONE, MAP_PRIVATE | MAP_ANONYMOUS, -1, 0);
    if (outer == MAP_FAILED)
        stop("mmap");
    struct room room = {outer + page, inner};
    read_only(room, 0);
    return room;
}

void *lent(struct room room, size_t bytes, int at_front)
{
    if (bytes > room.bytes) {
        fprintf(stderr, "%zu bytes do not fit a room of %zu\n", bytes, room.bytes);
        exit(2);
    }
    return at_front ? room.first : room.first + room.bytes - bytes;
}

void read_only(struct room room, int yes)
{
    if (mprotect(room.first, room.bytes, yes ? PROT_READ : PROT_READ | PROT_WRITE) != 0)
        stop("mprotect");
}
