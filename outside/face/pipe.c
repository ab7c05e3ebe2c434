/* Calls the C face for another program: cases come on standard input, what came back goes to standard output.
 *
 * A case is seven numbers of 64 bits (struct call), then the book, then report, ledger and place as they are before
 * the call. Back come the answer in 64 bits, then report, ledger and place as they are after it. Little-endian, as
 * this machine has them. Every room lies at the edge of a page that nobody may touch; the book cannot be written.
 * Where the case says so, it is a stored report that is widened: its cells come in the book's place, and no ledger.
 */
#include "room.h"
#include "vorlegan.h"
#include <stdio.h>
#include <stdlib.h>
#include <unistd.h>

enum { MOST_BYTES = 1 << 20, MOST_CELLS = 1 << 13, MOST_SECONDS = 60 };

struct call {
    uint64_t book_bytes, tier1, report_cells, ledger_cells, place_cells, at_front, widens;
};

static struct room book_room, report_room, ledger_room, place_room;

static void get(void *into, size_t bytes)
{
    if (fread(into, 1, bytes, stdin) != bytes) {
        fputs("pipe: the case is cut short\n", stderr);
        exit(2);
    }
}

static void put(const void *from, size_t bytes)
{
    if (fwrite(from, 1, bytes, stdout) != bytes)
        exit(2);
}

/* One of the two functions of the face; a stored report that is to be widened is lent as a book is. */
static uint64_t called(const struct call *call, const void *book, int64_t *report, int64_t *ledger, uint64_t *place)
{
    if (call->widens)
        return vorlegan_widen(book, call->book_bytes / 8, report, call->report_cells, place, call->place_cells);
    return vorlegan_assess(book, call->book_bytes, call->tier1, report, call->report_cells, ledger, call->ledger_cells,
                           place, call->place_cells);
}

static void answer(const struct call *call)
{
    int front = call->at_front != 0;
    size_t report_bytes = 8 * call->report_cells, ledger_bytes = 8 * call->ledger_cells;
    size_t place_bytes = 8 * call->place_cells;
    void *book = lent(book_room, call->book_bytes, front);
    int64_t *report = lent(report_room, report_bytes, front), *ledger = lent(ledger_room, ledger_bytes, front);
    uint64_t *place = lent(place_room, place_bytes, front);
    get(book, call->book_bytes);
    get(report, report_bytes);
    get(ledger, ledger_bytes);
    get(place, place_bytes);
    read_only(book_room, 1);
    /* A call that does not end must not look like a slow pipe. */
    alarm(MOST_SECONDS);
    uint64_t number = called(call, book, report, ledger, place);
    alarm(0);
    read_only(book_room, 0);
    put(&number, sizeof number);
    put(report, report_bytes);
    put(ledger, ledger_bytes);
    put(place, place_bytes);
    fflush(stdout);
}

int main(void)
{
    struct call call;
    book_room = room_of(MOST_BYTES);
    report_room = room_of(8 * MOST_CELLS);
    ledger_room = room_of(8 * MOST_CELLS);
    place_room = room_of(8 * MOST_CELLS);
    while (fread(&call, sizeof call, 1, stdin) == 1)
        answer(&call);
    return 0;
}
