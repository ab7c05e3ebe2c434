/* Calls the C face on inputs of `irreport` (T in eight bytes, then the book), named as files or on standard input,
 * with every room at the edge of a page that nobody may touch, and checks what 01 says of any answer. A step outside
 * a room, or a broken rule, ends the program by a signal: that is what AFL++ looks for (`outside/fuzz`).
 */
#define _GNU_SOURCE
#include "room.h"
#include "vorlegan.h"
#include <stdio.h>
#include <stdlib.h>
#include <string.h>
#include <unistd.h>

enum { CURRENCIES = 32, CHANGES = 6 * CURRENCIES, REPORT_CELLS = CHANGES + 10, LEDGER_CELLS = 133 * CURRENCIES };
enum { STORED_CHANGES = 48, STORED_CELLS = STORED_CHANGES + 10 };
enum { CAPITAL_BYTES = 8, MOST_BYTES = 1 << 20, MOST_SECONDS = 60 };
static const int64_t PATTERN = 0x5aa5c33c96690ff0;

struct rooms {
    int64_t *report, *ledger;
    uint64_t *place;
};

/* A call's answer and what its rooms hold after it. */
struct outcome {
    uint64_t number, place;
    int64_t report[REPORT_CELLS], ledger[LEDGER_CELLS];
};

static struct room book_room, report_room, ledger_room, place_room;
static unsigned long reported, refused;

static void demand(int holds, const char *rule)
{
    if (!holds) {
        fprintf(stderr, "guard: broken: %s\n", rule);
        abort();
    }
}

static void fill(int64_t *cells, size_t count, int64_t value)
{
    for (size_t i = 0; i < count; i++)
        cells[i] = value;
}

static int all_are(const int64_t *cells, size_t count, int64_t value)
{
    for (size_t i = 0; i < count; i++)
        if (cells[i] != value)
            return 0;
    return 1;
}

static struct outcome call(const uint8_t *bytes, size_t book_bytes, uint64_t tier1, int at_front)
{
    struct rooms rooms = {lent(report_room, 8 * REPORT_CELLS, at_front), lent(ledger_room, 8 * LEDGER_CELLS, at_front),
                          lent(place_room, 8, at_front)};
    uint8_t *book = lent(book_room, book_bytes, at_front);
    struct outcome outcome;
    fill(rooms.report, REPORT_CELLS, PATTERN);
    fill(rooms.ledger, LEDGER_CELLS, PATTERN);
    *rooms.place = (uint64_t)PATTERN;
    memcpy(book, bytes, book_bytes);
    read_only(book_room, 1);
    alarm(MOST_SECONDS);
    outcome.number = vorlegan_assess(book, book_bytes, tier1, rooms.report, REPORT_CELLS, rooms.ledger, LEDGER_CELLS,
                                     rooms.place, 1);
    alarm(0);
    read_only(book_room, 0);
    outcome.place = *rooms.place;
    memcpy(outcome.report, rooms.report, sizeof outcome.report);
    memcpy(outcome.ledger, rooms.ledger, sizeof outcome.ledger);
    return outcome;
}

/* "From flows to verdict": what holds of every report. */
static void judge_report(const struct outcome *outcome)
{
    const int64_t *sums = outcome->report + CHANGES;
    int64_t measure = sums[6], worst = sums[7], tolerance = sums[8], verdict = sums[9];
    demand(outcome->place == 0, "a report has place 0");
    demand(measure >= 0 && tolerance >= 0, "measure and total tolerance are at least 0");
    demand(worst >= 0 && worst <= 6 && (worst == 0) == (measure == 0), "worst is 1 to 6, or 0 where the measure is");
    demand(worst == 0 || sums[worst - 1] == measure, "the worst scenario's sum is the measure");
    demand(verdict >= 1 && verdict <= 3, "a verdict is 1 to 3");
}

/* "Turned down": what holds of every refusal. */
static void judge_refusal(const struct outcome *outcome, size_t book_bytes)
{
    int before_records = outcome->number >= 16 && outcome->number <= 18;
    uint64_t last_place = before_records ? 0 : outcome->number == 15 ? CURRENCIES : book_bytes - 1;
    demand(outcome->number <= 20 && outcome->number != 18, "rooms that are long enough get 1 to 17, 19 or 20");
    demand(outcome->place <= last_place, "the place is in the book, or a currency");
    demand(all_are(outcome->report, REPORT_CELLS, PATTERN), "a refusal leaves the report untouched");
    demand(all_are(outcome->ledger, LEDGER_CELLS, before_records ? PATTERN : 0),
           "16 and 17 leave the ledger untouched, the others make it zero");
}

static void judge_widened(const int64_t *report, const int64_t *stored)
{
    demand(memcmp(report, stored, 8 * STORED_CHANGES) == 0, "a widened report begins with the stored changes");
    demand(all_are(report + STORED_CHANGES, CHANGES - STORED_CHANGES, 0), "the changes added to them are zeros");
    demand(memcmp(report + CHANGES, stored + STORED_CHANGES, 8 * 10) == 0, "the last ten stay the last ten");
}

/* Any 58 numbers can be widened; in a room that is a cell too short nothing moves. */
static void widen(const int64_t *numbers)
{
    int64_t *stored = lent(book_room, 8 * STORED_CELLS, 0), *report = lent(report_room, 8 * REPORT_CELLS, 0);
    uint64_t *place = lent(place_room, 8, 0);
    fill(report, REPORT_CELLS, PATTERN);
    memcpy(stored, numbers, 8 * STORED_CELLS);
    read_only(book_room, 1);
    *place = (uint64_t)PATTERN;
    uint32_t refused_with = vorlegan_widen(stored, STORED_CELLS, report + 1, REPORT_CELLS - 1, place, 1);
    demand(refused_with == 18 && *place == 0, "a room of 201 cells gets 18 at place 0");
    demand(all_are(report, REPORT_CELLS, PATTERN), "a room of 201 cells stays untouched");
    *place = (uint64_t)PATTERN;
    demand(vorlegan_widen(stored, STORED_CELLS, report, REPORT_CELLS, place, 1) == 0 && *place == 0,
           "58 stored cells in a room of 202 get 0 at place 0");
    judge_widened(report, stored);
    read_only(book_room, 0);
}

#ifdef __AFL_COMPILER
/* AFL sees the branches of this file and nothing of the archive, so the answer's number and the kinds of the records
 * walked are branched upon here. */
#define SEEN(n)                                                                                                        \
    case n:                                                                                                            \
        __asm__ volatile("# seen " #n);                                                                                \
        break;

static void show_number(uint64_t number)
{
    switch (number) {
        SEEN(0) SEEN(1) SEEN(2) SEEN(3) SEEN(4) SEEN(5) SEEN(6) SEEN(7) SEEN(8) SEEN(9)
        SEEN(10) SEEN(11) SEEN(12) SEEN(13) SEEN(14) SEEN(15) SEEN(16) SEEN(17)
        SEEN(19) SEEN(20)
    }
}

static void show_kinds(const uint8_t *book, size_t bytes)
{
    static const size_t lengths[] = {1, 10, 14, 14, 83, 156, 80, 27, 84, 21, 82};
    for (size_t place = 0; place < bytes && book[place] <= 10; place += lengths[book[place]])
        switch (book[place]) {
            SEEN(1) SEEN(2) SEEN(3) SEEN(4) SEEN(5) SEEN(6) SEEN(7) SEEN(8) SEEN(9) SEEN(10)
        }
}
#else
static void show_number(uint64_t number)
{
    (void)number;
}

static void show_kinds(const uint8_t *book, size_t bytes)
{
    (void)book, (void)bytes;
}
#endif

/* The same input twice, at the end of its pages and at their front: the answers are one. Then the first 58 cells of the
 * report's room, whatever they hold, as a stored report. */
static void take(const uint8_t *input, size_t bytes)
{
    uint64_t tier1 = 0;
    size_t head = bytes < CAPITAL_BYTES ? bytes : CAPITAL_BYTES;
    for (size_t i = 0; i < head; i++)
        tier1 = tier1 << 8 | input[i];
    struct outcome outcome = call(input + head, bytes - head, tier1, 0);
    struct outcome again = call(input + head, bytes - head, tier1, 1);
    demand(memcmp(&outcome, &again, sizeof outcome) == 0, "the same call has the same answer");
    if (outcome.number == 0)
        judge_report(&outcome);
    else
        judge_refusal(&outcome, bytes - head);
    widen(outcome.report);
    show_number(outcome.number);
    int told_in_the_book = (outcome.number >= 1 && outcome.number <= 14) || outcome.number >= 19;
    show_kinds(input + head, told_in_the_book ? outcome.place : bytes - head);
    *(outcome.number == 0 ? &reported : &refused) += 1;
}

static void take_file(const char *name, FILE *file)
{
    static uint8_t input[MOST_BYTES];
    size_t bytes = file ? fread(input, 1, sizeof input, file) : 0;
    if (!file || ferror(file)) {
        perror(name);
        exit(2);
    }
    take(input, bytes);
}

#ifdef __AFL_COMPILER
__AFL_FUZZ_INIT();

static void take_from_afl(void)
{
    const uint8_t *input = __AFL_FUZZ_TESTCASE_BUF;
    while (__AFL_LOOP(100000))
        take(input, (size_t)__AFL_FUZZ_TESTCASE_LEN);
}
#else
static void take_from_afl(void)
{
    take_file("standard input", stdin);
}
#endif

int main(int count, char **names)
{
    book_room = room_of(MOST_BYTES);
    report_room = room_of(8 * REPORT_CELLS);
    ledger_room = room_of(8 * LEDGER_CELLS);
    place_room = room_of(8);
    for (int i = 1; i < count; i++) {
        FILE *file = fopen(names[i], "rb");
        take_file(names[i], file);
        fclose(file);
    }
    if (count == 1)
        take_from_afl();
    printf("guard: %lu inputs at the edges of their pages: %lu reported, %lu turned down, no rule broken\n",
           reported + refused, reported, refused);
    return 0;
}
