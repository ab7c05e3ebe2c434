/* A face that does not tell the truth, to see that the comparison notices: linked with -Wl,--wrap= for both functions,
 * it stands before the real one and then does what `outside/faults` names: LIE after an assessment, WIDENING_LIE after
 * a stored report was widened; there `before` has the first 202 cells of the report's room as they were. */
#include "vorlegan.h"
#include <string.h>

#ifndef LIE
#define LIE (void)0
#endif
#ifndef WIDENING_LIE
#define WIDENING_LIE (void)0
#endif

enum { REPORT_CELLS = 202 };

uint32_t __real_vorlegan_assess(const uint8_t *book, size_t book_bytes, uint64_t tier1, int64_t *report,
                                size_t report_cells, int64_t *ledger, size_t ledger_cells, uint64_t *place,
                                size_t place_cells);
uint32_t __real_vorlegan_widen(const int64_t *stored, size_t stored_cells, int64_t *report, size_t report_cells,
                               uint64_t *place, size_t place_cells);

uint32_t __wrap_vorlegan_assess(const uint8_t *book, size_t book_bytes, uint64_t tier1, int64_t *report,
                                size_t report_cells, int64_t *ledger, size_t ledger_cells, uint64_t *place,
                                size_t place_cells)
{
    uint32_t number = __real_vorlegan_assess(book, book_bytes, tier1, report, report_cells, ledger, ledger_cells, place,
                                             place_cells);
    LIE;
    return number;
}

uint32_t __wrap_vorlegan_widen(const int64_t *stored, size_t stored_cells, int64_t *report, size_t report_cells,
                               uint64_t *place, size_t place_cells)
{
    int64_t before[REPORT_CELLS] = {0};
    if (report_cells >= REPORT_CELLS)
        memcpy(before, report, sizeof before);
    uint32_t number = __real_vorlegan_widen(stored, stored_cells, report, report_cells, place, place_cells);
    WIDENING_LIE;
    return number;
}
