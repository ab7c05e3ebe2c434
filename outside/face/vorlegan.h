/* The C face of `crates/book`: a slice is lent as its first element and its length. docs/calling.md says what the cells
 * of report and ledger hold.
 */
#ifndef VORLEGAN_H
#define VORLEGAN_H
#include <stddef.h>
#include <stdint.h>

#ifdef __cplusplus
extern "C" {
#endif

/* 0: the report was written; else the refusal's number. The first cell of `place`, if lent, gets its place. */
uint32_t vorlegan_assess(const uint8_t *book, size_t book_bytes, uint64_t tier1, int64_t *report, size_t report_cells,
                         int64_t *ledger, size_t ledger_cells, uint64_t *place, size_t place_cells);

/* A stored report of 58 cells, over 8 currencies, as one of 202. 0: it was written into `report`; 18: `stored` has not
 * 58 cells or `report` has fewer than 202, and nothing was touched. The first cell of `place`, if lent, gets 0. */
uint32_t vorlegan_widen(const int64_t *stored, size_t stored_cells, int64_t *report, size_t report_cells,
                        uint64_t *place, size_t place_cells);

#ifdef __cplusplus
}
#endif

#endif
