/* The search of the library once more as a plain C program, unproved: what the proved one is timed beside. It takes weeks that the
 * library accepts; the services below give document 01's answers for such weeks and judge no lengths. */
#ifndef PLAIN_H
#define PLAIN_H

#include <stdbool.h>
#include <stddef.h>
#include <stdint.h>

#include "elurkantza.h"

struct plain_week {
    uint32_t n, a, b, alternative, gap, helper;
    uint16_t domain[24], loss[24], give[24], ties[9216];
};

/* 0, or 3 or 4 where the words or the tie table break their rules. */
uint32_t plain_tables(const struct plain_week *week);

/* The first super solution and its repair table, or 5. `tried` counts the slots that were tried for a lot. */
uint32_t plain_solve(const struct plain_week *week, uint8_t *order, uint8_t *table, uint64_t *tried);

/* The tables judged, then the first repair of an order for one or two lost lots into `out`, or 4, 6 or 8. */
uint32_t plain_repair(const struct plain_week *week, const uint8_t *order, const uint8_t *lost, size_t lost_len, uint8_t *out);

/* One save with everything judged again as the library has to: the tables, the sheet and the moves. */
uint32_t plain_save(const struct plain_week *week, struct elurkantza_sheet *sheet, uint32_t copy, const uint8_t *moves, size_t moves_len);

#endif
