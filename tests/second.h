/* The second program: document 01's services once more, written from that paper alone and sharing nothing with the library
 * but its header: the shape of the sheet and of what calls give, and how a week is handed over. It counts through all orders, so solve and repair
 * are for weeks of up to 6 lots and not too many slots; the other services take every week.
 *
 * Each function takes what its namesake in elurkantza.h takes and answers as that one must. */
#ifndef SECOND_H
#define SECOND_H

#include "elurkantza.h"

uint32_t second_solve(ELURKANTZA_WEEK, uint8_t *order, size_t order_len, uint8_t *table, size_t table_len);

struct elurkantza_checked second_check(ELURKANTZA_WEEK, const uint8_t *order, size_t order_len, const uint8_t *table,
                                       size_t table_len);

uint32_t second_repair(ELURKANTZA_WEEK, const uint8_t *order, size_t order_len, const uint8_t *lost, size_t lost_len,
                       uint8_t *out, size_t out_len);

uint32_t second_row(uint32_t n, uint32_t a, const uint8_t *order, size_t order_len, const uint8_t *table,
                    size_t table_len, const uint8_t *lost, size_t lost_len, uint8_t *out, size_t out_len);

struct elurkantza_opened second_open(ELURKANTZA_WEEK, const uint8_t *order, size_t order_len);

struct elurkantza_copied second_copy(ELURKANTZA_WEEK, struct elurkantza_sheet sheet);

uint32_t second_save(ELURKANTZA_WEEK, struct elurkantza_sheet *sheet, uint32_t copy, const uint8_t *moves,
                     size_t moves_len);

struct elurkantza_reading second_read(const uint8_t *file, size_t file_len, uint16_t *domain, size_t domain_len,
                                      uint16_t *loss, size_t loss_len, uint16_t *give, size_t give_len, uint16_t *ties,
                                      size_t ties_len);

uint32_t second_write(ELURKANTZA_WEEK, uint8_t *file, size_t file_len);

/* The 32-bit FNV-1a hash, the check of a block. */
uint32_t second_hash(const uint8_t *bytes, size_t len);

#endif
