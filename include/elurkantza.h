/* Elurkantza: plans a dyehouse's week so that it survives lost slots, and keeps the sheet that the desks share.
 *
 * Link with libelurkantza.a (make lib). Every call is proved, for all inputs, to give exactly what crates/elurkantza defines and these
 * comments tell: it ends, reads and writes nothing but what it is lent, keeps no state and allocates nothing.
 *
 * What a caller owes: every pointer points to as many elements as its length says, and is not NULL, also where the length is 0; what a
 * call writes overlaps nothing else that it is lent.
 *
 * A week is n lots, numbered from 0, and slots 0 to 15; bit s of a 16-bit word stands for slot s. Every call but row and read takes it as:
 *   n            lots, 1 to 24
 *   a, b         up to a (0 to 2) lots lose their slots at once; to repair that, up to b (0 to 3) others may move
 *   alternative  1: a lost lot's new slot is later than its old one by more than `gap` (0 to 15); 0: any other slot, and gap is 0
 *   helper       1: no lot may move to an earlier slot; 0: any may
 *   domain       n words: the slots that a lot may have, at least one
 *   loss         n words: the slots of its domain in which a lot may be lost
 *   give         n words: the slots of its domain out of which a lot may be moved for another's sake
 *   ties         n * n * 16 words: bit w of word (p * n + q) * 16 + v is 1 if lot p in slot v and lot q in slot w may stand together;
 *                0 outside the two domains and for a lot with itself, and the same for (p, v, q, w) as for (q, w, p, v)
 *
 * An order is n bytes, the slot of each lot. A repair table has n bytes a row: no rows for a = 0, n for a = 1, n + n * (n - 1) / 2 for
 * a = 2. Row numbers count from 0: each single lot, then the pairs (0,1), (0,2) and so on. A row is the order to run when those lots
 * have lost their slots.
 *
 * Every call answers 0 if it is done, or the first of these numbers whose reason holds; read asks for 2, 15 (the length), 16 and 17 block
 * by block, 1, 15 (the need), 18, 3 and 4, in that order. Refused, a call leaves every byte that it is lent as it was, and what it gives
 * by value beside its answer is 0 throughout, but for the row number with 7.
 *    1  a number is outside its limits; lost lots are not ascending, not below n, or too many (repair: none)
 *    2  a length is wrong
 *    3  a domain is empty, or a loss or give word has a slot outside it
 *    4  the tie table breaks its rules
 *    5  solve: no order survives every loss
 *    6  check, repair, open: the order breaks the rules
 *    7  check: a row is wrong; the number of the first one comes with it
 *    8  repair: there is none
 *    9  copy, save: the sheet is none of this week
 *   10  save: the copy number is above the sheet's save number
 *   11  save: the moves are no whole pairs, none, more than n, of a lot not below n or named twice, or to a slot outside its domain
 *   12  save: stale; a lot it moves, or one tied to that, was moved after the copy was taken: copy again
 *   13  save: a move to the slot where the lot stands already, or a result that breaks the rules
 *   14  save: the sheet has had 65,535 saves
 *   15  read: the file has not 1 to 18 blocks of 512 bytes, or not as many as its week needs
 *   16  read: a block's check is wrong
 *   17  read: a block's number is wrong
 *   18  read: the filling behind the content is not zero
 */
#ifndef ELURKANTZA_H
#define ELURKANTZA_H

#include <stddef.h>
#include <stdint.h>

#ifdef __cplusplus
extern "C" {
#endif

/* The sheet that the desks share. Lay it where all of them reach it, put there what open gives, and change it by save alone; one call at
 * a time. */
struct elurkantza_sheet {
    uint32_t n;
    uint8_t order[24];  /* the slot of each lot; places beyond lot n - 1 mean nothing */
    uint32_t saves;     /* how many saves were accepted */
    uint32_t marks[24]; /* for each lot the save that last moved it, 0 if none */
};

/* What calls give by value: the answer, and behind it what they found, 0 where they are refused. */
struct elurkantza_checked {
    uint32_t answer;
    uint32_t row; /* with 7 the first wrong row, 0 otherwise */
};

struct elurkantza_opened {
    uint32_t answer;
    struct elurkantza_sheet sheet;
};

struct elurkantza_copied {
    uint32_t answer;
    uint32_t copy;     /* the copy number, which a later save hands back */
    uint8_t order[24]; /* 0 beyond lot n - 1 */
};

struct elurkantza_reading {
    uint32_t answer;
    uint32_t n, a, b, alternative, gap, helper;
};

/* A week, in front of a call's own arguments; also for functions of your own that hand one on. */
#define ELURKANTZA_WEEK                                                                             \
    uint32_t n, uint32_t a, uint32_t b, uint32_t alternative, uint32_t gap, uint32_t helper,        \
    const uint16_t *domain, size_t domain_len, const uint16_t *loss, size_t loss_len,               \
    const uint16_t *give, size_t give_len, const uint16_t *ties, size_t ties_len

/* Finds the first order that survives every loss of up to a lots, into `order` (n bytes), and for each loss the first order that repairs
 * it, into `table`; the row of lots that cannot all be lost where they stand is the order itself. First: the smaller slot at the lowest
 * lot that differs. */
uint32_t elurkantza_solve(ELURKANTZA_WEEK, uint8_t *order, size_t order_len, uint8_t *table, size_t table_len);

/* Judges an order and a table made anywhere. Done, the order survives every loss, the row of each loss is a repair of it, though it need
 * not be the first one, and the row of lots that cannot all be lost where they stand equals the order. */
struct elurkantza_checked elurkantza_check(ELURKANTZA_WEEK, const uint8_t *order, size_t order_len, const uint8_t *table,
                                           size_t table_len);

/* Finds the first repair of an order when one or two lots, ascending in `lost`, have lost their slots in fact, whatever a and the loss
 * words say. It goes into `out` (n bytes). */
uint32_t elurkantza_repair(ELURKANTZA_WEEK, const uint8_t *order, size_t order_len, const uint8_t *lost, size_t lost_len,
                           uint8_t *out, size_t out_len);

/* Copies the order to run into `out` (n bytes): the order if `lost` is empty, otherwise the table's row for the lots in it, at most a. */
uint32_t elurkantza_row(uint32_t n, uint32_t a, const uint8_t *order, size_t order_len, const uint8_t *table, size_t table_len,
                        const uint8_t *lost, size_t lost_len, uint8_t *out, size_t out_len);

/* Begins a sheet on an order: no saves, no marks. */
struct elurkantza_opened elurkantza_open(ELURKANTZA_WEEK, const uint8_t *order, size_t order_len);

/* Takes a desk's copy: the order and its copy number. */
struct elurkantza_copied elurkantza_copy(ELURKANTZA_WEEK, struct elurkantza_sheet sheet);

/* Saves a desk's moves, byte pairs (lot, slot), made on the copy with number `copy`: all of them, or none if refused. */
uint32_t elurkantza_save(ELURKANTZA_WEEK, struct elurkantza_sheet *sheet, uint32_t copy, const uint8_t *moves, size_t moves_len);

/* Reads a block file: its six numbers, and its words into buffers of 24, 24, 24 and 9,216, those that are not used 0. The other calls take
 * the first n, n, n and n * n * 16 of them. */
struct elurkantza_reading elurkantza_read(const uint8_t *file, size_t file_len, uint16_t *domain, size_t domain_len,
                                          uint16_t *loss, size_t loss_len, uint16_t *give, size_t give_len,
                                          uint16_t *ties, size_t ties_len);

/* Writes the week's block file into `file`: blocks of 512 bytes with 504 of content each, for 6 + 6 * n + 16 * n * (n - 1) bytes. */
uint32_t elurkantza_write(ELURKANTZA_WEEK, uint8_t *file, size_t file_len);

#ifdef __cplusplus
}
#endif

#endif
