/* Random weeks for the comparisons, whole and damaged, and what the comparisons ask of a week by themselves. */
#ifndef WEEKS_H
#define WEEKS_H

#include "paper.h"

#include <stdbool.h>
#include <stddef.h>
#include <stdint.h>

enum {
    MOST_FILE = MOST_BLOCKS * BLOCK,
    FILE_ROOM = MOST_FILE + 2 * BLOCK,
    ROOM = 32,                              /* lots that a damaged week's tables have room for */
    ROOM_TIES = ROOM * ROOM * SLOTS,
};

/* Chance: splitmix64. The same seed and index give the same run on every machine. */
struct chance {
    uint64_t state;
};

struct chance chance_of(uint64_t seed, uint64_t index);
uint64_t chance_next(struct chance *chance);
uint32_t below(struct chance *chance, uint32_t bound); /* 0 to bound - 1 */
bool one_in(struct chance *chance, uint32_t bound);
void fill(struct chance *chance, void *bytes, size_t size);

/* Six numbers and four tables, with lengths of their own since these may be damaged too. */
struct week {
    uint32_t n, a, b, alternative, gap, helper;
    size_t domain_len, loss_len, give_len, ties_len;
    uint16_t domain[ROOM], loss[ROOM], give[ROOM], ties[ROOM_TIES];
};

/* A copy of a week, without what lies beyond its tables. */
void week_copy(struct week *to, const struct week *from);

/* A week without ties where every slot of every domain may be lost and given up; rules 0. */
void week_plain(struct week *week, uint32_t n, uint32_t a, uint32_t b, uint16_t domain);

/* Lets every two lots stand together in all slots of their domains. */
void week_untie(struct week *week);

/* Forbids, both ways, that lot p in slot v and lot q in slot w stand together. */
void week_forbid(struct week *week, uint32_t p, uint8_t v, uint32_t q, uint8_t w);

/* A right week of 1 to 6 lots with few orders in all, for services that count through them. */
void week_small(struct chance *chance, struct week *week);

/* A right week of n lots that `order` keeps. */
void week_around(struct chance *chance, struct week *week, uint32_t n, uint8_t *order);

/* Makes one thing wrong for which 1, 2, 3 or 4 is given. Where a week is to have several, the largest number goes first,
 * since damage to words and ties still needs the right n and domains. */
void week_damage(struct chance *chance, struct week *week, uint32_t number);

size_t rows_of(size_t n, uint32_t a);
size_t content_of(size_t n);   /* content bytes of a file of n lots */
size_t file_size_of(size_t n);

/* Makes the check of a block right again. */
void block_stamp(uint8_t *block);

/* The place in a file of a byte of its content. */
size_t file_place(size_t content_byte);

/* Makes one thing wrong in a file of n lots whose length is in `len`; the buffer has room for one block more than a file
 * may have. Nearly always the checks of the blocks are made right again, so that later refusals are reached. */
void file_damage(struct chance *chance, uint8_t *file, size_t *len, size_t n);

bool bit_of(uint16_t word, uint8_t slot);
bool week_together(const struct week *week, uint32_t p, uint8_t v, uint32_t q, uint8_t w);
bool week_keeps(const struct week *week, const uint8_t *order);
bool week_tied(const struct week *week, uint32_t p, uint32_t q);

/* Some slot of a word that is not 0. */
uint8_t some_slot(struct chance *chance, uint16_t word);

/* An order within the domains: one that keeps the rules, if a few tries find it. */
bool some_order(struct chance *chance, const struct week *week, uint8_t *order);

#endif
