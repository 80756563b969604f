/* Random weeks; see weeks.h. */
#include "weeks.h"

#include "second.h"

#include <string.h>

/* ---- Chance ---- */

uint64_t chance_next(struct chance *chance)
{
    uint64_t z = chance->state += 0x9e3779b97f4a7c15u;
    z = (z ^ z >> 30) * 0xbf58476d1ce4e5b9u;
    z = (z ^ z >> 27) * 0x94d049bb133111ebu;
    return z ^ z >> 31;
}

/* Every index has a stream of its own, so that one week can be run again without those before it. */
struct chance chance_of(uint64_t seed, uint64_t index)
{
    struct chance chance = {seed};
    chance.state = chance_next(&chance) ^ index * 0xd1342543de82ef95u;
    chance_next(&chance);
    return chance;
}

uint32_t below(struct chance *chance, uint32_t bound)
{
    return (uint32_t)((chance_next(chance) >> 32) * bound >> 32);
}

bool one_in(struct chance *chance, uint32_t bound)
{
    return below(chance, bound) == 0;
}

void fill(struct chance *chance, void *bytes, size_t size)
{
    uint8_t *at = bytes;
    for (size_t i = 0; i < size; i++)
        at[i] = (uint8_t)chance_next(chance);
}

/* ---- What the comparisons ask of a week ---- */

size_t rows_of(size_t n, uint32_t a)
{
    size_t pairs = n * (n - 1) / 2;
    return (a >= 1 ? n : 0) + (a >= 2 ? pairs : 0);
}

size_t content_of(size_t n)
{
    return 6 + 3 * 2 * n + n * (n - 1) / 2 * SLOTS * 2;
}

size_t file_size_of(size_t n)
{
    return (content_of(n) + CONTENT - 1) / CONTENT * BLOCK;
}

void block_stamp(uint8_t *block)
{
    uint32_t hash = second_hash(block, CHECKED);
    for (int i = 0; i < 4; i++)
        block[CHECKED + i] = (uint8_t)(hash >> 8 * i);
}

bool bit_of(uint16_t word, uint8_t slot)
{
    return slot < SLOTS && (word & 1 << slot) != 0;
}

static uint16_t *tie_word(struct week *week, uint32_t p, uint32_t q, uint8_t v)
{
    return &week->ties[(p * week->n + q) * SLOTS + v];
}

bool week_together(const struct week *week, uint32_t p, uint8_t v, uint32_t q, uint8_t w)
{
    return bit_of(week->ties[(p * week->n + q) * SLOTS + v], w);
}

bool week_keeps(const struct week *week, const uint8_t *order)
{
    for (uint32_t p = 0; p < week->n; p++) {
        if (!bit_of(week->domain[p], order[p]))
            return false;
        for (uint32_t q = 0; q < p; q++)
            if (!week_together(week, p, order[p], q, order[q]))
                return false;
    }
    return true;
}

bool week_tied(const struct week *week, uint32_t p, uint32_t q)
{
    for (uint8_t v = 0; v < SLOTS; v++)
        if (p != q && bit_of(week->domain[p], v) && week->ties[(p * week->n + q) * SLOTS + v] != week->domain[q])
            return true;
    return false;
}

/* ---- Right weeks ---- */

static void set_lengths(struct week *week)
{
    week->domain_len = week->loss_len = week->give_len = week->n;
    week->ties_len = (size_t)week->n * week->n * SLOTS;
}

void week_copy(struct week *to, const struct week *from)
{
    memcpy(to, from, offsetof(struct week, ties));
    memcpy(to->ties, from->ties, from->ties_len * sizeof *to->ties);
}

void week_untie(struct week *week)
{
    for (uint32_t p = 0; p < week->n; p++)
        for (uint32_t q = 0; q < week->n; q++)
            for (uint8_t v = 0; v < SLOTS; v++)
                *tie_word(week, p, q, v) = p != q && bit_of(week->domain[p], v) ? week->domain[q] : 0;
}

void week_plain(struct week *week, uint32_t n, uint32_t a, uint32_t b, uint16_t domain)
{
    *week = (struct week){.n = n, .a = a, .b = b};
    for (uint32_t p = 0; p < n; p++)
        week->domain[p] = week->loss[p] = week->give[p] = domain;
    set_lengths(week);
    week_untie(week);
}

void week_forbid(struct week *week, uint32_t p, uint8_t v, uint32_t q, uint8_t w)
{
    *tie_word(week, p, q, v) &= (uint16_t) ~(1 << w);
    *tie_word(week, q, p, w) &= (uint16_t) ~(1 << v);
}

uint8_t some_slot(struct chance *chance, uint16_t word)
{
    uint8_t slot;
    do
        slot = (uint8_t)below(chance, SLOTS);
    while (!bit_of(word, slot));
    return slot;
}

bool some_order(struct chance *chance, const struct week *week, uint8_t *order)
{
    for (int tries = 0; tries < 16; tries++) {
        for (uint32_t p = 0; p < week->n; p++)
            order[p] = some_slot(chance, week->domain[p]);
        if (week_keeps(week, order))
            return true;
    }
    return false;
}

/* The ways in which two lots may be tied. SINGLE forbids one pair of slots only, so that a slot overlooked is seen. */
enum tie { SINGLE, APART, NOT_AFTER, BEFORE, NOT_STRAIGHT_BEHIND, SOME_EIGHTH, SOME_QUARTER, SOME_HALF, TIES };

static bool forbidden(struct chance *chance, enum tie tie, uint8_t v, uint8_t w)
{
    switch (tie) {
    case APART: return v == w;
    case NOT_AFTER: return v > w;
    case BEFORE: return v >= w;
    case NOT_STRAIGHT_BEHIND: return w == v + 1;
    case SOME_EIGHTH: return one_in(chance, 8);
    case SOME_QUARTER: return one_in(chance, 4);
    default: return one_in(chance, 2);
    }
}

/* Ties `share` of 4 pairs, each in a way of its own. */
static void tie_some(struct chance *chance, struct week *week, uint32_t share)
{
    for (uint32_t p = 0; p < week->n; p++)
        for (uint32_t q = p + 1; q < week->n; q++) {
            if (below(chance, 4) >= share)
                continue;
            enum tie tie = below(chance, TIES);
            if (tie == SINGLE)
                week_forbid(week, p, some_slot(chance, week->domain[p]), q, some_slot(chance, week->domain[q]));
            for (uint8_t v = 0; tie != SINGLE && v < SLOTS; v++)
                for (uint8_t w = 0; w < SLOTS; w++)
                    if (forbidden(chance, tie, v, w))
                        week_forbid(week, p, v, q, w);
        }
}

/* The numbers but n. Gaps are small for the most part, since a large one leaves few repairs. */
static void some_numbers(struct chance *chance, struct week *week)
{
    static const uint8_t a_of[8] = {0, 1, 1, 1, 1, 2, 2, 2};
    week->a = a_of[below(chance, 8)];
    week->b = below(chance, 4);
    week->alternative = below(chance, 2);
    week->gap = week->alternative == 0 ? 0 : one_in(chance, 6) ? below(chance, 16) : below(chance, 2);
    week->helper = below(chance, 2);
}

/* A part of a domain: all of it, some of it or nothing. */
static uint16_t part_of(struct chance *chance, uint16_t domain)
{
    switch (below(chance, 8)) {
    case 0: return 0;
    case 1:
    case 2: return (uint16_t)(domain & chance_next(chance));
    default: return domain;
    }
}

/* So many slots, near one another or anywhere. */
static uint16_t some_domain(struct chance *chance, uint32_t size)
{
    uint16_t domain = 0;
    if (size == SLOTS)
        return 0xffff;
    uint32_t span = one_in(chance, 3) ? SLOTS : size + below(chance, 3);
    uint32_t from = below(chance, SLOTS - span + 1);
    while ((uint32_t)__builtin_popcount(domain) < size)
        domain |= (uint16_t)(1 << (from + below(chance, span)));
    return domain;
}

/* Domains of 2 to 4 slots, some of 1 and some of all 16, with at most `most` orders in all. */
static void small_domains(struct chance *chance, struct week *week, uint32_t most)
{
    uint32_t orders = 1;
    for (uint32_t p = 0; p < week->n; p++) {
        uint32_t size = one_in(chance, 24) ? 1 : one_in(chance, 12) ? SLOTS : 2 + below(chance, 3);
        while (size > 1 && orders * size > most)
            size = size > 4 ? 4 : size - 1;
        orders *= size;
        week->domain[p] = some_domain(chance, size);
    }
}

void week_small(struct chance *chance, struct week *week)
{
    *week = (struct week){.n = 1 + below(chance, 6)};
    some_numbers(chance, week);
    set_lengths(week);
    small_domains(chance, week, one_in(chance, 16) ? 768 : 256);
    week_untie(week);
    tie_some(chance, week, below(chance, 5));
    for (uint32_t p = 0; p < week->n; p++) {
        week->loss[p] = part_of(chance, week->domain[p]);
        week->give[p] = part_of(chance, week->domain[p]);
    }
}

/* Lets the order stand although the ties drawn would forbid it. */
static void let_stand(struct week *week, const uint8_t *order)
{
    for (uint32_t p = 0; p < week->n; p++)
        for (uint32_t q = 0; q < week->n; q++)
            if (p != q)
                *tie_word(week, p, q, order[p]) |= (uint16_t)(1 << order[q]);
}

void week_around(struct chance *chance, struct week *week, uint32_t n, uint8_t *order)
{
    *week = (struct week){.n = n};
    some_numbers(chance, week);
    set_lengths(week);
    for (uint32_t p = 0; p < n; p++) {
        week->domain[p] = some_domain(chance, one_in(chance, 8) ? SLOTS : 2 + below(chance, 6));
        week->loss[p] = part_of(chance, week->domain[p]);
        week->give[p] = part_of(chance, week->domain[p]);
        order[p] = some_slot(chance, week->domain[p]);
    }
    week_untie(week);
    tie_some(chance, week, below(chance, 4));
    let_stand(week, order);
}

/* ---- Damage ---- */

/* A number just outside its limits, or one that would be right again if it were cut to a byte or to two. */
static uint32_t outside(struct chance *chance, uint32_t right, uint32_t most)
{
    switch (below(chance, 4)) {
    case 0: return right + 256;
    case 1: return right + 65536 * (1 + below(chance, 65535));
    case 2: return most + 1 + below(chance, 4);
    default: return most + 1;
    }
}

static void damage_number(struct chance *chance, struct week *week)
{
    switch (below(chance, 8)) {
    case 0: week->n = 0; break;
    case 1: week->n = outside(chance, week->n, 24); break;
    case 2: week->a = outside(chance, week->a, 2); break;
    case 3: week->b = outside(chance, week->b, 3); break;
    case 4: week->alternative = outside(chance, week->alternative, 1); break;
    case 5: week->gap = outside(chance, week->gap, 15); break;
    case 6: week->helper = outside(chance, week->helper, 1); break;
    default:
        week->alternative = 0;
        week->gap = 1 + below(chance, 15);
    }
    /* Half of the weeks with too many lots have tables of the lengths that would go with them. */
    if (week->n > MOST_LOTS && week->n <= ROOM && one_in(chance, 2))
        set_lengths(week);
}

static void damage_length(struct chance *chance, struct week *week)
{
    size_t *lengths[4] = {&week->domain_len, &week->loss_len, &week->give_len, &week->ties_len};
    size_t *length = lengths[below(chance, 4)];
    switch (below(chance, 4)) {
    case 0: *length -= 1; break;
    case 1: *length = 0; break;
    case 2: *length += length == lengths[3] ? SLOTS : 2; break;
    default: *length += 1;
    }
}

static void damage_word(struct chance *chance, struct week *week)
{
    uint32_t p = below(chance, week->n);
    uint16_t outside_domain = (uint16_t)~week->domain[p];
    uint16_t *word = one_in(chance, 2) ? &week->loss[p] : &week->give[p];
    if (one_in(chance, 3) || outside_domain == 0) {
        week->domain[p] = 0;
        if (one_in(chance, 2))
            week->loss[p] = week->give[p] = 0;
    } else {
        *word |= (uint16_t)(1 << some_slot(chance, outside_domain));
    }
}

/* Turns one bit over: of a lot with itself, outside a domain, or one way only. */
static void damage_tie(struct chance *chance, struct week *week)
{
    uint32_t p = below(chance, week->n), q = below(chance, week->n);
    uint8_t v = one_in(chance, 2) ? some_slot(chance, 0xffff) : some_slot(chance, week->domain[p]);
    uint8_t w = one_in(chance, 2) ? some_slot(chance, 0xffff) : some_slot(chance, week->domain[q]);
    *tie_word(week, p, q, v) ^= (uint16_t)(1 << w);
    if (one_in(chance, 4) && p != q && !(bit_of(week->domain[p], v) && bit_of(week->domain[q], w)))
        *tie_word(week, q, p, w) ^= (uint16_t)(1 << v);
}

void week_damage(struct chance *chance, struct week *week, uint32_t number)
{
    switch (number) {
    case 1: damage_number(chance, week); break;
    case 2: damage_length(chance, week); break;
    case 3: damage_word(chance, week); break;
    default: damage_tie(chance, week);
    }
}

size_t file_place(size_t content_byte)
{
    return content_byte / CONTENT * BLOCK + 4 + content_byte % CONTENT;
}

static void stamp_around(uint8_t *file, size_t place)
{
    block_stamp(file + place / BLOCK * BLOCK);
}

/* Changes a byte of the content from `from` to `to` - 1 and makes its block's check right again. */
static void damage_content(struct chance *chance, uint8_t *file, size_t from, size_t to)
{
    size_t place = file_place(from + below(chance, (uint32_t)(to - from)));
    file[place] ^= (uint8_t)(one_in(chance, 2) ? 1u << below(chance, 8) : 1 + below(chance, 255));
    stamp_around(file, place);
}

static void damage_file_length(struct chance *chance, size_t *len)
{
    switch (below(chance, 6)) {
    case 0: *len -= 1; break;
    case 1: *len += 1; break;
    case 2: *len = 0; break;
    case 3: *len = MOST_FILE + BLOCK; break;
    case 4: *len = below(chance, MOST_FILE + BLOCK); break;
    default: *len += BLOCK;
    }
}

static void add_block(uint8_t *file, size_t *len)
{
    if (*len > MOST_FILE)
        return;
    memset(file + *len, 0, BLOCK);
    file[*len] = (uint8_t)(*len / BLOCK);
    block_stamp(file + *len);
    *len += BLOCK;
}

static void damage_block_number(struct chance *chance, uint8_t *file, size_t blocks)
{
    uint8_t *block = file + below(chance, (uint32_t)blocks) * BLOCK;
    block[below(chance, 4)] ^= (uint8_t)(1 + below(chance, 255));
    block_stamp(block);
}

static void swap_blocks(struct chance *chance, uint8_t *file, size_t blocks)
{
    uint8_t kept[BLOCK], *one = file + below(chance, (uint32_t)blocks) * BLOCK;
    uint8_t *other = file + below(chance, (uint32_t)blocks) * BLOCK;
    memcpy(kept, one, BLOCK);
    memmove(one, other, BLOCK);
    memcpy(other, kept, BLOCK);
}

static void empty_a_domain(struct chance *chance, uint8_t *file, size_t n)
{
    size_t p = below(chance, (uint32_t)n);
    for (size_t i = 0; i < 2; i++) {
        file[file_place(6 + 2 * p + i)] = 0;
        stamp_around(file, file_place(6 + 2 * p + i));
    }
}

void file_damage(struct chance *chance, uint8_t *file, size_t *len, size_t n)
{
    size_t words = 6, ties = 6 + 6 * n, filling = content_of(n), blocks = *len / BLOCK;
    size_t end = file_size_of(n) / BLOCK * CONTENT;
    if (blocks < file_size_of(n) / BLOCK)
        return; /* cut short by an earlier damage: there may be nothing left to change */
    switch (below(chance, 10)) {
    case 0: file[below(chance, (uint32_t)*len)] ^= (uint8_t)(1 + below(chance, 255)); break;
    case 1: damage_file_length(chance, len); break;
    case 2: add_block(file, len); break;
    case 3: *len -= BLOCK; break;
    case 4: damage_block_number(chance, file, blocks); break;
    case 5: swap_blocks(chance, file, blocks); break;
    case 6: damage_content(chance, file, 0, words); break;
    case 7: damage_content(chance, file, words, ties); break;
    case 8:
        if (n == 1)
            empty_a_domain(chance, file, n);
        else
            damage_content(chance, file, ties, filling);
        break;
    default:
        if (filling == end)
            empty_a_domain(chance, file, n);
        else
            damage_content(chance, file, filling, end);
    }
}
