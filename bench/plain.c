/* See plain.h. A slot of 16 or more means that a lot is not placed. Sets of lots are the bits of a word. */
#include "plain.h"

#include <string.h>

enum { LOTS = 24, SLOTS = 16, UNPLACED = 16 };

static uint16_t tie(const struct plain_week *w, uint32_t p, uint32_t v, uint32_t q) { return w->ties[(p * w->n + q) * SLOTS + v]; }
static bool bit(uint32_t word, uint32_t place) { return word >> place & 1; }
static uint32_t lowest(uint32_t set) { return (uint32_t)__builtin_ctz(set); }
static uint32_t size_of(uint32_t set) { return (uint32_t)__builtin_popcount(set); }

/* Tables */

uint32_t plain_tables(const struct plain_week *w)
{
    for (uint32_t p = 0; p < w->n; p++)
        if (w->domain[p] == 0 || (w->loss[p] | w->give[p]) & ~w->domain[p]) return 3;
    for (uint32_t p = 0; p < w->n; p++)
        for (uint32_t q = 0; q < w->n; q++)
            for (uint32_t v = 0; v < SLOTS; v++) {
                uint16_t word = tie(w, p, v, q);
                if (word & ~(p != q && bit(w->domain[p], v) ? w->domain[q] : 0)) return 4;
                if (q < p) continue;
                for (uint32_t u = 0; u < SLOTS; u++)
                    if (bit(word, u) != bit(tie(w, q, u, p), v)) return 4;
            }
    return 0;
}

static bool keeps(const struct plain_week *w, const uint8_t *order)
{
    for (uint32_t p = 0; p < w->n; p++) {
        if (order[p] >= SLOTS || !bit(w->domain[p], order[p])) return false;
        for (uint32_t q = 0; q < p; q++)
            if (!bit(tie(w, p, order[p], q), order[q])) return false;
    }
    return true;
}

/* The slots to which a lot may go from slot s. */

static uint16_t above(uint32_t s) { return (uint16_t)(s >= SLOTS ? 0 : 0xffffu << s); }
static uint16_t lost_slots(const struct plain_week *w, uint32_t s)
{
    if (w->alternative) return above(s + w->gap + 1);
    return w->helper ? above(s + 1) : (uint16_t)~(1u << s);
}
static uint16_t move_slots(const struct plain_week *w, uint32_t s) { return w->helper ? above(s + 1) : (uint16_t)~(1u << s); }

/* First repairs: lot by lot, and back when more lots must move than may. */

struct mending {
    const struct plain_week *week;
    const uint8_t *order;
    uint32_t lost;
    uint8_t *out;
};

/* Lots before p are decided, `moved` of them outside the lost set; bit q of `must`: q is later and clashes with one where it stands. */
static bool first_from(const struct mending *m, uint32_t p, uint32_t moved, uint32_t must)
{
    const struct plain_week *w = m->week;
    if (p == w->n) return true;
    uint32_t s = m->order[p];
    bool lost = bit(m->lost, p);
    uint32_t slots = w->domain[p] & (lost ? lost_slots(w, s) : bit(w->give[p], s) && moved < w->b ? move_slots(w, s) | 1u << s : 1u << s);
    for (uint32_t q = 0; q < p; q++) slots &= tie(w, q, m->out[q], p);
    for (; slots; slots &= slots - 1) {
        uint32_t v = lowest(slots), now = moved + (!lost && v != s), ahead = must & ~(1u << p);
        if (v != s)
            for (uint32_t q = p + 1; q < w->n; q++)
                if (!bit(m->lost, q) && !bit(tie(w, p, v, q), m->order[q])) ahead |= 1u << q;
        if (now + size_of(ahead) > w->b) continue;
        m->out[p] = (uint8_t)v;
        if (first_from(m, p + 1, now, ahead)) return true;
    }
    return false;
}

static bool first_repair(const struct plain_week *w, const uint8_t *order, uint32_t lost, uint8_t *out)
{
    struct mending m = {w, order, lost, out};
    return first_from(&m, 0, 0, 0);
}

uint32_t plain_repair(const struct plain_week *w, const uint8_t *order, const uint8_t *lost, size_t lost_len, uint8_t *out)
{
    uint32_t refused = plain_tables(w), set = 0;
    if (refused) return refused;
    if (!keeps(w, order)) return 6;
    for (size_t i = 0; i < lost_len; i++) set |= 1u << lost[i];
    return first_repair(w, order, set, out) ? 0 : 8;
}

static void put_row(const struct plain_week *w, const uint8_t *order, uint32_t lost, uint8_t *row)
{
    bool breaks = true;
    for (uint32_t set = lost; set; set &= set - 1) breaks = breaks && bit(w->loss[lowest(set)], order[lowest(set)]);
    if (!breaks || !first_repair(w, order, lost, row)) memcpy(row, order, w->n);
}

/* The search for the first super solution */

struct search {
    const struct plain_week *week;
    uint8_t group[LOTS]; /* lots of one group may never stand in one slot */
    uint32_t weight[LOTS];
    uint64_t tried;
    uint32_t why; /* of the last failure: placed lots that rule the order out by themselves */
};

struct part {
    uint8_t slot[LOTS];
    uint16_t word[LOTS]; /* the slots left to each lot beside the placed ones */
    uint32_t placed;
};

static void heavier(struct search *f, uint32_t lots)
{
    for (; lots; lots &= lots - 1) f->weight[lowest(lots)]++;
}

/* Placed lots beside which no slot is left to lot q of `word` but those of `target`. */
static uint32_t blamed(const struct search *f, const struct part *s, uint32_t q, uint16_t word, uint16_t target)
{
    uint32_t why = 0;
    for (uint32_t p = 0; p < f->week->n && word & ~target; p++) {
        if (p == q || !bit(s->placed, p)) continue;
        uint16_t fits = tie(f->week, p, s->slot[p], q);
        if (word & ~fits & ~target) word &= fits, why |= 1u << p;
    }
    return why;
}

/* Room. The unplaced lots of a group beside moves that are decided: how many, and the slots left to them together. */

struct moves {
    uint32_t count;
    uint8_t lot[5], slot[5];
};

static uint16_t left_beside(const struct search *f, const struct moves *m, uint32_t q, uint16_t word)
{
    for (uint32_t i = 0; i < m->count; i++) word &= tie(f->week, m->lot[i], m->slot[i], q);
    return word;
}

static uint32_t group_of(const struct search *f, const struct part *s, const struct moves *m, uint32_t g, uint16_t *slots)
{
    uint32_t lots = 0;
    *slots = 0;
    for (uint32_t q = g; q < f->week->n; q++)
        if (f->group[q] == g && !bit(s->placed, q)) lots++, *slots |= left_beside(f, m, q, s->word[q]);
    return lots;
}

static uint32_t blame_group(const struct search *f, const struct part *s, const struct moves *m, uint32_t g, uint16_t slots)
{
    uint32_t why = 0;
    for (uint32_t q = g; q < f->week->n; q++)
        if (f->group[q] == g && !bit(s->placed, q)) why |= blamed(f, s, q, left_beside(f, m, q, f->week->domain[q]), slots);
    return why;
}

/* Whether each group has room beside the decided moves, if `left` more lots may move; if not, adds why. */
static bool has_room(struct search *f, const struct part *s, const struct moves *m, uint32_t left)
{
    for (uint32_t g = 0; g < f->week->n; g++) {
        if (f->group[g] != g) continue;
        uint16_t slots;
        if (group_of(f, s, m, g, &slots) <= size_of(slots) + left) continue;
        f->why |= blame_group(f, s, m, g, slots);
        return false;
    }
    return true;
}

/* Repairs among the placed lots, by forced moves. */

static uint32_t clashing(const struct search *f, const struct part *s, uint32_t x, uint32_t v)
{
    uint32_t set = 0;
    for (uint32_t lots = s->placed & ~(1u << x); lots; lots &= lots - 1)
        if (!bit(tie(f->week, x, v, lowest(lots)), s->slot[lowest(lots)])) set |= 1u << lowest(lots);
    return set;
}

static bool mends(struct search *f, const struct part *s, bool tight, uint32_t lost, struct moves *m, uint32_t done, uint32_t forced, uint32_t left)
{
    const struct plain_week *w = f->week;
    uint32_t others = forced & ~lost, held = 0;
    for (uint32_t lots = others; lots; lots &= lots - 1)
        if (!bit(w->give[lowest(lots)], s->slot[lowest(lots)])) held |= lots & -lots;
    f->why |= done | held;
    if (held) return false;
    if (size_of(others) > left) {
        f->why |= forced;
        return false;
    }
    if (!forced) return !tight || has_room(f, s, m, left);
    uint32_t x = lowest(forced & lost ? forced & lost : forced), stood = s->slot[x];
    uint16_t slots = left_beside(f, m, x, w->domain[x] & (bit(lost, x) ? lost_slots(w, stood) : move_slots(w, stood)));
    f->why |= 1u << x;
    for (; slots; slots &= slots - 1) {
        uint32_t v = lowest(slots), decided = done | 1u << x;
        m->lot[m->count] = (uint8_t)x, m->slot[m->count] = (uint8_t)v, m->count++;
        bool is = mends(f, s, tight, lost, m, decided, (forced | clashing(f, s, x, v)) & ~decided, left - !bit(lost, x));
        m->count--;
        if (is) return true;
    }
    return false;
}

static bool mendable(struct search *f, const struct part *s, bool tight, uint32_t lost)
{
    struct moves none = {0};
    f->why = lost;
    return mends(f, s, tight, lost, &none, 0, lost, f->week->b);
}

/* A repair in which only the lost lots move. */
static bool direct(const struct search *f, const struct part *s, uint32_t lost)
{
    uint32_t x = lowest(lost), second = lost & (lost - 1);
    uint16_t slots = s->word[x] & lost_slots(f->week, s->slot[x]);
    if (!second) return slots;
    uint32_t y = lowest(second);
    uint16_t others = s->word[y] & lost_slots(f->week, s->slot[y]);
    for (; slots; slots &= slots - 1)
        if (tie(f->week, x, lowest(slots), y) & others) return true;
    return false;
}

static bool is_safe(struct search *f, const struct part *s, uint32_t lost)
{
    if (direct(f, s, lost) || mendable(f, s, false, lost)) return true;
    heavier(f, lost);
    return false;
}

static bool all_safe(struct search *f, const struct part *s, bool tight)
{
    const struct plain_week *w = f->week;
    uint32_t fragile = 0;
    for (uint32_t x = 0; x < w->n; x++)
        if (bit(s->placed, x) && bit(w->loss[x], s->slot[x])) fragile |= 1u << x;
    if (w->a == 0) return true;
    for (uint32_t one = fragile; one; one &= one - 1)
        if (!is_safe(f, s, one & -one)) return false;
    if (w->a == 2)
        for (uint32_t one = fragile; one; one &= one - 1)
            for (uint32_t two = one & (one - 1); two; two &= two - 1)
                if (!is_safe(f, s, (one & -one) | (two & -two))) return false;
    if (tight)
        for (uint32_t one = fragile; one; one &= one - 1)
            if (!mendable(f, s, true, one & -one)) {
                heavier(f, one & -one);
                return false;
            }
    return true;
}

/* Whether a partial order may still be finished, as far as its placed lots tell. */
static bool hopes(struct search *f, const struct part *s)
{
    static const struct moves none;
    bool tight = false;
    for (uint32_t q = 0; q < f->week->n; q++)
        if (!bit(s->placed, q) && !s->word[q]) {
            heavier(f, 1u << q);
            f->why = blamed(f, s, q, f->week->domain[q], 0);
            return false;
        }
    for (uint32_t g = 0; g < f->week->n; g++) {
        uint16_t slots;
        if (f->group[g] != g) continue;
        uint32_t lots = group_of(f, s, &none, g, &slots);
        if (lots < 2 || lots < size_of(slots)) continue;
        tight = true;
        if (lots > size_of(slots)) {
            f->why = blame_group(f, s, &none, g, slots);
            return false;
        }
    }
    return all_safe(f, s, tight);
}

static uint32_t choose(const struct search *f, const struct part *s)
{
    uint32_t best = f->week->n;
    for (uint32_t q = 0; q < f->week->n; q++)
        if (!bit(s->placed, q) && (best == f->week->n || size_of(s->word[q]) * f->weight[best] < size_of(s->word[best]) * f->weight[q])) best = q;
    return best;
}

static void place(const struct search *f, const struct part *s, struct part *to, uint32_t x, uint32_t v)
{
    *to = *s;
    to->slot[x] = (uint8_t)v;
    to->placed |= 1u << x;
    for (uint32_t q = 0; q < f->week->n; q++)
        if (q != x) to->word[q] &= tie(f->week, x, v, q);
}

/* Looks for a super solution that extends s, with a slot below `most` for lot x; if there is none, f->why is the reason. */
static bool finish(struct search *f, const struct part *s, uint32_t x, uint32_t most, uint8_t *found)
{
    uint32_t why = blamed(f, s, x, f->week->domain[x], s->word[x]);
    for (uint32_t v = 0; v < most; v++) {
        if (!bit(s->word[x], v)) continue;
        struct part next;
        f->tried++;
        place(f, s, &next, x, v);
        if (hopes(f, &next)) {
            uint32_t y = choose(f, &next);
            if (y == f->week->n) {
                memcpy(found, next.slot, LOTS);
                return true;
            }
            if (finish(f, &next, y, SLOTS, found)) return true;
        }
        if (!bit(f->why, x)) return false;
        why |= f->why & ~(1u << x);
    }
    f->why = why;
    return false;
}

static void make_groups(struct search *f)
{
    const struct plain_week *w = f->week;
    for (uint32_t q = 0; q < w->n; q++)
        for (uint32_t g = 0; g <= q; g++) {
            if (g < q && f->group[g] != g) continue;
            bool apart = true;
            for (uint32_t p = g; p < q; p++)
                for (uint32_t v = 0; v < SLOTS && f->group[p] == g; v++) apart = apart && !bit(tie(w, p, v, q), v);
            if (apart) {
                f->group[q] = (uint8_t)g;
                break;
            }
        }
}

uint32_t plain_solve(const struct plain_week *w, uint8_t *order, uint8_t *table, uint64_t *tried)
{
    uint32_t refused = plain_tables(w);
    if (refused) return refused;
    struct search f = {.week = w};
    struct part s = {.placed = 0};
    uint8_t found[LOTS];
    make_groups(&f);
    memset(s.slot, UNPLACED, sizeof s.slot);
    memcpy(s.word, w->domain, sizeof s.word);
    for (uint32_t p = 0; p < LOTS; p++) f.weight[p] = 1;
    bool is = finish(&f, &s, choose(&f, &s), SLOTS, found);
    for (uint32_t d = 0; is && d < w->n; d++) {
        struct part next;
        finish(&f, &s, d, found[d], found);
        place(&f, &s, &next, d, found[d]);
        s = next;
    }
    *tried = f.tried;
    if (!is) return 5;
    memcpy(order, found, w->n);
    uint8_t *row = table;
    for (uint32_t x = 0; w->a >= 1 && x < w->n; x++, row += w->n) put_row(w, order, 1u << x, row);
    for (uint32_t x = 0; w->a == 2 && x < w->n; x++)
        for (uint32_t y = x + 1; y < w->n; y++, row += w->n) put_row(w, order, 1u << x | 1u << y, row);
    return 0;
}

/* Save */

static bool tied(const struct plain_week *w, uint32_t p, uint32_t q)
{
    for (uint32_t v = 0; v < SLOTS; v++)
        if (p != q && bit(w->domain[p], v) && tie(w, p, v, q) != w->domain[q]) return true;
    return false;
}

static bool sheet_ok(const struct plain_week *w, const struct elurkantza_sheet *sheet)
{
    if (sheet->n != w->n || sheet->saves > 65535 || !keeps(w, sheet->order)) return false;
    for (uint32_t p = 0; p < w->n; p++)
        if (sheet->marks[p] > sheet->saves) return false;
    return true;
}

uint32_t plain_save(const struct plain_week *w, struct elurkantza_sheet *sheet, uint32_t copy, const uint8_t *moves, size_t len)
{
    uint32_t refused = plain_tables(w), named = 0;
    uint8_t to[LOTS];
    if (refused) return refused;
    if (!sheet_ok(w, sheet)) return 9;
    if (copy > sheet->saves) return 10;
    if (len % 2 || len == 0 || len / 2 > w->n) return 11;
    memcpy(to, sheet->order, LOTS);
    for (size_t i = 0; i < len; i += 2) {
        uint32_t p = moves[i], v = moves[i + 1];
        if (p >= w->n || bit(named, p) || v >= SLOTS || !bit(w->domain[p], v)) return 11;
        named |= 1u << p;
        to[p] = (uint8_t)v;
    }
    for (uint32_t p = 0; p < w->n; p++)
        for (uint32_t q = 0; q < w->n; q++)
            if (bit(named, p) && sheet->marks[q] > copy && (p == q || tied(w, p, q))) return 12;
    for (uint32_t p = 0; p < w->n; p++)
        if (bit(named, p) && to[p] == sheet->order[p]) return 13;
    if (!keeps(w, to)) return 13;
    if (sheet->saves == 65535) return 14;
    sheet->saves++;
    memcpy(sheet->order, to, LOTS);
    for (uint32_t p = 0; p < w->n; p++)
        if (bit(named, p)) sheet->marks[p] = sheet->saves;
    return 0;
}
