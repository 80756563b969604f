/* The second program; see second.h. Everything here is written to be held against document 01 sentence by sentence. It is
 * slow on purpose: where the paper says "the first order with ..", all orders are counted through from the first on. */
#include "second.h"

#include "paper.h"

#include <stdbool.h>
#include <string.h>

/* The six numbers and four tables as they were lent. */
struct week {
    uint32_t n, a, b, alternative, gap, helper;
    const uint16_t *domain, *loss, *give, *ties;
    size_t domain_len, loss_len, give_len, ties_len;
};

/* The week made of a service's arguments. */
#define LENT_WEEK                                                                                                      \
    {                                                                                                                  \
        .n = n, .a = a, .b = b, .alternative = alternative, .gap = gap, .helper = helper,                              \
        .domain = domain, .loss = loss, .give = give, .ties = ties,                                                    \
        .domain_len = domain_len, .loss_len = loss_len, .give_len = give_len, .ties_len = ties_len,                    \
    }

/* One or two lost lots, or none. */
struct lost {
    size_t count;
    uint8_t lot[2];
};

/* ---- Words, ties and the rules ---- */

static bool slot_in(uint16_t word, uint8_t slot)
{
    return slot < SLOTS && (word >> slot & 1) == 1;
}

static uint16_t tie_word(const struct week *week, uint32_t p, uint32_t q, uint8_t v)
{
    return week->ties[(p * week->n + q) * SLOTS + v];
}

/* May lot p in slot v and lot q in slot w stand together? */
static bool together(const struct week *week, uint32_t p, uint8_t v, uint32_t q, uint8_t w)
{
    return slot_in(tie_word(week, p, q, v), w);
}

static bool tied(const struct week *week, uint32_t p, uint32_t q)
{
    if (p == q)
        return false;
    for (uint8_t v = 0; v < SLOTS; v++)
        for (uint8_t w = 0; w < SLOTS; w++)
            if (slot_in(week->domain[p], v) && slot_in(week->domain[q], w) && !together(week, p, v, q, w))
                return true;
    return false;
}

static bool keeps_the_rules(const struct week *week, const uint8_t *order)
{
    for (uint32_t p = 0; p < week->n; p++)
        if (!slot_in(week->domain[p], order[p]))
            return false;
    for (uint32_t p = 0; p < week->n; p++)
        for (uint32_t q = 0; q < week->n; q++)
            if (p != q && !together(week, p, order[p], q, order[q]))
                return false;
    return true;
}

/* ---- Refusals 1 to 4 ---- */

static bool lots_within_limits(uint32_t n, uint32_t a)
{
    return n >= 1 && n <= MOST_LOTS && a <= 2;
}

static bool numbers_right(const struct week *week)
{
    if (!lots_within_limits(week->n, week->a) || week->b > 3)
        return false;
    if (week->alternative > 1 || week->gap > 15 || week->helper > 1)
        return false;
    return week->alternative == 1 || week->gap == 0;
}

static bool lengths_right(const struct week *week)
{
    size_t n = week->n;
    return week->domain_len == n && week->loss_len == n && week->give_len == n && week->ties_len == n * n * SLOTS;
}

static bool words_right(const struct week *week)
{
    for (uint32_t p = 0; p < week->n; p++) {
        uint16_t outside = (uint16_t)~week->domain[p];
        if (week->domain[p] == 0 || (week->loss[p] & outside) != 0 || (week->give[p] & outside) != 0)
            return false;
    }
    return true;
}

/* Is a bit that is set in the tie table one that may be set, and set both ways? */
static bool tie_right(const struct week *week, uint32_t p, uint8_t v, uint32_t q, uint8_t w)
{
    return p != q && slot_in(week->domain[p], v) && slot_in(week->domain[q], w) && together(week, q, w, p, v);
}

static bool ties_right(const struct week *week)
{
    for (uint32_t p = 0; p < week->n; p++)
        for (uint32_t q = 0; q < week->n; q++)
            for (uint8_t v = 0; v < SLOTS; v++)
                for (uint8_t w = 0; tie_word(week, p, q, v) >> w != 0; w++)
                    if (together(week, p, v, q, w) && !tie_right(week, p, v, q, w))
                        return false;
    return true;
}

/* The first of 1 to 4 for which a week is refused, or 0. A service says in `numbers` whether its lost lots are right too,
 * and in `lengths` whether its own lengths are. */
static uint32_t week_refusal(const struct week *week, bool numbers, bool lengths)
{
    if (!numbers_right(week) || !numbers)
        return 1;
    if (!lengths_right(week) || !lengths)
        return 2;
    if (!words_right(week))
        return 3;
    if (!ties_right(week))
        return 4;
    return 0;
}

/* ---- Lost sets and rows ---- */

/* Strictly ascending, each below n, `least` to `most` of them. */
static bool lost_right(uint32_t n, const uint8_t *lost, size_t lost_len, size_t least, size_t most)
{
    if (lost_len < least || lost_len > most)
        return false;
    for (size_t i = 0; i < lost_len; i++)
        if (lost[i] >= n || (i > 0 && lost[i] <= lost[i - 1]))
            return false;
    return true;
}

static size_t row_count(size_t n, uint32_t a)
{
    if (a == 0)
        return 0;
    return a == 1 ? n : n + n * (n - 1) / 2;
}

/* The set of a row: single lots ascending, then the pairs (0,1), (0,2) and so on. */
static struct lost set_of_row(uint32_t n, size_t row)
{
    size_t at = 0;
    for (uint8_t p = 0; p < n; p++)
        if (at++ == row)
            return (struct lost){1, {p}};
    for (uint8_t p = 0; p < n; p++)
        for (uint8_t q = p + 1; q < n; q++)
            if (at++ == row)
                return (struct lost){2, {p, q}};
    return (struct lost){0};
}

static bool is_lost(struct lost lost, uint32_t lot)
{
    for (size_t i = 0; i < lost.count; i++)
        if (lost.lot[i] == lot)
            return true;
    return false;
}

/* ---- Breaks, repairs, super solutions ---- */

static bool is_break(const struct week *week, const uint8_t *order, struct lost lost)
{
    for (size_t i = 0; i < lost.count; i++)
        if (!slot_in(week->loss[lost.lot[i]], order[lost.lot[i]]))
            return false;
    return true;
}

/* May a lost lot go from slot w to slot v? */
static bool lost_lot_may_go(const struct week *week, uint8_t w, uint8_t v)
{
    if (v == w)
        return false;
    return week->alternative == 0 || w + week->gap < v;
}

static bool is_repair(const struct week *week, const uint8_t *order, struct lost lost, const uint8_t *repair)
{
    uint32_t others_moved = 0;
    for (uint32_t p = 0; p < week->n; p++) {
        bool moves = repair[p] != order[p];
        if (is_lost(lost, p)) {
            if (!lost_lot_may_go(week, order[p], repair[p]))
                return false;
        } else if (moves) {
            if (!slot_in(week->give[p], order[p]))
                return false;
            others_moved++;
        }
        if (week->helper == 1 && repair[p] < order[p])
            return false;
    }
    return others_moved <= week->b && keeps_the_rules(week, repair);
}

/* The slot of a domain that comes next after `from`, `from` itself included; 16 if there is none. */
static uint8_t slot_from(uint16_t domain, uint8_t from)
{
    if (domain >> from == 0)
        return SLOTS;
    while (!slot_in(domain, from))
        from++;
    return from;
}

/* The first of all orders: every lot in the first slot of its domain. */
static void count_from_the_first(const struct week *week, uint8_t *order)
{
    for (uint32_t p = 0; p < week->n; p++)
        order[p] = slot_from(week->domain[p], 0);
}

/* The next of all orders, as a counter steps whose digits are the slots of the domains and whose last digit is the last
 * lot; false after the last order. */
static bool count_on(const struct week *week, uint8_t *order)
{
    for (uint32_t p = week->n; p-- > 0;) {
        order[p] = slot_from(week->domain[p], order[p] + 1);
        if (order[p] < SLOTS)
            return true;
        order[p] = slot_from(week->domain[p], 0);
    }
    return false;
}

static bool first_repair(const struct week *week, const uint8_t *order, struct lost lost, uint8_t *repair)
{
    count_from_the_first(week, repair);
    do {
        if (is_repair(week, order, lost, repair))
            return true;
    } while (count_on(week, repair));
    return false;
}

static bool is_super_solution(const struct week *week, const uint8_t *order)
{
    uint8_t repair[MOST_LOTS];
    if (!keeps_the_rules(week, order))
        return false;
    for (size_t row = 0; row < row_count(week->n, week->a); row++) {
        struct lost lost = set_of_row(week->n, row);
        if (is_break(week, order, lost) && !first_repair(week, order, lost, repair))
            return false;
    }
    return true;
}

static bool first_super_solution(const struct week *week, uint8_t *order)
{
    count_from_the_first(week, order);
    do {
        if (is_super_solution(week, order))
            return true;
    } while (count_on(week, order));
    return false;
}

/* ---- Solve, check, repair, row ---- */

uint32_t second_solve(ELURKANTZA_WEEK, uint8_t *order, size_t order_len, uint8_t *table, size_t table_len)
{
    const struct week week = LENT_WEEK;
    uint8_t found[MOST_LOTS];
    uint32_t refused = week_refusal(&week, true, order_len == n && table_len == row_count(n, a) * n);
    if (refused != 0)
        return refused;
    if (!first_super_solution(&week, found))
        return 5;
    memcpy(order, found, n);
    for (size_t row = 0; row < row_count(n, a); row++) {
        struct lost lost = set_of_row(n, row);
        if (is_break(&week, found, lost))
            first_repair(&week, found, lost, table + row * n);
        else
            memcpy(table + row * n, found, n);
    }
    return 0;
}

static bool row_right(const struct week *week, const uint8_t *order, struct lost lost, const uint8_t *row)
{
    if (is_break(week, order, lost))
        return is_repair(week, order, lost, row);
    return memcmp(row, order, week->n) == 0;
}

struct elurkantza_checked second_check(ELURKANTZA_WEEK, const uint8_t *order, size_t order_len, const uint8_t *table,
                                       size_t table_len)
{
    const struct week week = LENT_WEEK;
    uint32_t refused = week_refusal(&week, true, order_len == n && table_len == row_count(n, a) * n);
    if (refused != 0)
        return (struct elurkantza_checked){refused, 0};
    if (!keeps_the_rules(&week, order))
        return (struct elurkantza_checked){6, 0};
    for (size_t at = 0; at < row_count(n, a); at++)
        if (!row_right(&week, order, set_of_row(n, at), table + at * n))
            return (struct elurkantza_checked){7, (uint32_t)at};
    return (struct elurkantza_checked){0, 0};
}

uint32_t second_repair(ELURKANTZA_WEEK, const uint8_t *order, size_t order_len, const uint8_t *lost, size_t lost_len,
                       uint8_t *out, size_t out_len)
{
    const struct week week = LENT_WEEK;
    uint8_t found[MOST_LOTS];
    uint32_t refused = week_refusal(&week, lost_right(n, lost, lost_len, 1, 2), order_len == n && out_len == n);
    if (refused != 0)
        return refused;
    if (!keeps_the_rules(&week, order))
        return 6;
    struct lost set = {lost_len, {lost[0], lost_len == 2 ? lost[1] : 0}};
    if (!first_repair(&week, order, set, found))
        return 8;
    memcpy(out, found, n);
    return 0;
}

uint32_t second_row(uint32_t n, uint32_t a, const uint8_t *order, size_t order_len, const uint8_t *table,
                    size_t table_len, const uint8_t *lost, size_t lost_len, uint8_t *out, size_t out_len)
{
    if (!lots_within_limits(n, a) || !lost_right(n, lost, lost_len, 0, a))
        return 1;
    if (order_len != n || table_len != row_count(n, a) * n || out_len != n)
        return 2;
    if (lost_len == 0)
        memcpy(out, order, n);
    for (size_t row = 0; row < row_count(n, a); row++) {
        struct lost set = set_of_row(n, row);
        if (set.count == lost_len && memcmp(set.lot, lost, lost_len) == 0)
            memcpy(out, table + row * n, n);
    }
    return 0;
}

/* ---- The sheet ---- */

static bool sheet_right(const struct week *week, const struct elurkantza_sheet *sheet)
{
    if (sheet->n != week->n || sheet->saves > MOST_SAVES || !keeps_the_rules(week, sheet->order))
        return false;
    for (uint32_t p = 0; p < week->n; p++)
        if (sheet->marks[p] > sheet->saves)
            return false;
    return true;
}

static bool moves_right(const struct week *week, const uint8_t *moves, size_t moves_len)
{
    if (moves_len % 2 != 0 || moves_len == 0 || moves_len / 2 > week->n)
        return false;
    for (size_t i = 0; i < moves_len; i += 2) {
        if (moves[i] >= week->n || !slot_in(week->domain[moves[i]], moves[i + 1]))
            return false;
        for (size_t j = 0; j < i; j += 2)
            if (moves[j] == moves[i])
                return false;
    }
    return true;
}

/* Has a moved lot, or one tied to it, a mark above the copy number? */
static bool stale(const struct week *week, const struct elurkantza_sheet *sheet, uint32_t copy, const uint8_t *moves,
                  size_t moves_len)
{
    for (size_t i = 0; i < moves_len; i += 2)
        for (uint32_t q = 0; q < week->n; q++)
            if ((q == moves[i] || tied(week, moves[i], q)) && sheet->marks[q] > copy)
                return true;
    return false;
}

/* Is every move one to another slot, and does the order with all of them keep the rules? */
static bool moves_sound(const struct week *week, const struct elurkantza_sheet *sheet, const uint8_t *moves,
                        size_t moves_len)
{
    uint8_t order[MOST_LOTS];
    memcpy(order, sheet->order, MOST_LOTS);
    for (size_t i = 0; i < moves_len; i += 2) {
        if (moves[i + 1] == sheet->order[moves[i]])
            return false;
        order[moves[i]] = moves[i + 1];
    }
    return keeps_the_rules(week, order);
}

struct elurkantza_opened second_open(ELURKANTZA_WEEK, const uint8_t *order, size_t order_len)
{
    const struct week week = LENT_WEEK;
    struct elurkantza_opened opened = {0};
    opened.answer = week_refusal(&week, true, order_len == n);
    if (opened.answer == 0 && !keeps_the_rules(&week, order))
        opened.answer = 6;
    if (opened.answer != 0)
        return opened;
    opened.sheet.n = n;
    memcpy(opened.sheet.order, order, n);
    return opened;
}

struct elurkantza_copied second_copy(ELURKANTZA_WEEK, struct elurkantza_sheet sheet)
{
    const struct week week = LENT_WEEK;
    struct elurkantza_copied copied = {0};
    copied.answer = week_refusal(&week, true, true);
    if (copied.answer == 0 && !sheet_right(&week, &sheet))
        copied.answer = 9;
    if (copied.answer != 0)
        return copied;
    copied.copy = sheet.saves;
    memcpy(copied.order, sheet.order, n);
    return copied;
}

uint32_t second_save(ELURKANTZA_WEEK, struct elurkantza_sheet *sheet, uint32_t copy, const uint8_t *moves,
                     size_t moves_len)
{
    const struct week week = LENT_WEEK;
    uint32_t refused = week_refusal(&week, true, true);
    if (refused != 0)
        return refused;
    if (!sheet_right(&week, sheet))
        return 9;
    if (copy > sheet->saves)
        return 10;
    if (!moves_right(&week, moves, moves_len))
        return 11;
    if (stale(&week, sheet, copy, moves, moves_len))
        return 12;
    if (!moves_sound(&week, sheet, moves, moves_len))
        return 13;
    if (sheet->saves == MOST_SAVES)
        return 14;
    sheet->saves++;
    for (size_t i = 0; i < moves_len; i += 2) {
        sheet->order[moves[i]] = moves[i + 1];
        sheet->marks[moves[i]] = sheet->saves;
    }
    return 0;
}

/* ---- The block file ---- */

uint32_t second_hash(const uint8_t *bytes, size_t len)
{
    uint32_t hash = 2166136261u;
    for (size_t i = 0; i < len; i++)
        hash = (hash ^ bytes[i]) * 16777619u;
    return hash;
}

static uint32_t number_at(const uint8_t *bytes)
{
    return bytes[0] | (uint32_t)bytes[1] << 8 | (uint32_t)bytes[2] << 16 | (uint32_t)bytes[3] << 24;
}

static void put_number(uint8_t *bytes, uint32_t number)
{
    for (int i = 0; i < 4; i++)
        bytes[i] = (uint8_t)(number >> 8 * i);
}

static uint16_t take_word(const uint8_t **at)
{
    uint16_t word = (uint16_t)((*at)[0] | (*at)[1] << 8);
    *at += 2;
    return word;
}

static void add_word(uint8_t **at, uint16_t word)
{
    *(*at)++ = (uint8_t)word;
    *(*at)++ = (uint8_t)(word >> 8);
}

static size_t content_size(size_t n)
{
    return 6 + 6 * n + 16 * n * (n - 1);
}

static size_t blocks_needed(size_t n)
{
    return (content_size(n) + CONTENT - 1) / CONTENT;
}

/* The tables of a file's content, at the start of buffers that were all 0. */
static void take_tables(const uint8_t *at, size_t n, uint16_t *domain, uint16_t *loss, uint16_t *give, uint16_t *ties)
{
    for (size_t p = 0; p < n; p++)
        domain[p] = take_word(&at);
    for (size_t p = 0; p < n; p++)
        loss[p] = take_word(&at);
    for (size_t p = 0; p < n; p++)
        give[p] = take_word(&at);
    for (size_t p = 0; p < n; p++)
        for (size_t q = p + 1; q < n; q++)
            for (size_t v = 0; v < SLOTS; v++) {
                uint16_t word = take_word(&at);
                ties[(p * n + q) * SLOTS + v] = word;
                for (size_t w = 0; w < SLOTS; w++)
                    if (slot_in(word, (uint8_t)w))
                        ties[(q * n + p) * SLOTS + w] |= (uint16_t)(1 << v);
            }
}

/* The file's week: its numbers into a reading that is all 0, its tables into the buffers. Answers 0, or the refusal. */
static uint32_t take_file(const uint8_t *file, size_t file_len, struct elurkantza_reading *reading, uint16_t *domain,
                          uint16_t *loss, uint16_t *give, uint16_t *ties)
{
    uint8_t content[MOST_BLOCKS * CONTENT];
    size_t blocks = file_len / BLOCK;
    if (file_len % BLOCK != 0 || blocks < 1 || blocks > MOST_BLOCKS)
        return 15;
    for (size_t i = 0; i < blocks; i++) {
        const uint8_t *block = file + i * BLOCK;
        if (number_at(block + CHECKED) != second_hash(block, CHECKED))
            return 16;
        if (number_at(block) != i)
            return 17;
        memcpy(content + i * CONTENT, block + 4, CONTENT);
    }
    const size_t n = content[0];
    uint16_t words[3][MOST_LOTS] = {{0}}, tie_words[MOST_TIE_WORDS] = {0};
    const struct week week = {
        content[0], content[1], content[2], content[3], content[4], content[5],
        words[0], words[1], words[2], tie_words, n, n, n, n * n * SLOTS,
    };
    if (!numbers_right(&week))
        return 1;
    if (blocks != blocks_needed(n))
        return 15;
    for (size_t i = content_size(n); i < blocks * CONTENT; i++)
        if (content[i] != 0)
            return 18;
    take_tables(content + 6, n, words[0], words[1], words[2], tie_words);
    if (!words_right(&week))
        return 3;
    if (!ties_right(&week))
        return 4;
    reading->n = content[0], reading->a = content[1], reading->b = content[2];
    reading->alternative = content[3], reading->gap = content[4], reading->helper = content[5];
    memcpy(domain, words[0], sizeof words[0]);
    memcpy(loss, words[1], sizeof words[1]);
    memcpy(give, words[2], sizeof words[2]);
    memcpy(ties, tie_words, sizeof tie_words);
    return 0;
}

struct elurkantza_reading second_read(const uint8_t *file, size_t file_len, uint16_t *domain, size_t domain_len,
                                      uint16_t *loss, size_t loss_len, uint16_t *give, size_t give_len, uint16_t *ties,
                                      size_t ties_len)
{
    struct elurkantza_reading reading = {0};
    if (domain_len != MOST_LOTS || loss_len != MOST_LOTS || give_len != MOST_LOTS || ties_len != MOST_TIE_WORDS)
        reading.answer = 2;
    else
        reading.answer = take_file(file, file_len, &reading, domain, loss, give, ties);
    return reading;
}

uint32_t second_write(ELURKANTZA_WEEK, uint8_t *file, size_t file_len)
{
    const struct week week = LENT_WEEK;
    uint8_t content[MOST_BLOCKS * CONTENT] = {0}, *at = content;
    uint32_t refused = week_refusal(&week, true, file_len == blocks_needed(n) * BLOCK);
    if (refused != 0)
        return refused;
    const uint32_t numbers[6] = {n, a, b, alternative, gap, helper};
    for (int i = 0; i < 6; i++)
        *at++ = (uint8_t)numbers[i];
    for (size_t p = 0; p < n; p++)
        add_word(&at, domain[p]);
    for (size_t p = 0; p < n; p++)
        add_word(&at, loss[p]);
    for (size_t p = 0; p < n; p++)
        add_word(&at, give[p]);
    for (size_t p = 0; p < n; p++)
        for (size_t q = p + 1; q < n; q++)
            for (size_t v = 0; v < SLOTS; v++)
                add_word(&at, ties[(p * n + q) * SLOTS + v]);
    for (size_t i = 0; i < blocks_needed(n); i++) {
        uint8_t *block = file + i * BLOCK;
        put_number(block, (uint32_t)i);
        memcpy(block + 4, content + i * CONTENT, CONTENT);
        put_number(block + CHECKED, second_hash(block, CHECKED));
    }
    return 0;
}
