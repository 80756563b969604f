/* Random weeks through every service of the library and of the second program.
 *
 *     compare SEED WEEKS [FIRST]
 *
 * Weeks are numbered from FIRST (0 if not given) and depend on SEED and their number alone. Without FIRST the run also fails
 * if some service gave some number of its own less than 50 times, or if weeks with or without a super solution were rare. */
#include "both.h"

#include <inttypes.h>
#include <stdio.h>
#include <string.h>

enum {
    EACH_NUMBER = 50,  /* least count of every number from every service */
    EACH_KIND = 10,    /* least count of weeks with and without a super solution at every a, b and rules */
    LARGE_EVERY = 150, /* after so many small weeks comes a large one */
    ORDER_ROOM = ROOM + 8,
    LOST_ROOM = 4,
    TABLE_ROOM = MOST_ROWS * MOST_LOTS + ORDER_ROOM,
};

static struct chance chance;
static struct week week;

/* The plan that check, repair and the sheet begin with: solve's, or an order that keeps the rules, or just some order. */
static struct {
    uint8_t order[ORDER_ROOM], table[TABLE_ROOM];
} plan;

/* Weeks by what solve found: in all, and for each a, b, alternative rule and helper rule; and weeks by their gap. */
static uint64_t with_super, without_super, without_super_but_orders, other_rows_accepted;
static uint64_t found_at[3][4][2][2], none_at[3][4][2][2], gap_at[16];

/* ---- Inputs ---- */

static size_t table_length(void)
{
    return week.n <= MOST_LOTS ? rows_of(week.n, week.a) * week.n : 0;
}

/* The right length nearly always. */
static size_t some_length(size_t right)
{
    if (!one_in(&chance, 20))
        return right;
    switch (below(&chance, 3)) {
    case 0: return right == 0 ? 1 : right - 1;
    case 1: return right == 0 ? 2 : 0;
    default: return right + 1;
    }
}

/* The length of an order of n lots; a damaged n still needs some length that there is room for. */
static size_t order_length(uint32_t n)
{
    return some_length(n <= ROOM ? n : below(&chance, ROOM));
}

static uint32_t some_lot(uint32_t n)
{
    return n == 0 || n > MOST_LOTS ? 0 : below(&chance, n);
}

/* Mostly an order that keeps the rules; some that break them, some with a byte that is no slot. The tables must be right. */
static void order_input(uint8_t *order)
{
    memcpy(order, plan.order, ORDER_ROOM);
    if (one_in(&chance, 2)) {
        uint8_t other[ORDER_ROOM];
        if (some_order(&chance, &week, other) || one_in(&chance, 4))
            memcpy(order, other, week.n);
    }
    if (one_in(&chance, 12))
        order[some_lot(week.n)] += (uint8_t)(SLOTS << below(&chance, 4));
    if (one_in(&chance, 24))
        order[some_lot(week.n)] = (uint8_t)below(&chance, 256);
}

/* So many different lots of n, ascending; fewer where n is too small. */
static size_t ascending_lots(uint32_t n, uint8_t *lots, size_t count)
{
    size_t found = 0;
    for (uint32_t p = 0; p < n && p < MOST_LOTS; p++)
        if (found < count && below(&chance, n - p) < count - found)
            lots[found++] = (uint8_t)p;
    return found;
}

/* Lost lots where `most` may be lost, right in most cases; returns how many. */
static size_t lost_input(uint32_t n, uint8_t *lost, size_t count, size_t most)
{
    memset(lost, 0, LOST_ROOM);
    count = ascending_lots(n, lost, count);
    if (!one_in(&chance, 8))
        return count;
    switch (below(&chance, 6)) {
    case 0: return 0;
    case 1:
    case 2: return ascending_lots(n, lost, most + 1);
    case 3: lost[below(&chance, 2)] = (uint8_t)(n + below(&chance, 4)); return count;
    case 4: lost[below(&chance, 2)] = (uint8_t)below(&chance, 256); return count;
    default: lost[0] = lost[1] + (uint8_t)below(&chance, 2); return 2;
    }
}

/* A row that moves another lot, or the same lots elsewhere; it may well be a repair too, only not the first. */
static void nudge_row(uint8_t *row)
{
    uint8_t other[MOST_LOTS];
    for (int tries = 0; tries < 6; tries++) {
        memcpy(other, row, week.n);
        uint32_t p = some_lot(week.n);
        other[p] = some_slot(&chance, week.domain[p]);
        if (memcmp(other, row, week.n) != 0 && week_keeps(&week, other)) {
            memcpy(row, other, week.n);
            return;
        }
    }
}

/* Changes the plan's table in one place, or leaves it. The week's tables must be right. */
static void change_table(uint8_t *table)
{
    size_t rows = rows_of(week.n, week.a), row = rows == 0 ? 0 : below(&chance, (uint32_t)rows);
    if (rows == 0)
        return;
    uint32_t p = some_lot(week.n);
    uint8_t *at = table + row * week.n;
    switch (below(&chance, 6)) {
    case 0: at[p] = some_slot(&chance, week.domain[p]); break;
    case 1: at[p] += (uint8_t)(SLOTS << below(&chance, 4)); break;
    case 2: memmove(at, table + below(&chance, (uint32_t)rows) * week.n, week.n); break;
    case 3:
    case 4: nudge_row(at); break;
    default: break;
    }
}

static bool names(const uint8_t *moves, size_t count, uint8_t lot)
{
    for (size_t i = 0; i < count; i++)
        if (moves[2 * i] == lot)
            return true;
    return false;
}

/* Moves of one to three lots; in most cases tried until the sheet's order with them keeps the rules. */
static size_t moves_input(const struct elurkantza_sheet *sheet, uint8_t *moves)
{
    size_t count = 0;
    for (int tries = 0; tries < 8; tries++) {
        uint8_t order[MOST_LOTS];
        memcpy(order, sheet->order, MOST_LOTS);
        size_t most = 1 + below(&chance, week.n < 3 ? week.n : 3);
        count = 0;
        for (size_t i = 0; i < most; i++) {
            uint8_t lot = (uint8_t)some_lot(week.n), slot = some_slot(&chance, week.domain[lot]);
            if (names(moves, count, lot) || (slot == order[lot] && !one_in(&chance, 16)))
                continue;
            order[lot] = slot;
            moves[2 * count] = lot;
            moves[2 * count++ + 1] = slot;
        }
        if (count > 0 && (week_keeps(&week, order) || one_in(&chance, 12)))
            break;
    }
    return 2 * count;
}

/* The same, and now and then something for which 11 is given. */
static size_t moves_or_worse(const struct elurkantza_sheet *sheet, uint8_t *moves)
{
    size_t len = moves_input(sheet, moves);
    if (!one_in(&chance, 6))
        return len;
    uint32_t move = len < 2 ? 0 : below(&chance, (uint32_t)len / 2);
    switch (below(&chance, 6)) {
    case 0: return 0;
    case 1: return len + 1;
    case 2:
        for (uint32_t i = 0; i <= week.n; i++) {
            moves[2 * i] = (uint8_t)(i % week.n);
            moves[2 * i + 1] = some_slot(&chance, week.domain[i % week.n]);
        }
        return 2 * (week.n + 1);
    case 3: moves[2 * move] = (uint8_t)(week.n + below(&chance, 256 - week.n)); return len;
    case 4: moves[2 * move + 1] = (uint8_t)below(&chance, 256); return len;
    default:
        memcpy(moves + len, moves, 2);
        return len + 2;
    }
}

/* ---- The services, each with inputs of its own; `right` says that the week's tables are right ---- */

static void try_solve(void)
{
    uint8_t order[ORDER_ROOM], table[TABLE_ROOM];
    fill(&chance, order, sizeof order);
    fill(&chance, table, table_length() + 1);
    both_solve(&week, order, order_length(week.n), table, some_length(table_length()));
}

static void try_check(bool right)
{
    uint8_t order[ORDER_ROOM], table[TABLE_ROOM];
    memcpy(order, plan.order, sizeof order);
    memcpy(table, plan.table, table_length() + 1);
    if (right) {
        change_table(table);
        if (one_in(&chance, 8))
            order_input(order);
    }
    struct elurkantza_checked checked = both_check(&week, order, order_length(week.n), table, some_length(table_length()));
    if (checked.answer == 0 && memcmp(table, plan.table, table_length()) != 0)
        other_rows_accepted++;
}

static void try_repair(bool right)
{
    uint8_t order[ORDER_ROOM], lost[LOST_ROOM], out[ORDER_ROOM];
    memcpy(order, plan.order, sizeof order);
    if (right)
        order_input(order);
    fill(&chance, out, sizeof out);
    size_t lost_len = lost_input(week.n, lost, 1 + below(&chance, 2), 2);
    both_repair(&week, order, order_length(week.n), lost, lost_len, out, order_length(week.n));
}

/* Row judges neither order nor table, so any bytes will do, and any n. */
static void try_row(void)
{
    uint8_t order[ORDER_ROOM], table[TABLE_ROOM], lost[LOST_ROOM], out[ORDER_ROOM];
    uint32_t n = one_in(&chance, 8) ? 1 + below(&chance, MOST_LOTS) : 1 + below(&chance, 6), a = below(&chance, 3);
    size_t table_len = some_length(rows_of(n, a) * n), lost_len = lost_input(n, lost, below(&chance, a + 1), a);
    size_t order_len = order_length(n), out_len = order_length(n);
    fill(&chance, order, sizeof order);
    fill(&chance, table, table_len);
    fill(&chance, out, sizeof out);
    if (one_in(&chance, 16))
        n = one_in(&chance, 4) ? 0 : one_in(&chance, 2) ? n + 256 : MOST_LOTS + 1;
    if (one_in(&chance, 16))
        a = one_in(&chance, 2) ? a + 256 : 3;
    both_row(n, a, order, order_len, table, table_len, lost, lost_len, out, out_len);
}

static struct elurkantza_opened try_open(bool right)
{
    uint8_t order[ORDER_ROOM];
    memcpy(order, plan.order, sizeof order);
    if (right)
        order_input(order);
    return both_open(&week, order, order_length(week.n));
}

static void try_save(bool right, struct elurkantza_sheet *sheet)
{
    uint8_t moves[2 * ORDER_ROOM] = {0};
    uint32_t copy = one_in(&chance, 3) ? sheet->saves : below(&chance, sheet->saves + 1);
    if (one_in(&chance, 16))
        copy = one_in(&chance, 2) ? sheet->saves + 1 : sheet->saves + below(&chance, 0x80000000u);
    size_t len = right ? moves_or_worse(sheet, moves) : 2 * below(&chance, 4);
    both_save(&week, sheet, copy, moves, len);
}

/* A sheet as no open has made it: any save number and any marks, and anything beyond lot n - 1. */
static void made_up_sheet(struct elurkantza_sheet *sheet)
{
    static const uint32_t some_saves[8] = {0, 1, 2, 3, 60000, MOST_SAVES - 1, MOST_SAVES, MOST_SAVES};
    fill(&chance, sheet, sizeof *sheet);
    sheet->n = week.n;
    sheet->saves = some_saves[below(&chance, 8)];
    memcpy(sheet->order, plan.order, week.n);
    for (uint32_t p = 0; p < week.n; p++)
        sheet->marks[p] = one_in(&chance, 3) ? below(&chance, sheet->saves + 1) : 0;
}

static void damage_sheet(struct elurkantza_sheet *sheet)
{
    uint32_t p = some_lot(week.n);
    switch (below(&chance, 6)) {
    case 0: sheet->n = one_in(&chance, 2) ? week.n + 256 : below(&chance, ROOM); break;
    case 1: sheet->saves = MOST_SAVES + 1 + below(&chance, 5); break;
    case 2: sheet->order[p] = (uint8_t)below(&chance, 256); break;
    case 3: sheet->order[p] = some_slot(&chance, week.domain[p]); break;
    case 4: sheet->marks[p] = sheet->saves + 1; break;
    default: sheet->marks[p] = sheet->saves + 65536;
    }
}

static void try_sheets(void)
{
    struct elurkantza_opened opened = try_open(true);
    struct elurkantza_sheet sheet = opened.sheet;
    if (opened.answer != 0)
        made_up_sheet(&sheet);
    both_copy(&week, sheet);
    for (int i = 0; i < 3; i++)
        try_save(true, &sheet);
    made_up_sheet(&sheet);
    if (one_in(&chance, 4))
        damage_sheet(&sheet);
    both_copy(&week, sheet);
    for (int i = 0; i < 2; i++)
        try_save(true, &sheet);
}

static void try_write(uint8_t *file)
{
    size_t right = week.n >= 1 && week.n <= MOST_LOTS ? file_size_of(week.n) : BLOCK;
    memset(file, (uint8_t)chance_next(&chance), FILE_ROOM);
    both_write(&week, file, some_length(right));
}

static void wrong_buffer_length(struct buffers *buffers)
{
    size_t *lengths[4] = {&buffers->domain_len, &buffers->loss_len, &buffers->give_len, &buffers->ties_len};
    size_t *length = lengths[below(&chance, 4)];
    *length = one_in(&chance, 3) ? 0 : one_in(&chance, 2) ? *length - 1 : *length + 1;
}

static void try_files(void)
{
    static uint8_t file[FILE_ROOM];
    static struct buffers buffers;
    size_t len = file_size_of(week.n);
    try_write(file);
    both_write(&week, file, len);
    for (uint32_t damages = 0; damages < 3; damages++) {
        buffers_fill(&buffers);
        if (one_in(&chance, 20))
            wrong_buffer_length(&buffers);
        both_read(file, len, &buffers);
        file_damage(&chance, file, &len, week.n);
    }
}

/* ---- A week ---- */

/* Gives lost lots other slots, one after another, until the rules are kept: a row for tables that solve did not make. */
static void mend_row(uint8_t *row, uint32_t p, uint32_t q)
{
    for (uint8_t v = 0; v < SLOTS; v++)
        for (uint8_t w = 0; w < (p == q ? 1 : SLOTS); w++) {
            memcpy(row, plan.order, week.n);
            row[p] = v;
            if (p != q)
                row[q] = w;
            if (v != plan.order[p] && (p == q || w != plan.order[q]) && week_keeps(&week, row))
                return;
        }
    memcpy(row, plan.order, week.n);
}

static void mend_table(void)
{
    uint8_t *row = plan.table;
    for (uint32_t p = 0; week.a >= 1 && p < week.n; p++, row += week.n)
        if (bit_of(week.loss[p], plan.order[p]))
            mend_row(row, p, p);
        else
            memcpy(row, plan.order, week.n);
    for (uint32_t p = 0; week.a >= 2 && p < week.n; p++)
        for (uint32_t q = p + 1; q < week.n; q++, row += week.n)
            if (bit_of(week.loss[p], plan.order[p]) && bit_of(week.loss[q], plan.order[q]))
                mend_row(row, p, q);
            else
                memcpy(row, plan.order, week.n);
}

/* Solves the week; where it has no super solution, the plan is the first order at all, if there is one. */
static void make_plan(void)
{
    fill(&chance, plan.order, sizeof plan.order);
    memset(plan.table, (uint8_t)chance_next(&chance), sizeof plan.table);
    gap_at[week.gap] += week.alternative;
    if (both_solve(&week, plan.order, week.n, plan.table, table_length()) == 0) {
        with_super++;
        found_at[week.a][week.b][week.alternative][week.helper]++;
        return;
    }
    without_super++;
    none_at[week.a][week.b][week.alternative][week.helper]++;
    uint32_t a = week.a;
    week.a = 0;
    bool keeps = both_solve(&week, plan.order, week.n, plan.table, 0) == 0;
    week.a = a;
    if (keeps)
        without_super_but_orders++;
    else
        some_order(&chance, &week, plan.order);
    mend_table();
}

/* Every service that takes a week, with something wrong about the week: one number's worth or more, so that the order of
 * the refusals is seen too. */
static void try_damaged(bool with_search)
{
    static struct elurkantza_sheet sheet;
    static uint8_t file[FILE_ROOM];
    static struct week whole;
    uint32_t wrong = 1 + below(&chance, 4), as_well = below(&chance, 8);
    made_up_sheet(&sheet);
    week_copy(&whole, &week);
    for (uint32_t number = 4; number >= 1; number--)
        if (number == wrong || number == as_well)
            week_damage(&chance, &week, number);
    if (with_search) {
        try_solve();
        try_repair(false);
    }
    try_check(false);
    both_copy(&week, sheet);
    try_save(false, &sheet);
    try_open(false);
    try_write(file);
    week_copy(&week, &whole);
}

static void try_small_week(void)
{
    week_small(&chance, &week);
    make_plan();
    try_check(true);
    try_check(true);
    try_repair(true);
    try_repair(true);
    try_row();
    try_sheets();
    try_files();
    try_damaged(true);
}

/* More lots than can be counted through: every service but solve and repair. */
static void try_large_week(void)
{
    fill(&chance, plan.order, sizeof plan.order);
    fill(&chance, plan.table, sizeof plan.table);
    week_around(&chance, &week, 7 + below(&chance, MOST_LOTS - 6), plan.order);
    mend_table();
    try_check(true);
    try_check(true);
    try_sheets();
    try_files();
    try_damaged(false);
}

static bool enough_of_all_numbers(void)
{
    bool enough = true;
    for (uint32_t i = 0; i < 3 * 4 * 2 * 2; i++) {
        uint32_t a = i / 16, b = i / 4 % 4, alternative = i / 2 % 2, helper = i % 2;
        char what[80];
        snprintf(what, sizeof what, "found at a %u, b %u, alternative %u, helper %u", a, b, alternative, helper);
        enough = often_enough(what, found_at[a][b][alternative][helper], EACH_KIND) && enough;
        snprintf(what, sizeof what, "none at a %u, b %u, alternative %u, helper %u", a, b, alternative, helper);
        enough = often_enough(what, none_at[a][b][alternative][helper], EACH_KIND) && enough;
    }
    for (uint32_t gap = 0; gap < 16; gap++)
        enough = often_enough("some gap", gap_at[gap], EACH_KIND) && enough;
    return enough;
}

static bool enough_of_all(void)
{
    uint64_t quarter = (with_super + without_super + 3) / 4;
    bool enough = both_often_enough(EACH_NUMBER);
    enough = enough_of_all_numbers() && enough;
    enough = often_enough("a week with a super solution", with_super, quarter) && enough;
    enough = often_enough("a week without", without_super, quarter) && enough;
    enough = often_enough("a week with orders and no super solution", without_super_but_orders, EACH_NUMBER) && enough;
    return often_enough("a table accepted that solve does not give", other_rows_accepted, EACH_NUMBER) && enough;
}

int main(int count, char **arguments)
{
    const struct run run = both_run(count, arguments, "compare SEED WEEKS [FIRST]");
    for (uint64_t index = run.first; index < run.first + run.count; index++) {
        both_at("compare", "week", run.seed, index);
        chance = chance_of(run.seed, index);
        try_small_week();
        if (index % LARGE_EVERY == LARGE_EVERY - 1)
            try_large_week();
    }
    both_print_counts();
    printf("weeks with a super solution %" PRIu64 ", without %" PRIu64 " (of these %" PRIu64
           " with orders that keep the rules); other tables accepted %" PRIu64 "\n",
           with_super, without_super, without_super_but_orders, other_rows_accepted);
    printf("compare: seed %" PRIu64 ", %" PRIu64 " weeks, %" PRIu64 " calls alike\n", run.seed, run.count, both_calls());
    return run.repeats || enough_of_all() ? 0 : 1;
}
