/* peer WEEK: the first super solution of a week by the SAT solver CaDiCaL (Debian's libcadical-dev), as a peer to compare with. Direct
 * encoding: a variable for each lot and slot, and for each row of the repair table an order of its own that must be a repair if the row's
 * lots can be lost. The first order comes by fixing lot after lot to the least slot that leaves the rest satisfiable. Prints seconds and
 * the answer; rows are not made. */
#include "week.h"

#include <ccadical.h>
#include <stdio.h>
#include <string.h>

static struct plain_week week;
static CCaDiCaL *solver;
static int variables;

static bool bit(uint32_t word, uint32_t place) { return word >> place & 1; }
static int fresh(void) { return ++variables; }

static void clause(int a, int b, int c)
{
    ccadical_add(solver, a);
    if (b) ccadical_add(solver, b);
    if (c) ccadical_add(solver, c);
    ccadical_add(solver, 0);
}

/* An order's variables, where at most one slot of a lot is true and no two clash. */
static void make_order(int var[24][16])
{
    for (uint32_t p = 0; p < week.n; p++)
        for (uint32_t v = 0; v < 16; v++) var[p][v] = bit(week.domain[p], v) ? fresh() : 0;
    for (uint32_t p = 0; p < week.n; p++)
        for (uint32_t v = 0; v < 16; v++) {
            if (!var[p][v]) continue;
            for (uint32_t w = v + 1; w < 16; w++)
                if (var[p][w]) clause(-var[p][v], -var[p][w], 0);
            for (uint32_t q = p + 1; q < week.n; q++)
                for (uint32_t w = 0; w < 16; w++)
                    if (var[q][w] && !bit(week.ties[(p * week.n + q) * 16 + v], w)) clause(-var[p][v], -var[q][w], 0);
        }
}

/* Each lot stands somewhere, if `active` holds (0: always). */
static void stand(int var[24][16], int active)
{
    for (uint32_t p = 0; p < week.n; p++) {
        if (active) ccadical_add(solver, -active);
        for (uint32_t v = 0; v < 16; v++)
            if (var[p][v]) ccadical_add(solver, var[p][v]);
        ccadical_add(solver, 0);
    }
}

/* At most b of the n variables, by counters. */
static void at_most(const int *moved, uint32_t n, uint32_t b)
{
    int count[24][4];
    for (uint32_t i = 0; i < n; i++) {
        if (b == 0) {
            clause(-moved[i], 0, 0);
            continue;
        }
        for (uint32_t j = 0; j < b; j++) count[i][j] = fresh();
        clause(-moved[i], count[i][0], 0);
        if (i == 0) continue;
        for (uint32_t j = 0; j < b; j++) {
            clause(-count[i - 1][j], count[i][j], 0);
            if (j) clause(-moved[i], -count[i - 1][j - 1], count[i][j]);
        }
        clause(-moved[i], -count[i - 1][b - 1], 0);
    }
}

/* The row of a set of lots: a repair of `order`, if `active` holds. */
static void make_row(int order[24][16], uint32_t lost, int active)
{
    int row[24][16], moved[24];
    uint32_t others = 0;
    make_order(row);
    stand(row, active);
    for (uint32_t p = 0; p < week.n; p++) {
        bool gone = bit(lost, p);
        if (!gone) moved[others] = fresh();
        for (uint32_t w = 0; w < 16; w++)
            for (uint32_t v = 0; v < 16; v++) {
                if (!order[p][w] || !row[p][v]) continue;
                bool helps = !week.helper || w <= v;
                if (gone) {
                    if (w == v || !helps || (week.alternative && w + week.gap >= v)) clause(-order[p][w], -row[p][v], 0);
                } else if (w != v) {
                    clause(-order[p][w], -row[p][v], helps && bit(week.give[p], w) ? moved[others] : 0);
                }
            }
        others += !gone;
    }
    at_most(moved, others, week.b);
}

static void make_rows(int order[24][16])
{
    int fragile[24];
    for (uint32_t p = 0; p < week.n; p++) {
        fragile[p] = fresh();
        for (uint32_t v = 0; v < 16; v++)
            if (order[p][v] && bit(week.loss[p], v)) clause(-order[p][v], fragile[p], 0);
    }
    for (uint32_t x = 0; week.a >= 1 && x < week.n; x++) make_row(order, 1u << x, fragile[x]);
    for (uint32_t x = 0; week.a == 2 && x < week.n; x++)
        for (uint32_t y = x + 1; y < week.n; y++) {
            int both = fresh();
            clause(-fragile[x], -fragile[y], both);
            make_row(order, 1u << x | 1u << y, both);
        }
}

static void take(int order[24][16], uint8_t *slots)
{
    for (uint32_t p = 0; p < week.n; p++)
        for (uint32_t v = 0; v < 16; v++)
            if (order[p][v] && ccadical_val(solver, order[p][v]) > 0) slots[p] = (uint8_t)v;
}

static bool first_order(int order[24][16], uint8_t *slots)
{
    if (ccadical_solve(solver) != 10) return false;
    take(order, slots);
    for (uint32_t p = 0; p < week.n; p++) {
        for (uint32_t v = 0; v < slots[p]; v++) {
            if (!order[p][v]) continue;
            ccadical_assume(solver, order[p][v]);
            if (ccadical_solve(solver) == 10)
                take(order, slots);
            else
                clause(-order[p][v], 0, 0);
        }
        clause(order[p][slots[p]], 0, 0);
    }
    return true;
}

int main(int argc, char **argv)
{
    int order[24][16];
    uint8_t slots[24];
    if (argc != 2) {
        fprintf(stderr, "peer: give a block file: peer WEEK\n");
        return 2;
    }
    week_load(argv[1], &week);
    double began = seconds();
    solver = ccadical_init();
    ccadical_set_option(solver, "quiet", 1);
    make_order(order);
    stand(order, 0);
    make_rows(order);
    bool is = first_order(order, slots);
    printf("%.9f ", seconds() - began);
    put_answer(is ? 0 : 5, slots, week.n);
    ccadical_release(solver);
    return 0;
}
