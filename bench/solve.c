/* solve proved|plain WEEK: solves a week and prints the seconds of one call, a number that stands for the repair table, the slots tried
 * (plain only, else 0) and the answer. Short calls are repeated for 20 ms and their mean is given. */
#include "week.h"

#include <stdio.h>
#include <string.h>

static uint32_t digest(const uint8_t *bytes, size_t len)
{
    uint32_t hash = 2166136261u;
    for (size_t i = 0; i < len; i++) hash = (hash ^ bytes[i]) * 16777619u;
    return hash;
}

int main(int argc, char **argv)
{
    static struct plain_week week;
    static uint8_t order[24], table[300 * 24];
    if (argc != 3 || (strcmp(argv[1], "proved") && strcmp(argv[1], "plain"))) {
        fprintf(stderr, "solve: give an engine and a block file: solve proved|plain WEEK\n");
        return 2;
    }
    bool proved = !strcmp(argv[1], "proved");
    week_load(argv[2], &week);
    size_t rows = week.a == 0 ? 0 : week.a == 1 ? week.n : week.n + week.n * (week.n - 1) / 2;
    uint64_t tried = 0;
    uint32_t refused, calls = 0;
    double began = seconds(), took;
    do {
        refused = proved ? elurkantza_solve(WEEK_OF(week), order, week.n, table, rows * week.n) : plain_solve(&week, order, table, &tried);
        calls++;
        took = seconds() - began;
    } while (took < 0.02);
    printf("%.9f %08x %llu ", took / calls, refused ? 0 : digest(table, rows * week.n), (unsigned long long)tried);
    put_answer(refused, order, week.n);
    return 0;
}
