/* families SEED FOLDER: writes weeks that nobody has seen into a folder, as block files. Realistic families, and random ones near where
 * super solutions vanish; each at 8, 12, 16, 20 and 24 lots, so that it shows how the cost grows. The same seed writes the same weeks.
 * A name is family_lots_ab_number, where ab are the digits a and b. */
#include "elurkantza.h"
#include "weeks.h"

#include <stdio.h>
#include <stdlib.h>

static const char *folder;

static void write_week(const struct week *week, const char *family, uint32_t number)
{
    static uint8_t file[MOST_FILE];
    char path[500];
    size_t len = file_size_of(week->n);
    uint32_t refused = elurkantza_write(week->n, week->a, week->b, week->alternative, week->gap, week->helper, week->domain, week->domain_len,
                                        week->loss, week->loss_len, week->give, week->give_len, week->ties, week->ties_len, file, len);
    snprintf(path, sizeof path, "%s/%s_%02u_%u%u_%u.blk", folder, family, week->n, week->a, week->b, number);
    FILE *out = refused ? NULL : fopen(path, "wb");
    if (!out || fwrite(file, 1, len, out) != len || fclose(out)) {
        fprintf(stderr, "families: cannot write '%s' (refused %u)\n", path, refused);
        exit(1);
    }
}

/* Slots from..to of 0 to 15. */
static uint16_t window(uint32_t from, uint32_t to)
{
    uint16_t word = 0;
    for (uint32_t v = from; v <= to && v < SLOTS; v++) word |= (uint16_t)(1u << v);
    return word;
}

static void forbid(struct week *week, uint32_t p, uint32_t v, uint32_t q, uint32_t w)
{
    if (v < SLOTS && w < SLOTS) week_forbid(week, p, (uint8_t)v, q, (uint8_t)w);
}

/* A dyehouse week: each lot is ready from a slot on and due some slots later. Lots of one dye line never share a slot, a light lot does
 * not run straight behind a dark one on its line, and some lots wait for another. Some slots are sure, some lots may not be moved. */
static void dyehouse(struct chance *chance, struct week *week, uint32_t n, uint32_t a, uint32_t b, uint32_t lines, uint32_t width)
{
    uint32_t line[MOST_LOTS], shade[MOST_LOTS];
    struct week plain;
    week_plain(&plain, n, a, b, 0xffff);
    for (uint32_t p = 0; p < n; p++) {
        uint32_t ready = p * (SLOTS - width / 2) / n, from = ready > 1 ? ready - below(chance, 2) : ready;
        plain.domain[p] = window(from, from + width + below(chance, 3));
        line[p] = below(chance, lines);
        shade[p] = below(chance, 4);
    }
    week_untie(&plain);
    for (uint32_t p = 0; p < n; p++)
        for (uint32_t q = p + 1; q < n; q++) {
            bool waits = one_in(chance, 12);
            for (uint32_t v = 0; v < SLOTS; v++) {
                if (line[p] == line[q]) forbid(&plain, p, v, q, v);
                if (line[p] == line[q] && shade[p] == 3 && shade[q] == 0) forbid(&plain, p, v, q, v + 1);
                if (line[p] == line[q] && shade[q] == 3 && shade[p] == 0) forbid(&plain, q, v, p, v + 1);
                for (uint32_t w = 0; waits && w <= v; w++) forbid(&plain, p, v, q, w);
            }
        }
    for (uint32_t p = 0; p < n; p++) {
        plain.loss[p] = plain.domain[p] & (uint16_t)(chance_next(chance) | chance_next(chance));
        plain.give[p] = one_in(chance, 6) ? 0 : plain.domain[p];
    }
    week_copy(week, &plain);
}

/* Half the pairs of lots are tied; of a tied pair each two slots are forbidden with a chance of `percent`. */
static void random_week(struct chance *chance, struct week *week, uint32_t n, uint32_t a, uint32_t b, uint32_t percent)
{
    week_plain(week, n, a, b, 0xffff);
    for (uint32_t p = 0; p < n; p++)
        for (uint32_t q = p + 1; q < n; q++) {
            if (one_in(chance, 2)) continue;
            for (uint32_t v = 0; v < SLOTS; v++)
                for (uint32_t w = 0; w < SLOTS; w++)
                    if (below(chance, 100) < percent) forbid(week, p, v, q, w);
        }
}

/* A line that is full or nearly so: `full` of the lots exclude each other in as many slots and a few more. */
static void full_line(struct chance *chance, struct week *week, uint32_t n, uint32_t a, uint32_t b, uint32_t full, uint32_t slots)
{
    week_plain(week, n, a, b, 0xffff);
    for (uint32_t p = 0; p < n; p++) week->domain[p] = week->loss[p] = week->give[p] = p < full ? window(0, slots - 1) : 0xffff;
    week_untie(week);
    for (uint32_t p = 0; p < n; p++)
        for (uint32_t q = p + 1; q < n; q++)
            for (uint32_t v = 0; v < SLOTS; v++) {
                if (q < full) forbid(week, p, v, q, v);
                if (q >= full && one_in(chance, 3)) forbid(week, p, v, q, v);
            }
}

int main(int argc, char **argv)
{
    static struct week week;
    static const uint32_t sizes[] = {8, 12, 16, 20, 24};
    static const uint32_t percents[] = {62, 47, 37, 31, 25};
    if (argc != 3) {
        fprintf(stderr, "families: give a seed and a folder: families SEED FOLDER\n");
        return 2;
    }
    uint64_t seed = strtoull(argv[1], NULL, 10);
    folder = argv[2];
    uint32_t index = 0;
    for (uint32_t i = 0; i < sizeof sizes / sizeof *sizes; i++)
        for (uint32_t number = 0; number < 2; number++) {
            uint32_t n = sizes[i];
            struct chance chance = chance_of(seed, index++);
            dyehouse(&chance, &week, n, 1, 1, 2, 6), write_week(&week, "dyehouse", number);
            dyehouse(&chance, &week, n, 2, 0, 3, 8), write_week(&week, "dyehouse", number);
            dyehouse(&chance, &week, n, 1, 0, 2, 4), write_week(&week, "tight", number);
            dyehouse(&chance, &week, n, 1, 2, 2, 6), week.alternative = 1, week.gap = number, week.helper = 1, write_week(&week, "later", number);
            random_week(&chance, &week, n, 1, 0, percents[i] * 8 / 10), write_week(&week, "random", number);
            random_week(&chance, &week, n, 1, 1, percents[i]), write_week(&week, "random", number);
            random_week(&chance, &week, n, 1, 3, percents[i] * 11 / 10), write_week(&week, "random", number);
            random_week(&chance, &week, n, 2, 1, percents[i] * 7 / 10), write_week(&week, "random", number);
            full_line(&chance, &week, n, 1, 0, n * 2 / 3, n * 2 / 3 + number), write_week(&week, "full", number);
        }
    return 0;
}
