/* calls WEEK: the time of one call of open (which judges the tables), repair (the mean over all lots lost) and save on the week's first
 * super solution, proved and plain. Prints for each: name, microseconds proved, microseconds plain. */
#include "week.h"

#include <stdio.h>
#include <string.h>

static struct plain_week week;
static uint8_t order[24], table[300 * 24], out[24];
static struct elurkantza_sheet sheet;
static uint8_t moves[2];
static uint32_t answers[2];

/* Microseconds of one call, from as many as fit into 50 ms. */
static double time_of(void (*call)(uint32_t), uint32_t round)
{
    uint32_t calls = 0;
    double began = seconds(), took;
    do {
        call(round + calls++);
        took = seconds() - began;
    } while (took < 0.05);
    return took / calls * 1e6;
}

static void open_proved(uint32_t i)
{
    struct elurkantza_opened opened = elurkantza_open(WEEK_OF(week), order, week.n);
    (void)i, answers[0] = opened.answer, sheet = opened.sheet;
}
static void open_plain(uint32_t i) { (void)i, answers[1] = plain_tables(&week); }

static void repair_proved(uint32_t i)
{
    uint8_t lost = (uint8_t)(i % week.n);
    answers[0] = elurkantza_repair(WEEK_OF(week), order, week.n, &lost, 1, out, week.n);
}
static void repair_plain(uint32_t i)
{
    uint8_t lost = (uint8_t)(i % week.n);
    answers[1] = plain_repair(&week, order, &lost, 1, out);
}

/* The lot goes to and fro; the number of saves is set back so that it never ends. */
static void turn(void)
{
    moves[1] = sheet.order[moves[0]] == order[moves[0]] ? out[0] : order[moves[0]];
    sheet.saves = sheet.marks[moves[0]] = 0;
}
static void save_proved(uint32_t i)
{
    (void)i, turn();
    answers[0] = elurkantza_save(WEEK_OF(week), &sheet, 0, moves, 2);
}
static void save_plain(uint32_t i)
{
    (void)i, turn();
    answers[1] = plain_save(&week, &sheet, 0, moves, 2);
}

/* A move of one lot that keeps the rules, into moves and out[0]. */
static bool find_move(void)
{
    for (uint8_t p = 0; p < week.n; p++)
        for (uint8_t v = 0; v < 16; v++) {
            struct elurkantza_sheet try = sheet;
            moves[0] = p, moves[1] = out[0] = v;
            if (elurkantza_save(WEEK_OF(week), &try, 0, moves, 2) == 0) return true;
        }
    return false;
}

static void put(const char *name, void (*proved)(uint32_t), void (*plain)(uint32_t))
{
    double first = time_of(proved, 0), second = time_of(plain, 0);
    printf("%s %.3f %.3f %s\n", name, first, second, answers[0] == 0 && answers[1] == 0 ? "done" : "refused");
}

int main(int argc, char **argv)
{
    if (argc != 2) {
        fprintf(stderr, "calls: give a block file: calls WEEK\n");
        return 2;
    }
    week_load(argv[1], &week);
    uint64_t tried;
    if (plain_solve(&week, order, table, &tried)) {
        fprintf(stderr, "calls: the week has no super solution\n");
        return 2;
    }
    put("tables", open_proved, open_plain);
    put("repair", repair_proved, repair_plain);
    if (find_move()) put("save", save_proved, save_plain);
    return 0;
}
