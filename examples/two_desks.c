/* Solves a week, and shows two desks at its sheet: the second desk's save is told that its copy is stale.
 *
 *   two_desks [FILE]    FILE is a block file; without it, weeks/f_10.blk is read */
#include <elurkantza.h>
#include <stdio.h>
#include <string.h>

static struct elurkantza_reading week;
static uint16_t domain[24], loss[24], give[24], ties[9216];

/* The week as every call takes it. */
#define LOTS week.n
#define WEEK                                                                     \
    LOTS, week.a, week.b, week.alternative, week.gap, week.helper,               \
    domain, LOTS, loss, LOTS, give, LOTS, ties, (size_t)LOTS * LOTS * 16

static int refused(const char *call, uint32_t number) {
    printf("%s: refused %u\n", call, (unsigned)number);
    return 1;
}

static void print_slots(const uint8_t *slots) {
    for (uint32_t p = 0; p < LOTS; p++)
        printf(" %u", slots[p]);
    printf("\n");
}

/* The first move that the sheet would take: each lot to each other slot, tried on a sheet of its own. */
static uint32_t find_move(const struct elurkantza_sheet *sheet, uint32_t copy, uint8_t move[2]) {
    uint32_t answer = 13;
    for (uint8_t p = 0; p < LOTS; p++)
        for (uint8_t v = 0; v < 16; v++) {
            struct elurkantza_sheet draft = *sheet;
            move[0] = p, move[1] = v;
            answer = elurkantza_save(WEEK, &draft, copy, move, 2);
            if (answer == 0)
                return 0;
        }
    return answer;
}

int main(int count, char **words) {
    const char *path = count > 1 ? words[1] : "weeks/f_10.blk";
    static uint8_t file[9217];
    FILE *in = fopen(path, "rb");
    if (in == NULL) {
        fprintf(stderr, "two_desks: cannot open %s\n", path);
        return 1;
    }
    size_t length = fread(file, 1, sizeof file, in);
    fclose(in);

    week = elurkantza_read(file, length, domain, 24, loss, 24, give, 24, ties, 9216);
    if (week.answer != 0)
        return refused("read", week.answer);

    uint32_t lots = LOTS, a = week.a;
    size_t rows = a == 0 ? 0 : a == 1 ? lots : lots + lots * (lots - 1) / 2;
    static uint8_t order[24], table[300 * 24];
    uint32_t answer = elurkantza_solve(WEEK, order, lots, table, rows * lots);
    if (answer != 0)
        return refused("solve", answer);
    printf("the plan:");
    print_slots(order);
    for (uint8_t p = 0; a > 0 && p < lots; p++) {
        uint8_t run[24];
        elurkantza_row(lots, a, order, lots, table, rows * lots, &p, 1, run, lots);
        printf("with lot %u lost:", p);
        print_slots(run);
    }

    struct elurkantza_opened opened = elurkantza_open(WEEK, order, lots);
    if (opened.answer != 0)
        return refused("open", opened.answer);
    struct elurkantza_sheet sheet = opened.sheet;

    /* both desks copy, and both mean to make the same move */
    struct elurkantza_copied first = elurkantza_copy(WEEK, sheet), second = elurkantza_copy(WEEK, sheet);
    uint8_t move[2];
    printf("both desks copy at save number %u\n", (unsigned)first.copy);
    answer = find_move(&sheet, first.copy, move);
    if (answer != 0) {
        printf("no lot can be moved on its own in this week\n");
        return 0;
    }

    answer = elurkantza_save(WEEK, &sheet, first.copy, move, 2);
    printf("the first desk moves lot %u from slot %u to slot %u: answer %u, the sheet is", move[0], first.order[move[0]], move[1], (unsigned)answer);
    print_slots(sheet.order);

    /* the second desk does not know, and would move the same lot back to where its copy has it */
    uint8_t back[2] = {move[0], second.order[move[0]]};
    answer = elurkantza_save(WEEK, &sheet, second.copy, back, 2);
    printf("the second desk moves lot %u to slot %u from its old copy: answer %u, the sheet is", back[0], back[1], (unsigned)answer);
    print_slots(sheet.order);

    /* it copies again, sees what was done, and may move it now */
    second = elurkantza_copy(WEEK, sheet);
    answer = elurkantza_save(WEEK, &sheet, second.copy, back, 2);
    printf("from a new copy, number %u: answer %u, the sheet is", (unsigned)second.copy, (unsigned)answer);
    print_slots(sheet.order);
    return 0;
}
