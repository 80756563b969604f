/* The worked weeks of document 01, typed from the paper and asked of both programs, and the published vectors of FNV-1a. */
#include "both.h"

#include "second.h"

#include <inttypes.h>
#include <stdio.h>
#include <string.h>

static struct week week;
static uint64_t expectations;

static void expect_number(const char *what, uint32_t got, uint32_t expected)
{
    expectations++;
    if (got != expected)
        both_differ("%s: %" PRIu32 " where document 01 has %" PRIu32, what, got, expected);
}

static void expect_slots(const char *what, const uint8_t *got, const char *expected, size_t count)
{
    expectations++;
    for (size_t i = 0; i < count; i++)
        if (got[i] != (uint8_t)(expected[i] - '0'))
            both_differ("%s: byte %zu is %u where document 01 has %c", what, i, got[i], expected[i]);
}

/* Week F: domains {1,2,3}, lot 0 <= lot 1 and lot 1 <= lot 2. */
static void week_f(uint32_t a, uint32_t b)
{
    week_plain(&week, 3, a, b, 14);
    for (uint32_t p = 0; p < 2; p++)
        for (uint8_t v = 1; v <= 3; v++)
            for (uint8_t w = 1; w < v; w++)
                week_forbid(&week, p, v, p + 1, w);
}

/* The two lots of source 001: in {1,2}, together only 2 2, 1 2 and 2 1. */
static void week_two(uint32_t a, uint32_t b)
{
    week_plain(&week, 2, a, b, 6);
    week_forbid(&week, 0, 1, 1, 1);
}

/* Solves the week at hand; slots are written as digits, the table's rows one behind the other. Check must accept it. */
static void expect_plan(const char *what, const char *order, const char *table)
{
    uint8_t got_order[MOST_LOTS], got_table[64];
    size_t n = week.n, table_len = rows_of(n, week.a) * n;
    memset(got_order, 0xee, sizeof got_order);
    memset(got_table, 0xee, sizeof got_table);
    expect_number(what, both_solve(&week, got_order, n, got_table, table_len), 0);
    expect_slots(what, got_order, order, n);
    expect_number(what, (uint32_t)strlen(table), (uint32_t)table_len);
    expect_slots(what, got_table, table, table_len);
    expect_number(what, both_check(&week, got_order, n, got_table, table_len).answer, 0);
}

static void expect_refused(const char *what, uint32_t number)
{
    uint8_t order[ROOM], table[2 * MOST_LOTS * MOST_LOTS];
    memset(order, 0xee, sizeof order);
    memset(table, 0xee, sizeof table);
    expect_number(what, both_solve(&week, order, week.n, table, rows_of(week.n, 1) * week.n), number);
}

static void solved_weeks(void)
{
    week_f(0, 0);
    expect_plan("F at a=0", "111", "");
    week_f(1, 0);
    expect_plan("F at (1,0)", "122", "222112123");
    week_f(1, 1);
    expect_plan("F at (1,1)", "112", "222122111");
    week_f(1, 2);
    expect_plan("F at (1,2)", "111", "222122112");
    week_f(2, 0);
    expect_plan("F at (2,0)", "123", "223113122233222111");
    week_f(1, 0);
    week.alternative = 1;
    expect_refused("F at (1,0), alternative rule", 5);
    week.loss[2] = 0;
    expect_plan("F at (1,0), alternative rule, lot 2 never lost", "123", "223133123");
    week_plain(&week, 1, 1, 0, 8);
    expect_refused("one lot in slot 3", 5);
    week.loss[0] = 0;
    expect_plan("one lot in slot 3, never lost", "3", "3");
    week_two(1, 0);
    expect_plan("two lots at (1,0)", "22", "1221");
    week_two(1, 1);
    expect_plan("two lots at (1,1)", "12", "2121");
}

/* In F, 1 2 2 is a (1,0)-super solution and no (2,0) one: with lots 0 and 1 lost there is no repair. */
static void false_law(void)
{
    static const uint8_t order[3] = {1, 2, 2}, lost[2] = {0, 1};
    uint8_t out[3] = {9, 9, 9};
    week_f(2, 0);
    expect_number("F at (2,0), 1 2 2 with 0 and 1 lost", both_repair(&week, order, 3, lost, 2, out, 3), 8);
    expect_slots("the buffer of that repair", out, "999", 3);
}

static void limits(void)
{
    week_plain(&week, 25, 1, 0, 14);
    expect_refused("n = 25", 1);
    week_f(3, 0);
    expect_refused("a = 3", 1);
    week_f(1, 0);
    week.alternative = 1;
    week.gap = 16;
    expect_refused("a gap of 16", 1);
}

/* n = 24 and a = 2 have 300 rows, the last that of lots 22 and 23. With nothing ever lost every row is the order. */
static void three_hundred_rows(void)
{
    static uint8_t order[24], table[300 * 24], out[24];
    static const uint8_t last[2] = {22, 23};
    week_plain(&week, 24, 2, 0, 1 << 5);
    memset(week.loss, 0, sizeof week.loss);
    memset(order, 5, sizeof order);
    memset(table, 5, sizeof table);
    expect_number("300 rows", both_check(&week, order, 24, table, 300 * 24).answer, 0);
    expect_number("299 rows", both_check(&week, order, 24, table, 299 * 24).answer, 2);
    table[299 * 24 + 23] = 6;
    struct elurkantza_checked wrong = both_check(&week, order, 24, table, 300 * 24);
    expect_number("row 299 wrong", wrong.answer, 7);
    expect_number("the number of that row", wrong.row, 299);
    expect_number("row of 22 and 23", both_row(24, 2, order, 24, table, 300 * 24, last, 2, out, 24), 0);
    expect_number("its last slot", out[23], 6);
    expect_number("row with 299 rows", both_row(24, 2, order, 24, table, 299 * 24, last, 2, out, 24), 2);
}

static void sheet_on_f(void)
{
    static const uint8_t opened[3] = {1, 2, 3}, lot2_to_2[2] = {2, 2}, lot0_to_2[2] = {0, 2}, lot1_to_3[2] = {1, 3};
    week_f(1, 0);
    struct elurkantza_opened new = both_open(&week, opened, 3);
    struct elurkantza_sheet sheet = new.sheet;
    expect_number("open", new.answer, 0);
    struct elurkantza_copied first = both_copy(&week, sheet), other = both_copy(&week, sheet);
    expect_number("first copy", first.answer, 0);
    expect_number("other copy", other.answer, 0);
    expect_number("first copy's number", first.copy, 0);
    expect_number("other copy's number", other.copy, 0);
    expect_slots("what was copied", first.order, "123000000000000000000000", 24);
    expect_number("lot 2 to slot 2", both_save(&week, &sheet, first.copy, lot2_to_2, 2), 0);
    struct elurkantza_sheet saved_once = sheet;
    expect_number("then lot 1 to slot 3 from copy 0", both_save(&week, &saved_once, other.copy, lot1_to_3, 2), 12);
    expect_number("then lot 0 to slot 2 from copy 0", both_save(&week, &sheet, other.copy, lot0_to_2, 2), 0);
    expect_slots("the sheet's order", sheet.order, "222", 3);
    expect_number("its save number", sheet.saves, 2);
}

static void hash_vectors(void)
{
    static const struct {
        const char *text;
        uint32_t hash;
    } vectors[] = {
        {"", 0x811c9dc5}, {"a", 0xe40c292c}, {"b", 0xe70c2de5}, {"c", 0xe60c2c52}, {"fo", 0x6222e842},
        {"foo", 0xa9f37ed7}, {"foob", 0x3f5076ef}, {"fooba", 0x39aaa18a}, {"foobar", 0xbf9cf968},
    };
    for (size_t i = 0; i < sizeof vectors / sizeof *vectors; i++) {
        const char *text = vectors[i].text;
        expect_number("an FNV-1a vector", second_hash((const uint8_t *)text, strlen(text)), vectors[i].hash);
    }
}

int main(void)
{
    solved_weeks();
    false_law();
    limits();
    three_hundred_rows();
    sheet_on_f();
    hash_vectors();
    printf("worked: %" PRIu64 " expectations met in %" PRIu64 " calls\n", expectations, both_calls());
    return 0;
}
