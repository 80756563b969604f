/* One call, both programs; see both.h. */
#include "both.h"

#include "second.h"

#include <inttypes.h>
#include <stdarg.h>
#include <stdio.h>
#include <stdlib.h>
#include <string.h>

static const char *const service_names[SERVICES] = {
    "solve", "check", "repair", "row", "open", "copy", "save", "read", "write",
};

enum { NUMBERS = 19 };

/* Bit r is set if the service may answer with r. */
static const uint32_t answers[SERVICES] = {
    [SOLVE] = 1 << 0 | 1 << 1 | 1 << 2 | 1 << 3 | 1 << 4 | 1 << 5,
    [CHECK] = 1 << 0 | 1 << 1 | 1 << 2 | 1 << 3 | 1 << 4 | 1 << 6 | 1 << 7,
    [REPAIR] = 1 << 0 | 1 << 1 | 1 << 2 | 1 << 3 | 1 << 4 | 1 << 6 | 1 << 8,
    [ROW] = 1 << 0 | 1 << 1 | 1 << 2,
    [OPEN] = 1 << 0 | 1 << 1 | 1 << 2 | 1 << 3 | 1 << 4 | 1 << 6,
    [COPY] = 1 << 0 | 1 << 1 | 1 << 2 | 1 << 3 | 1 << 4 | 1 << 9,
    [SAVE] = 1 << 0 | 1 << 1 | 1 << 2 | 1 << 3 | 1 << 4 | 1 << 9 | 1 << 10 | 1 << 11 | 1 << 12 | 1 << 13 | 1 << 14,
    [READ] = 1 << 0 | 1 << 1 | 1 << 2 | 1 << 3 | 1 << 4 | 1 << 15 | 1 << 16 | 1 << 17 | 1 << 18,
    [WRITE] = 1 << 0 | 1 << 1 | 1 << 2 | 1 << 3 | 1 << 4,
};

static uint64_t counts[SERVICES][NUMBERS];

/* ---- Loans ---- */

/* KEPT: an input, never written. LENT: written only if the call is not refused. */
enum loan { KEPT, LENT };

/* A lent buffer: where it lies in each program's room, and where its content goes back to. */
struct part {
    const char *name;
    enum loan loan;
    size_t width, at, size;
    void *back;
};

/* What both programs give by value beside their answer, as bytes. */
struct value {
    const char *name;
    size_t size;
    uint8_t library[sizeof(struct elurkantza_sheet)], second[sizeof(struct elurkantza_sheet)];
};

enum { GUARD = 16, PARTS = 12, VALUES = 2, BYTES = 1 << 17 };

/* The same loans thrice: as they were, as the library leaves them, as the second program leaves them. The rooms hold words
 * and numbers too, which want even places. */
static _Alignas(16) uint8_t before[BYTES], library[BYTES], second[BYTES];
static struct part parts[PARTS];
static size_t part_count, used;
static struct value values[VALUES];
static size_t value_count;

/* The call under way. */
static enum service service;
static const struct week *week;
static struct {
    uint32_t n, a, copy;
} loose; /* numbers of a call that no week holds: row's n and a, save's copy number */

static struct {
    const char *program, *what;
    uint64_t seed, index;
} place; /* no program: a run without chance */

static void begin(enum service called, const struct week *with)
{
    service = called;
    week = with;
    part_count = used = value_count = 0;
}

static size_t lend(const char *name, enum loan loan, size_t width, const void *content, size_t count, void *back)
{
    size_t size = count * width, at = (used + GUARD + 15) / 16 * 16;
    struct part part = {name, loan, width, at, size, back};
    if (part_count == PARTS || at + size + GUARD > BYTES)
        abort();
    memset(before + used, 0xa5, at - used);
    memcpy(before + at, content, size);
    memset(before + at + size, 0x5a, GUARD);
    used = at + size + GUARD;
    parts[part_count++] = part;
    return at;
}

static size_t keep(const char *name, size_t width, const void *content, size_t count)
{
    return lend(name, KEPT, width, content, count, NULL);
}

static size_t lend_bytes(const char *name, enum loan loan, uint8_t *bytes, size_t count)
{
    return lend(name, loan, 1, bytes, count, bytes);
}

struct tables {
    size_t domain, loss, give, ties;
};

static struct tables keep_tables(void)
{
    struct tables at;
    at.domain = keep("domain", 2, week->domain, week->domain_len);
    at.loss = keep("loss", 2, week->loss, week->loss_len);
    at.give = keep("give", 2, week->give, week->give_len);
    at.ties = keep("ties", 2, week->ties, week->ties_len);
    return at;
}

static void hand_out(void)
{
    memcpy(library, before, used);
    memcpy(second, before, used);
}

/* Notes what both programs gave by value. */
static void give(const char *name, const void *library_value, const void *second_value, size_t size)
{
    struct value *value = &values[value_count++];
    if (value_count > VALUES || size > sizeof value->library)
        abort();
    value->name = name;
    value->size = size;
    memcpy(value->library, library_value, size);
    memcpy(value->second, second_value, size);
}

/* ---- Runs ---- */

struct run both_run(int count, char **arguments, const char *usage)
{
    if (count < 3) {
        fprintf(stderr, "%s\n", usage);
        exit(2);
    }
    return (struct run){
        .seed = strtoull(arguments[1], NULL, 0),
        .count = strtoull(arguments[2], NULL, 0),
        .first = count > 3 ? strtoull(arguments[3], NULL, 0) : 0,
        .repeats = count > 3,
    };
}

/* ---- Reports ---- */

void both_at(const char *program, const char *what, uint64_t seed, uint64_t index)
{
    place.program = program;
    place.what = what;
    place.seed = seed;
    place.index = index;
}

static void print_part(const char *when, const uint8_t *room, const struct part *part)
{
    printf("  %-8s %s:", part->name, when);
    for (size_t i = 0; i < part->size; i += part->width) {
        uint32_t element = 0;
        memcpy(&element, room + part->at + i, part->width < 4 ? part->width : 4);
        printf(part->width == 1 ? " %" PRIu32 : " %" PRIx32, element);
    }
    printf("\n");
}

static void print_sheet(const char *when, const uint8_t *room, const struct part *part)
{
    struct elurkantza_sheet sheet;
    memcpy(&sheet, room + part->at, sizeof sheet);
    printf("  sheet    %s: n %" PRIu32 ", saves %" PRIu32 ", order", when, sheet.n, sheet.saves);
    for (int p = 0; p < MOST_LOTS; p++)
        printf(" %u", sheet.order[p]);
    printf(", marks");
    for (int p = 0; p < MOST_LOTS; p++)
        printf(" %" PRIu32, sheet.marks[p]);
    printf("\n");
}

static void print(const char *when, const uint8_t *room, const struct part *part)
{
    if (part->width == sizeof(struct elurkantza_sheet))
        print_sheet(when, room, part);
    else
        print_part(when, room, part);
}

static void print_value(const char *whose, const struct value *value, const uint8_t *bytes)
{
    printf("  %-8s %s, given by value, bytes:", value->name, whose);
    for (size_t i = 0; i < value->size; i++)
        printf(" %u", bytes[i]);
    printf("\n");
}

static void print_call(void)
{
    if (service == ROW)
        printf("  n %" PRIu32 ", a %" PRIu32 "\n", loose.n, loose.a);
    else if (service != READ)
        printf("  n %" PRIu32 ", a %" PRIu32 ", b %" PRIu32 ", alternative %" PRIu32 ", gap %" PRIu32 ", helper %" PRIu32
               "\n", week->n, week->a, week->b, week->alternative, week->gap, week->helper);
    if (service == SAVE)
        printf("  copy number %" PRIu32 "\n", loose.copy);
    for (size_t i = 0; i < part_count; i++) {
        print("lent", before, &parts[i]);
        if (memcmp(library + parts[i].at, before + parts[i].at, parts[i].size) != 0)
            print("the library's", library, &parts[i]);
        if (memcmp(second + parts[i].at, before + parts[i].at, parts[i].size) != 0)
            print("the second program's", second, &parts[i]);
    }
    for (size_t i = 0; i < value_count; i++) {
        print_value("the library's", &values[i], values[i].library);
        print_value("the second program's", &values[i], values[i].second);
    }
}

_Noreturn void both_differ(const char *format, ...)
{
    va_list values;
    printf("differs: %s, ", service_names[service]);
    va_start(values, format);
    vprintf(format, values);
    va_end(values);
    printf("\n");
    if (place.program != NULL)
        printf("at %s %" PRIu64 " of seed %" PRIu64 "; again with: %s %" PRIu64 " 1 %" PRIu64 "\n", place.what, place.index,
               place.seed, place.program, place.seed, place.index);
    printf("the last call (tables in hex, all else in decimals):\n");
    print_call();
    fflush(stdout);
    exit(1);
}

/* ---- Judging a call ---- */

static bool all_zero(const uint8_t *bytes, size_t size)
{
    for (size_t i = 0; i < size; i++)
        if (bytes[i] != 0)
            return false;
    return true;
}

/* Everything outside the parts that may be written must be as it was. */
static void judge_guards(const char *who, const uint8_t *room)
{
    size_t from = 0;
    for (size_t i = 0; i <= part_count; i++) {
        size_t to = i == part_count ? used : parts[i].at;
        if (i < part_count && parts[i].loan == KEPT)
            continue;
        if (memcmp(room + from, before + from, to - from) != 0)
            both_differ("%s wrote to an input or around a lent buffer", who);
        if (i < part_count)
            from = parts[i].at + parts[i].size;
    }
}

/* What document 01 says of every refused call, whatever the second program thinks of it. */
static void judge_refused(uint32_t number)
{
    for (size_t i = 0; i < part_count; i++) {
        const struct part *part = &parts[i];
        if (memcmp(library + part->at, before + part->at, part->size) != 0)
            both_differ("refused %" PRIu32 ", the library wrote to '%s'", number, part->name);
    }
    for (size_t i = 0; i < value_count; i++)
        if (!(service == CHECK && number == 7) && !all_zero(values[i].library, values[i].size))
            both_differ("refused %" PRIu32 ", the library's '%s' is not 0", number, values[i].name);
}

static uint32_t settle(uint32_t number, uint32_t second_number)
{
    if (number != second_number)
        both_differ("the library answers %" PRIu32 ", the second program %" PRIu32, number, second_number);
    if (number >= NUMBERS || (answers[service] >> number & 1) == 0)
        both_differ("%" PRIu32 " is no answer of this service", number);
    judge_guards("the library", library);
    judge_guards("the second program", second);
    if (number != 0)
        judge_refused(number);
    if (memcmp(library, second, used) != 0)
        both_differ("both answer %" PRIu32 " and leave different bytes", number);
    for (size_t i = 0; i < value_count; i++)
        if (memcmp(values[i].library, values[i].second, values[i].size) != 0)
            both_differ("both answer %" PRIu32 " and give another '%s'", number, values[i].name);
    for (size_t i = 0; i < part_count; i++)
        if (parts[i].loan == LENT && number == 0)
            memcpy(parts[i].back, library + parts[i].at, parts[i].size);
    counts[service][number]++;
    return number;
}

/* ---- The services ---- */

#define WORDS(room, place) ((uint16_t *)(void *)((room) + (place)))
#define SHEET(room, place) ((struct elurkantza_sheet *)(void *)((room) + (place)))

/* The numbers and tables of the week, the tables from one program's room. */
#define WEEK_IN(room)                                                                                                  \
    week->n, week->a, week->b, week->alternative, week->gap, week->helper,                                             \
        WORDS(room, at.domain), week->domain_len, WORDS(room, at.loss), week->loss_len,                                \
        WORDS(room, at.give), week->give_len, WORDS(room, at.ties), week->ties_len

uint32_t both_solve(const struct week *with, uint8_t *order, size_t order_len, uint8_t *table, size_t table_len)
{
    begin(SOLVE, with);
    struct tables at = keep_tables();
    size_t o = lend_bytes("order", LENT, order, order_len);
    size_t t = lend_bytes("table", LENT, table, table_len);
    hand_out();
    return settle(elurkantza_solve(WEEK_IN(library), library + o, order_len, library + t, table_len),
                  second_solve(WEEK_IN(second), second + o, order_len, second + t, table_len));
}

struct elurkantza_checked both_check(const struct week *with, const uint8_t *order, size_t order_len,
                                     const uint8_t *table, size_t table_len)
{
    begin(CHECK, with);
    struct tables at = keep_tables();
    size_t o = keep("order", 1, order, order_len);
    size_t t = keep("table", 1, table, table_len);
    hand_out();
    struct elurkantza_checked ours = elurkantza_check(WEEK_IN(library), library + o, order_len, library + t, table_len);
    struct elurkantza_checked theirs = second_check(WEEK_IN(second), second + o, order_len, second + t, table_len);
    give("row", &ours.row, &theirs.row, sizeof ours.row);
    settle(ours.answer, theirs.answer);
    return ours;
}

uint32_t both_repair(const struct week *with, const uint8_t *order, size_t order_len, const uint8_t *lost,
                     size_t lost_len, uint8_t *out, size_t out_len)
{
    begin(REPAIR, with);
    struct tables at = keep_tables();
    size_t o = keep("order", 1, order, order_len);
    size_t l = keep("lost", 1, lost, lost_len);
    size_t r = lend_bytes("out", LENT, out, out_len);
    hand_out();
    return settle(
        elurkantza_repair(WEEK_IN(library), library + o, order_len, library + l, lost_len, library + r, out_len),
        second_repair(WEEK_IN(second), second + o, order_len, second + l, lost_len, second + r, out_len));
}

uint32_t both_row(uint32_t n, uint32_t a, const uint8_t *order, size_t order_len, const uint8_t *table,
                  size_t table_len, const uint8_t *lost, size_t lost_len, uint8_t *out, size_t out_len)
{
    begin(ROW, NULL);
    loose.n = n;
    loose.a = a;
    size_t o = keep("order", 1, order, order_len);
    size_t t = keep("table", 1, table, table_len);
    size_t l = keep("lost", 1, lost, lost_len);
    size_t r = lend_bytes("out", LENT, out, out_len);
    hand_out();
    return settle(elurkantza_row(n, a, library + o, order_len, library + t, table_len, library + l, lost_len,
                                 library + r, out_len),
                  second_row(n, a, second + o, order_len, second + t, table_len, second + l, lost_len, second + r,
                             out_len));
}

struct elurkantza_opened both_open(const struct week *with, const uint8_t *order, size_t order_len)
{
    begin(OPEN, with);
    struct tables at = keep_tables();
    size_t o = keep("order", 1, order, order_len);
    hand_out();
    struct elurkantza_opened ours = elurkantza_open(WEEK_IN(library), library + o, order_len);
    struct elurkantza_opened theirs = second_open(WEEK_IN(second), second + o, order_len);
    give("sheet", &ours.sheet, &theirs.sheet, sizeof ours.sheet);
    settle(ours.answer, theirs.answer);
    return ours;
}

/* The sheet goes over by value; it is kept in the rooms too, so that it is printed with a difference. */
struct elurkantza_copied both_copy(const struct week *with, struct elurkantza_sheet sheet)
{
    begin(COPY, with);
    struct tables at = keep_tables();
    size_t s = keep("sheet", sizeof sheet, &sheet, 1);
    hand_out();
    struct elurkantza_copied ours = elurkantza_copy(WEEK_IN(library), *SHEET(library, s));
    struct elurkantza_copied theirs = second_copy(WEEK_IN(second), *SHEET(second, s));
    give("copy", &ours.copy, &theirs.copy, sizeof ours.copy);
    give("order", ours.order, theirs.order, sizeof ours.order);
    settle(ours.answer, theirs.answer);
    return ours;
}

uint32_t both_save(const struct week *with, struct elurkantza_sheet *sheet, uint32_t copy, const uint8_t *moves,
                   size_t moves_len)
{
    begin(SAVE, with);
    loose.copy = copy;
    struct tables at = keep_tables();
    size_t s = lend("sheet", LENT, sizeof *sheet, sheet, 1, sheet);
    size_t m = keep("moves", 1, moves, moves_len);
    hand_out();
    return settle(elurkantza_save(WEEK_IN(library), SHEET(library, s), copy, library + m, moves_len),
                  second_save(WEEK_IN(second), SHEET(second, s), copy, second + m, moves_len));
}

void buffers_fill(struct buffers *buffers)
{
    memset(buffers, 0xc3, sizeof *buffers);
    buffers->domain_len = buffers->loss_len = buffers->give_len = MOST_LOTS;
    buffers->ties_len = MOST_TIE_WORDS;
}

#define BUFFERS_IN(room)                                                                                               \
    WORDS(room, d), to->domain_len, WORDS(room, l), to->loss_len, WORDS(room, g), to->give_len, WORDS(room, t), to->ties_len

struct elurkantza_reading both_read(const uint8_t *file, size_t file_len, struct buffers *to)
{
    begin(READ, NULL);
    size_t f = keep("file", 1, file, file_len);
    size_t d = lend("domain", LENT, 2, to->domain, to->domain_len, to->domain);
    size_t l = lend("loss", LENT, 2, to->loss, to->loss_len, to->loss);
    size_t g = lend("give", LENT, 2, to->give, to->give_len, to->give);
    size_t t = lend("ties", LENT, 2, to->ties, to->ties_len, to->ties);
    hand_out();
    struct elurkantza_reading ours = elurkantza_read(library + f, file_len, BUFFERS_IN(library));
    struct elurkantza_reading theirs = second_read(second + f, file_len, BUFFERS_IN(second));
    give("numbers", &ours.n, &theirs.n, sizeof ours - sizeof ours.answer);
    settle(ours.answer, theirs.answer);
    return ours;
}

uint32_t both_write(const struct week *with, uint8_t *file, size_t file_len)
{
    begin(WRITE, with);
    struct tables at = keep_tables();
    size_t f = lend_bytes("file", LENT, file, file_len);
    hand_out();
    return settle(elurkantza_write(WEEK_IN(library), library + f, file_len),
                  second_write(WEEK_IN(second), second + f, file_len));
}

/* ---- Counts ---- */

uint64_t both_count(enum service which, uint32_t number)
{
    return counts[which][number];
}

uint64_t both_calls(void)
{
    uint64_t calls = 0;
    for (int s = 0; s < SERVICES; s++)
        for (int r = 0; r < NUMBERS; r++)
            calls += counts[s][r];
    return calls;
}

void both_print_counts(void)
{
    printf("%-6s", "");
    for (int s = 0; s < SERVICES; s++)
        printf(" %8s", service_names[s]);
    printf("\n");
    for (int r = 0; r < NUMBERS; r++) {
        printf("%6d", r);
        for (int s = 0; s < SERVICES; s++)
            if ((answers[s] >> r & 1) != 0)
                printf(" %8" PRIu64, counts[s][r]);
            else
                printf(" %8s", "");
        printf("\n");
    }
}

bool often_enough(const char *what, uint64_t count, uint64_t least)
{
    if (count >= least)
        return true;
    printf("too few: %s came %" PRIu64 " times and must come at least %" PRIu64 "\n", what, count, least);
    return false;
}

bool both_often_enough(uint64_t least_often)
{
    bool enough = true;
    for (int s = 0; s < SERVICES; s++)
        for (int r = 0; r < NUMBERS; r++)
            if ((answers[s] >> r & 1) != 0) {
                char what[32];
                snprintf(what, sizeof what, "%s %d", service_names[s], r);
                enough = often_enough(what, counts[s][r], least_often) && enough;
            }
    return enough;
}
