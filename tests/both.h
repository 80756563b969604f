/* One call, both programs. Each function here lends the same bytes to the library and to the second program, in buffers with
 * guard bytes around them, and compares the answers and every byte afterwards. A difference ends the run with status 1,
 * after everything that was lent is printed.
 *
 * Beyond the comparison, the library alone is held to what document 01 says of every call: it answers 0 or a number of that
 * service; bytes around the buffers and inputs stay as they were; refused, lent buffers stay as they were and what comes by
 * value is 0.
 *
 * A buffer's content is lent as it stands, and what the call leaves in it is handed back; what comes by value is handed on. */
#ifndef BOTH_H
#define BOTH_H

#include "elurkantza.h"
#include "weeks.h"

enum service { SOLVE, CHECK, REPAIR, ROW, OPEN, COPY, SAVE, READ, WRITE, SERVICES };

/* What a file's tables are read into. The lengths are those that are lent, right or wrong. */
struct buffers {
    uint16_t domain[ROOM], loss[ROOM], give[ROOM], ties[MOST_TIE_WORDS + SLOTS];
    size_t domain_len, loss_len, give_len, ties_len;
};

void buffers_fill(struct buffers *buffers); /* right lengths, and full of content that no file could give */

uint32_t both_solve(const struct week *week, uint8_t *order, size_t order_len, uint8_t *table, size_t table_len);
struct elurkantza_checked both_check(const struct week *week, const uint8_t *order, size_t order_len,
                                     const uint8_t *table, size_t table_len);
uint32_t both_repair(const struct week *week, const uint8_t *order, size_t order_len, const uint8_t *lost,
                     size_t lost_len, uint8_t *out, size_t out_len);
uint32_t both_row(uint32_t n, uint32_t a, const uint8_t *order, size_t order_len, const uint8_t *table,
                  size_t table_len, const uint8_t *lost, size_t lost_len, uint8_t *out, size_t out_len);
struct elurkantza_opened both_open(const struct week *week, const uint8_t *order, size_t order_len);
struct elurkantza_copied both_copy(const struct week *week, struct elurkantza_sheet sheet);
uint32_t both_save(const struct week *week, struct elurkantza_sheet *sheet, uint32_t copy, const uint8_t *moves,
                   size_t moves_len);
struct elurkantza_reading both_read(const uint8_t *file, size_t file_len, struct buffers *buffers);
uint32_t both_write(const struct week *week, uint8_t *file, size_t file_len);

/* How a run with chance is called: SEED COUNT [FIRST]. With FIRST it repeats a part of another run, and is not asked how often
 * anything came. */
struct run {
    uint64_t seed, count, first;
    bool repeats;
};

/* The run that the arguments ask for; with too few of them the usage is printed, and the program ends with status 2. */
struct run both_run(int count, char **arguments, const char *usage);

/* Says where the run stands, for the report of a difference. */
void both_at(const char *program, const char *what, uint64_t seed, uint64_t index);

/* Reports what the library got wrong at the last call and ends the run. */
_Noreturn void both_differ(const char *format, ...);

/* How often a service answered with a number, and how many calls there were in all. */
uint64_t both_count(enum service service, uint32_t number);
uint64_t both_calls(void);
void both_print_counts(void);

/* Prints what came less often than it must; false if anything did. `least_often` is for every number of every service. */
bool both_often_enough(uint64_t least_often);
bool often_enough(const char *what, uint64_t count, uint64_t least);

#endif
