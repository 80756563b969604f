/* A week out of a block file, as the bench's programs hold it. */
#ifndef BENCH_WEEK_H
#define BENCH_WEEK_H

#include "plain.h"

/* Reads a block file by the library's own read; ends the program with a message if that is refused. */
void week_load(const char *path, struct plain_week *week);

/* Seconds of processor time that this program has used: other work on the machine does not count. */
double seconds(void);

/* The arguments that a call of the library takes for a week. */
#define WEEK_OF(w)                                                                                                  \
    (w).n, (w).a, (w).b, (w).alternative, (w).gap, (w).helper, (w).domain, (w).n, (w).loss, (w).n, (w).give, (w).n, \
        (w).ties, (size_t)(w).n * (w).n * 16

/* Prints "plan" and the slots, or "refused" and the number. */
void put_answer(uint32_t refused, const uint8_t *order, uint32_t n);

#endif
