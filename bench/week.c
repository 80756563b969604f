/* See week.h. */
#define _POSIX_C_SOURCE 199309L
#include "week.h"

#include <stdio.h>
#include <stdlib.h>
#include <string.h>
#include <time.h>

void week_load(const char *path, struct plain_week *week)
{
    static uint8_t file[18 * 512 + 1];
    FILE *in = fopen(path, "rb");
    if (!in) {
        fprintf(stderr, "bench: cannot read '%s'\n", path);
        exit(2);
    }
    size_t len = fread(file, 1, sizeof file, in);
    fclose(in);
    memset(week, 0, sizeof *week);
    struct elurkantza_reading read = elurkantza_read(file, len, week->domain, 24, week->loss, 24, week->give, 24, week->ties, 9216);
    if (read.answer) {
        fprintf(stderr, "bench: '%s' is refused with %u\n", path, read.answer);
        exit(2);
    }
    week->n = read.n, week->a = read.a, week->b = read.b;
    week->alternative = read.alternative, week->gap = read.gap, week->helper = read.helper;
}

double seconds(void)
{
    struct timespec now;
    clock_gettime(CLOCK_PROCESS_CPUTIME_ID, &now);
    return (double)now.tv_sec + (double)now.tv_nsec / 1e9;
}

void put_answer(uint32_t refused, const uint8_t *order, uint32_t n)
{
    if (refused) {
        printf("refused %u\n", refused);
        return;
    }
    printf("plan");
    for (uint32_t p = 0; p < n; p++) printf(" %u", order[p]);
    printf("\n");
}
