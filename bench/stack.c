/* stack WEEK: the bytes of stack that one solve of the library uses on a week, seen by what it leaves changed on a stack filled beforehand. */
#define _POSIX_C_SOURCE 200112L
#include "week.h"

#include <pthread.h>
#include <stdio.h>
#include <stdlib.h>
#include <string.h>

enum { SIZE = 1 << 20, FILLED = 0xa5 };

static struct plain_week week;
static uint8_t order[24], table[300 * 24];

static void *nothing(void *none) { return none; }

static void *solve(void *none)
{
    size_t rows = week.a == 0 ? 0 : week.a == 1 ? week.n : week.n + week.n * (week.n - 1) / 2;
    elurkantza_solve(WEEK_OF(week), order, week.n, table, rows * week.n);
    return none;
}

/* The bytes that a thread changes of its stack. */
static size_t used_by(void *(*work)(void *))
{
    uint8_t *stack = NULL;
    pthread_attr_t attr;
    pthread_t thread;
    size_t low = 0;
    if (posix_memalign((void **)&stack, 4096, SIZE)) abort();
    memset(stack, FILLED, SIZE);
    pthread_attr_init(&attr);
    if (pthread_attr_setstack(&attr, stack, SIZE) || pthread_create(&thread, &attr, work, NULL)) abort();
    pthread_join(thread, NULL);
    while (low < SIZE && stack[low] == FILLED) low++;
    free(stack);
    return SIZE - low;
}

int main(int argc, char **argv)
{
    if (argc != 2) {
        fprintf(stderr, "stack: give a block file: stack WEEK\n");
        return 2;
    }
    week_load(argv[1], &week);
    printf("%zu\n", used_by(solve) - used_by(nothing));
    return 0;
}
