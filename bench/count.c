#define _POSIX_C_SOURCE 199309L
#include "count.h"
#include <stdio.h>
#include <time.h>
#ifdef CALLGRIND
#include <valgrind/callgrind.h>
#else
#define CALLGRIND_ZERO_STATS
#define CALLGRIND_TOGGLE_COLLECT
#define CALLGRIND_DUMP_STATS_AT(name)
#endif

enum { BATCHES = 25, LONGER = 20 };  /* a batch is so many times longer than what is counted: the clock itself takes some 25 ns */

/* Between the two, bench/qemu_counter.c counts. */
void __attribute__((noinline)) count_begins(void)
{
    __asm__ volatile("");
}

void __attribute__((noinline)) count_ends(void)
{
    __asm__ volatile("");
}

static double now(void)
{
    struct timespec t;
    clock_gettime(CLOCK_MONOTONIC, &t);
    return 1e9 * (double)t.tv_sec + (double)t.tv_nsec;
}

static void repeat(int which, int times, void (*call)(int))
{
    for (int i = 0; i < times; i++) {
        call(which);
    }
}

/* Nanoseconds of one call: the least of some batches, since whatever else runs only adds to them. */
static double shortest(int which, int times, void (*call)(int))
{
    double least = 1e18;
    for (int batch = 0; batch < BATCHES; batch++) {
        double start = now();
        repeat(which, LONGER * times, call);
        double took = now() - start;
        least = took < least ? took : least;
    }
    return least / (LONGER * times);
}

void count(const char *operation, int which, int times, void (*call)(int))
{
    char name[128];
    snprintf(name, sizeof name, "%d/%s/%d", which, operation, times);
    call(which);  /* the linker's first call */
    CALLGRIND_ZERO_STATS;
    CALLGRIND_TOGGLE_COLLECT;
    count_begins();
    repeat(which, times, call);
    count_ends();
    CALLGRIND_TOGGLE_COLLECT;
    CALLGRIND_DUMP_STATS_AT(name);
#ifdef CLOCK
    printf("@%s/%.2f\n", name, shortest(which, times, call));
#else
    (void)shortest;
    printf("@%s/\n", name);
#endif
}
