/* What a compiler does that knows the function: gcc's own call and its own va_arg over the 30 unnamed arguments. The floor. */
#include "measure.h"
#include <stdarg.h>
#include <string.h>

static uint8_t out[30 * 8];

static void __attribute__((noinline)) walk_thirty(int first, ...)
{
    va_list list;
    va_start(list, first);
    for (int i = 0; i < 15; i++) {
        double d = va_arg(list, double);
        long l = va_arg(list, long);
        memcpy(out + 16 * i, &d, 8);
        memcpy(out + 16 * i + 8, &l, 8);
    }
    va_end(list);
    __asm__ volatile("" ::"r"(out) : "memory");
}

static int prepare(int which)
{
    return which == 4;
}

static void walk(int which)
{
    double d;
    long l;
    memcpy(&d, value[which][1], 8);
    memcpy(&l, value[which][2], 8);
#define PAIRS d, l, d, l, d, l, d, l, d, l
    walk_thirty(7, PAIRS, PAIRS, PAIRS);
}

const operation gcc_operations[] = {
    { "call and 30 va_arg by gcc", prepare, walk },
    { 0, 0, 0 }
};
