/* What examples/call/load.c prints, by gcc's own calls: module.c is linked in, and the functions are called by their prototypes. */
#include "module.h"

#include <math.h>
#include <stdarg.h>
#include <stdio.h>
#include <stdlib.h>

static void calls(void)
{
    volatile double base = 2, exponent = 0.5; /* so that pow is called, and not worked out by gcc */
    char text[64];
    int written = snprintf(text, sizeof text, "%d %s %.1f %ld %Lg", -5, "words", 2.5, 1L << 40, 0.125L);
    note of = {60, 0.25}, raised = louder(of, 0.5);
    chord made = chord_on(60), crowded = {{10, 20, 30, 40}}, unused = {{0}};
    long double complex number = turned(1.5L + 2.5L * I);
    int128 square = squared(1L << 62);
    note last = {12, 13.5};
    printf("pow: %.17g\n", pow(base, exponent));
    printf("snprintf: %s (%d)\n", text, written);
    printf("loudness: %g\n", loudness(of));
    printf("louder: %d %g\n", raised.key, raised.level);
    printf("is_loud: %d\n", is_loud(raised));
    printf("chord_on: %ld %ld %ld %ld\n", made.keys[0], made.keys[1], made.keys[2], made.keys[3]);
    printf("halved: %.20Lg\n", halved(1.0L / 3));
    printf("turned: %Lg %Lg\n", creall(number), cimagl(number));
    printf("sign_of: %d\n", sign_of(-7));
    printf("rounded: %.9g\n", rounded(0.1));
    printf("squared: %#lx %#lx\n", (unsigned long)(square >> 64), (unsigned long)square);
    printf("mean: %g\n", mean(2, 1, 0.5, 2, 0.25, 3.0L));
    printf("crowd: %.17g\n",
           crowd(1, 0.5, crowded, 2, 3, 4, 5, 6, 8.5f, 1.5, 2.5, 3.5, 4.5, 5.5, 6.5, 7.5, 9.5L, -11, last));
    printf("misalignment: %zu\n", misalignment(unused, 0, 0));
}

static int compared;

static int compare(const void *one, const void *other)
{
    int first = *(const int *)one, second = *(const int *)other;
    compared++;
    return (first > second) - (first < second);
}

static long double weigh(note of)
{
    return 0.1L * of.key + of.level;
}

static chord change(chord of, long by)
{
    return (chord){{of.keys[0] - by, of.keys[1] - by, of.keys[2] - by, of.keys[3] - by}};
}

static long double complex conjugate(long double complex number)
{
    return conjl(number);
}

static note choose(note one, note other)
{
    return one.level > other.level ? one : other;
}

static double tell(int first, ...)
{
    va_list list;
    double sum = first;
    va_start(list, first);
    sum += va_arg(list, double);
    sum += (double)va_arg(list, long);
    sum += (double)va_arg(list, long double);
    va_end(list);
    return sum;
}

static void callbacks(void)
{
    int keys[] = {67, 60, 72, 64, 62};
    const note notes[] = {{60, 0.25}, {64, 0.5}};
    chord of = {{60, 64, 67, 72}}, result = changed(of, change);
    long double complex number = through(0.5L + 0.75L * I, conjugate);
    note chosen = best(notes[0], notes[1], choose);
    qsort(keys, 5, sizeof keys[0], compare);
    printf("qsort: %d %d %d %d %d, %s\n", keys[0], keys[1], keys[2], keys[3], keys[4], compared > 0 ? "called back" : "not called back");
    printf("weight: %.20Lg\n", weight(notes, 2, weigh));
    printf("changed: %ld %ld %ld %ld\n", result.keys[0], result.keys[1], result.keys[2], result.keys[3]);
    printf("through: %Lg %Lg\n", creall(number), cimagl(number));
    printf("best: %d %g\n", chosen.key, chosen.level);
    printf("told: %g\n", told(tell));
}

static void print_eight(const char *name, const eight *of)
{
    printf("%s:", name);
    for (int i = 0; i < 8; i++) {
        printf(" %g", (*of)[i]);
    }
    printf("\n");
}

WITH_AVX static eight blend(eight one, double part, eight other)
{
    return one * (float)part + other * (1 - (float)part);
}

WITH_AVX static void vectors(void)
{
    const eight v = {1, 2, 3, 4, 5, 6, 7, 8}, half = scaled(v, 0.5f), sum = summed(v, v, v, v, v, v, v, v, 19, v);
    const eight both = blended(v, -v, blend);
    print_eight("scaled", &half);
    print_eight("summed", &sum);
    print_eight("blended", &both);
}

int main(void)
{
    calls();
    callbacks();
    if (__builtin_cpu_supports("avx")) {
        vectors();
    }
    return 0;
}
