/* module.h: what module.c offers. load.c knows no more of it than the structs: it finds the functions by name. */
#ifndef MODULE_H
#define MODULE_H

#include <complex.h>
#include <stdbool.h>
#include <stddef.h>

__extension__ typedef __int128 int128;

typedef struct note { /* INTEGER, SSE */
    int key;
    double level;
} note;

typedef struct chord { /* over 16 bytes: MEMORY */
    long keys[4];
} chord;

/* Eight floats in one vector register of 32 bytes, as __m256. Functions that pass one are for processors with AVX. */
typedef float eight __attribute__((vector_size(32)));
#define WITH_AVX __attribute__((target("avx")))

/* A struct by value, and one that comes back in two registers. */
double loudness(note of);
note louder(note than, double by);

/* One that comes back in memory. */
chord chord_on(long key);

/* On the x87 stack. */
long double halved(long double number);
long double complex turned(long double complex number);

/* Smaller and larger than a register. */
bool is_loud(note of);
signed char sign_of(long number);
float rounded(double number);
int128 squared(long number);

/* The unnamed arguments are `count` pairs of an int and a double, then a long double. */
double mean(int count, ...);

/* More than the registers hold: the rest goes on the stack. */
double crowd(long a, double b, chord c, long d, long e, long f, long g, long h, float i, double j, double k, double l, double m, double n,
             double o, double p, long double q, short r, note s);

/* 0 where the stack was aligned when it was called. */
size_t misalignment(chord unused, long double unused_too, char last);

/* In vector registers of 32 bytes, the last of nine on the stack. */
WITH_AVX eight scaled(eight of, float by);
WITH_AVX eight summed(eight a, eight b, eight c, eight d, eight e, eight f, eight g, eight h, char first, eight last);

/* They call back. */
long double weight(const note *notes, size_t count, long double (*weigh)(note));
chord changed(chord of, chord (*change)(chord, long));
long double complex through(long double complex number, long double complex (*by)(long double complex));
note best(note one, note other, note (*choose)(note, note));
double told(double (*tell)(int, ...));
WITH_AVX eight blended(eight one, eight other, eight (*blend)(eight, double, eight));

#endif
