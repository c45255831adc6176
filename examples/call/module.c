/* module.c: a module of the kind that a host loads, which knows nothing of the call bridge.

       gcc -shared -fPIC examples/call/module.c -o target/module.so */
#include "module.h"

#include <stdarg.h>
#include <stdint.h>

double loudness(note of)
{
    return of.key * of.level;
}

note louder(note than, double by)
{
    return (note){than.key + 1, than.level + by};
}

chord chord_on(long key)
{
    return (chord){{key, key + 4, key + 7, key + 12}};
}

long double halved(long double number)
{
    return number / 2;
}

long double complex turned(long double complex number)
{
    return number * I;
}

bool is_loud(note of)
{
    return of.level > 0.5;
}

signed char sign_of(long number)
{
    return (signed char)((number > 0) - (number < 0));
}

float rounded(double number)
{
    return (float)number;
}

int128 squared(long number)
{
    return (int128)number * number;
}

double mean(int count, ...)
{
    va_list list;
    double sum = 0;
    va_start(list, count);
    for (int i = 0; i < count; i++) {
        int times = va_arg(list, int);
        sum += times * va_arg(list, double);
    }
    sum += (double)va_arg(list, long double);
    va_end(list);
    return sum / count;
}

double crowd(long a, double b, chord c, long d, long e, long f, long g, long h, float i, double j, double k, double l, double m, double n,
             double o, double p, long double q, short r, note s)
{
    long longs = a + 2 * d + 3 * e + 5 * f + 7 * g + 11 * h + 13 * c.keys[0] + 17 * c.keys[3];
    double doubles = b + 2 * i + 3 * j + 5 * k + 7 * l + 11 * m + 13 * n + 17 * o + 19 * p;
    return (double)longs + doubles + (double)(23 * q) + 29 * r + 31 * s.key + 37 * s.level;
}

size_t misalignment(chord unused, long double unused_too, char last)
{
    (void)unused;
    (void)unused_too;
    (void)last;
    return (uintptr_t)__builtin_frame_address(0) % 16;
}

WITH_AVX eight scaled(eight of, float by)
{
    return of * by;
}

WITH_AVX eight summed(eight a, eight b, eight c, eight d, eight e, eight f, eight g, eight h, char first, eight last)
{
    return a + 2 * b + 3 * c + 5 * d + 7 * e + 11 * f + 13 * g + 17 * h + (float)first * last;
}

long double weight(const note *notes, size_t count, long double (*weigh)(note))
{
    long double sum = 0;
    for (size_t i = 0; i < count; i++) {
        sum += weigh(notes[i]);
    }
    return sum;
}

chord changed(chord of, chord (*change)(chord, long))
{
    return change(of, of.keys[0]);
}

long double complex through(long double complex number, long double complex (*by)(long double complex))
{
    return 2 * by(number);
}

note best(note one, note other, note (*choose)(note, note))
{
    return choose(one, other);
}

double told(double (*tell)(int, ...))
{
    return tell(3, 0.25, 7L, 0.5L);
}

WITH_AVX eight blended(eight one, eight other, eight (*blend)(eight, double, eight))
{
    return 2 * blend(one, 0.25, other);
}
