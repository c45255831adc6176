/* load.c: a host that loads a module, finds its functions by name, and calls each by a description; and that is called back.

       gcc -shared -fPIC examples/call/module.c -o target/module.so
       gcc -I include examples/call/load.c examples/call/ca*.[cS] examples/call/jump.S target/staticlib/libcallbridge.a -ldl -o target/load
       target/load target/module.so

   examples/call/load.out is what it prints; on a processor without AVX it ends before the last three lines. */
#include "callback.h"
#include "module.h"

#include <dlfcn.h>
#include <stdio.h>
#include <stdlib.h>
#include <string.h>

#define COUNT(list) (sizeof(list) / sizeof(list)[0])

static void *module, *libm;

/* A function of a shared object, by its name. */
static call_target found(void *library, const char *name)
{
    call_target function;
    void *at = dlsym(library, name);
    if (at == NULL) {
        fprintf(stderr, "there is no %s\n", name);
        exit(1);
    }
    memcpy(&function, &at, sizeof function); /* C has no cast for it */
    return function;
}

/* Finishes the description, and calls. */
static void call(call_target function, cb_builder *b, const call_value *values, size_t count, void *result, size_t size)
{
    uint8_t description[CB_MAX_DESCRIPTION];
    size_t length = cb_finish(b, description, sizeof description);
    if (call_refused(b->refusal) || call_refused(call_function(function, description, length, values, count, result, size))) {
        exit(1);
    }
}

/* ---- the types of module.h. A type that a builder has already is not made again, so each may be asked for as often as one likes. */

static uint8_t note_type(cb_builder *b)
{
    const uint8_t members[] = {cb_basic(b, CB_INT), cb_basic(b, CB_DOUBLE)};
    return cb_struct(b, members, 2);
}

static uint8_t chord_type(cb_builder *b)
{
    const uint8_t members[] = {cb_array(b, cb_basic(b, CB_LONG), 4)};
    return cb_struct(b, members, 1);
}

/* ---- calls */

static void call_pow(void)
{
    cb_builder b = cb_begin();
    double base = 2, exponent = 0.5, power;
    const call_value values[] = {CALL_VALUE(base), CALL_VALUE(exponent)};
    cb_returns(&b, cb_basic(&b, CB_DOUBLE));
    cb_argument(&b, cb_basic(&b, CB_DOUBLE));
    cb_argument(&b, cb_basic(&b, CB_DOUBLE));
    call(found(libm, "pow"), &b, values, COUNT(values), &power, sizeof power);
    printf("pow: %.17g\n", power);
}

static void call_snprintf(void)
{
    cb_builder b = cb_begin();
    char text[64], *at = text;
    const char *format = "%d %s %.1f %ld %Lg", *word = "words";
    size_t room = sizeof text;
    int number = -5, written;
    double real = 2.5;
    long large = 1L << 40;
    long double extended = 0.125L;
    const call_value values[] = {CALL_VALUE(at),   CALL_VALUE(room), CALL_VALUE(format), CALL_VALUE(number),
                                 CALL_VALUE(word), CALL_VALUE(real), CALL_VALUE(large),  CALL_VALUE(extended)};
    cb_returns(&b, cb_basic(&b, CB_INT));
    cb_argument(&b, cb_basic(&b, CB_POINTER));
    cb_argument(&b, cb_basic(&b, CB_LONG));
    cb_argument(&b, cb_basic(&b, CB_POINTER));
    cb_ellipsis(&b);
    cb_argument(&b, cb_basic(&b, CB_INT));
    cb_argument(&b, cb_basic(&b, CB_POINTER));
    cb_argument(&b, cb_basic(&b, CB_DOUBLE));
    cb_argument(&b, cb_basic(&b, CB_LONG));
    cb_argument(&b, cb_basic(&b, CB_LONG_DOUBLE));
    call((call_target)snprintf, &b, values, COUNT(values), &written, sizeof written);
    printf("snprintf: %s (%d)\n", text, written);
}

static void call_with_notes(void)
{
    cb_builder asks = cb_begin(), raises = cb_begin(), judges = cb_begin();
    note of = {60, 0.25}, raised;
    double loudness, by = 0.5;
    bool loud;
    const call_value values[] = {CALL_VALUE(of), CALL_VALUE(by)};
    cb_returns(&asks, cb_basic(&asks, CB_DOUBLE));
    cb_argument(&asks, note_type(&asks));
    call(found(module, "loudness"), &asks, values, 1, &loudness, sizeof loudness);
    printf("loudness: %g\n", loudness);

    cb_returns(&raises, note_type(&raises));
    cb_argument(&raises, note_type(&raises));
    cb_argument(&raises, cb_basic(&raises, CB_DOUBLE));
    call(found(module, "louder"), &raises, values, 2, &raised, sizeof raised);
    printf("louder: %d %g\n", raised.key, raised.level);

    const call_value again[] = {CALL_VALUE(raised)};
    cb_returns(&judges, cb_basic(&judges, CB_BOOL));
    cb_argument(&judges, note_type(&judges));
    call(found(module, "is_loud"), &judges, again, 1, &loud, sizeof loud);
    printf("is_loud: %d\n", loud);
}

static void call_for_chord(void)
{
    cb_builder b = cb_begin();
    long key = 60;
    chord made;
    const call_value values[] = {CALL_VALUE(key)};
    cb_returns(&b, chord_type(&b));
    cb_argument(&b, cb_basic(&b, CB_LONG));
    call(found(module, "chord_on"), &b, values, 1, &made, sizeof made);
    printf("chord_on: %ld %ld %ld %ld\n", made.keys[0], made.keys[1], made.keys[2], made.keys[3]);
}

/* A function of one argument. */
static void call_simple(const char *name, unsigned takes, call_value value, unsigned returns, void *result, size_t size)
{
    cb_builder b = cb_begin();
    cb_argument(&b, cb_basic(&b, takes));
    cb_returns(&b, cb_basic(&b, returns));
    call(found(module, name), &b, &value, 1, result, size);
}

static void call_with_numbers(void)
{
    long double extended = 1.0L / 3, half;
    long double complex number = 1.5L + 2.5L * I, result;
    long below = -7, large = 1L << 62;
    double tenth = 0.1;
    signed char sign;
    float single;
    int128 square;
    call_simple("halved", CB_LONG_DOUBLE, (call_value)CALL_VALUE(extended), CB_LONG_DOUBLE, &half, sizeof half);
    printf("halved: %.20Lg\n", half);
    call_simple("turned", CB_COMPLEX_LONG_DOUBLE, (call_value)CALL_VALUE(number), CB_COMPLEX_LONG_DOUBLE, &result, sizeof result);
    printf("turned: %Lg %Lg\n", creall(result), cimagl(result));
    call_simple("sign_of", CB_LONG, (call_value)CALL_VALUE(below), CB_CHAR, &sign, sizeof sign);
    printf("sign_of: %d\n", sign);
    call_simple("rounded", CB_DOUBLE, (call_value)CALL_VALUE(tenth), CB_FLOAT, &single, sizeof single);
    printf("rounded: %.9g\n", single);
    call_simple("squared", CB_LONG, (call_value)CALL_VALUE(large), CB_INT128, &square, sizeof square);
    printf("squared: %#lx %#lx\n", (unsigned long)(square >> 64), (unsigned long)square);
}

static void call_mean(void)
{
    cb_builder b = cb_begin();
    int count = 2, once = 1, twice = 2;
    double first = 0.5, second = 0.25, result;
    long double last = 3;
    const call_value values[] = {CALL_VALUE(count), CALL_VALUE(once), CALL_VALUE(first),
                                 CALL_VALUE(twice), CALL_VALUE(second), CALL_VALUE(last)};
    cb_returns(&b, cb_basic(&b, CB_DOUBLE));
    cb_argument(&b, cb_basic(&b, CB_INT));
    cb_ellipsis(&b);
    for (int i = 0; i < count; i++) {
        cb_argument(&b, cb_basic(&b, CB_INT));
        cb_argument(&b, cb_basic(&b, CB_DOUBLE));
    }
    cb_argument(&b, cb_basic(&b, CB_LONG_DOUBLE));
    call(found(module, "mean"), &b, values, COUNT(values), &result, sizeof result);
    printf("mean: %g\n", result);
}

static void call_crowd(void)
{
    static const unsigned behind[] = {CB_LONG,   CB_LONG,   CB_LONG,   CB_LONG,   CB_LONG,   CB_FLOAT,  CB_DOUBLE,     CB_DOUBLE,
                                      CB_DOUBLE, CB_DOUBLE, CB_DOUBLE, CB_DOUBLE, CB_DOUBLE, CB_LONG_DOUBLE, CB_SHORT};
    cb_builder b = cb_begin();
    long l[6] = {1, 2, 3, 4, 5, 6};
    double d[8] = {0.5, 1.5, 2.5, 3.5, 4.5, 5.5, 6.5, 7.5}, result;
    float i = 8.5f;
    chord c = {{10, 20, 30, 40}};
    long double q = 9.5L;
    short r = -11;
    note s = {12, 13.5};
    const call_value values[] = {CALL_VALUE(l[0]), CALL_VALUE(d[0]), CALL_VALUE(c),    CALL_VALUE(l[1]), CALL_VALUE(l[2]),
                                 CALL_VALUE(l[3]), CALL_VALUE(l[4]), CALL_VALUE(l[5]), CALL_VALUE(i),    CALL_VALUE(d[1]),
                                 CALL_VALUE(d[2]), CALL_VALUE(d[3]), CALL_VALUE(d[4]), CALL_VALUE(d[5]), CALL_VALUE(d[6]),
                                 CALL_VALUE(d[7]), CALL_VALUE(q),    CALL_VALUE(r),    CALL_VALUE(s)};
    cb_returns(&b, cb_basic(&b, CB_DOUBLE));
    cb_argument(&b, cb_basic(&b, CB_LONG));
    cb_argument(&b, cb_basic(&b, CB_DOUBLE));
    cb_argument(&b, chord_type(&b));
    for (size_t k = 0; k < COUNT(behind); k++) {
        cb_argument(&b, cb_basic(&b, behind[k]));
    }
    cb_argument(&b, note_type(&b));
    call(found(module, "crowd"), &b, values, COUNT(values), &result, sizeof result);
    printf("crowd: %.17g\n", result);
}

static void print_eight(const char *name, const eight *of)
{
    printf("%s:", name);
    for (int i = 0; i < 8; i++) {
        printf(" %g", (*of)[i]);
    }
    printf("\n");
}

/* What is passed here lies in memory: this program has no AVX code itself, but for jump.S and callback.S. */
static const eight counted = {1, 2, 3, 4, 5, 6, 7, 8};

static void call_with_vectors(void)
{
    cb_builder scales = cb_begin(), sums = cb_begin();
    eight result;
    float by = 0.5f;
    char first = 19;
    const call_value two[] = {CALL_VALUE(counted), CALL_VALUE(by)};
    cb_returns(&scales, cb_basic(&scales, CB_M256));
    cb_argument(&scales, cb_basic(&scales, CB_M256));
    cb_argument(&scales, cb_basic(&scales, CB_FLOAT));
    call(found(module, "scaled"), &scales, two, COUNT(two), &result, sizeof result);
    print_eight("scaled", &result);

    call_value ten[10];
    cb_returns(&sums, cb_basic(&sums, CB_M256));
    for (size_t i = 0; i < COUNT(ten); i++) {
        ten[i] = i == 8 ? (call_value)CALL_VALUE(first) : (call_value)CALL_VALUE(counted);
        cb_argument(&sums, cb_basic(&sums, i == 8 ? CB_CHAR : CB_M256));
    }
    call(found(module, "summed"), &sums, ten, COUNT(ten), &result, sizeof result);
    print_eight("summed", &result);
}

static void call_misalignment(void)
{
    cb_builder b = cb_begin();
    chord unused = {{0}};
    long double unused_too = 0;
    char last = 0;
    size_t result;
    const call_value values[] = {CALL_VALUE(unused), CALL_VALUE(unused_too), CALL_VALUE(last)};
    cb_returns(&b, cb_basic(&b, CB_LONG));
    cb_argument(&b, chord_type(&b));
    cb_argument(&b, cb_basic(&b, CB_LONG_DOUBLE));
    cb_argument(&b, cb_basic(&b, CB_CHAR));
    call(found(module, "misalignment"), &b, values, COUNT(values), &result, sizeof result);
    printf("misalignment: %zu\n", result);
}

/* ---- callbacks: what the module calls, and what is then done */

static call_target made(cb_builder *b, callback_handler *handler, void *user)
{
    uint8_t description[CB_MAX_DESCRIPTION];
    size_t length = cb_finish(b, description, sizeof description);
    call_target callback = callback_make(description, length, handler, user);
    if (call_refused(b->refusal) || callback == NULL) {
        exit(1);
    }
    return callback;
}

/* int (*)(const void *, const void *), for qsort: the two values are pointers. The user's number counts the calls. */
static void compare(void *user, const void *const *values, void *result)
{
    const int *const *one = values[0], *const *other = values[1];
    *(int *)result = (**one > **other) - (**one < **other);
    ++*(int *)user;
}

static void be_called_by_qsort(void)
{
    cb_builder b = cb_begin();
    int keys[] = {67, 60, 72, 64, 62}, calls = 0;
    cb_returns(&b, cb_basic(&b, CB_INT));
    cb_argument(&b, cb_basic(&b, CB_POINTER));
    cb_argument(&b, cb_basic(&b, CB_POINTER));
    call_target callback = made(&b, compare, &calls);
    qsort(keys, COUNT(keys), sizeof keys[0], (int (*)(const void *, const void *))callback);
    callback_drop(callback);
    printf("qsort: %d %d %d %d %d, %s\n", keys[0], keys[1], keys[2], keys[3], keys[4], calls > 0 ? "called back" : "not called back");
}

/* long double (*)(note) */
static void weigh(void *user, const void *const *values, void *result)
{
    const note *of = values[0];
    *(long double *)result = *(const long double *)user * of->key + of->level;
}

static void be_called_by_weight(void)
{
    cb_builder weighs = cb_begin(), b = cb_begin();
    const note list[] = {{60, 0.25}, {64, 0.5}}, *notes = list;
    size_t count = COUNT(list);
    long double factor = 0.1L, result;
    cb_returns(&weighs, cb_basic(&weighs, CB_LONG_DOUBLE));
    cb_argument(&weighs, note_type(&weighs));
    call_target callback = made(&weighs, weigh, &factor);
    const call_value values[] = {CALL_VALUE(notes), CALL_VALUE(count), CALL_VALUE(callback)};
    cb_returns(&b, cb_basic(&b, CB_LONG_DOUBLE));
    cb_argument(&b, cb_basic(&b, CB_POINTER));
    cb_argument(&b, cb_basic(&b, CB_LONG));
    cb_argument(&b, cb_basic(&b, CB_POINTER));
    call(found(module, "weight"), &b, values, COUNT(values), &result, sizeof result);
    callback_drop(callback);
    printf("weight: %.20Lg\n", result);
}

/* chord (*)(chord, long): the argument is on the stack, the result in memory. */
static void change(void *user, const void *const *values, void *result)
{
    chord of = *(const chord *)values[0];
    (void)user;
    for (size_t i = 0; i < COUNT(of.keys); i++) {
        of.keys[i] -= *(const long *)values[1];
    }
    memcpy(result, &of, sizeof of);
}

static void be_called_by_changed(void)
{
    cb_builder changes = cb_begin(), b = cb_begin();
    chord of = {{60, 64, 67, 72}}, result;
    cb_returns(&changes, chord_type(&changes));
    cb_argument(&changes, chord_type(&changes));
    cb_argument(&changes, cb_basic(&changes, CB_LONG));
    call_target callback = made(&changes, change, NULL);
    const call_value values[] = {CALL_VALUE(of), CALL_VALUE(callback)};
    cb_returns(&b, chord_type(&b));
    cb_argument(&b, chord_type(&b));
    cb_argument(&b, cb_basic(&b, CB_POINTER));
    call(found(module, "changed"), &b, values, COUNT(values), &result, sizeof result);
    callback_drop(callback);
    printf("changed: %ld %ld %ld %ld\n", result.keys[0], result.keys[1], result.keys[2], result.keys[3]);
}

/* long double complex (*)(long double complex): two numbers on the x87 stack. */
static void conjugate(void *user, const void *const *values, void *result)
{
    (void)user;
    *(long double complex *)result = conjl(*(const long double complex *)values[0]);
}

static void be_called_by_through(void)
{
    cb_builder by = cb_begin(), b = cb_begin();
    long double complex number = 0.5L + 0.75L * I, result;
    cb_returns(&by, cb_basic(&by, CB_COMPLEX_LONG_DOUBLE));
    cb_argument(&by, cb_basic(&by, CB_COMPLEX_LONG_DOUBLE));
    call_target callback = made(&by, conjugate, NULL);
    const call_value values[] = {CALL_VALUE(number), CALL_VALUE(callback)};
    cb_returns(&b, cb_basic(&b, CB_COMPLEX_LONG_DOUBLE));
    cb_argument(&b, cb_basic(&b, CB_COMPLEX_LONG_DOUBLE));
    cb_argument(&b, cb_basic(&b, CB_POINTER));
    call(found(module, "through"), &b, values, COUNT(values), &result, sizeof result);
    callback_drop(callback);
    printf("through: %Lg %Lg\n", creall(result), cimagl(result));
}

/* note (*)(note, note) */
static void choose(void *user, const void *const *values, void *result)
{
    const note *one = values[0], *other = values[1];
    (void)user;
    *(note *)result = one->level > other->level ? *one : *other;
}

static void be_called_by_best(void)
{
    cb_builder chooses = cb_begin(), b = cb_begin();
    note one = {60, 0.25}, other = {64, 0.5}, result;
    cb_returns(&chooses, note_type(&chooses));
    cb_argument(&chooses, note_type(&chooses));
    cb_argument(&chooses, note_type(&chooses));
    call_target callback = made(&chooses, choose, NULL);
    const call_value values[] = {CALL_VALUE(one), CALL_VALUE(other), CALL_VALUE(callback)};
    cb_returns(&b, note_type(&b));
    cb_argument(&b, note_type(&b));
    cb_argument(&b, note_type(&b));
    cb_argument(&b, cb_basic(&b, CB_POINTER));
    call(found(module, "best"), &b, values, COUNT(values), &result, sizeof result);
    callback_drop(callback);
    printf("best: %d %g\n", result.key, result.level);
}

/* double (*)(int, ...), called with a double, a long and a long double behind the int. */
static void tell(void *user, const void *const *values, void *result)
{
    (void)user;
    *(double *)result = *(const int *)values[0] + *(const double *)values[1] + (double)*(const long *)values[2] +
                        (double)*(const long double *)values[3];
}

static void be_called_by_told(void)
{
    cb_builder tells = cb_begin(), b = cb_begin();
    double result;
    cb_returns(&tells, cb_basic(&tells, CB_DOUBLE));
    cb_argument(&tells, cb_basic(&tells, CB_INT));
    cb_ellipsis(&tells);
    cb_argument(&tells, cb_basic(&tells, CB_DOUBLE));
    cb_argument(&tells, cb_basic(&tells, CB_LONG));
    cb_argument(&tells, cb_basic(&tells, CB_LONG_DOUBLE));
    call_target callback = made(&tells, tell, NULL);
    const call_value values[] = {CALL_VALUE(callback)};
    cb_returns(&b, cb_basic(&b, CB_DOUBLE));
    cb_argument(&b, cb_basic(&b, CB_POINTER));
    call(found(module, "told"), &b, values, COUNT(values), &result, sizeof result);
    callback_drop(callback);
    printf("told: %g\n", result);
}

/* eight (*)(eight, double, eight) */
static void blend(void *user, const void *const *values, void *result)
{
    const eight *one = values[0], *other = values[2];
    float part = (float)*(const double *)values[1];
    (void)user;
    *(eight *)result = *one * part + *other * (1 - part);
}

static void be_called_by_blended(void)
{
    cb_builder blends = cb_begin(), b = cb_begin();
    eight other = -counted, result;
    cb_returns(&blends, cb_basic(&blends, CB_M256));
    cb_argument(&blends, cb_basic(&blends, CB_M256));
    cb_argument(&blends, cb_basic(&blends, CB_DOUBLE));
    cb_argument(&blends, cb_basic(&blends, CB_M256));
    call_target callback = made(&blends, blend, NULL);
    const call_value values[] = {CALL_VALUE(counted), CALL_VALUE(other), CALL_VALUE(callback)};
    cb_returns(&b, cb_basic(&b, CB_M256));
    cb_argument(&b, cb_basic(&b, CB_M256));
    cb_argument(&b, cb_basic(&b, CB_M256));
    cb_argument(&b, cb_basic(&b, CB_POINTER));
    call(found(module, "blended"), &b, values, COUNT(values), &result, sizeof result);
    callback_drop(callback);
    print_eight("blended", &result);
}

int main(int count, char **words)
{
    module = dlopen(count == 2 ? words[1] : "./module.so", RTLD_NOW);
    libm = dlopen("libm.so.6", RTLD_NOW);
    if (module == NULL || libm == NULL) {
        fprintf(stderr, "%s\n", dlerror());
        return 1;
    }
    call_pow();
    call_snprintf();
    call_with_notes();
    call_for_chord();
    call_with_numbers();
    call_mean();
    call_crowd();
    call_misalignment();
    be_called_by_qsort();
    be_called_by_weight();
    be_called_by_changed();
    be_called_by_through();
    be_called_by_best();
    be_called_by_told();
    if (__builtin_cpu_supports("avx")) { /* the module's functions are not for other processors */
        call_with_vectors();
        be_called_by_blended();
    }
    return 0;
}
