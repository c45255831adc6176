/* The builder of callbridge.h: what it makes of the calls in each line of standard input (library/builds.txt has the notation; `library
   builds` draws others), and what a careless host could do to it. C99, and C++ too.
   The last line is `N builds: ok` where everything agrees. */
#include "callbridge.h"

#include <stdio.h>
#include <stdlib.h>
#include <string.h>

static int wrong;

static void expect(const char *what, size_t is, size_t should)
{
    if (is != should) {
        printf("%s is %zu, should be %zu\n", what, is, should);
        wrong = 1;
    }
}

static void refused(const char *what, cb_refusal refusal, uint8_t number, uint8_t type)
{
    expect(what, refusal.number, number);
    expect(what, refusal.type, type);
}

/* ---- lines of calls */

#define LINE 65536

/* The number at *at, and behind it. */
static unsigned long take(const char **at)
{
    char *end;
    unsigned long number = strtoul(*at, &end, 10);
    *at = end;
    return number;
}

/* `7` once, `7^5` five times. */
static unsigned long take_times(const char **at)
{
    if (**at != '^') {
        return 1;
    }
    ++*at;
    return take(at);
}

static size_t take_members(const char **at, uint8_t *members, size_t room)
{
    size_t count = 0;
    while ('0' <= **at && **at <= '9') {
        uint8_t member = (uint8_t)take(at);
        for (unsigned long times = take_times(at); times > 0 && count < room; times--) {
            members[count++] = member;
        }
        *at += **at == ',';
    }
    return count;
}

/* One call; where it makes a type, the number that it answers is appended to the text. */
static void make(cb_builder *b, const char *word, char *numbers)
{
    uint8_t members[1024];
    const char *at = word + 1;
    unsigned long first = 0, second = 0;
    uint8_t answer = 0;
    if (*word == 's' || *word == 'u') {
        size_t count = take_members(&at, members, sizeof members);
        answer = *word == 's' ? cb_struct(b, members, count) : cb_union(b, members, count);
    } else {
        first = take(&at);
        second = *at == '*' ? (at++, take(&at)) : take_times(&at);
    }
    switch (*word) {
    case 'm':
        *b = cb_begin_ilp32();
        return;
    case 'b':
        answer = cb_basic(b, (unsigned)first);
        break;
    case 'a':
        answer = cb_array(b, (unsigned)first, second);
        break;
    case 'c':
        for (unsigned long i = 0; i < first; i++) {
            answer = cb_array(b, answer, 1);
        }
        break;
    case 'r':
        cb_returns(b, (unsigned)first);
        return;
    case 'p':
        for (unsigned long i = 0; i < second; i++) {
            cb_argument(b, (unsigned)first);
        }
        return;
    case 'e':
        cb_ellipsis(b);
        return;
    }
    sprintf(numbers + strlen(numbers), "%s%u", *numbers ? " " : "", answer);
}

/* The description in hex, its length, or why it is refused. */
static void finish(cb_builder *b, int as_length, char *said)
{
    uint8_t description[CB_MAX_DESCRIPTION];
    size_t length = cb_finish(b, description, sizeof description);
    if (b->refusal.number != CB_ACCEPTED) {
        int count = sprintf(said, "refused %u", b->refusal.number);
        if (cb_refusal_names_type(b->refusal)) {
            sprintf(said + count, " type %u", b->refusal.type);
        }
        expect("the length of what is refused", length, 0);
    } else if (as_length) {
        sprintf(said, "%zu bytes", length);
    } else {
        for (size_t i = 0; i < length; i++) {
            sprintf(said + 2 * i, "%02x", description[i]);
        }
    }
}

static char *trimmed(char *text)
{
    char *end = text + strlen(text);
    while (*text == ' ') {
        text++;
    }
    while (end > text && (end[-1] == ' ' || end[-1] == '\n')) {
        *--end = 0;
    }
    return text;
}

static void build(char *calls, const char *numbers, const char *result)
{
    cb_builder b = cb_begin();
    static char answered[LINE], said[LINE];
    answered[0] = said[0] = 0;
    for (char *word = strtok(calls, " "); word != NULL; word = strtok(NULL, " ")) {
        make(&b, word, answered);
    }
    finish(&b, strstr(result, "bytes") != NULL, said);
    if (strcmp(answered, numbers) != 0 || strcmp(said, result) != 0) {
        printf("DIFFERENT: should be %s = %s\n  is %s = %s\n", numbers, result, answered, said);
        wrong = 1;
    }
}

static size_t lines(void)
{
    static char line[LINE];
    size_t count = 0;
    while (fgets(line, sizeof line, stdin) != NULL) {
        char *first = strchr(line, '='), *second = first ? strchr(first + 1, '=') : NULL;
        if (line[0] == '#' || second == NULL) {
            continue;
        }
        *first = *second = 0;
        build(trimmed(line), trimmed(first + 1), trimmed(second + 1));
        count++;
    }
    return count;
}

/* ---- carelessness */

/* Numbers that would be right if only their low byte were looked at. */
static void large_numbers(void)
{
    for (int which = 0; which < 7; which++) {
        cb_builder b = cb_begin();
        uint8_t out[CB_MAX_DESCRIPTION];
        uint8_t type = cb_basic(&b, CB_CHAR);
        expect("the first type's number", type, 0);
        switch (which) {
        case 0: cb_argument(&b, 256); break;
        case 1: cb_argument(&b, (unsigned)-256); break;
        case 2: cb_returns(&b, 256); break;
        case 3: cb_returns(&b, 256 + CB_VOID); break;
        case 4: cb_basic(&b, 256 + CB_INT); break;
        case 5: cb_array(&b, 256, 1); break;
        case 6: cb_array(&b, 0, 65536 + 1); break;
        }
        expect("cb_finish after a number that is too large", cb_finish(&b, out, sizeof out), 0);
        refused("a number that is too large", b.refusal, which < 4 ? CB_WRONG_TYPE_NUMBER : CB_WRONG_TYPE_RECORD, which < 4 ? 0 : 1);
    }
}

/* A count of members that no run can have: none of them is looked at. */
static void many_members(void)
{
    cb_builder b = cb_begin();
    uint8_t member = cb_basic(&b, CB_CHAR);
    expect("a struct of too many", cb_struct(&b, &member, (size_t)-1), CB_VOID);
    refused("a struct of too many", b.refusal, CB_WRONG_COUNTS, 0);
    b = cb_begin();
    expect("a union of none", cb_union(&b, &member, 0), CB_VOID);
    refused("a union of none", b.refusal, CB_WRONG_TYPE_RECORD, 0);
}

/* double pow(double, double): 17 bytes */
static cb_builder of_pow(void)
{
    cb_builder b = cb_begin();
    uint8_t real = cb_basic(&b, CB_DOUBLE);
    cb_returns(&b, real);
    cb_argument(&b, real);
    cb_argument(&b, real);
    return b;
}

/* How much is written into rooms of every length, and nothing behind. */
static void rooms(void)
{
    for (size_t room = 0; room <= 40; room++) {
        cb_builder b = of_pow();
        uint8_t out[48];
        memset(out, 0xA5, sizeof out);
        expect("the length in a room", cb_finish(&b, out, room), room < 17 ? 0 : 17);
        expect("the refusal in a room", b.refusal.number, room < 17 ? CB_WRONG_BUFFER : CB_ACCEPTED);
        for (size_t i = 0; i < sizeof out; i++) {
            if (i >= 17 || i >= room) {
                expect("a byte behind the description", out[i], 0xA5);
            }
        }
        if (room < 17) {
            for (size_t i = 0; i < 11 && i < room; i++) {
                expect("a byte of what is refused", out[i], 0);
            }
        }
    }
}

/* A mistake stays, and a description that stood in the buffer before cannot be taken for the new one. */
static void stale(void)
{
    uint8_t out[CB_MAX_DESCRIPTION];
    cb_builder good = of_pow(), bad = of_pow(), large = of_pow();
    size_t length = cb_finish(&good, out, sizeof out);
    expect("the length of pow's description", length, 17);
    expect("the check of it", cb_check(out, length).number, CB_ACCEPTED);
    cb_argument(&bad, 7);
    cb_argument(&bad, 0);
    cb_ellipsis(&bad);
    cb_ellipsis(&bad);
    expect("cb_finish after a mistake", cb_finish(&bad, out, sizeof out), 0);
    expect("cb_finish once more", cb_finish(&bad, out, sizeof out), 0);
    refused("the first mistake", bad.refusal, CB_WRONG_TYPE_NUMBER, 0);
    expect("the check of what is left, at the old length", cb_check(out, length).number, CB_WRONG_MARK);
    expect("the check of length 0", cb_check(out, 0).number, CB_TOO_SHORT);

    good = of_pow();
    length = cb_finish(&good, out, sizeof out);
    cb_array(&large, cb_array(&large, 0, 512), 2);
    expect("cb_finish of a large type", cb_finish(&large, out, sizeof out), 0);
    refused("a large type", large.refusal, CB_TYPE_TOO_LARGE, 2);
    expect("the check of what is left", cb_check(out, length).number, CB_WRONG_MARK);
}

/* All fields 0 is an empty builder, and finishing changes nothing of one that is right. */
static void empty(void)
{
    static cb_builder zero;
    cb_builder begun = cb_begin(), b = of_pow(), copy = b;
    uint8_t out[CB_MAX_DESCRIPTION], again[CB_MAX_DESCRIPTION];
    expect("cb_begin is all zero", (size_t)memcmp(&zero, &begun, sizeof zero), 0);
    expect("the length of void f(void)", cb_finish(&zero, out, sizeof out), 11);
    expect("the first length", cb_finish(&b, out, sizeof out), 17);
    expect("the second length", cb_finish(&b, again, sizeof again), 17);
    expect("finished twice", (size_t)memcmp(out, again, 17), 0);
    expect("finishing changes nothing", (size_t)memcmp(&b, &copy, sizeof b), 0);
}

/* CB_MAX_VALUES is reached, and the area with it: the three images are full. */
static void most_values(void)
{
    cb_builder b = cb_begin();
    uint8_t out[CB_MAX_DESCRIPTION], block = cb_array(&b, cb_basic(&b, CB_CHAR), CB_MAX_TYPE);
    uint8_t large = cb_struct(&b, &block, 1), integer = cb_basic(&b, CB_LONG), vector = cb_basic(&b, CB_M256);
    cb_layout layout;
    for (int i = 0; i < 8; i++) {
        cb_argument(&b, vector);
        if (i < 6) {
            cb_argument(&b, integer);
        }
        if (i < 4) {
            cb_argument(&b, large);
        }
    }
    size_t length = cb_finish(&b, out, sizeof out);
    refused("the layout of the most values", cb_layout_of(out, length, &layout), CB_ACCEPTED, 0);
    expect("the most values", layout.values, CB_MAX_VALUES);
    expect("the largest area", layout.area, CB_MAX_AREA);
    expect("CB_MAX_VALUES", CB_MAX_VALUES, CB_MAX_AREA + CB_REGISTER_IMAGE + CB_UPPER_IMAGE);
}

#ifndef __cplusplus
#include <immintrin.h>
#include <stdbool.h>

/* Each code is the type that its name says: gcc's sizes and alignments. */
#define SAME(code, type)                                                                             \
    do {                                                                                             \
        cb_builder b = cb_begin();                                                                   \
        uint8_t out[CB_MAX_DESCRIPTION];                                                             \
        uint8_t number = cb_basic(&b, code);                                                         \
        size_t length = cb_finish(&b, out, sizeof out);                                              \
        cb_extent extent = {0, 0};                                                                   \
        struct { char first; __extension__ type second; } behind;                                    \
        refused(#code, cb_type_extent(out, length, number, &extent), CB_ACCEPTED, 0);                \
        expect("the size of " #code, extent.size, sizeof behind.second);                             \
        expect("the alignment of " #code, extent.align, sizeof behind - sizeof behind.second);       \
    } while (0)

static void codes(void)
{
    SAME(CB_BOOL, bool);
    SAME(CB_CHAR, char);
    SAME(CB_SHORT, short);
    SAME(CB_INT, int);
    SAME(CB_LONG, long);
    SAME(CB_LONG, size_t);
    SAME(CB_INT128, __int128);
    SAME(CB_FLOAT, float);
    SAME(CB_DOUBLE, double);
    SAME(CB_LONG_DOUBLE, long double);
    SAME(CB_FLOAT128, __float128);
    SAME(CB_M64, __m64);
    SAME(CB_M128, __m128);
    SAME(CB_COMPLEX_FLOAT, float _Complex);
    SAME(CB_COMPLEX_DOUBLE, double _Complex);
    SAME(CB_COMPLEX_LONG_DOUBLE, long double _Complex);
    SAME(CB_POINTER, void *);
    SAME(CB_M256, __m256);
}
#else
static void codes(void)
{
}
#endif

int main(void)
{
    large_numbers();
    many_members();
    rooms();
    stale();
    empty();
    most_values();
    codes();
    size_t count = lines();
    expect("there are lines", count > 0, 1);
    if (!wrong) {
        printf("%zu builds: ok\n", count);
    }
    return wrong;
}
