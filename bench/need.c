/* Whether 64 arguments need the stack, beside the whole layout: the first that goes there stands sooner or later among them. */
#include "callbridge.h"
#include "count.h"
#include <stdio.h>

enum { CASES = 3, TIMES = 100 };

static const char *const names[CASES] = {
    "a long double, then 63 ints",
    "64 ints",
    "6 ints and 8 doubles, then 50 ints",
};

static uint8_t descriptions[CASES][CB_MAX_DESCRIPTION];
static size_t lengths[CASES];

/* The first `doubles_at` arguments are ints, then come `doubles` doubles, then ints; the very first is of type `first`. */
static void describe(int which, unsigned first, int doubles_at, int doubles)
{
    cb_builder b = cb_begin();
    uint8_t types[3] = { cb_basic(&b, CB_INT), cb_basic(&b, CB_DOUBLE), cb_basic(&b, CB_LONG_DOUBLE) };
    for (int i = 0; i < CB_MAX_ARGUMENTS; i++) {
        int is_double = i >= doubles_at && i < doubles_at + doubles;
        cb_argument(&b, i == 0 ? types[first] : types[is_double]);
    }
    lengths[which] = cb_finish(&b, descriptions[which], CB_MAX_DESCRIPTION);
}

static void nothing(int which)
{
    (void)which;
}

static void need(int which)
{
    cb_stack_need found;
    cb_needs_stack(descriptions[which], lengths[which], &found);
}

static void layout(int which)
{
    cb_layout found;
    cb_layout_of(descriptions[which], lengths[which], &found);
}

int main(void)
{
    describe(0, 2, 0, 0);
    describe(1, 0, 0, 0);
    describe(2, 0, 6, 8);
    for (int which = 0; which < CASES; which++) {
        cb_stack_need found;
        cb_needs_stack(descriptions[which], lengths[which], &found);
        printf("%d/%s/%zu\n", which, names[which], found.looked);
        count("nothing", which, TIMES, nothing);
        count("cb_needs_stack", which, TIMES, need);
        count("cb_layout_of", which, TIMES, layout);
    }
    return 0;
}
