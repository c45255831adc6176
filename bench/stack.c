/* Stack bytes of a call on a chain of 63 structs, one within another: the stack below is painted, and what the call leaves of the paint is counted. */
#include "callbridge.h"
#include <alloca.h>
#include <stdio.h>
#include <string.h>

enum { PAINTED = 1 << 20, PAINT = 0xA5 };

static uint8_t chain[11 + 64 * 4 + 63 + 1];
static cb_placement list[CB_MAX_ARGUMENTS];

/* Type 0 is a char, type k a struct of type k - 1; one argument of type 63. */
static void make_chain(void)
{
    static const uint8_t header[11] = { 'K', 'C', 'B', 1, 0, 64, 0, 1, 1, 255, 63 };
    memcpy(chain, header, sizeof header);
    chain[12] = 1;
    for (int k = 1; k < 64; k++) {
        const uint8_t record[4] = { 2, (uint8_t)(k - 1), 1, 0 };
        memcpy(chain + 11 + 4 * k, record, 4);
        chain[11 + 64 * 4 + k - 1] = (uint8_t)(k - 1);
    }
    chain[sizeof chain - 1] = 63;
}

static void size(void)
{
    cb_extent extent;
    cb_type_extent(chain, sizeof chain, 63, &extent);
}

static void classes(void)
{
    cb_classes found;
    cb_type_classes(chain, sizeof chain, 63, &found);
}

static void lay_out(void)
{
    cb_layout layout;
    cb_lay_out(chain, sizeof chain, &layout, list, CB_MAX_ARGUMENTS);
}

static __attribute__((noinline)) size_t unpainted(void)
{
    volatile uint8_t *paint = alloca(PAINTED);
    size_t first = 0;
    while (first < PAINTED && paint[first] == PAINT) {
        first++;
    }
    return PAINTED - first;
}

static __attribute__((noinline)) void paint(void)
{
    volatile uint8_t *below = alloca(PAINTED);
    for (size_t i = 0; i < PAINTED; i++) {
        below[i] = PAINT;
    }
}

static __attribute__((noinline)) size_t stack_of(void (*call)(void))
{
    paint();
    call();
    return unpainted();
}

static void nothing(void)
{
}

int main(void)
{
    make_chain();
    size_t none = stack_of(nothing);
    printf("cb_type_extent/%zu\n", stack_of(size) - none);
    printf("cb_type_classes/%zu\n", stack_of(classes) - none);
    printf("cb_lay_out/%zu\n", stack_of(lay_out) - none);
    return 0;
}
