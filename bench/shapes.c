/* The six shapes: from a call that every engine is good at to one at the limit of 64 arguments. */
#include "measure.h"

#define HEADER(types, variadic, named, arguments, returns, members) \
    'K', 'C', 'B', 1, 0, types, variadic, named, arguments, returns, members
#define BASIC(code) 0, code, 0, 0
#define STRUCT(first, count) 2, first, count, 0

enum { INT = 3, LONG = 4, INT128 = 5, FLOAT = 6, DOUBLE = 7, LONG_DOUBLE = 8, POINTER = 15, NOTHING = 255 };

static const uint8_t five_longs[] = {
    HEADER(1, 0, 5, 5, NOTHING, 0), BASIC(LONG),
    0, 0, 0, 0, 0
};

static const uint8_t mixed[] = {
    HEADER(6, 1, 3, 5, 1, 2), BASIC(INT), BASIC(DOUBLE), BASIC(LONG), STRUCT(0, 2), BASIC(LONG_DOUBLE), BASIC(INT128),
    1, 2,
    0, 3, 4, 1, 5
};

static const uint8_t doubles_and_longs[] = {
    HEADER(2, 0, 16, 16, NOTHING, 0), BASIC(DOUBLE), BASIC(LONG),
    0, 0, 0, 0, 0, 0, 0, 0, 1, 1, 1, 1, 1, 1, 1, 1
};

static const uint8_t four_pairs[] = {
    HEADER(2, 0, 4, 4, NOTHING, 2), BASIC(DOUBLE), STRUCT(0, 2),
    0, 0,
    1, 1, 1, 1
};

#define FIVE_TIMES(a, b) a, b, a, b, a, b, a, b, a, b
static const uint8_t int_and_thirty[] = {
    HEADER(3, 1, 1, 31, NOTHING, 0), BASIC(INT), BASIC(DOUBLE), BASIC(LONG),
    0, FIVE_TIMES(1, 2), FIVE_TIMES(1, 2), FIVE_TIMES(1, 2)
};

#define EIGHT_TYPES 0, 1, 2, 3, 4, 5, 6, 7
static const uint8_t sixty_four[] = {
    HEADER(8, 0, 64, 64, NOTHING, 4), BASIC(INT), BASIC(DOUBLE), BASIC(LONG), STRUCT(0, 2), BASIC(FLOAT), BASIC(POINTER), STRUCT(2, 2),
    BASIC(LONG_DOUBLE),
    1, 2, 2, 2,
    EIGHT_TYPES, EIGHT_TYPES, EIGHT_TYPES, EIGHT_TYPES, EIGHT_TYPES, EIGHT_TYPES, EIGHT_TYPES, EIGHT_TYPES
};

#define SHAPE(name, bytes, arguments, named, ...) { name, bytes, sizeof bytes, arguments, named, { __VA_ARGS__ } }

const shape shapes[SHAPES] = {
    SHAPE("five longs", five_longs, 5, 5, 8),
    SHAPE("the lister's case", mixed, 5, 3, 4, 8, 8, 16, 16, 16),
    SHAPE("8 doubles, 8 longs", doubles_and_longs, 16, 16, 8, 8),
    SHAPE("4 structs of 2 doubles", four_pairs, 4, 4, 8, 16),
    SHAPE("int and 30 unnamed", int_and_thirty, 31, 1, 4, 8, 8),
    SHAPE("64 mixed", sixty_four, 64, 64, 4, 8, 8, 16, 4, 8, 16, 16)
};

uint8_t type_of(int which, int argument)
{
    const shape *s = &shapes[which];
    return s->description[s->length - (size_t)s->arguments + (size_t)argument];
}
