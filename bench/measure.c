/* Counts every operation on every shape. */
#include "measure.h"
#include "count.h"
#include <string.h>

enum { TIMES = 100 };

uint8_t packed[SHAPES][VALUES_ROOM];
size_t packed_length[SHAPES];
void *value[SHAPES][MOST_ARGUMENTS];
static uint8_t places[SHAPES][MOST_ARGUMENTS][16] __attribute__((aligned(16)));

static void fill_values(int which)
{
    for (int i = 0; i < shapes[which].arguments; i++) {
        size_t size = (size_t)shapes[which].sizes[type_of(which, i)];
        for (size_t j = 0; j < size; j++) {
            places[which][i][j] = (uint8_t)(1 + 7 * i + 13 * (int)j);
        }
        if (size == 16) {  /* a long double among them is to be a number */
            places[which][i][7] |= 0x80;
            places[which][i][9] &= 0x3f;
        }
        memcpy(packed[which] + packed_length[which], places[which][i], size);
        packed_length[which] += size;
        value[which][i] = places[which][i];
    }
}

static void nothing(int which)
{
    (void)which;
    __asm__ volatile("");
}

static int always(int which)
{
    (void)which;
    return 1;
}

static void count_all(const operation *list)
{
    for (; list->name; list++) {
        for (int which = 0; which < SHAPES; which++) {
            if (list->prepare(which)) {
                count(list->name, which, TIMES, list->call);
            }
        }
    }
}

int main(void)
{
    static const operation empty[] = { { "nothing", always, nothing }, { 0, 0, 0 } };
    for (int which = 0; which < SHAPES; which++) {
        fill_values(which);
    }
    count_all(empty);
    count_all(bridge_operations);
    count_all(libffi_operations);
    count_all(gcc_operations);
    return 0;
}
