/* For the judgement of sizes alone: prints a table of numbers, one a line. */
#include "types.h"
#include <stdio.h>

static int print_numbers(const unsigned *numbers, unsigned count)
{
    for (unsigned index = 0; index < count; index++)
        printf("%u\n", numbers[index]);
    return 0;
}
