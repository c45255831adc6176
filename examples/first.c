/* The first example of README.md: void f(int, double), described and placed. */
#include <callbridge.h>
#include <stdio.h>
#include <string.h>

int main(void)
{
    /* void f(int, double): two types, two arguments, both named, no members. */
    static const uint8_t description[] = {'K', 'C', 'B', 1, 0, 2, 0, 2, 2, 255, 0, 0, 3, 0, 0, 0, 7, 0, 0, 0, 1};
    int key = 60;
    double level = 0.5;
    uint8_t values[12], registers[CB_REGISTER_IMAGE], upper[CB_UPPER_IMAGE];
    memcpy(values, &key, 4);
    memcpy(values + 4, &level, 8);

    /* This call has no stack argument: its stack image has length 0 and may be NULL. */
    cb_placed placed;
    cb_refusal refusal = cb_place_values(description, sizeof description, 0, values, sizeof values, registers, sizeof registers,
                                         upper, sizeof upper, NULL, 0, &placed);
    if (refusal.number != CB_ACCEPTED) {
        char line[CB_REFUSAL_ROOM];
        printf("refused %s\n", cb_refusal_line(refusal, line));
        return 1;
    }
    printf("rdi begins with %d, %zu vector register\n", registers[cb_register_offset(CB_RDI)], placed.vector_registers);
    return 0;
}
