/* pow(2, 10), through a description. */
#include "call.h"
#include <math.h>
#include <stdio.h>

int main(void)
{
    uint8_t description[CB_MAX_DESCRIPTION];
    cb_builder b = cb_begin();
    uint8_t real = cb_basic(&b, CB_DOUBLE);
    cb_returns(&b, real);
    cb_argument(&b, real);
    cb_argument(&b, real);
    size_t length = cb_finish(&b, description, sizeof description);

    double base = 2, exponent = 10, power;
    const call_value values[] = {CALL_VALUE(base), CALL_VALUE(exponent)};
    if (call_refused(call_function((call_target)pow, description, length, values, 2, &power, sizeof power))) {
        return 1;
    }
    printf("%g to the power of %g is %g\n", base, exponent, power);
    return 0;
}
