/* snprintf, a variadic function: what stands behind cb_ellipsis are the unnamed arguments of this call. */
#include "call.h"
#include <stdio.h>

int main(void)
{
    uint8_t description[CB_MAX_DESCRIPTION];
    cb_builder b = cb_begin();
    uint8_t pointer = cb_basic(&b, CB_POINTER), integer = cb_basic(&b, CB_INT), real = cb_basic(&b, CB_DOUBLE);
    cb_returns(&b, integer);
    cb_argument(&b, pointer);
    cb_argument(&b, cb_basic(&b, CB_LONG));
    cb_argument(&b, pointer);
    cb_ellipsis(&b);
    cb_argument(&b, integer);
    cb_argument(&b, real);
    size_t room = 64, length = cb_finish(&b, description, sizeof description);

    char text[64], *at = text, *format = "key %d at level %.2f";
    int key = 60, written;
    double level = 0.75;
    const call_value values[] = {CALL_VALUE(at), CALL_VALUE(room), CALL_VALUE(format), CALL_VALUE(key), CALL_VALUE(level)};
    cb_refusal refusal = call_function((call_target)snprintf, description, length, values, 5, &written, sizeof written);
    return call_refused(refusal) || printf("%s, %d bytes\n", text, written) < 0;
}
