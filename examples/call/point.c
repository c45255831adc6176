/* A struct by value, and one that comes back: both in registers. */
#include "call.h"
#include <stdio.h>

typedef struct point { double x; long y; } point;
static point moved(point from, long by) { return (point){from.x + (double)by, from.y + by}; }

int main(void)
{
    uint8_t description[CB_MAX_DESCRIPTION];
    cb_builder b = cb_begin();
    const uint8_t members[] = {cb_basic(&b, CB_DOUBLE), cb_basic(&b, CB_LONG)};
    uint8_t type = cb_struct(&b, members, 2);
    cb_returns(&b, type);
    cb_argument(&b, type);
    cb_argument(&b, members[1]);
    size_t length = cb_finish(&b, description, sizeof description);

    point from = {0.5, 7}, to;
    long by = 3;
    const call_value values[] = {CALL_VALUE(from), CALL_VALUE(by)};
    cb_refusal refusal = call_function((call_target)moved, description, length, values, 2, &to, sizeof to);
    return call_refused(refusal) || printf("(%g, %ld) moved by %ld is (%g, %ld)\n", from.x, from.y, by, to.x, to.y) < 0;
}
