/* callback.c: gathers the arguments of a callback out of the images, and puts its result. */
#include "callback.h"

#include <stdlib.h>
#include <string.h>

typedef struct callback {
    callback_handler *handler; /* NULL where the entry is free */
    void *user;
    cb_layout layout;
    cb_placement arguments[CB_MAX_ARGUMENTS];
    size_t length;
    uint8_t description[CB_MAX_DESCRIPTION];
} callback;

static callback callbacks[CALLBACKS];

/* What callback.S stores, and what it loads: it finds each by its offset. */
typedef struct callback_images {
    uint8_t registers[CB_REGISTER_IMAGE];    /*   0 */
    uint8_t upper[CB_UPPER_IMAGE];           /* 176 */
    uint8_t returned[CB_RETURN_IMAGE];       /* 304 */
    uint8_t returned_upper[CB_RETURN_UPPER]; /* 384 */
} callback_images;

_Static_assert(sizeof(callback_images) == 400, "the images are as callback.S leaves them");

/* callback.S */
extern const uint8_t callback_entries[CALLBACKS][CALLBACK_ENTRY];

/* For callback.S: 1 for a callback that uses the upper images. */
extern uint8_t callback_wide[CALLBACKS];
uint8_t callback_wide[CALLBACKS];

call_target callback_make(const uint8_t *description, size_t length, callback_handler *handler, void *user)
{
    cb_layout layout;
    cb_placement arguments[CB_MAX_ARGUMENTS];
    if (handler == NULL || cb_lay_out(description, length, &layout, arguments, CB_MAX_ARGUMENTS).number != CB_ACCEPTED) {
        return NULL;
    }
    for (size_t i = 0; i < CALLBACKS; i++) {
        callback *c = &callbacks[i];
        if (c->handler == NULL) {
            c->handler = handler;
            c->user = user;
            c->layout = layout;
            memcpy(c->arguments, arguments, layout.arguments * sizeof arguments[0]);
            c->length = length;
            memcpy(c->description, description, length);
            callback_wide[i] = (uint8_t)call_wide(&layout, arguments);
            return (call_target)(uintptr_t)callback_entries[i];
        }
    }
    return NULL;
}

void callback_drop(call_target made)
{
    for (size_t i = 0; i < CALLBACKS; i++) {
        if (made == (call_target)(uintptr_t)callback_entries[i]) {
            callbacks[i].handler = NULL;
        }
    }
}

/* Copies each value to a place of its own that is aligned to 32, so that a handler may read it by a pointer of its type. */
static void spread(const callback *c, const uint8_t *packed, uint8_t *room, const void **values)
{
    for (size_t i = 0; i < c->layout.arguments; i++) {
        size_t size = c->arguments[i].size;
        values[i] = memcpy(room, packed, size);
        packed += size;
        room += (size + 31) / 32 * 32;
    }
}

/* Called by callback.S. Answers how many numbers go back on the x87 stack. What is refused here cannot be told to the module, and ends
   the program: a callback that was dropped, or a handler that returns a _Bool that is not 0 or 1. */
size_t callback_arrived(size_t number, callback_images *images, const uint8_t *stack);

size_t callback_arrived(size_t number, callback_images *images, const uint8_t *stack)
{
    const callback *c = &callbacks[number];
    uint8_t packed[CB_MAX_VALUES];
    _Alignas(32) uint8_t room[CB_MAX_VALUES + 32 * CB_MAX_ARGUMENTS];
    _Alignas(32) uint8_t result[32]; /* what does not come back in memory has no more: a complex long double, a vector */
    const void *values[CB_MAX_ARGUMENTS];
    cb_gathered gathered;
    if (c->handler == NULL ||
        cb_gather_values(c->description, c->length, images->registers, sizeof images->registers, images->upper, sizeof images->upper,
                         stack, c->layout.area, packed, c->layout.values, &gathered).number != CB_ACCEPTED) {
        abort();
    }
    spread(c, packed, room, values);
    memset(result, 0, sizeof result);
    c->handler(c->user, values, c->layout.hidden ? (void *)(uintptr_t)gathered.hidden : result);
    /* A value in memory is at its address already, and has length 0 here. */
    if (cb_put_returned(c->description, c->length, gathered.hidden, result, c->layout.hidden ? 0 : c->layout.return_size,
                        images->returned, sizeof images->returned, images->returned_upper,
                        sizeof images->returned_upper).number != CB_ACCEPTED) {
        abort();
    }
    return call_x87(&c->layout);
}
