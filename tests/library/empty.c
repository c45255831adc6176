/* Whether a buffer of length 0 may be NULL. Each call is made with each choice of its buffers empty, twice: the empty ones stand somewhere,
   and they are NULL. Both must answer the same and leave the same bytes. A load or a store through NULL ends the program; memset and memcpy
   are linked by way of functions here (ld --wrap), which see a NULL that the library hands on.
   Prints for each call how many were made with NULL, and how many of these were accepted; the last line is `ok` where nothing is wrong. */
#include "callbridge.h"

#include <stdio.h>
#include <string.h>

static int wrong, handed_on;

/* everything that is lent to the calls */
typedef struct desk {
    uint8_t description[64];
    size_t length;
    cb_layout layout;
    cb_placement list[16];
    cb_extent extent;
    cb_classes classes;
    cb_part part;
    size_t offsets[16];
    cb_stack_need need;
    cb_tidied tidied;
    cb_placed placed;
    cb_gathered gathered;
    cb_station station;
    cb_walk walk;
    uint8_t values[64];
    size_t values_length;
    uint8_t value[64];
    size_t value_length;
    uint8_t stack[64];
    size_t stack_length;
    uint8_t out[64];
    size_t out_length;
    uint8_t type;
    uint8_t types[16];
    size_t types_length;
    uint8_t rest[64];
    size_t rest_length;
    uint8_t registers[CB_REGISTER_IMAGE];
    uint8_t upper[CB_UPPER_IMAGE];
    uint8_t returned_upper[CB_RETURN_UPPER];
    uint8_t image[CB_RETURN_IMAGE];
    uint8_t seat[CB_SEAT_LENGTH];
    uint8_t text[CB_LISTING_ROOM];
} desk;

/* ---- what the library hands on */

void *__real_memset(void *to, int byte, size_t count);
void *__real_memcpy(void *to, const void *from, size_t count);

void *__wrap_memset(void *to, int byte, size_t count)
{
    handed_on |= to == NULL;
    return __real_memset(to, byte, count);
}

void *__wrap_memcpy(void *to, const void *from, size_t count)
{
    handed_on |= to == NULL || from == NULL;
    return __real_memcpy(to, from, count);
}

/* ---- the calls: bit k of `empty` says that buffer k, in the order of the call's arguments, is empty, and then it is `nothing` */

static uint8_t somewhere[1];
static uint8_t *nothing;

#define BUFFER(k, bytes, count) (empty >> (k) & 1 ? nothing : (bytes)), (empty >> (k) & 1 ? 0 : (count))
#define DESCRIPTION BUFFER(0, d->description, d->length)

static cb_refusal check(desk *d, unsigned empty)
{
    return cb_check(DESCRIPTION);
}

static cb_refusal type_extent(desk *d, unsigned empty)
{
    return cb_type_extent(DESCRIPTION, 0, &d->extent);
}

static cb_refusal type_classes(desk *d, unsigned empty)
{
    return cb_type_classes(DESCRIPTION, 0, &d->classes);
}

static cb_refusal member_run(desk *d, unsigned empty)
{
    return cb_member_run(DESCRIPTION, 0, &d->part);
}

static cb_refusal member_offsets(desk *d, unsigned empty)
{
    int empty_list = empty >> 1 & 1;
    return cb_member_offsets(DESCRIPTION, 0, empty_list && nothing == NULL ? NULL : d->offsets, empty_list ? 0 : 16);
}

static cb_refusal layout_of(desk *d, unsigned empty)
{
    return cb_layout_of(DESCRIPTION, &d->layout);
}

static cb_refusal needs_stack(desk *d, unsigned empty)
{
    return cb_needs_stack(DESCRIPTION, &d->need);
}

static cb_refusal lay_out(desk *d, unsigned empty)
{
    int empty_list = empty >> 1 & 1;
    return cb_lay_out(DESCRIPTION, &d->layout, empty_list && nothing == NULL ? NULL : d->list, empty_list ? 0 : 16);
}

/* It cannot be refused: its text says whether the description was. */
static cb_refusal write_listing(desk *d, unsigned empty)
{
    cb_refusal refusal = cb_check(DESCRIPTION);
    d->length = cb_write_listing(DESCRIPTION, d->text);
    return refusal;
}

static cb_refusal tidy_length(desk *d, unsigned empty)
{
    return cb_tidy_length(DESCRIPTION, &d->tidied);
}

static cb_refusal tidy(desk *d, unsigned empty)
{
    return cb_tidy(DESCRIPTION, BUFFER(1, d->text, d->length));
}

static cb_refusal place_values(desk *d, unsigned empty)
{
    return cb_place_values(DESCRIPTION, 0x1234, BUFFER(1, d->values, d->values_length), BUFFER(2, d->registers, sizeof d->registers),
                           BUFFER(3, d->upper, sizeof d->upper), BUFFER(4, d->stack, d->stack_length), &d->placed);
}

static cb_refusal gather_values(desk *d, unsigned empty)
{
    return cb_gather_values(DESCRIPTION, BUFFER(1, d->registers, sizeof d->registers), BUFFER(2, d->upper, sizeof d->upper),
                            BUFFER(3, d->stack, d->stack_length), BUFFER(4, d->values, d->values_length), &d->gathered);
}

static cb_refusal put_returned(desk *d, unsigned empty)
{
    return cb_put_returned(DESCRIPTION, 0x1234, BUFFER(1, d->value, d->value_length), BUFFER(2, d->image, sizeof d->image),
                           BUFFER(3, d->returned_upper, sizeof d->returned_upper));
}

static cb_refusal take_returned(desk *d, unsigned empty)
{
    return cb_take_returned(DESCRIPTION, BUFFER(1, d->image, sizeof d->image), BUFFER(2, d->returned_upper, sizeof d->returned_upper),
                            BUFFER(3, d->value, d->value_length), &d->gathered);
}

#define SEAT BUFFER(0, d->seat, sizeof d->seat)
#define IMAGES BUFFER(1, d->registers, sizeof d->registers), BUFFER(2, d->stack, d->stack_length)

static cb_refusal attach(desk *d, unsigned empty)
{
    d->station = cb_new_station();
    return cb_attach(&d->station, SEAT, BUFFER(1, d->description, d->length));
}

static cb_refusal detach(desk *d, unsigned empty)
{
    return cb_detach(&d->station, SEAT);
}

static cb_refusal change(desk *d, unsigned empty)
{
    return cb_change(&d->station, SEAT, BUFFER(1, d->description, d->length));
}

static cb_refusal open_walk(desk *d, unsigned empty)
{
    return cb_open_walk(&d->station, SEAT, &d->walk);
}

static cb_refusal step(desk *d, unsigned empty)
{
    return cb_step(&d->station, SEAT, &d->walk, IMAGES, d->type, BUFFER(3, d->out, d->out_length));
}

static cb_refusal finish_walk(desk *d, unsigned empty)
{
    return cb_finish_walk(&d->station, SEAT, &d->walk, IMAGES, BUFFER(3, d->types, d->types_length), BUFFER(4, d->rest, d->rest_length));
}

static cb_refusal show(desk *d, unsigned empty)
{
    return cb_show(&d->station, SEAT, &d->walk, IMAGES, d->type, &d->part);
}

static const struct call {
    const char *name;
    int buffers;
    cb_refusal (*make)(desk *d, unsigned empty);
} calls[] = {
    {"cb_check", 1, check},
    {"cb_type_extent", 1, type_extent},
    {"cb_type_classes", 1, type_classes},
    {"cb_member_run", 1, member_run},
    {"cb_member_offsets", 2, member_offsets},
    {"cb_layout_of", 1, layout_of},
    {"cb_needs_stack", 1, needs_stack},
    {"cb_lay_out", 2, lay_out},
    {"cb_write_listing", 1, write_listing},
    {"cb_tidy_length", 1, tidy_length},
    {"cb_tidy", 2, tidy},
    {"cb_place_values", 5, place_values},
    {"cb_gather_values", 5, gather_values},
    {"cb_put_returned", 4, put_returned},
    {"cb_take_returned", 4, take_returned},
    {"cb_attach", 2, attach},
    {"cb_detach", 1, detach},
    {"cb_change", 2, change},
    {"cb_open_walk", 1, open_walk},
    {"cb_step", 4, step},
    {"cb_finish_walk", 5, finish_walk},
    {"cb_show", 3, show},
};

#define CALLS (sizeof calls / sizeof calls[0])

/* ---- descriptions: with and without arguments, stack arguments, unnamed arguments, a returned value */

static const uint8_t none[] = {'K', 'C', 'B', 1, 0, 0, 0, 0, 0, 255, 0};             /* void f(void) */
static const uint8_t unnamed_none[] = {'K', 'C', 'B', 1, 0, 0, 1, 0, 0, 255, 0};     /* void f(...), called with nothing */
static const uint8_t memory[] = {'K', 'C', 'B', 1, 0, 2, 0, 0, 0, 1, 3, 0, 4, 0, 0, 2, 0, 3, 0, 0, 0, 0}; /* struct of three longs f(void) */
static const uint8_t number[] = {'K', 'C', 'B', 1, 0, 1, 0, 0, 0, 0, 0, 0, 8, 0, 0}; /* long double f(void) */
static const uint8_t printer[] = {'K', 'C', 'B', 1, 0, 2, 1, 1, 2, 0, 0, 0, 3, 0, 0, 0, 7, 0, 0, 0, 1}; /* int f(int, ...), with a double */
static const uint8_t wide[] = {'K', 'C', 'B', 1, 0, 1, 1, 0, 1, 0, 0, 0, 8, 0, 0, 0}; /* long double f(...), with a long double, on the stack */

static const struct {
    const uint8_t *bytes;
    size_t length;
} descriptions[] = {
    {none, sizeof none},     {unnamed_none, sizeof unnamed_none}, {memory, sizeof memory},
    {number, sizeof number}, {printer, sizeof printer},           {wide, sizeof wide},
};

#define DESCRIPTIONS (sizeof descriptions / sizeof descriptions[0])

/* A desk on which each call has its right lengths, and a walk stands open where the function is variadic. */
static void prepare(desk *d, const uint8_t *bytes, size_t length)
{
    memset(d, 0xA5, sizeof *d);
    memcpy(d->description, bytes, length);
    d->length = length;
    if (cb_lay_out(bytes, length, &d->layout, d->list, 16).number != CB_ACCEPTED) {
        printf("a description is refused\n");
        wrong = 1;
    }
    d->values_length = d->layout.values;
    d->stack_length = d->layout.area;
    d->value_length = 0;
    if (bytes[9] != 255 && !d->layout.hidden) {
        cb_type_extent(bytes, length, bytes[9], &d->extent);
        d->value_length = d->extent.size;
    }
    d->station = cb_new_station();
    cb_attach(&d->station, d->seat, sizeof d->seat, bytes, length);
    d->type = 0;
    d->out_length = d->types_length = d->rest_length = 0;
    if (cb_open_walk(&d->station, d->seat, sizeof d->seat, &d->walk).number == CB_ACCEPTED && d->walk.position < d->layout.arguments) {
        d->type = d->list[d->walk.position].type;
        d->out_length = d->list[d->walk.position].size;
        for (size_t i = d->walk.position; i < d->layout.arguments; i++) {
            d->types[d->types_length++] = d->list[i].type;
            d->rest_length += d->list[i].size;
        }
    }
}

/* 1 where the call was accepted. */
static int try_call(const struct call *call, const desk *prepared, unsigned empty)
{
    static desk one, other;
    memcpy(&one, prepared, sizeof one);
    memcpy(&other, prepared, sizeof other);
    nothing = somewhere;
    somewhere[0] = 0x5A;
    cb_refusal with = call->make(&one, empty);
    nothing = NULL;
    cb_refusal without = call->make(&other, empty);
    if (with.number != without.number || with.type != without.type || memcmp(&one, &other, sizeof one) != 0 || somewhere[0] != 0x5A) {
        printf("%s, buffers %#x: refusal %u with a pointer, %u with NULL\n", call->name, empty, with.number, without.number);
        wrong = 1;
    }
    return without.number == CB_ACCEPTED;
}

/* The builder of the header keeps to the same. */
static void build(void)
{
    cb_builder structure = cb_begin(), either = cb_begin(), nowhere = cb_begin();
    cb_struct(&structure, NULL, 0);
    cb_union(&either, NULL, 0);
    size_t length = cb_finish(&nowhere, NULL, 0);
    if (structure.refusal.number != CB_WRONG_TYPE_RECORD || either.refusal.number != CB_WRONG_TYPE_RECORD || length != 0 ||
        nowhere.refusal.number != CB_WRONG_BUFFER) {
        printf("the builder: refusals %u, %u and %u, length %zu\n", structure.refusal.number, either.refusal.number,
               nowhere.refusal.number, length);
        wrong = 1;
    }
}

int main(void)
{
    static desk prepared;
    build();
    for (size_t i = 0; i < CALLS; i++) {
        int made = 0, accepted = 0;
        for (size_t k = 0; k < DESCRIPTIONS; k++) {
            prepare(&prepared, descriptions[k].bytes, descriptions[k].length);
            for (unsigned empty = 1; empty < 1u << calls[i].buffers; empty++) {
                made++;
                accepted += try_call(&calls[i], &prepared, empty);
            }
        }
        printf("%s: %d calls with NULL, %d accepted\n", calls[i].name, made, accepted);
    }
    if (handed_on) {
        printf("memset or memcpy is handed NULL\n");
        wrong = 1;
    }
    if (!wrong) {
        printf("ok\n");
    }
    return wrong;
}
