/* A host of the call bridge. It reads the description of a call from standard input, says what types it has, tidies it, lays the call out, places
   made-up values, walks the unnamed arguments as the called function would, gathers the values again, and brings a
   returned value back.

       make target/staticlib/libcallbridge.a
       gcc -std=c11 -Wall -Wextra -Werror -pedantic -I include examples/host.c target/staticlib/libcallbridge.a -o target/host
       target/host < examples/mixed.kcb

   examples/host.out is what it prints for that description, document 01's example. */
#include "callbridge.h"

#include <stdio.h>
#include <string.h>

/* One call: its description and layout, the values, and the images that the jump would load. */
typedef struct call {
    uint8_t description[CB_MAX_DESCRIPTION + 1]; /* one byte more, so that a longer input is seen and refused */
    size_t length;
    cb_layout layout;
    cb_placement arguments[CB_MAX_ARGUMENTS];
    uint8_t values[CB_MAX_ARGUMENTS * CB_MAX_TYPE];
    uint8_t registers[CB_REGISTER_IMAGE];
    uint8_t upper[CB_UPPER_IMAGE];
    uint8_t stack[CB_MAX_AREA];
} call;

/* Says what was refused; 1 where it was. */
static int refused(const char *what, cb_refusal refusal)
{
    if (refusal.number != CB_ACCEPTED) {
        char line[CB_REFUSAL_ROOM];
        printf("%s: refused %s\n", what, cb_refusal_line(refusal, line));
    }
    return refusal.number != CB_ACCEPTED;
}

static void print_bytes(const uint8_t *bytes, size_t count)
{
    for (size_t i = 0; i < count; i++) {
        printf(" %02x", bytes[i]);
    }
    printf("\n");
}

static const char *class_name(uint8_t class_number)
{
    static const char *const names[8] = {"NO_CLASS", "INTEGER", "SSE", "SSEUP", "X87", "X87UP", "COMPLEX_X87", "MEMORY"};
    return class_number < 8 ? names[class_number] : "?";
}

/* Asks about each type, up to the first number that no type has. */
static void print_types(const call *c)
{
    for (uint8_t type = 0; type < 255; type++) {
        cb_extent extent;
        cb_classes classes;
        cb_part members;
        size_t offsets[CB_MAX_MEMBERS];
        if (cb_type_extent(c->description, c->length, type, &extent).number != CB_ACCEPTED ||
            cb_type_classes(c->description, c->length, type, &classes).number != CB_ACCEPTED ||
            cb_member_run(c->description, c->length, type, &members).number != CB_ACCEPTED ||
            cb_member_offsets(c->description, c->length, type, offsets, CB_MAX_MEMBERS).number != CB_ACCEPTED) {
            return;
        }
        printf("type %u: %zu bytes, aligned to %zu, %s %s", type, extent.size, extent.align, class_name(classes.first),
               class_name(classes.second));
        if (classes.third != CB_NO_CLASS) {
            printf(" %s %s", class_name(classes.third), class_name(classes.fourth));
        }
        if (members.image == CB_DESCRIPTION) {
            printf(", members");
            for (size_t i = 0; i < members.length; i++) {
                printf(" %u at %zu", c->description[members.offset + i], offsets[i]);
            }
        }
        printf("\n");
    }
}

static void print_listing(const call *c)
{
    uint8_t text[CB_LISTING_ROOM];
    size_t length = cb_write_listing(c->description, c->length, text);
    fwrite(text, 1, length, stdout);
}

static void print_registers(uint8_t first, uint8_t second)
{
    printf(" %s", cb_register_name(first));
    if (second != CB_NONE) {
        printf(" %s", cb_register_name(second));
    }
    printf("\n");
}

static void print_layout(const call *c)
{
    printf("%zu arguments, %zu general and %zu vector registers, %zu bytes of stack aligned to %zu, %zu bytes of values\n",
           c->layout.arguments, c->layout.general_registers, c->layout.vector_registers, c->layout.area, c->layout.area_alignment,
           c->layout.values);
    for (size_t i = 0; i < c->layout.arguments; i++) {
        printf("argument %zu: type %u, %zu bytes:", i, c->arguments[i].type, c->arguments[i].size);
        if (c->arguments[i].first == CB_NONE) {
            printf(" stack %zu\n", c->arguments[i].offset);
        } else {
            print_registers(c->arguments[i].first, c->arguments[i].second);
        }
    }
    if (c->layout.hidden == 1) {
        printf("returns in memory, whose address is passed in rdi\n");
    } else if (c->layout.return_first == CB_NONE) {
        printf("returns nothing\n");
    } else {
        printf("returns in");
        print_registers(c->layout.return_first, c->layout.return_second);
    }
}

/* Every byte of argument i is 16 * i, plus its place among the argument's bytes up to 15; a lone byte is 1, which is right for _Bool. */
static void make_values(call *c)
{
    size_t at = 0;
    for (size_t i = 0; i < c->layout.arguments; i++) {
        for (size_t k = 0; k < c->arguments[i].size; k++) {
            c->values[at] = c->arguments[i].size == 1 ? 1 : (uint8_t)(16 * i + k % 16);
            at++;
        }
    }
}

static int place(call *c)
{
    cb_placed placed;
    cb_refusal refusal = cb_place_values(c->description, c->length, 0x1000, c->values, c->layout.values, c->registers,
                                         sizeof c->registers, c->upper, sizeof c->upper, c->stack, c->layout.area, &placed);
    if (refused("place", refusal)) {
        return 1;
    }
    printf("placed, al = %zu\n", placed.vector_registers);
    for (size_t i = 0; i < c->layout.arguments; i++) {
        if (c->arguments[i].first != CB_NONE) {
            size_t upper = cb_upper_offset(c->arguments[i].first);
            printf("  %s:", cb_register_name(c->arguments[i].first));
            print_bytes(c->registers + cb_register_offset(c->arguments[i].first), upper == CB_NO_OFFSET ? 8 : 16);
            if (upper != CB_NO_OFFSET) {
                printf("  and its upper half:");
                print_bytes(c->upper + upper, 16);
            }
        }
    }
    return 0;
}

static const char *image_name(uint8_t image)
{
    return image == CB_REGISTERS ? "the register image" : image == CB_STACK ? "the stack image" : "no one part";
}

/* What a variadic function does with the images: one step for each unnamed argument. */
static int walk(const call *c, const cb_station *station, const uint8_t *seat)
{
    cb_walk at;
    if (refused("open", cb_open_walk(station, seat, CB_SEAT_LENGTH, &at))) {
        return 1;
    }
    printf("opened before argument %zu: gp_offset %zu, fp_offset %zu, overflow %zu\n", at.position, at.general, at.vector, at.overflow);
    while (at.position < c->layout.arguments) {
        const cb_placement *next = &c->arguments[at.position];
        uint8_t out[CB_MAX_TYPE];
        cb_part part;
        cb_refusal refusal = cb_show(station, seat, CB_SEAT_LENGTH, &at, c->registers, sizeof c->registers, c->stack, c->layout.area,
                                     next->type, &part);
        if (refused("show", refusal)) {
            return 1;
        }
        printf("argument %zu is shown in %s, from %zu on\n", at.position, image_name(part.image), part.offset);
        refusal = cb_step(station, seat, CB_SEAT_LENGTH, &at, c->registers, sizeof c->registers, c->stack, c->layout.area, next->type,
                          out, next->size);
        if (refused("step", refusal)) {
            return 1;
        }
        printf("  stepped over it:");
        print_bytes(out, next->size);
    }
    return 0;
}

/* The same in one call: the types that the host expects, and one buffer for all unnamed arguments, packed. */
static int read_all(const call *c, const cb_station *station, const uint8_t *seat)
{
    static uint8_t out[sizeof c->values];
    uint8_t types[CB_MAX_ARGUMENTS];
    size_t count = 0, length = 0;
    cb_walk at;
    if (refused("open", cb_open_walk(station, seat, CB_SEAT_LENGTH, &at))) {
        return 1;
    }
    for (size_t i = at.position; i < c->layout.arguments; i++) {
        types[count++] = c->arguments[i].type;
        length += c->arguments[i].size;
    }
    if (refused("finish", cb_finish_walk(station, seat, CB_SEAT_LENGTH, &at, c->registers, sizeof c->registers, c->stack, c->layout.area,
                                         types, count, out, length))) {
        return 1;
    }
    printf("all %zu at once, %zu bytes:", count, length);
    print_bytes(out, length);
    return 0;
}

/* The same with a module that comes and goes: attach, walk, change for its next version, detach. */
static int visit(const call *c)
{
    uint8_t seat[CB_SEAT_LENGTH];
    cb_station station = cb_new_station();
    cb_walk half = {0}, late = {0};
    uint8_t out[CB_MAX_TYPE];
    memset(seat, 0, sizeof seat);
    if (refused("attach", cb_attach(&station, seat, sizeof seat, c->description, c->length))) {
        return 1;
    }
    printf("attached: number %lu, %zu bytes\n", (unsigned long)station.number, station.length);
    if (walk(c, &station, seat) == 0) {
        read_all(c, &station, seat);
    }
    /* A walk stands half-finished while one module leaves and another comes: it is never read under the new one. */
    int open = !refused("open", cb_open_walk(&station, seat, sizeof seat, &half));
    if (refused("change", cb_change(&station, seat, sizeof seat, c->description, c->length))) {
        return 1;
    }
    printf("changed: number %lu, %zu bytes\n", (unsigned long)station.number, station.length);
    if (open) {
        refused("step", cb_step(&station, seat, sizeof seat, &half, c->registers, sizeof c->registers, c->stack, c->layout.area,
                                0, out, 0));
    }
    if (refused("detach", cb_detach(&station, seat, sizeof seat))) {
        return 1;
    }
    printf("detached\n");
    refused("open", cb_open_walk(&station, seat, sizeof seat, &late));
    return 0;
}

static int gather(const call *c)
{
    static uint8_t values[sizeof c->values];
    cb_gathered gathered;
    cb_refusal refusal = cb_gather_values(c->description, c->length, c->registers, sizeof c->registers, c->upper, sizeof c->upper,
                                          c->stack, c->layout.area, values, c->layout.values, &gathered);
    if (refused("gather", refusal)) {
        return 1;
    }
    printf("gathered: hidden address %#lx, values %s\n", (unsigned long)gathered.hidden,
           memcmp(values, c->values, c->layout.values) == 0 ? "as placed" : "CHANGED");
    return 0;
}

/* What the module's function would leave, and how the host finds it: a value of the returned type's size. */
static int bring_back(const call *c)
{
    uint8_t value[CB_MAX_TYPE], back[CB_MAX_TYPE], image[CB_RETURN_IMAGE], upper[CB_RETURN_UPPER];
    size_t size = c->layout.hidden ? 0 : c->layout.return_size;
    cb_gathered taken;
    for (size_t i = 0; i < size; i++) {
        value[i] = (uint8_t)(0x80 + i);
    }
    if (refused("put", cb_put_returned(c->description, c->length, 0, value, size, image, sizeof image, upper, sizeof upper)) ||
        refused("take", cb_take_returned(c->description, c->length, image, sizeof image, upper, sizeof upper, back, size, &taken))) {
        return 1;
    }
    printf("returned:");
    print_bytes(back, size);
    return 0;
}

/* What is left of the description in its tidy form, which could be kept in its place: it describes the same call. */
static void print_tidy(const call *c)
{
    cb_tidied tidied;
    uint8_t form[CB_MAX_DESCRIPTION];
    if (refused("tidy", cb_tidy_length(c->description, c->length, &tidied)) ||
        refused("tidy", cb_tidy(c->description, c->length, form, tidied.length))) {
        return;
    }
    printf("tidy: %zu of %zu bytes, %d of %d types; the arguments are of types", tidied.length, c->length, form[5],
           c->description[5]);
    for (size_t i = tidied.length - form[8]; i < tidied.length; i++) {
        printf(" %d", form[i]);
    }
    printf("\n");
}

int main(void)
{
    static call c;
    if (cb_version() != CB_VERSION) {
        printf("the library is of version %lu, the header of %d\n", (unsigned long)cb_version(), CB_VERSION);
        return 1;
    }
    c.length = fread(c.description, 1, sizeof c.description, stdin);
    if (refused("description", cb_check(c.description, c.length))) {
        return 1;
    }
    print_listing(&c);
    print_types(&c);
    print_tidy(&c);
    if (refused("layout", cb_lay_out(c.description, c.length, &c.layout, c.arguments, CB_MAX_ARGUMENTS))) {
        return 1;
    }
    print_layout(&c);
    make_values(&c);
    return place(&c) || visit(&c) || gather(&c) || bring_back(&c);
}
