/* Whether the structs of include/callbridge.h are those of the library. Each struct is lent with guard bytes behind it, the library fills it,
   and each field is read back by its name: a field that stood elsewhere would hold another number, a struct that was longer would have
   its guard overwritten. No function of the library tells its own sizes; it is looked at as a host looks at it.
   Whether no struct has a byte that is no field, its reserved bytes are zero after an answer, and a refusal leaves every byte, but for a
   part, which it empties; whether any number but 0 says that something is attached, and reserved bytes say nothing.
   And whether each call that passes on that a type is wrong tells which.
   Prints each struct's size and offsets; the last line is `ok` where everything agrees. */
#include "callbridge.h"

#include <stdio.h>
#include <string.h>

static int wrong;

/* document 01's example */
static const uint8_t mixed[] = {0x4B, 0x43, 0x42, 1, 0, 6, 1, 3, 5, 1, 2, 0, 3, 0, 0, 0, 7, 0, 0, 0, 4, 0, 0, 2,
                                0,    2,    0,    0, 8, 0, 0, 0, 5, 0, 0, 1, 2, 0, 3, 4, 1, 5};

/* returns a complex long double, takes a long double, a long, six doubles and, unnamed, two long doubles, a struct of 24 bytes and a long */
static const uint8_t wide[] = {0x4B, 0x43, 0x42, 1, 0, 6, 1, 8, 12, 4, 3, 0, 8, 0, 0, 0, 4, 0, 0, 0, 7, 0, 0, 2, 0, 3, 0,
                               0,    14,   0,    0, 0, 3, 0, 0, 1,  1, 1, 0, 1, 2, 2, 2, 2, 2, 2, 0, 0, 3, 1};

/* returns that struct, in memory, and takes a long */
static const uint8_t memory[] = {0x4B, 0x43, 0x42, 1, 0, 2, 0, 1, 1, 1, 3, 0, 4, 0, 0, 2, 0, 3, 0, 0, 0, 0, 0};

/* returns a vector of 32 bytes, takes an int, such a vector and, unnamed, another */
static const uint8_t vector[] = {0x4B, 0x43, 0x42, 1, 0, 2, 1, 2, 3, 1, 0, 0, 3, 0, 0, 0, 16, 0, 0, 0, 1, 1};

static void expect(const char *what, size_t is, size_t should)
{
    if (is != should) {
        printf("%s is %zu, should be %zu\n", what, is, should);
        wrong = 1;
    }
}

#define GUARD 64

/* a struct and guard bytes behind it, all of one value at first */
#define LENT(type)            \
    struct {                  \
        type value;           \
        uint8_t guard[GUARD]; \
    }

#define FILLING 0xA5
#define FRESH(lent) memset(&(lent), FILLING, sizeof(lent))

/* so many bytes of one value */
static void all_are(const char *what, const void *bytes, size_t count, uint8_t should)
{
    for (size_t i = 0; i < count; i++) {
        if (((const uint8_t *)bytes)[i] != should) {
            printf("%s: byte %zu is %u, should be %u\n", what, i, ((const uint8_t *)bytes)[i], should);
            wrong = 1;
            return;
        }
    }
}

/* the same bytes, or the text is said */
static void same(const char *what, const void *is, const void *should, size_t size)
{
    if (memcmp(is, should, size) != 0) {
        printf("%s\n", what);
        wrong = 1;
    }
}

#define GUARDED(lent) all_are("the bytes behind " #lent, (lent).guard, GUARD, FILLING)
#define RESERVED(record) all_are("the reserved bytes of " #record, (record).reserved, sizeof(record).reserved, 0)

static void told(const char *what, cb_refusal is, uint8_t number, uint8_t type)
{
    expect(what, is.number, number);
    expect(what, is.type, type);
}

static void answered(const char *what, cb_refusal refusal)
{
    told(what, refusal, CB_ACCEPTED, 0);
}

#define FIELD(type, field) sizeof(((type *)0)->field)

/* Each struct has the bytes of its fields and no others. */
static void sizes(void)
{
    expect("sizeof(cb_refusal)", sizeof(cb_refusal), FIELD(cb_refusal, number) + FIELD(cb_refusal, type));
    expect("sizeof(cb_extent)", sizeof(cb_extent), FIELD(cb_extent, size) + FIELD(cb_extent, align));
    expect("sizeof(cb_classes)", sizeof(cb_classes),
           FIELD(cb_classes, first) + FIELD(cb_classes, second) + FIELD(cb_classes, third) + FIELD(cb_classes, fourth));
    expect("sizeof(cb_part)", sizeof(cb_part),
           FIELD(cb_part, offset) + FIELD(cb_part, length) + FIELD(cb_part, image) + FIELD(cb_part, reserved));
    expect("sizeof(cb_placement)", sizeof(cb_placement),
           FIELD(cb_placement, size) + FIELD(cb_placement, align) + FIELD(cb_placement, offset) + FIELD(cb_placement, value) +
               FIELD(cb_placement, type) + FIELD(cb_placement, first) + FIELD(cb_placement, second) + FIELD(cb_placement, named) +
               FIELD(cb_placement, reserved));
    expect("sizeof(cb_layout)", sizeof(cb_layout),
           FIELD(cb_layout, general_registers) + FIELD(cb_layout, vector_registers) + FIELD(cb_layout, stack_end) +
               FIELD(cb_layout, area) + FIELD(cb_layout, area_alignment) + FIELD(cb_layout, values) + FIELD(cb_layout, return_size) +
               FIELD(cb_layout, named_general_registers) + FIELD(cb_layout, named_vector_registers) +
               FIELD(cb_layout, named_stack_end) + FIELD(cb_layout, arguments) + FIELD(cb_layout, return_first) +
               FIELD(cb_layout, return_second) + FIELD(cb_layout, hidden) + FIELD(cb_layout, reserved));
    expect("sizeof(cb_stack_need)", sizeof(cb_stack_need),
           FIELD(cb_stack_need, looked) + FIELD(cb_stack_need, needed) + FIELD(cb_stack_need, reserved));
    expect("sizeof(cb_tidied)", sizeof(cb_tidied), FIELD(cb_tidied, length));
    expect("sizeof(cb_placed)", sizeof(cb_placed), FIELD(cb_placed, vector_registers));
    expect("sizeof(cb_gathered)", sizeof(cb_gathered), FIELD(cb_gathered, hidden));
    expect("sizeof(cb_station)", sizeof(cb_station),
           FIELD(cb_station, length) + FIELD(cb_station, number) + FIELD(cb_station, attached) + FIELD(cb_station, reserved));
    expect("sizeof(cb_walk)", sizeof(cb_walk),
           FIELD(cb_walk, position) + FIELD(cb_walk, general) + FIELD(cb_walk, vector) + FIELD(cb_walk, overflow) +
               FIELD(cb_walk, number) + FIELD(cb_walk, reserved));
    expect("sizeof(cb_builder)", sizeof(cb_builder),
           FIELD(cb_builder, refusal) + FIELD(cb_builder, type_count) + FIELD(cb_builder, member_count) +
               FIELD(cb_builder, argument_count) + FIELD(cb_builder, named_count) + FIELD(cb_builder, variadic) +
               FIELD(cb_builder, model) + FIELD(cb_builder, returns) + FIELD(cb_builder, returned) + FIELD(cb_builder, types) +
               FIELD(cb_builder, members) + FIELD(cb_builder, arguments));
}

static void questions(void)
{
    LENT(cb_extent) extent;
    LENT(cb_classes) classes;
    LENT(cb_part) part;
    size_t offsets[3];
    FRESH(extent);
    FRESH(classes);
    FRESH(part);
    FRESH(offsets);
    answered("cb_type_extent", cb_type_extent(mixed, sizeof mixed, 3, &extent.value));
    answered("cb_type_classes", cb_type_classes(mixed, sizeof mixed, 3, &classes.value));
    answered("cb_member_run", cb_member_run(mixed, sizeof mixed, 3, &part.value));
    answered("cb_member_offsets", cb_member_offsets(mixed, sizeof mixed, 3, offsets, 3));
    GUARDED(extent);
    GUARDED(classes);
    GUARDED(part);
    expect("extent.size", extent.value.size, 16);
    expect("extent.align", extent.value.align, 8);
    expect("classes.first", classes.value.first, CB_SSE);
    expect("classes.second", classes.value.second, CB_INTEGER);
    expect("classes.third", classes.value.third, CB_NO_CLASS);
    expect("classes.fourth", classes.value.fourth, CB_NO_CLASS);
    answered("cb_type_classes", cb_type_classes(vector, sizeof vector, 1, &classes.value));
    GUARDED(classes);
    expect("classes.first", classes.value.first, CB_SSE);
    expect("classes.second", classes.value.second, CB_SSEUP);
    expect("classes.third", classes.value.third, CB_SSEUP);
    expect("classes.fourth", classes.value.fourth, CB_SSEUP);
    expect("part.offset", part.value.offset, 35);
    expect("part.length", part.value.length, 2);
    expect("part.image", part.value.image, CB_DESCRIPTION);
    RESERVED(part.value);
    expect("offsets[0]", offsets[0], 0);
    expect("offsets[1]", offsets[1], 8);
    all_are("the entries behind the offsets", &offsets[2], sizeof offsets[2], FILLING);
    printf("cb_extent %zu: size %zu align %zu\n", sizeof(cb_extent), offsetof(cb_extent, size), offsetof(cb_extent, align));
    printf("cb_classes %zu: first %zu second %zu third %zu fourth %zu\n", sizeof(cb_classes), offsetof(cb_classes, first),
           offsetof(cb_classes, second), offsetof(cb_classes, third), offsetof(cb_classes, fourth));
    printf("cb_part %zu: offset %zu length %zu image %zu reserved %zu\n", sizeof(cb_part), offsetof(cb_part, offset),
           offsetof(cb_part, length), offsetof(cb_part, image), offsetof(cb_part, reserved));
}

/* The fields of a layout, in the header's order, as numbers that tell each from the others over four descriptions. */
static void layout(const uint8_t *description, size_t length, const size_t should[14])
{
    LENT(cb_layout) whole;
    FRESH(whole);
    answered("cb_layout_of", cb_layout_of(description, length, &whole.value));
    GUARDED(whole);
    expect("general_registers", whole.value.general_registers, should[0]);
    expect("vector_registers", whole.value.vector_registers, should[1]);
    expect("stack_end", whole.value.stack_end, should[2]);
    expect("area", whole.value.area, should[3]);
    expect("area_alignment", whole.value.area_alignment, should[4]);
    expect("values", whole.value.values, should[5]);
    expect("return_size", whole.value.return_size, should[6]);
    expect("named_general_registers", whole.value.named_general_registers, should[7]);
    expect("named_vector_registers", whole.value.named_vector_registers, should[8]);
    expect("named_stack_end", whole.value.named_stack_end, should[9]);
    expect("arguments", whole.value.arguments, should[10]);
    expect("return_first", whole.value.return_first, should[11]);
    expect("return_second", whole.value.return_second, should[12]);
    expect("hidden", whole.value.hidden, should[13]);
    RESERVED(whole.value);
}

static void layouts(void)
{
    static const size_t of_mixed[14] = {4, 2, 16, 16, 16, 60, 8, 2, 1, 16, 5, CB_XMM0, CB_NONE, 0};
    static const size_t of_wide[14] = {2, 6, 72, 80, 16, 136, 32, 1, 6, 16, 12, CB_ST0, CB_ST1, 0};
    static const size_t of_memory[14] = {2, 0, 0, 0, 16, 8, 24, 2, 0, 0, 1, CB_NONE, CB_NONE, 1};
    static const size_t of_vector[14] = {1, 1, 32, 32, 32, 68, 32, 1, 1, 0, 3, CB_XMM0Y, CB_NONE, 0};
    const size_t *const all[4] = {of_mixed, of_wide, of_memory, of_vector};
    layout(mixed, sizeof mixed, of_mixed);
    layout(wide, sizeof wide, of_wide);
    layout(memory, sizeof memory, of_memory);
    layout(vector, sizeof vector, of_vector);
    for (size_t i = 0; i < 14; i++) {
        for (size_t k = 0; k < i; k++) {
            if (all[0][i] == all[0][k] && all[1][i] == all[1][k] && all[2][i] == all[2][k] && all[3][i] == all[3][k]) {
                printf("fields %zu and %zu of cb_layout are not told apart\n", k, i);
                wrong = 1;
            }
        }
    }
    printf("cb_layout %zu: %zu %zu %zu %zu %zu %zu %zu %zu %zu %zu %zu %zu %zu %zu reserved %zu\n", sizeof(cb_layout), offsetof(cb_layout, general_registers),
           offsetof(cb_layout, vector_registers), offsetof(cb_layout, stack_end), offsetof(cb_layout, area),
           offsetof(cb_layout, area_alignment), offsetof(cb_layout, values),
           offsetof(cb_layout, return_size), offsetof(cb_layout, named_general_registers), offsetof(cb_layout, named_vector_registers),
           offsetof(cb_layout, named_stack_end),
           offsetof(cb_layout, arguments), offsetof(cb_layout, return_first), offsetof(cb_layout, return_second), offsetof(cb_layout, hidden),
           offsetof(cb_layout, reserved));
}

static void record(const cb_placement *is, size_t size, size_t align, size_t offset, size_t value, size_t type, size_t first, size_t second, size_t named)
{
    expect("placement.size", is->size, size);
    expect("placement.align", is->align, align);
    expect("placement.offset", is->offset, offset);
    expect("placement.value", is->value, value);
    expect("placement.type", is->type, type);
    expect("placement.first", is->first, first);
    expect("placement.second", is->second, second);
    expect("placement.named", is->named, named);
    RESERVED(*is);
}

static void lists(void)
{
    cb_layout whole;
    cb_placement records[14];
    FRESH(records);
    answered("cb_lay_out", cb_lay_out(wide, sizeof wide, &whole, records, 14));
    all_are("the records behind the twelfth", &records[12], 2 * sizeof records[0], FILLING);
    record(&records[0], 16, 16, 0, 0, 0, CB_NONE, CB_NONE, 1);
    record(&records[1], 8, 8, 0, 16, 1, CB_RDI, CB_NONE, 1);
    record(&records[7], 8, 8, 0, 64, 2, CB_XMM5, CB_NONE, 1);
    record(&records[9], 16, 16, 32, 88, 0, CB_NONE, CB_NONE, 0);
    record(&records[10], 24, 8, 48, 104, 3, CB_NONE, CB_NONE, 0);
    record(&records[11], 8, 8, 0, 128, 1, CB_RSI, CB_NONE, 0);
    expect("where the last value ends", records[11].value + records[11].size, whole.values);
    answered("cb_lay_out", cb_lay_out(vector, sizeof vector, &whole, records, 14));
    record(&records[1], 32, 32, 0, 4, 1, CB_XMM0Y, CB_NONE, 1);
    record(&records[2], 32, 32, 0, 36, 1, CB_NONE, CB_NONE, 0);
    printf("cb_placement %zu: size %zu align %zu offset %zu value %zu type %zu first %zu second %zu named %zu reserved %zu\n",
           sizeof(cb_placement), offsetof(cb_placement, size), offsetof(cb_placement, align), offsetof(cb_placement, offset),
           offsetof(cb_placement, value), offsetof(cb_placement, type), offsetof(cb_placement, first), offsetof(cb_placement, second),
           offsetof(cb_placement, named), offsetof(cb_placement, reserved));
}

static void needed(const uint8_t *description, size_t length, size_t looked, size_t is_needed)
{
    LENT(cb_stack_need) need;
    FRESH(need);
    answered("cb_needs_stack", cb_needs_stack(description, length, &need.value));
    GUARDED(need);
    expect("need.looked", need.value.looked, looked);
    expect("need.needed", need.value.needed, is_needed);
    RESERVED(need.value);
}

static void needs(void)
{
    needed(mixed, sizeof mixed, 3, 1);
    needed(wide, sizeof wide, 1, 1);
    needed(memory, sizeof memory, 1, 0);
    printf("cb_stack_need %zu: looked %zu needed %zu reserved %zu\n", sizeof(cb_stack_need), offsetof(cb_stack_need, looked),
           offsetof(cb_stack_need, needed), offsetof(cb_stack_need, reserved));
}

static void tidy(void)
{
    LENT(cb_tidied) tidied;
    uint8_t out[sizeof mixed];
    FRESH(tidied);
    FRESH(out);
    answered("cb_tidy_length", cb_tidy_length(mixed, sizeof mixed, &tidied.value));
    GUARDED(tidied);
    expect("tidied.length", tidied.value.length, sizeof mixed);
    answered("cb_tidy", cb_tidy(mixed, sizeof mixed, out, tidied.value.length));
    answered("cb_check", cb_check(out, sizeof out));
    printf("cb_tidied %zu: length %zu\n", sizeof(cb_tidied), offsetof(cb_tidied, length));
}

/* Bytes 16 to 31 of a vector stand in the upper images, at the offsets that the header says. */
static void uppers(void)
{
    uint8_t values[68], back[68], registers[CB_REGISTER_IMAGE], upper[CB_UPPER_IMAGE], stack[32], image[CB_RETURN_IMAGE], second[CB_RETURN_UPPER];
    cb_placed placed;
    cb_gathered gathered;
    for (size_t i = 0; i < sizeof values; i++) {
        values[i] = (uint8_t)(i + 1);
    }
    answered("cb_place_values", cb_place_values(vector, sizeof vector, 0, values, sizeof values, registers, sizeof registers, upper, sizeof upper, stack, sizeof stack, &placed));
    expect("placed.vector_registers", placed.vector_registers, 1);
    same("bytes 0 to 15 of a vector", registers + cb_register_offset(CB_XMM0Y), values + 4, 16);
    same("bytes 16 to 31 of a vector", upper + cb_upper_offset(CB_XMM0Y), values + 20, 16);
    all_are("the upper image behind ymm0", upper + 16, sizeof upper - 16, 0);
    same("a vector on the stack", stack, values + 36, 32);
    answered("cb_gather_values", cb_gather_values(vector, sizeof vector, registers, sizeof registers, upper, sizeof upper, stack, sizeof stack, back, sizeof back, &gathered));
    same("the values", back, values, sizeof values);
    answered("cb_put_returned", cb_put_returned(vector, sizeof vector, 0, values, 32, image, sizeof image, second, sizeof second));
    same("bytes 0 to 15 of a returned vector", image + 16, values, 16);
    same("bytes 16 to 31 of a returned vector", second, values + 16, 16);
    answered("cb_take_returned", cb_take_returned(vector, sizeof vector, image, sizeof image, second, sizeof second, back, 32, &gathered));
    same("the returned vector", back, values, 32);
    expect("cb_upper_offset of xmm7y", cb_upper_offset(CB_XMM7Y), 112);
    expect("cb_register_offset of xmm7y", cb_register_offset(CB_XMM7Y), 160);
    expect("cb_upper_offset of xmm0", cb_upper_offset(CB_XMM0), CB_NO_OFFSET);
    expect("cb_upper_offset of 56", cb_upper_offset(56), CB_NO_OFFSET);
    expect("cb_register_offset of 56", cb_register_offset(56), CB_NO_OFFSET);
    same("the name of xmm3y", cb_register_name(CB_XMM3Y), "xmm3y", 6);
    same("the name of 56", cb_register_name(56), "", 1);
}

static void moves(void)
{
    LENT(cb_placed) placed;
    LENT(cb_gathered) gathered;
    static const uint8_t values[8] = {1, 2, 3, 4, 5, 6, 7, 8};
    uint8_t registers[CB_REGISTER_IMAGE];
    uint8_t upper[CB_UPPER_IMAGE];
    uint8_t stack[80];
    uint8_t back[8];
    static const uint8_t many[136];
    FRESH(placed);
    FRESH(gathered);
    answered("cb_place_values", cb_place_values(wide, sizeof wide, 0, many, 136, registers, sizeof registers, upper, sizeof upper, stack, 80, &placed.value));
    GUARDED(placed);
    expect("placed.vector_registers", placed.value.vector_registers, 6);
    answered("cb_place_values", cb_place_values(memory, sizeof memory, 0x0102030405060708u, values, 8, registers, sizeof registers, upper, sizeof upper, stack, 0, &placed.value));
    answered("cb_gather_values", cb_gather_values(memory, sizeof memory, registers, sizeof registers, upper, sizeof upper, stack, 0, back, 8, &gathered.value));
    GUARDED(gathered);
    expect("gathered.hidden", gathered.value.hidden, 0x0102030405060708u);
    expect("placed.vector_registers", placed.value.vector_registers, 0);
    uppers();
    printf("cb_placed %zu: vector_registers %zu\n", sizeof(cb_placed), offsetof(cb_placed, vector_registers));
    printf("cb_gathered %zu: hidden %zu\n", sizeof(cb_gathered), offsetof(cb_gathered, hidden));
}

static void walks(void)
{
    static uint8_t seat[CB_SEAT_LENGTH];
    LENT(cb_station) station;
    LENT(cb_walk) walk;
    FRESH(station);
    FRESH(walk);
    station.value = cb_new_station();
    all_are("a new station", &station.value, sizeof station.value, 0);
    for (int i = 0; i < 6; i++) {
        memset(station.value.reserved, FILLING, sizeof station.value.reserved);
        answered("cb_attach", cb_attach(&station.value, seat, sizeof seat, mixed, sizeof mixed));
        RESERVED(station.value);
        memset(station.value.reserved, FILLING, sizeof station.value.reserved);
        answered("cb_detach", cb_detach(&station.value, seat, sizeof seat));
        RESERVED(station.value);
        expect("station.attached", station.value.attached, 0);
        expect("station.length", station.value.length, 0);
    }
    answered("cb_attach", cb_attach(&station.value, seat, sizeof seat, wide, sizeof wide));
    GUARDED(station);
    expect("station.attached", station.value.attached, 1);
    expect("station.length", station.value.length, sizeof wide);
    expect("station.number", station.value.number, 7);
    answered("cb_open_walk", cb_open_walk(&station.value, seat, sizeof seat, &walk.value));
    GUARDED(walk);
    expect("walk.number", walk.value.number, 7);
    expect("walk.position", walk.value.position, 8);
    expect("walk.general", walk.value.general, 8);
    expect("walk.vector", walk.value.vector, 144);
    expect("walk.overflow", walk.value.overflow, 16);
    RESERVED(walk.value);
    answered("cb_detach", cb_detach(&station.value, seat, sizeof seat));
    answered("cb_attach", cb_attach(&station.value, seat, sizeof seat, mixed, sizeof mixed));
    answered("cb_open_walk", cb_open_walk(&station.value, seat, sizeof seat, &walk.value));
    expect("walk.position", walk.value.position, 3);
    expect("walk.general", walk.value.general, 16);
    printf("cb_station %zu: length %zu number %zu attached %zu reserved %zu\n", sizeof(cb_station), offsetof(cb_station, length),
           offsetof(cb_station, number), offsetof(cb_station, attached), offsetof(cb_station, reserved));
    printf("cb_walk %zu: position %zu general %zu vector %zu overflow %zu number %zu reserved %zu\n", sizeof(cb_walk),
           offsetof(cb_walk, position), offsetof(cb_walk, general), offsetof(cb_walk, vector), offsetof(cb_walk, overflow),
           offsetof(cb_walk, number), offsetof(cb_walk, reserved));
}

#define KEPT(what, lent) all_are(what ", refused: " #lent, &(lent), sizeof(lent), FILLING)

static void part_empty(const char *what, const cb_part *part)
{
    all_are(what, part, sizeof *part, 0);
    expect(what, part->image, CB_NOWHERE);
}

/* What the calls about a description leave for a refusal. */
static void refused_description(void)
{
    LENT(cb_extent) extent;
    LENT(cb_classes) classes;
    LENT(cb_part) part;
    LENT(cb_layout) whole;
    LENT(cb_stack_need) need;
    LENT(cb_tidied) tidied;
    LENT(cb_placed) placed;
    LENT(cb_gathered) gathered;
    cb_placement records[4];
    size_t offsets[2];
    uint8_t values[60], registers[CB_REGISTER_IMAGE], upper[CB_UPPER_IMAGE], stack[16], image[CB_RETURN_IMAGE], second[CB_RETURN_UPPER];
    FRESH(extent);
    FRESH(classes);
    FRESH(part);
    FRESH(whole);
    FRESH(need);
    FRESH(tidied);
    FRESH(placed);
    FRESH(gathered);
    FRESH(records);
    FRESH(offsets);
    FRESH(values);
    FRESH(registers);
    FRESH(upper);
    FRESH(stack);
    FRESH(image);
    FRESH(second);
    told("cb_type_extent", cb_type_extent(mixed, sizeof mixed, 6, &extent.value), CB_WRONG_TYPE_NUMBER, 0);
    KEPT("cb_type_extent", extent);
    told("cb_type_classes", cb_type_classes(mixed, sizeof mixed, 6, &classes.value), CB_WRONG_TYPE_NUMBER, 0);
    KEPT("cb_type_classes", classes);
    told("cb_member_run", cb_member_run(mixed, sizeof mixed, 6, &part.value), CB_WRONG_TYPE_NUMBER, 0);
    part_empty("cb_member_run, refused: the part", &part.value);
    FRESH(part);
    answered("cb_member_run", cb_member_run(mixed, sizeof mixed, 0, &part.value));
    part_empty("cb_member_run, of an int: the part", &part.value);
    GUARDED(part);
    told("cb_member_offsets", cb_member_offsets(mixed, sizeof mixed, 6, offsets, 2), CB_WRONG_TYPE_NUMBER, 0);
    KEPT("cb_member_offsets", offsets);
    told("cb_member_offsets", cb_member_offsets(mixed, sizeof mixed, 3, offsets, 1), CB_WRONG_BUFFER, 0);
    KEPT("cb_member_offsets", offsets);
    answered("cb_member_offsets", cb_member_offsets(mixed, sizeof mixed, 0, offsets, 2));
    KEPT("cb_member_offsets, of an int", offsets);
    told("cb_layout_of", cb_layout_of(mixed, sizeof mixed - 1, &whole.value), CB_WRONG_LENGTH, 0);
    KEPT("cb_layout_of", whole);
    told("cb_needs_stack", cb_needs_stack(mixed, sizeof mixed - 1, &need.value), CB_WRONG_LENGTH, 0);
    KEPT("cb_needs_stack", need);
    told("cb_lay_out", cb_lay_out(mixed, sizeof mixed, &whole.value, records, 4), CB_WRONG_BUFFER, 0);
    KEPT("cb_lay_out", whole);
    KEPT("cb_lay_out", records);
    told("cb_tidy_length", cb_tidy_length(mixed, sizeof mixed - 1, &tidied.value), CB_WRONG_LENGTH, 0);
    KEPT("cb_tidy_length", tidied);
    told("cb_tidy", cb_tidy(mixed, sizeof mixed, values, sizeof mixed + 1), CB_WRONG_BUFFER, 0);
    KEPT("cb_tidy", values);
    told("cb_place_values", cb_place_values(mixed, sizeof mixed, 0, values, 59, registers, sizeof registers, upper, sizeof upper, stack, 16, &placed.value),
         CB_WRONG_BUFFER, 0);
    told("cb_place_values", cb_place_values(mixed, sizeof mixed, 0, values, 60, registers, sizeof registers, upper, 112, stack, 16, &placed.value),
         CB_WRONG_BUFFER, 0);
    KEPT("cb_place_values", placed);
    KEPT("cb_place_values", registers);
    KEPT("cb_place_values", upper);
    KEPT("cb_place_values", stack);
    told("cb_gather_values", cb_gather_values(mixed, sizeof mixed, registers, sizeof registers, upper, sizeof upper, stack, 15, values, 60, &gathered.value),
         CB_WRONG_BUFFER, 0);
    told("cb_gather_values", cb_gather_values(mixed, sizeof mixed, registers, sizeof registers, upper, 0, stack, 16, values, 60, &gathered.value),
         CB_WRONG_BUFFER, 0);
    KEPT("cb_gather_values", gathered);
    KEPT("cb_gather_values", values);
    told("cb_put_returned", cb_put_returned(mixed, sizeof mixed, 0, values, 7, image, sizeof image, second, sizeof second), CB_WRONG_BUFFER, 0);
    told("cb_put_returned", cb_put_returned(mixed, sizeof mixed, 0, values, 8, image, sizeof image, second, 0), CB_WRONG_BUFFER, 0);
    KEPT("cb_put_returned", image);
    KEPT("cb_put_returned", second);
    told("cb_take_returned", cb_take_returned(mixed, sizeof mixed, image, sizeof image, second, sizeof second, values, 7, &gathered.value), CB_WRONG_BUFFER, 0);
    told("cb_take_returned", cb_take_returned(mixed, sizeof mixed, image, sizeof image, second, 15, values, 8, &gathered.value), CB_WRONG_BUFFER, 0);
    KEPT("cb_take_returned", gathered);
    KEPT("cb_take_returned", values);
}

#define SAME(what, is, should) same(what ": " #is " has changed", &(is), &(should), sizeof(should))

/* All calls on a station that says by this number that something is attached, with rubbish in reserved bytes. */
static void attached_by(uint8_t number)
{
    uint8_t seat[CB_SEAT_LENGTH] = {0}, registers[CB_REGISTER_IMAGE] = {0}, stack[16] = {0}, out[16], before[CB_SEAT_LENGTH];
    static const uint8_t types[3] = {1, 5, 0};
    uint8_t rest[24];
    cb_station station = cb_new_station(), kept;
    cb_walk walk, opened;
    LENT(cb_part) part;
    FRESH(station.reserved);
    FRESH(walk);
    FRESH(opened);
    FRESH(part);
    kept = station;
    told("cb_detach", cb_detach(&station, seat, sizeof seat), CB_NOT_ATTACHED, 0);
    told("cb_open_walk", cb_open_walk(&station, seat, sizeof seat, &walk), CB_NOT_ATTACHED, 0);
    told("cb_step", cb_step(&station, seat, sizeof seat, &walk, registers, sizeof registers, stack, 16, 1, out, 8), CB_NOT_ATTACHED, 0);
    told("cb_show", cb_show(&station, seat, sizeof seat, &walk, registers, sizeof registers, stack, 16, 1, &part.value), CB_NOT_ATTACHED, 0);
    SAME("not attached", station, kept);
    SAME("not attached", walk, opened);
    part_empty("cb_show, refused: the part", &part.value);

    answered("cb_attach", cb_attach(&station, seat, sizeof seat, mixed, sizeof mixed));
    expect("station.attached", station.attached, 1);
    station.attached = number;
    FRESH(station.reserved);
    kept = station;
    memcpy(before, seat, sizeof seat);
    told("cb_attach", cb_attach(&station, seat, sizeof seat, mixed, sizeof mixed), CB_ALREADY_ATTACHED, 0);
    SAME("cb_attach, refused", station, kept);
    SAME("cb_attach, refused", seat, before);
    told("cb_change", cb_change(&station, seat, sizeof seat - 1, mixed, sizeof mixed), CB_WRONG_BUFFER, 0);
    SAME("cb_change, refused under 11", station, kept);
    SAME("cb_change, refused under 11", seat, before);
    answered("cb_open_walk", cb_open_walk(&station, seat, sizeof seat, &walk));
    RESERVED(walk);
    expect("walk.number", walk.number, 1);
    expect("walk.position", walk.position, 3);
    expect("walk.general", walk.general, 16);
    expect("walk.vector", walk.vector, 64);
    expect("walk.overflow", walk.overflow, 16);

    FRESH(walk.reserved);
    FRESH(part);
    opened = walk;
    told("cb_step", cb_step(&station, seat, sizeof seat, &walk, registers, sizeof registers, stack, 16, 0, out, 4), CB_OTHER_TYPE, 0);
    told("cb_show", cb_show(&station, seat, sizeof seat, &walk, registers, sizeof registers, stack, 16, 0, &part.value), CB_OTHER_TYPE, 0);
    SAME("cb_step, refused", walk, opened);
    part_empty("cb_show, refused: the part", &part.value);
    FRESH(part);
    answered("cb_show", cb_show(&station, seat, sizeof seat, &walk, registers, sizeof registers, stack, 16, 1, &part.value));
    GUARDED(part);
    expect("part.image", part.value.image, CB_REGISTERS);
    expect("part.offset", part.value.offset, 64);
    expect("part.length", part.value.length, 8);
    RESERVED(part.value);
    answered("cb_step", cb_step(&station, seat, sizeof seat, &walk, registers, sizeof registers, stack, 16, 1, out, 8));
    expect("walk.position", walk.position, 4);
    expect("walk.vector", walk.vector, 80);
    RESERVED(walk);
    FRESH(opened.reserved);
    FRESH(rest);
    told("cb_finish_walk", cb_finish_walk(&station, seat, sizeof seat, &opened, registers, sizeof registers, stack, 16, types, 1, rest, 24),
         CB_WRONG_TYPE_COUNT, 0);
    told("cb_finish_walk", cb_finish_walk(&station, seat, sizeof seat, &opened, registers, sizeof registers, stack, 16, types + 1, 2, rest, 24),
         CB_OTHER_TYPE, 0);
    all_are("cb_finish_walk, refused: rest", rest, sizeof rest, FILLING);
    all_are("cb_finish_walk, refused: reserved", opened.reserved, sizeof opened.reserved, FILLING);
    expect("walk.position", opened.position, 3);
    answered("cb_finish_walk", cb_finish_walk(&station, seat, sizeof seat, &opened, registers, sizeof registers, stack, 16, types, 2, rest, 24));
    expect("walk.position", opened.position, 5);
    expect("walk.general", opened.general, 32);
    expect("walk.vector", opened.vector, 80);
    expect("walk.overflow", opened.overflow, 16);
    expect("walk.number", opened.number, 1);
    RESERVED(opened);
    all_are("cb_finish_walk: rest", rest, sizeof rest, 0);
    answered("cb_finish_walk", cb_finish_walk(&station, seat, sizeof seat, &opened, registers, sizeof registers, stack, 16, types, 0, rest, 0));
    expect("walk.position", opened.position, 5);
    SAME("cb_open_walk, cb_step, cb_finish_walk, cb_show", station, kept);

    answered("cb_detach", cb_detach(&station, seat, sizeof seat));
    expect("station.attached", station.attached, 0);
    expect("station.length", station.length, 0);
    expect("station.number", station.number, 1);
    RESERVED(station);
}

/* cb_change, the one call where a refusal writes: with nothing attached, and with `number` for attached. */
static void changes(uint8_t number)
{
    uint8_t seat[CB_SEAT_LENGTH], before[CB_SEAT_LENGTH];
    cb_station station = cb_new_station(), kept;
    memset(seat, FILLING, sizeof seat);
    memcpy(before, seat, sizeof seat);
    FRESH(station.reserved);
    kept = station;
    told("cb_change", cb_change(&station, seat, sizeof seat, mixed, 10), CB_TOO_SHORT, 0);
    SAME("cb_change, nothing attached", station, kept);
    SAME("cb_change, nothing attached", seat, before);
    answered("cb_change", cb_change(&station, seat, sizeof seat, mixed, sizeof mixed));
    expect("station.attached", station.attached, 1);
    expect("station.length", station.length, sizeof mixed);
    expect("station.number", station.number, 1);
    RESERVED(station);
    station.attached = number;
    answered("cb_change", cb_change(&station, seat, sizeof seat, mixed, sizeof mixed));
    expect("station.number", station.number, 2);
    station.attached = number;
    FRESH(station.reserved);
    told("cb_change", cb_change(&station, seat, sizeof seat, mixed, 10), CB_TOO_SHORT, 0);
    expect("station.attached", station.attached, 0);
    expect("station.length", station.length, 0);
    expect("station.number", station.number, 2);
    RESERVED(station);
    all_are("a seat after a refused change", seat, sizeof seat, 0);
}

#define TYPES 40
#define INTS (11 + 4 * TYPES + 2)

static const uint8_t right[4] = {0, 3, 0, 0};   /* int */
static const uint8_t broken[4] = {4, 0, 0, 0};  /* no kind */
static const uint8_t large[4] = {1, 0, 0, 16};  /* an array of 4096 ints */

/* void f(int, ...), called with two ints: forty types, all int */
static void describe(uint8_t *description)
{
    static const uint8_t head[11] = {'K', 'C', 'B', 1, 0, TYPES, 1, 1, 2, 255, 0};
    memcpy(description, head, 11);
    for (size_t i = 0; i < TYPES; i++) {
        memcpy(description + 11 + 4 * i, right, 4);
    }
    memset(description + 11 + 4 * TYPES, 0, 2);
}

static void replace(uint8_t *description, size_t type, const uint8_t *record)
{
    memcpy(description + 11 + 4 * type, record, 4);
}

/* The calls that take a description. */
static void told_of_description(const uint8_t *bad, uint8_t number, uint8_t type)
{
    cb_extent extent;
    cb_classes classes;
    cb_part run;
    size_t offsets[2];
    cb_layout whole;
    cb_placement list[2];
    cb_stack_need need;
    cb_tidied tidied;
    cb_placed placed;
    cb_gathered gathered;
    uint8_t bytes[8] = {0}, registers[CB_REGISTER_IMAGE], upper[CB_UPPER_IMAGE], stack[1], image[CB_RETURN_IMAGE], second[CB_RETURN_UPPER];
    told("cb_check", cb_check(bad, INTS), number, type);
    told("cb_type_extent", cb_type_extent(bad, INTS, 0, &extent), number, type);
    told("cb_type_classes", cb_type_classes(bad, INTS, 0, &classes), number, type);
    told("cb_member_run", cb_member_run(bad, INTS, 0, &run), number, type);
    told("cb_member_offsets", cb_member_offsets(bad, INTS, 0, offsets, 2), number, type);
    told("cb_layout_of", cb_layout_of(bad, INTS, &whole), number, type);
    told("cb_needs_stack", cb_needs_stack(bad, INTS, &need), number, type);
    told("cb_lay_out", cb_lay_out(bad, INTS, &whole, list, 2), number, type);
    told("cb_tidy_length", cb_tidy_length(bad, INTS, &tidied), number, type);
    told("cb_tidy", cb_tidy(bad, INTS, bytes, 8), number, type);
    told("cb_place_values", cb_place_values(bad, INTS, 0, bytes, 8, registers, sizeof registers, upper, sizeof upper, stack, 0, &placed), number, type);
    memset(registers, 0, sizeof registers);
    memset(upper, 0, sizeof upper);
    told("cb_gather_values", cb_gather_values(bad, INTS, registers, sizeof registers, upper, sizeof upper, stack, 0, bytes, 8, &gathered), number, type);
    told("cb_put_returned", cb_put_returned(bad, INTS, 0, bytes, 0, image, sizeof image, second, sizeof second), number, type);
    memset(image, 0, sizeof image);
    memset(second, 0, sizeof second);
    told("cb_take_returned", cb_take_returned(bad, INTS, image, sizeof image, second, sizeof second, bytes, 0, &gathered), number, type);
}

/* The calls on a station: attach, and those that read the seat, in which the bytes are spoilt behind the library's back. */
static void told_of_seat(const uint8_t *bad, uint8_t number, uint8_t type)
{
    uint8_t good[INTS], seat[CB_SEAT_LENGTH], registers[CB_REGISTER_IMAGE] = {0}, stack[1] = {0}, out[4];
    cb_station station = cb_new_station();
    cb_walk walk;
    cb_part part;
    describe(good);
    memset(seat, 0, sizeof seat);
    told("cb_attach", cb_attach(&station, seat, sizeof seat, bad, INTS), number, type);
    told("cb_change", cb_change(&station, seat, sizeof seat, bad, INTS), number, type);
    answered("cb_attach", cb_attach(&station, seat, sizeof seat, good, INTS));
    answered("cb_open_walk", cb_open_walk(&station, seat, sizeof seat, &walk));
    memcpy(seat, bad, INTS);
    told("cb_step", cb_step(&station, seat, sizeof seat, &walk, registers, sizeof registers, stack, 0, 0, out, 4), number, type);
    told("cb_finish_walk", cb_finish_walk(&station, seat, sizeof seat, &walk, registers, sizeof registers, stack, 0, NULL, 0, out, 0), number, type);
    told("cb_show", cb_show(&station, seat, sizeof seat, &walk, registers, sizeof registers, stack, 0, 0, &part), number, type);
    told("cb_open_walk", cb_open_walk(&station, seat, sizeof seat, &walk), number, type);
}

static void told_everywhere(const uint8_t *bad, uint8_t number, uint8_t type)
{
    uint8_t text[CB_LISTING_ROOM];
    char should[32], line[CB_REFUSAL_ROOM];
    cb_refusal refusal = cb_check(bad, INTS);
    told_of_description(bad, number, type);
    told_of_seat(bad, number, type);
    size_t length = cb_write_listing(bad, INTS, text);
    snprintf(should, sizeof should, "refused %d type %d\n", number, type);
    if (length != strlen(should) || memcmp(text, should, length) != 0) {
        printf("the listing is %.*s, should be %s", (int)length, (const char *)text, should);
        wrong = 1;
    }
    printf("refused %s\n", cb_refusal_line(refusal, line));
}

/* The lowest type that breaks the rule: 6 before 7, whichever type is lower; type 0 is one like the others. */
static void broken_types(void)
{
    uint8_t description[INTS];
    describe(description);
    replace(description, 39, large);
    replace(description, 12, large);
    told_everywhere(description, CB_TYPE_TOO_LARGE, 12);
    replace(description, 39, broken);
    told_everywhere(description, CB_WRONG_TYPE_RECORD, 39);
    replace(description, 12, broken);
    told_everywhere(description, CB_WRONG_TYPE_RECORD, 12);
    replace(description, 0, broken);
    told_everywhere(description, CB_WRONG_TYPE_RECORD, 0);
    told("cb_check of a byte less", cb_check(description, INTS - 1), CB_WRONG_LENGTH, 0);
    describe(description);
    description[INTS - 1] = TYPES;
    told("cb_check of type 40", cb_check(description, INTS), CB_WRONG_TYPE_NUMBER, 0);
}

int main(void)
{
    expect("cb_version()", cb_version(), CB_VERSION);
    sizes();
    told("cb_check(nothing)", cb_check(mixed, 0), CB_TOO_SHORT, 0);
    printf("cb_refusal %zu: number %zu type %zu\n", sizeof(cb_refusal), offsetof(cb_refusal, number), offsetof(cb_refusal, type));
    questions();
    layouts();
    lists();
    needs();
    tidy();
    moves();
    walks();
    refused_description();
    for (int number = 1; number < 256; number++) {
        attached_by((uint8_t)number);
        changes((uint8_t)number);
    }
    broken_types();
    if (!wrong) {
        printf("ok\n");
    }
    return wrong;
}
