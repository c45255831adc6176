/* This library: each operation takes the description from its bytes, refusals 1 to 10 included. */
#include "callbridge.h"
#include "measure.h"

static cb_layout layout[SHAPES];
static cb_placement list[CB_MAX_ARGUMENTS];
static uint8_t registers[SHAPES][CB_REGISTER_IMAGE], upper[SHAPES][CB_UPPER_IMAGE], stack[SHAPES][CB_MAX_AREA], out[VALUES_ROOM];
static uint8_t seat[SHAPES][CB_SEAT_LENGTH];
static cb_station station[SHAPES];
static cb_walk started[SHAPES];
static uint8_t unnamed[SHAPES][CB_MAX_ARGUMENTS];
static size_t unnamed_count[SHAPES], unnamed_length[SHAPES];  /* types, and bytes of their values */
static uint8_t returned[SHAPES][CB_RETURN_IMAGE], returned_upper[SHAPES][CB_RETURN_UPPER];

static void place(int which)
{
    const shape *s = &shapes[which];
    cb_placed placed;
    cb_place_values(s->description, s->length, 0, packed[which], packed_length[which], registers[which], CB_REGISTER_IMAGE,
                    upper[which], CB_UPPER_IMAGE, stack[which], layout[which].area, &placed);
}

static int prepare(int which)
{
    const shape *s = &shapes[which];
    cb_layout_of(s->description, s->length, &layout[which]);
    place(which);
    station[which] = cb_new_station();
    cb_attach(&station[which], seat[which], CB_SEAT_LENGTH, s->description, s->length);
    cb_open_walk(&station[which], seat[which], CB_SEAT_LENGTH, &started[which]);
    return 1;
}

static int prepare_walk(int which)
{
    prepare(which);
    unnamed_count[which] = unnamed_length[which] = 0;
    for (int i = shapes[which].named; i < shapes[which].arguments; i++) {
        uint8_t type = type_of(which, i);
        unnamed[which][unnamed_count[which]++] = type;
        unnamed_length[which] += (size_t)shapes[which].sizes[type];
    }
    return unnamed_count[which] > 0;
}

static void check(int which)
{
    cb_check(shapes[which].description, shapes[which].length);
}

static void decide(int which)
{
    cb_layout_of(shapes[which].description, shapes[which].length, &layout[which]);
}

static void lay_out(int which)
{
    cb_lay_out(shapes[which].description, shapes[which].length, &layout[which], list, CB_MAX_ARGUMENTS);
}

static void gather(int which)
{
    const shape *s = &shapes[which];
    cb_gathered gathered;
    cb_gather_values(s->description, s->length, registers[which], CB_REGISTER_IMAGE, upper[which], CB_UPPER_IMAGE, stack[which],
                     layout[which].area, out, packed_length[which], &gathered);
}

static void step(int which, cb_walk *walk, int argument)
{
    uint8_t type = type_of(which, argument);
    cb_step(&station[which], seat[which], CB_SEAT_LENGTH, walk, registers[which], CB_REGISTER_IMAGE, stack[which], layout[which].area, type, out,
            (size_t)shapes[which].sizes[type]);
}

static void walk_all(int which)
{
    cb_walk walk;
    cb_open_walk(&station[which], seat[which], CB_SEAT_LENGTH, &walk);
    for (int i = shapes[which].named; i < shapes[which].arguments; i++) {
        step(which, &walk, i);
    }
}

static void finish(int which)
{
    cb_walk walk;
    cb_open_walk(&station[which], seat[which], CB_SEAT_LENGTH, &walk);
    cb_finish_walk(&station[which], seat[which], CB_SEAT_LENGTH, &walk, registers[which], CB_REGISTER_IMAGE, stack[which], layout[which].area,
                   unnamed[which], unnamed_count[which], out, unnamed_length[which]);
}

static void first_step(int which)
{
    cb_walk walk = started[which];
    step(which, &walk, shapes[which].named);
}

static void show(int which)
{
    cb_part part;
    cb_show(&station[which], seat[which], CB_SEAT_LENGTH, &started[which], registers[which], CB_REGISTER_IMAGE, stack[which], layout[which].area,
            type_of(which, shapes[which].named), &part);
}

static void put(int which)
{
    cb_put_returned(shapes[which].description, shapes[which].length, 0, packed[which], layout[which].return_size, returned[which], CB_RETURN_IMAGE,
                    returned_upper[which], CB_RETURN_UPPER);
}

static void take(int which)
{
    cb_gathered taken;
    cb_take_returned(shapes[which].description, shapes[which].length, returned[which], CB_RETURN_IMAGE, returned_upper[which], CB_RETURN_UPPER, out,
                     layout[which].return_size, &taken);
}

const operation bridge_operations[] = {
    { "cb_check", prepare, check },
    { "cb_layout_of", prepare, decide },
    { "cb_lay_out", prepare, lay_out },
    { "cb_place_values", prepare, place },
    { "cb_gather_values", prepare, gather },
    { "cb_open_walk and every step", prepare_walk, walk_all },
    { "cb_open_walk and cb_finish_walk", prepare_walk, finish },
    { "the first cb_step", prepare_walk, first_step },
    { "the first cb_show", prepare_walk, show },
    { "cb_put_returned", prepare, put },
    { "cb_take_returned", prepare, take },
    { 0, 0, 0 }
};
