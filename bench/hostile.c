/* Descriptions made to be slow: what the worst of strangers can cost a call. Each has 63 types over type 0 and, where that is accepted, 64 unnamed
   arguments. */
#include "callbridge.h"
#include "count.h"
#include <stdio.h>
#include <string.h>

enum { CASES = 22, BASIC = 0, ARRAY = 1, STRUCT = 2, UNION = 3, CHAR = 1, INT = 3, FLOAT = 6, DOUBLE = 7, M256 = 16, NOTHING = 255 };

typedef struct hostile {
    const char *name;
    uint8_t bytes[CB_MAX_DESCRIPTION];
    size_t length;
    cb_layout layout;
    cb_tidied tidied;
} hostile;

static hostile cases[CASES];
static int made;

/* A description in the making. */
static uint8_t records[64][4], members[255];
static int types, runs;

static void begin(uint8_t code)
{
    memset(records, 0, sizeof records);
    records[0][1] = code;
    types = 1;
    runs = 0;
}

static void add_type(uint8_t kind, int a, int n)
{
    records[types][0] = kind;
    records[types][1] = (uint8_t)a;
    records[types][2] = (uint8_t)(n & 255);
    records[types][3] = (uint8_t)(n >> 8);
    types++;
}

static void add_member(int type)
{
    members[runs++] = (uint8_t)type;
}

/* Writes it down with `arguments` arguments: the types from the last one down, over and over; type 0 is no unnamed argument. */
static void end(const char *name, int arguments)
{
    hostile *h = &cases[made++];
    uint8_t *at = h->bytes;
    const uint8_t header[11] = { 'K', 'C', 'B', 1, 0, (uint8_t)types, 1, 0, (uint8_t)arguments, NOTHING, (uint8_t)runs };
    memcpy(at, header, 11);
    at += 11;
    memcpy(at, records, (size_t)types * 4);
    at += types * 4;
    memcpy(at, members, (size_t)runs);
    at += runs;
    for (int i = 0; i < arguments; i++) {
        *at++ = (uint8_t)(types - 1 - i % (types - 1));
    }
    h->name = name;
    h->length = (size_t)(at - h->bytes);
}

/* Type k = union {k-1, k-1}. */
static void double_tower(void)
{
    begin(CHAR);
    for (int k = 1; k < 64; k++) {
        add_member(k - 1);
        add_member(k - 1);
        add_type(UNION, 2 * (k - 1), 2);
    }
    end("union {k-1, k-1}", 64);
}

/* Type k = a union, or a struct, of all types below it, by overlapping runs of one member list. */
static void overlapping_tower(uint8_t kind, const char *name)
{
    begin(CHAR);
    for (int k = 1; k < 64; k++) {
        add_member(k - 1);
        add_type(kind, 0, k);
    }
    end(name, 64);
}

/* The same behind as many of type 0 as there is room for: 255 members in the last union, 63 of them different. */
static void full_tower(uint8_t code, const char *name)
{
    begin(code);
    for (int i = 0; i < 192; i++) {
        add_member(0);
    }
    for (int k = 1; k < 64; k++) {
        add_member(k - 1);
        add_type(UNION, 0, 192 + k);
    }
    end(name, 64);
}

/* The same over eight chars, which lie in both eightbytes at seven offsets: what is worked out at the most offsets. */
static void wide_tower(void)
{
    begin(CHAR);
    add_type(ARRAY, 0, 8);
    for (int i = 0; i < 193; i++) {
        add_member(1);
    }
    for (int k = 2; k < 64; k++) {
        add_type(UNION, 0, 191 + k);
        add_member(k);
    }
    end("union {193 char[8], 2 .. k-1}", 62);
}

static void chain(uint8_t kind, const char *name)
{
    begin(CHAR);
    for (int k = 1; k < 64; k++) {
        add_member(k - 1);
        add_type(kind, k - 1, 1);
    }
    end(name, 64);
}

/* Arrays of arrays: 2 x 2 x .. to 16 bytes, then of one element; a struct on top, since an array is no argument. */
static void arrays(void)
{
    begin(CHAR);
    for (int k = 1; k < 63; k++) {
        add_type(ARRAY, k - 1, k <= 4 ? 2 : 1);
    }
    add_member(62);
    add_type(STRUCT, 0, 1);
    end("arrays of arrays", 1);
}

/* 63 types over one run of 255 members of type 0. */
static void wide(uint8_t kind, uint8_t code, int arguments, const char *name)
{
    begin(code);
    for (int i = 0; i < 255; i++) {
        add_member(0);
    }
    for (int k = 1; k < 64; k++) {
        add_type(kind, 0, 255);
    }
    end(name, arguments);
}

/* 255 members in 63 runs that overlap as far as they can: run k begins one later than the one before. */
static void shifted(uint8_t code, const char *name)
{
    begin(code);
    for (int i = 0; i < 255; i++) {
        add_member(0);
    }
    for (int k = 1; k < 64; k++) {
        add_type(UNION, k - 1, 255 - (k - 1));
    }
    end(name, 64);
}

/* Unions of one char below unions of nine, each of all types before it: the classes differ from member to member at every offset. */
static void mixed_tower(int small, const char *name)
{
    begin(CHAR);
    add_type(ARRAY, 0, 9);
    add_member(0);
    for (int i = 0; i < 192; i++) {
        add_member(1);
    }
    for (int k = 2; k < 2 + small; k++) {
        add_type(UNION, 0, 1);
        add_member(k);
    }
    for (int k = 2 + small; k < 64; k++) {
        add_type(UNION, 1, 190 + k);
        if (k < 63) {
            add_member(k);
        }
    }
    end(name, 62);
}

/* 62 unions of 194 members, each shifted by one: all members are of one type but for one of another, which stands near the end of each
   run, in another place of each. What tidying compares longest. Over _Bool, and over char[8], which costs the most to classify. */
static void nearly_equal(uint8_t kind, const char *name)
{
    begin(CHAR);
    add_type(kind, 0, kind == ARRAY ? 8 : 0);
    for (int i = 0; i < 255; i++) {
        add_member(i == 193 ? 0 : 1);
    }
    for (int k = 2; k < 64; k++) {
        add_type(UNION, k - 2, 194);
    }
    end(name, 62);
}

/* Two floats, two ints and unions of them in turn: the classes differ, and no test of the numbers shows what they merge to. */
static void class_tower(void)
{
    begin(FLOAT);
    add_type(BASIC, INT, 0);
    add_type(ARRAY, 0, 2);
    add_type(ARRAY, 1, 2);
    for (int i = 0; i < 95; i++) {
        add_member(2);
        add_member(3);
    }
    for (int k = 4; k < 64; k++) {
        add_type(UNION, 0, k % 2 ? 1 : 186 + k);
        if (k < 63) {
            add_member(k);
        }
    }
    end("unions of float[2], int[2]", 60);
}

/* ---- what is counted */

static cb_placement list[CB_MAX_ARGUMENTS];
static uint8_t values[CB_MAX_ARGUMENTS * CB_MAX_TYPE], registers[CB_REGISTER_IMAGE], upper[CB_UPPER_IMAGE], stack[CB_MAX_AREA];
static uint8_t seat[CB_SEAT_LENGTH], out[CB_MAX_TYPE], rest[CB_MAX_ARGUMENTS * CB_MAX_TYPE];
static cb_station station;
static cb_walk walk;

static void check(int which)
{
    cb_check(cases[which].bytes, cases[which].length);
}

/* Of the last type, whose run is the longest. */
static void offsets(int which)
{
    size_t found[CB_MAX_MEMBERS];
    cb_member_offsets(cases[which].bytes, cases[which].length, (uint8_t)(cases[which].bytes[5] - 1), found, CB_MAX_MEMBERS);
}

static void lay_out(int which)
{
    cb_lay_out(cases[which].bytes, cases[which].length, &cases[which].layout, list, CB_MAX_ARGUMENTS);
}

static void need(int which)
{
    cb_stack_need found;
    cb_needs_stack(cases[which].bytes, cases[which].length, &found);
}

static void place(int which)
{
    hostile *h = &cases[which];
    cb_placed placed;
    cb_place_values(h->bytes, h->length, 0, values, h->layout.values, registers, CB_REGISTER_IMAGE, upper, CB_UPPER_IMAGE, stack,
                    h->layout.area, &placed);
}

static void tidy(int which)
{
    cb_tidy(cases[which].bytes, cases[which].length, out, cases[which].tidied.length);
}

static void step(int which)
{
    hostile *h = &cases[which];
    cb_walk copy = walk;
    cb_step(&station, seat, CB_SEAT_LENGTH, &copy, registers, CB_REGISTER_IMAGE, stack, h->layout.area, list[0].type, out, list[0].size);
}

/* All arguments, which are unnamed: their types stand at the description's end. */
static void finish(int which)
{
    hostile *h = &cases[which];
    cb_walk copy = walk;
    size_t arguments = h->bytes[8];
    cb_finish_walk(&station, seat, CB_SEAT_LENGTH, &copy, registers, CB_REGISTER_IMAGE, stack, h->layout.area, h->bytes + h->length - arguments,
                   arguments, rest, h->layout.values);
}

/* The description for itself: what is attached is cleared before it is judged. */
static void change(int which)
{
    cb_station copy = station;
    cb_change(&copy, seat, CB_SEAT_LENGTH, cases[which].bytes, cases[which].length);
}

static void count_case(int which)
{
    hostile *h = &cases[which];
    cb_refusal refusal = cb_lay_out(h->bytes, h->length, &h->layout, list, CB_MAX_ARGUMENTS);
    printf("%d/%s/%zu/%d\n", which, h->name, h->length, refusal.number);
    station = cb_new_station();
    cb_attach(&station, seat, CB_SEAT_LENGTH, h->bytes, h->length);
    cb_open_walk(&station, seat, CB_SEAT_LENGTH, &walk);
    cb_tidy_length(h->bytes, h->length, &h->tidied);
    count("cb_check", which, 1, check);
    count("cb_member_offsets", which, 1, offsets);
    count("cb_needs_stack", which, 1, need);
    count("cb_lay_out", which, 1, lay_out);
    count("cb_place_values", which, 1, place);
    count("cb_step", which, 1, step);
    count("cb_finish_walk", which, 1, finish);
    count("cb_change", which, 1, change);
    count("cb_tidy", which, 1, tidy);
}

int main(void)
{
    double_tower();
    overlapping_tower(UNION, "union {0 .. k-1}");
    full_tower(CHAR, "union {192 chars, 0 .. k-1}");
    wide_tower();
    overlapping_tower(STRUCT, "struct {0 .. k-1}");
    chain(STRUCT, "struct {k-1}");
    chain(UNION, "union {k-1}");
    arrays();
    wide(STRUCT, CHAR, 64, "63 structs of 255 chars");
    wide(UNION, CHAR, 64, "63 unions of 255 chars");
    wide(UNION, FLOAT, 64, "63 unions of 255 floats");
    wide(UNION, DOUBLE, 64, "63 unions of 255 doubles");
    shifted(CHAR, "63 shifted runs of 255 chars");
    mixed_tower(8, "8 small, 54 large unions of chars");
    mixed_tower(31, "31 small, 31 large unions of chars");
    mixed_tower(20, "20 small, 42 large unions of chars");
    class_tower();
    nearly_equal(BASIC, "62 nearly equal runs of 194 _Bool");
    nearly_equal(ARRAY, "62 nearly equal runs of 194 char[8]");
    wide(UNION, M256, 64, "63 unions of 255 __m256");
    full_tower(M256, "union {192 __m256, 0 .. k-1}");
    shifted(M256, "63 shifted runs of 255 __m256");
    for (int which = 0; which < made; which++) {
        count_case(which);
    }
    return 0;
}
