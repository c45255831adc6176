/* Makes the calls of the C library that it is asked for, and answers what each of them answered and left. It knows no rule of the bridge:
   what should have been answered is said by the program that asks (src/), which is Rust for any machine. This one is C for x86-64, run as it
   is or by an emulator.

       driver CANARY

   Standard input is a sequence of batches: a u32 length and so many bytes of commands. Each is answered by a batch on standard output, once
   all of its commands are played. Numbers are little-endian. A command is one byte of enum command and its fields; a *part* is a u16 length
   and so many bytes.

   Everything that is lent is a block of its own, with CANARY bytes before it and behind it that no call may touch: of one value for each
   kind of thing, so that bytes copied from one canary to another are seen. Where CANARY is 0 the blocks are exact, for valgrind.
   A buffer of length 0 is lent as NULL and by its place between its canaries, in turn.
   A command is answered by the refusal, where it makes a call, and then by each thing that it lent or set: a buffer with its canaries; a
   struct field by field, as header and not as memory has it, each field as a u64, its reserved bytes too, and then its two canaries. */
#include "callbridge.h"

#include <stdio.h>
#include <stdlib.h>
#include <string.h>

/* The same numbers stand in src/batch.rs. The first fourteen, 16 and 17 are those of tests/vectors/README.md, "histories", with the same fields. */
enum command {
    RESET = 1,
    SEAT_LENGTH = 2,
    SPOIL = 3,
    STATION_BY_HAND = 4,
    SET_REGISTERS = 5,
    SET_STACK = 6,
    ATTACH = 7,
    DETACH = 8,
    OPEN_WALK = 9,
    STEP = 10,
    SHOW = 11,
    SHOW_NUMBER = 12,
    WALK_BY_HAND = 13,
    FILL_SEAT = 14,
    HOST_BYTES = 15,     /* u8 attached, u8 for each reserved byte of the station and the walks: what a host may have written there */
    CHANGE = 16,
    FINISH_WALK = 17,
    INTERFACE_VERSION = 32,
    DESCRIBE = 33,       /* part: the description of the commands that follow */
    CHECK = 34,
    TYPE_EXTENT = 35,    /* u8 type, here and in the next two */
    TYPE_CLASSES = 36,
    MEMBER_RUN = 37,
    LAYOUT_OF = 38,
    LAY_OUT = 39,        /* u16 records of the list */
    WRITE_LISTING = 40,
    PLACE_VALUES = 41,   /* u64 hidden, part values, part registers, part upper, part stack */
    GATHER_VALUES = 42,  /* part registers, part upper, part stack, part values */
    PUT_RETURNED = 43,   /* u64 hidden, part value, part image, part upper */
    TAKE_RETURNED = 44,  /* part image, part upper, part value */
    MEMBER_OFFSETS = 45, /* u8 type, u16 entries of the list */
    TIDY_LENGTH = 46,
    TIDY = 47,           /* u16 bytes of the out buffer */
    NEEDS_STACK = 48
};

/* What is lent. Its number is in its canaries. */
enum thing { DESCRIPTION, VALUES, REGISTERS, UPPER, STACK, IMAGE, TEXT, RECORD, LIST, OUT, ASKED, SEAT, STATION, WALK };

#define SLOTS 4              /* walks of a history: WALK, and the numbers behind it */
#define THINGS (WALK + SLOTS)
#define FIRST_MARK 0xA0
#define FILLING 0xEE         /* in a struct, a list, a text or an out buffer, before a call */
#define SEAT_ROOM 600        /* so that too long a seat can be lent as well */

static size_t canary;

static struct {
    uint8_t *whole;
    size_t length;
} lent[THINGS];

static size_t seat_length;

/* ---- commands and answers */

struct store {
    uint8_t *bytes;
    size_t length, room;
};

static struct store commands, answers;
static size_t at;

static void stop(const char *why)
{
    fprintf(stderr, "driver: %s\n", why);
    exit(2);
}

static void make_room(struct store *store, size_t length)
{
    if (length > store->room) {
        store->room = 2 * length;
        store->bytes = realloc(store->bytes, store->room);
        if (store->bytes == NULL) {
            stop("no memory");
        }
    }
}

static const uint8_t *take(size_t length)
{
    if (commands.length - at < length) {
        stop("a command is cut short");
    }
    at += length;
    return commands.bytes + at - length;
}

static uint64_t number(size_t length)
{
    uint64_t value = 0;
    memcpy(&value, take(length), length);
    return value;
}

static uint8_t byte(void)
{
    return *take(1);
}

static void answer(const void *bytes, size_t length)
{
    make_room(&answers, answers.length + length);
    memcpy(answers.bytes + answers.length, bytes, length);
    answers.length += length;
}

static void field(uint64_t value)
{
    answer(&value, sizeof value);
}

/* Reserved bytes, as one number. */
static void reserved(const uint8_t *bytes, size_t length)
{
    uint64_t value = 0;
    memcpy(&value, bytes, length);
    field(value);
}

#define RESERVED(of) reserved((of)->reserved, sizeof(of)->reserved)

static void told(cb_refusal refusal)
{
    field(refusal.number);
    field(refusal.type);
}

/* ---- what is lent */

static uint8_t *bytes_of(int thing)
{
    return lent[thing].whole + canary;
}

/* A new block in place of the one that was lent as this thing before. */
static void *lend(int thing, size_t length)
{
    free(lent[thing].whole);
    uint8_t *whole = malloc(canary + length + canary);
    if (whole == NULL) {
        stop("no memory");
    }
    memset(whole, FIRST_MARK + thing, canary);
    memset(whole + canary + length, FIRST_MARK + thing, canary);
    lent[thing].whole = whole;
    lent[thing].length = length;
    return whole + canary;
}

static void *lend_filled(int thing, size_t length)
{
    return memset(lend(thing, length), FILLING, length);
}

static void lend_part(int thing)
{
    size_t length = number(2);
    memcpy(lend(thing, length), take(length), length);
}

static void answer_buffer(int thing)
{
    answer(lent[thing].whole, canary + lent[thing].length + canary);
}

static void answer_canaries(int thing)
{
    answer(lent[thing].whole, canary);
    answer(bytes_of(thing) + lent[thing].length, canary);
}

/* The pointer to so many bytes of a thing. */
static uint8_t *pointer_to(int thing, size_t length)
{
    static int empty;
    if (length == 0) {
        empty = !empty;
    }
    return length == 0 && empty ? NULL : bytes_of(thing);
}

/* A description, a buffer: pointer and length, as the calls take them. */
#define BUFFER(thing) pointer_to(thing, lent[thing].length), lent[thing].length
#define LENT_SEAT pointer_to(SEAT, seat_length), seat_length

/* ---- calls about one description */

static void type_extent(void)
{
    uint8_t type = byte();
    cb_extent *extent = lend_filled(RECORD, sizeof *extent);
    told(cb_type_extent(BUFFER(DESCRIPTION), type, extent));
    field(extent->size);
    field(extent->align);
    answer_canaries(RECORD);
}

static void type_classes(void)
{
    uint8_t type = byte();
    cb_classes *classes = lend_filled(RECORD, sizeof *classes);
    told(cb_type_classes(BUFFER(DESCRIPTION), type, classes));
    field(classes->first);
    field(classes->second);
    field(classes->third);
    field(classes->fourth);
    answer_canaries(RECORD);
}

static void answer_part(const cb_part *part)
{
    field(part->offset);
    field(part->length);
    field(part->image);
    RESERVED(part);
    answer_canaries(RECORD);
}

static void member_run(void)
{
    uint8_t type = byte();
    cb_part *run = lend_filled(RECORD, sizeof *run);
    told(cb_member_run(BUFFER(DESCRIPTION), type, run));
    answer_part(run);
}

static void member_offsets(void)
{
    uint8_t type = byte();
    size_t entries = number(2);
    size_t *offsets = lend_filled(LIST, entries * sizeof *offsets);
    size_t *list = (size_t *)pointer_to(LIST, lent[LIST].length);
    told(cb_member_offsets(BUFFER(DESCRIPTION), type, list, entries));
    for (size_t i = 0; i < entries; i++) {
        field(offsets[i]);
    }
    answer_canaries(LIST);
}

static void answer_layout(const cb_layout *layout)
{
    field(layout->general_registers);
    field(layout->vector_registers);
    field(layout->stack_end);
    field(layout->area);
    field(layout->area_alignment);
    field(layout->values);
    field(layout->return_size);
    field(layout->named_general_registers);
    field(layout->named_vector_registers);
    field(layout->named_stack_end);
    field(layout->arguments);
    field(layout->return_first);
    field(layout->return_second);
    field(layout->hidden);
    RESERVED(layout);
    answer_canaries(RECORD);
}

static void layout_of(void)
{
    cb_layout *layout = lend_filled(RECORD, sizeof *layout);
    told(cb_layout_of(BUFFER(DESCRIPTION), layout));
    answer_layout(layout);
}

static void lay_out(void)
{
    size_t records = number(2);
    cb_layout *layout = lend_filled(RECORD, sizeof *layout);
    cb_placement *list = lend_filled(LIST, records * sizeof *list);
    told(cb_lay_out(BUFFER(DESCRIPTION), layout, list, records));
    answer_layout(layout);
    for (size_t i = 0; i < records; i++) {
        field(list[i].size);
        field(list[i].align);
        field(list[i].offset);
        field(list[i].value);
        field(list[i].type);
        field(list[i].first);
        field(list[i].second);
        field(list[i].named);
        RESERVED(&list[i]);
    }
    answer_canaries(LIST);
}

static void write_listing(void)
{
    uint8_t *text = lend_filled(TEXT, CB_LISTING_ROOM);
    field(cb_write_listing(BUFFER(DESCRIPTION), text));
    answer_buffer(TEXT);
}

static void place_values(void)
{
    uint64_t hidden = number(8);
    lend_part(VALUES);
    lend_part(REGISTERS);
    lend_part(UPPER);
    lend_part(STACK);
    cb_placed *placed = lend_filled(RECORD, sizeof *placed);
    told(cb_place_values(BUFFER(DESCRIPTION), hidden, BUFFER(VALUES), BUFFER(REGISTERS), BUFFER(UPPER), BUFFER(STACK), placed));
    answer_buffer(VALUES);
    answer_buffer(REGISTERS);
    answer_buffer(UPPER);
    answer_buffer(STACK);
    field(placed->vector_registers);
    answer_canaries(RECORD);
}

static void answer_gathered(const cb_gathered *gathered)
{
    field(gathered->hidden);
    answer_canaries(RECORD);
}

static void gather_values(void)
{
    lend_part(REGISTERS);
    lend_part(UPPER);
    lend_part(STACK);
    lend_part(VALUES);
    cb_gathered *gathered = lend_filled(RECORD, sizeof *gathered);
    told(cb_gather_values(BUFFER(DESCRIPTION), BUFFER(REGISTERS), BUFFER(UPPER), BUFFER(STACK), BUFFER(VALUES), gathered));
    answer_buffer(REGISTERS);
    answer_buffer(UPPER);
    answer_buffer(STACK);
    answer_buffer(VALUES);
    answer_gathered(gathered);
}

static void put_returned(void)
{
    uint64_t hidden = number(8);
    lend_part(VALUES);
    lend_part(IMAGE);
    lend_part(UPPER);
    told(cb_put_returned(BUFFER(DESCRIPTION), hidden, BUFFER(VALUES), BUFFER(IMAGE), BUFFER(UPPER)));
    answer_buffer(VALUES);
    answer_buffer(IMAGE);
    answer_buffer(UPPER);
}

static void take_returned(void)
{
    lend_part(IMAGE);
    lend_part(UPPER);
    lend_part(VALUES);
    cb_gathered *taken = lend_filled(RECORD, sizeof *taken);
    told(cb_take_returned(BUFFER(DESCRIPTION), BUFFER(IMAGE), BUFFER(UPPER), BUFFER(VALUES), taken));
    answer_buffer(IMAGE);
    answer_buffer(UPPER);
    answer_buffer(VALUES);
    answer_gathered(taken);
}

static void needs_stack(void)
{
    cb_stack_need *need = lend_filled(RECORD, sizeof *need);
    told(cb_needs_stack(BUFFER(DESCRIPTION), need));
    field(need->looked);
    field(need->needed);
    RESERVED(need);
    answer_canaries(RECORD);
}

static void tidy_length(void)
{
    cb_tidied *tidied = lend_filled(RECORD, sizeof *tidied);
    told(cb_tidy_length(BUFFER(DESCRIPTION), tidied));
    field(tidied->length);
    answer_canaries(RECORD);
}

static void tidy(void)
{
    lend_filled(OUT, number(2));
    told(cb_tidy(BUFFER(DESCRIPTION), BUFFER(OUT)));
    answer_buffer(OUT);
}

/* The description is lent to each of them, and so answered by each. */
static void play_description(uint8_t command)
{
    switch (command) {
    case DESCRIBE: lend_part(DESCRIPTION); break;
    case CHECK: told(cb_check(BUFFER(DESCRIPTION))); break;
    case TYPE_EXTENT: type_extent(); break;
    case TYPE_CLASSES: type_classes(); break;
    case MEMBER_RUN: member_run(); break;
    case MEMBER_OFFSETS: member_offsets(); break;
    case LAYOUT_OF: layout_of(); break;
    case LAY_OUT: lay_out(); break;
    case WRITE_LISTING: write_listing(); break;
    case PLACE_VALUES: place_values(); break;
    case GATHER_VALUES: gather_values(); break;
    case PUT_RETURNED: put_returned(); break;
    case TAKE_RETURNED: take_returned(); break;
    case TIDY_LENGTH: tidy_length(); break;
    case TIDY: tidy(); break;
    case NEEDS_STACK: needs_stack(); break;
    default: stop("no such command");
    }
    answer_buffer(DESCRIPTION);
}

/* ---- calls of a history. Station, seat, walks and images stay from command to command, as a host keeps them. */

static cb_station *station(void)
{
    return (cb_station *)bytes_of(STATION);
}

static cb_walk *walk(int thing)
{
    return (cb_walk *)bytes_of(thing);
}

static int walk_slot(void)
{
    uint8_t slot = byte();
    if (slot >= SLOTS) {
        stop("no such walk");
    }
    return WALK + slot;
}

static void answer_station(void)
{
    field(station()->length);
    field(station()->number);
    field(station()->attached);
    RESERVED(station());
    answer_canaries(STATION);
}

static void answer_walk(int thing)
{
    field(walk(thing)->position);
    field(walk(thing)->general);
    field(walk(thing)->vector);
    field(walk(thing)->overflow);
    field(walk(thing)->number);
    RESERVED(walk(thing));
    answer_canaries(thing);
}

static void reset(void)
{
    lend(STATION, sizeof(cb_station));
    *station() = cb_new_station();
    memset(lend(SEAT, SEAT_ROOM), 0, SEAT_ROOM);
    seat_length = CB_SEAT_LENGTH;
    lend(REGISTERS, 0);
    lend(STACK, 0);
    answer_station();
    answer_buffer(SEAT);
    for (int thing = WALK; thing < WALK + SLOTS; thing++) {
        memset(lend(thing, sizeof(cb_walk)), 0, sizeof(cb_walk));
        answer_walk(thing);
    }
}

static void set_seat_length(void)
{
    seat_length = number(2);
    if (seat_length > SEAT_ROOM) {
        stop("the seat has no such room");
    }
    field(seat_length);
}

static void spoil(void)
{
    size_t index = number(2);
    if (index >= SEAT_ROOM) {
        stop("the seat has no such byte");
    }
    bytes_of(SEAT)[index] = byte();
    answer_buffer(SEAT);
}

static void fill_seat(void)
{
    memset(bytes_of(SEAT), byte(), SEAT_ROOM);
    answer_buffer(SEAT);
}

static void station_by_hand(void)
{
    cb_station made = {0};
    made.attached = byte();
    made.length = number(2);
    made.number = (uint32_t)number(4);
    *station() = made;
    answer_station();
}

static void walk_by_hand(void)
{
    int thing = walk_slot();
    cb_walk made = {0};
    made.number = (uint32_t)number(4);
    made.position = number(8);
    made.general = number(8);
    made.vector = number(8);
    made.overflow = number(8);
    *walk(thing) = made;
    answer_walk(thing);
}

/* Answers nothing: the calls that follow do. */
static void host_bytes(void)
{
    station()->attached = byte();
    uint8_t rubbish = byte();
    memset(station()->reserved, rubbish, sizeof station()->reserved);
    for (int thing = WALK; thing < WALK + SLOTS; thing++) {
        memset(walk(thing)->reserved, rubbish, sizeof walk(thing)->reserved);
    }
}

static void set_image(int thing)
{
    lend_part(thing);
    answer_buffer(thing);
}

static void attach(void)
{
    lend_part(DESCRIPTION);
    told(cb_attach(station(), LENT_SEAT, BUFFER(DESCRIPTION)));
    answer_station();
    answer_buffer(SEAT);
    answer_buffer(DESCRIPTION);
}

static void detach(void)
{
    told(cb_detach(station(), LENT_SEAT));
    answer_station();
    answer_buffer(SEAT);
}

static void change(void)
{
    lend_part(DESCRIPTION);
    told(cb_change(station(), LENT_SEAT, BUFFER(DESCRIPTION)));
    answer_station();
    answer_buffer(SEAT);
    answer_buffer(DESCRIPTION);
}

static void open_walk(void)
{
    int thing = walk_slot();
    told(cb_open_walk(station(), LENT_SEAT, walk(thing)));
    answer_station();
    answer_buffer(SEAT);
    answer_walk(thing);
}

static void answer_walked(int thing)
{
    answer_station();
    answer_buffer(SEAT);
    answer_walk(thing);
    answer_buffer(REGISTERS);
    answer_buffer(STACK);
}

static void step(void)
{
    int thing = walk_slot();
    uint8_t type = byte();
    lend_filled(OUT, number(2));
    told(cb_step(station(), LENT_SEAT, walk(thing), BUFFER(REGISTERS), BUFFER(STACK), type, BUFFER(OUT)));
    answer_walked(thing);
    answer_buffer(OUT);
}

static void finish_walk(void)
{
    int thing = walk_slot();
    lend_part(ASKED);
    lend_filled(OUT, number(2));
    told(cb_finish_walk(station(), LENT_SEAT, walk(thing), BUFFER(REGISTERS), BUFFER(STACK), BUFFER(ASKED), BUFFER(OUT)));
    answer_walked(thing);
    answer_buffer(ASKED);
    answer_buffer(OUT);
}

static void show(void)
{
    int thing = walk_slot();
    uint8_t type = byte();
    cb_part *part = lend_filled(RECORD, sizeof *part);
    told(cb_show(station(), LENT_SEAT, walk(thing), BUFFER(REGISTERS), BUFFER(STACK), type, part));
    answer_walked(thing);
    answer_part(part);
}

static void play(uint8_t command)
{
    if (command < INTERFACE_VERSION && command != RESET && lent[SEAT].whole == NULL) {
        stop("a history begins with a reset");
    }
    switch (command) {
    case RESET: reset(); break;
    case SEAT_LENGTH: set_seat_length(); break;
    case SPOIL: spoil(); break;
    case STATION_BY_HAND: station_by_hand(); break;
    case SET_REGISTERS: set_image(REGISTERS); break;
    case SET_STACK: set_image(STACK); break;
    case ATTACH: attach(); break;
    case DETACH: detach(); break;
    case CHANGE: change(); break;
    case OPEN_WALK: open_walk(); break;
    case STEP: step(); break;
    case FINISH_WALK: finish_walk(); break;
    case SHOW:
    case SHOW_NUMBER: show(); break;
    case WALK_BY_HAND: walk_by_hand(); break;
    case FILL_SEAT: fill_seat(); break;
    case HOST_BYTES: host_bytes(); break;
    case INTERFACE_VERSION: field(cb_version()); break;
    default: play_description(command);
    }
}

/* ---- batches */

/* Whether there was one more. */
static int read_batch(void)
{
    uint32_t length;
    size_t found = fread(&length, 1, sizeof length, stdin);
    if (found == 0) {
        return 0;
    }
    make_room(&commands, length);
    if (found < sizeof length || fread(commands.bytes, 1, length, stdin) < length) {
        stop("a batch is cut short");
    }
    commands.length = length;
    return 1;
}

static void write_batch(void)
{
    uint32_t length = (uint32_t)answers.length;
    fwrite(&length, sizeof length, 1, stdout);
    fwrite(answers.bytes, 1, length, stdout);
    if (fflush(stdout) != 0) {
        stop("the answers are not read");
    }
}

int main(int count, char **words)
{
    canary = count == 2 ? strtoul(words[1], NULL, 10) : 1;
    if (canary % 16 != 0) {
        stop("usage: driver CANARY, with the bytes of a canary, a multiple of 16 so that structs are aligned behind it");
    }
    while (read_batch()) {
        answers.length = 0;
        for (at = 0; at < commands.length;) {
            play(byte());
        }
        write_batch();
    }
    return 0;
}
