/* callbridge.h: the call bridge for C and C++ hosts (System V AMD64, LP64 and ILP32; C99 or later).

   The library reads a description (KCB) of one call of a module's function, says which register or stack slot holds each argument,
   moves the argument bytes into a register image, an upper image (bytes 16 to 31 of ymm0 to ymm7) and a stack image and out again, and
   walks the unnamed arguments as va_arg does.

   Every call that can be refused answers a cb_refusal. Its number is 0 (CB_ACCEPTED) where the call did its work; otherwise each
   struct and each buffer that was lent holds what it held before (a refused call may store those same bytes again). One call is an
   exception: a refused cb_change has detached what was attached, unless its number is 11. A cb_part alone is an answer and not lent: a
   refused call makes it the empty part. Any bytes may be given as a description, and any numbers in a station or a walk: a wrong one
   is refused, never followed.

       cb_layout layout;
       cb_placement list[CB_MAX_ARGUMENTS];
       cb_refusal refusal = cb_lay_out(bytes, length, &layout, list, CB_MAX_ARGUMENTS);
       if (refusal.number != CB_ACCEPTED) {
           char line[CB_REFUSAL_ROOM];
           puts(cb_refusal_line(refusal, line));
       }

   What a host must keep to:
   - a buffer is a pointer and its own length in bytes (for a list: in records), and no two that are lent to one call overlap, where
     one of them is written to;
   - a buffer of length 0 may be NULL, and no other pointer is;
   - each pointer to a struct is aligned for it; what a struct held that a call fills does not matter.

   No struct has padding: its reserved bytes are written as zero wherever the struct is written, and never looked at, so that structs
   can be compared and hashed as bytes.

   The library allocates nothing and has no state of its own, neither global nor per thread: all that it knows lies in what it is
   lent. Every function may be called from any thread and from a signal handler, as long as nobody else has what is lent to it.
   Of other libraries it needs memcpy and memset alone. examples/host.c is a host that uses every part of it; examples/call has the jump
   that the library leaves to the host. */
#ifndef CALLBRIDGE_H
#define CALLBRIDGE_H

#include <stddef.h>
#include <stdint.h>

#ifdef __cplusplus
extern "C" {
#endif

/* The version of this interface. It counts up where a program must be built anew; compare it with cb_version(). In version 1 a
   cb_refusal had no type; in version 2 structs had padding, a cb_layout had no return_size, `attached` had to be 0 or 1, and a refused
   call left a cb_part as it was; in version 3 there were no vectors of 32 bytes: no upper images, two classes in a cb_classes, no
   area_alignment in a cb_layout. */
#define CB_VERSION 5

/* Sizes that the description's rules fix. */
#define CB_MAX_ARGUMENTS 64      /* arguments of one call: a list of so many placements is always long enough */
#define CB_MAX_DESCRIPTION 586   /* bytes of an accepted description */
#define CB_MAX_TYPE 4096         /* bytes of one type */
#define CB_MAX_AREA 16384        /* bytes of the stack image */
#define CB_SEAT_LENGTH 586       /* bytes of a seat, exactly */
#define CB_REGISTER_IMAGE 176    /* bytes of the register image, exactly: rdi, rsi, rdx, rcx, r8, r9 at 8 bytes, xmm0 to xmm7 at 16 */
#define CB_UPPER_IMAGE 128       /* bytes of the upper image, exactly: bytes 16 to 31 of ymm0 to ymm7, at 16 */
#define CB_RETURN_IMAGE 80       /* bytes of the return image, exactly: rax, rdx at 8 bytes, xmm0, xmm1, st0, st1 at 16 */
#define CB_RETURN_UPPER 16       /* bytes of the upper return image, exactly: bytes 16 to 31 of ymm0 */
#define CB_LISTING_ROOM 8192     /* bytes of the buffer of cb_write_listing, exactly */

/* ---- the bytes of a description: docs/FORMAT.md and kcb(5) say what each is; cb_begin, below, builds one */

#define CB_FORMAT_VERSION 1      /* what bytes 3 and 4 say */
#define CB_MAX_TYPES 64          /* types of one description */
#define CB_MAX_MEMBERS 255       /* members of all its structs and unions together: a list of so many offsets is always long enough */
#define CB_MAX_ELEMENTS 4096     /* elements of one array */
#define CB_MAX_VALUES 16688      /* bytes of all values of one call, packed: no more than the three images have */
#define CB_VOID 255              /* byte 9 where nothing is returned: no type has this number */

/* Byte 6: either, both or neither. */
enum cb_flag {
    CB_VARIADIC = 1,             /* the function has a `...` */
    CB_ILP32 = 2                 /* the module is built for ILP32, as by gcc -mx32: a pointer has 4 bytes; without it LP64 */
};

/* The kind of a type: the first byte of its record. */
enum cb_kind {
    CB_BASIC = 0,
    CB_ARRAY = 1,
    CB_STRUCT = 2,
    CB_UNION = 3
};

/* Which basic type: the second byte of its record. Signedness changes nothing: CB_INT is unsigned too. */
enum cb_code {
    CB_BOOL = 0,
    CB_CHAR = 1,
    CB_SHORT = 2,
    CB_INT = 3,                  /* an enum too; under ILP32 also long and size_t */
    CB_LONG = 4,                 /* long long and size_t too; under ILP32 long long alone */
    CB_INT128 = 5,
    CB_FLOAT = 6,
    CB_DOUBLE = 7,
    CB_LONG_DOUBLE = 8,
    CB_FLOAT128 = 9,
    CB_M64 = 10,
    CB_M128 = 11,
    CB_COMPLEX_FLOAT = 12,
    CB_COMPLEX_DOUBLE = 13,
    CB_COMPLEX_LONG_DOUBLE = 14,
    CB_POINTER = 15,             /* to whatever: 8 bytes, under ILP32 4 */
    CB_M256 = 16
};

/* ---- refusals */

enum cb_refusal_number {
    CB_ACCEPTED = 0,
    CB_TOO_SHORT = 1,
    CB_WRONG_MARK = 2,
    CB_WRONG_VERSION = 3,
    CB_WRONG_COUNTS = 4,
    CB_WRONG_LENGTH = 5,
    CB_WRONG_TYPE_RECORD = 6,
    CB_TYPE_TOO_LARGE = 7,
    CB_WRONG_TYPE_NUMBER = 8,
    CB_UNPROMOTED_ARGUMENT = 9,
    CB_AREA_TOO_LARGE = 10,
    CB_WRONG_BUFFER = 11,
    CB_WRONG_BOOL = 12,
    CB_NOT_ATTACHED = 13,
    CB_ALREADY_ATTACHED = 14,
    CB_NO_MORE_ATTACHMENTS = 15,
    CB_NOT_VARIADIC = 16,
    CB_OTHER_ATTACHMENT = 17,
    CB_WALK_ASTRAY = 18,
    CB_WALK_AT_END = 19,
    CB_OTHER_TYPE = 20,
    CB_WRONG_TYPE_COUNT = 24,    /* 21 to 23, 25, 26 and 28 are no refusals of this library */
    CB_HIDDEN_TOO_WIDE = 27,
    CB_TOO_MANY_MEMBERS = 29
};

/* Why a call was refused: a number of enum cb_refusal_number, 0 for none.
   For CB_WRONG_TYPE_RECORD and CB_TYPE_TOO_LARGE, whichever call passes them on, type is the lowest number of a type that breaks that
   rule; for every other refusal, and where the call did its work, it is 0. Type 0 may be the one that breaks it: look at the number,
   or ask cb_refusal_names_type, and never whether type is 0. */
typedef struct cb_refusal {
    uint8_t number;
    uint8_t type;
} cb_refusal;

/* ---- types */

/* What cb_type_extent gives, in bytes. */
typedef struct cb_extent {
    size_t size;
    size_t align;
} cb_extent;

/* The classes of the AMD64 supplement, section 3.2.3. */
enum cb_class {
    CB_NO_CLASS = 0,
    CB_INTEGER = 1,
    CB_SSE = 2,
    CB_SSEUP = 3,
    CB_X87 = 4,
    CB_X87UP = 5,
    CB_COMPLEX_X87 = 6,
    CB_MEMORY = 7
};

/* What cb_type_classes gives: an enum cb_class for each of four eightbytes. A lone class, CB_MEMORY and CB_COMPLEX_X87 stand first
   with CB_NO_CLASS behind; third and fourth are CB_SSEUP for a vector of 32 bytes (CB_SSE and three CB_SSEUP), else CB_NO_CLASS. */
typedef struct cb_classes {
    uint8_t first;
    uint8_t second;
    uint8_t third;
    uint8_t fourth;
} cb_classes;

/* What a part is a part of. */
enum cb_image {
    CB_NOWHERE = 0,     /* no part: offset and length are 0 */
    CB_DESCRIPTION = 1,
    CB_REGISTERS = 2,
    CB_STACK = 3
};

/* So many bytes of the description or of an image (an enum cb_image), from an offset on. */
typedef struct cb_part {
    size_t offset;
    size_t length;
    uint8_t image;
    uint8_t reserved[7];
} cb_part;

/* ---- layout */

/* Registers as numbers. CB_RAX, CB_ST0 and CB_ST1 hold returned values only. */
enum cb_register {
    CB_RDI = 0,
    CB_RSI = 1,
    CB_RDX = 2,
    CB_RCX = 3,
    CB_R8 = 4,
    CB_R9 = 5,
    CB_RAX = 6,
    CB_ST0 = 8,
    CB_ST1 = 9,
    CB_XMM0 = 16,       /* CB_XMM0 + k is xmm of number k, 0 to 7 */
    CB_XMM1 = 17,
    CB_XMM2 = 18,
    CB_XMM3 = 19,
    CB_XMM4 = 20,
    CB_XMM5 = 21,
    CB_XMM6 = 22,
    CB_XMM7 = 23,
    CB_XMM0H = 32,      /* CB_XMM0H + k is its upper half */
    CB_XMM1H = 33,
    CB_XMM2H = 34,
    CB_XMM3H = 35,
    CB_XMM4H = 36,
    CB_XMM5H = 37,
    CB_XMM6H = 38,
    CB_XMM7H = 39,
    CB_XMM0Y = 48,      /* CB_XMM0Y + k is all 32 bytes of ymm of number k */
    CB_XMM1Y = 49,
    CB_XMM2Y = 50,
    CB_XMM3Y = 51,
    CB_XMM4Y = 52,
    CB_XMM5Y = 53,
    CB_XMM6Y = 54,
    CB_XMM7Y = 55,
    CB_NONE = 255
};

/* One argument: its size and alignment in bytes, its type's number, its place, where its value begins in the packed values, and 1 where it
   is named. The first value begins at 0, each other where the one before ends, and the last ends where the values of cb_layout end.
   In registers: first and second are an enum cb_register for each eightbyte, second is CB_NONE where there is one eightbyte, offset is 0.
   A vector of 32 bytes has CB_XMM0Y + k first and CB_NONE second: bytes 0 to 15 in the register image, 16 to 31 in the upper image.
   On the stack: first and second are CB_NONE, and offset is its first byte in the stack image. */
typedef struct cb_placement {
    size_t size;
    size_t align;
    size_t offset;
    size_t value;
    uint8_t type;
    uint8_t first;
    uint8_t second;
    uint8_t named;
    uint8_t reserved[4];
} cb_placement;

/* A call as a whole.
   Return place: two registers of enum cb_register, return_second CB_NONE for a value in one register, CB_XMM0Y for a vector of 32 bytes;
   CB_ST0 for a long double, CB_ST0 and CB_ST1 for a complex one. Both are CB_NONE for void, hidden 0, and for a value in memory, hidden 1: then the host passes the
   address of return_size bytes (in rdi), and it comes back in rax. */
typedef struct cb_layout {
    size_t general_registers;        /* used, 0 to 6, the hidden address included */
    size_t vector_registers;         /* used, 0 to 8 */
    size_t stack_end;                /* where the last stack argument's room ends, a multiple of 8 */
    size_t area;                     /* bytes of the stack image: stack_end rounded up to area_alignment */
    size_t area_alignment;           /* of the stack image's first byte in the real stack: 32 where an argument that is aligned to 32
                                        lies there, else 16 */
    size_t values;                   /* bytes of all values, packed */
    size_t return_size;              /* bytes of the returned value, 0 for void */
    size_t named_general_registers;  /* the first three after the named arguments alone: where a walk starts */
    size_t named_vector_registers;
    size_t named_stack_end;
    size_t arguments;                /* how many, 0 to 64 */
    uint8_t return_first;
    uint8_t return_second;
    uint8_t hidden;                  /* 1 where a hidden address is passed, else 0 */
    uint8_t reserved[5];
} cb_layout;

/* What cb_needs_stack gives. */
typedef struct cb_stack_need {
    size_t looked;      /* arguments looked at: the position of the first on the stack plus one, or all where there is none */
    uint8_t needed;     /* 1 where an argument goes to the stack, else 0 */
    uint8_t reserved[7];
} cb_stack_need;

/* ---- tidying */

/* What cb_tidy_length gives: the bytes of the tidy form, at most CB_MAX_DESCRIPTION. */
typedef struct cb_tidied {
    size_t length;
} cb_tidied;

/* ---- moving */

/* What placing gives: the vector registers used, 0 to 8, which a variadic function wants in al. */
typedef struct cb_placed {
    size_t vector_registers;
} cb_placed;

/* What gathering and taking give: the hidden address, all 64 bits of its register, 0 where none is passed. */
typedef struct cb_gathered {
    uint64_t hidden;
} cb_gathered;

/* ---- station and walk */

/* What the host keeps of a seat. A new one comes from cb_new_station; after that cb_attach, cb_detach and cb_change
   alone change it. */
typedef struct cb_station {
    size_t length;      /* bytes of the description in the seat */
    uint32_t number;    /* of the last attachment */
    uint8_t attached;   /* 0 where nothing is attached; the library writes 1 where something is, and takes any other number as 1 */
    uint8_t reserved[3];
} cb_station;

/* Where a walk over unnamed arguments stands. It comes from cb_open_walk; after that cb_step and
   cb_finish_walk alone change it. */
typedef struct cb_walk {
    size_t position;    /* the next argument */
    size_t general;     /* gp_offset, 0 to 48 */
    size_t vector;      /* fp_offset, 48 to 176 */
    size_t overflow;    /* offset in the stack image */
    uint32_t number;    /* of the attachment that it was opened under */
    uint8_t reserved[4];
} cb_walk;

/* ---- calls: the description */

/* CB_VERSION of the library. */
uint32_t cb_version(void);

/* Accepted where the description is right in every respect. Refused 1 to 10. */
cb_refusal cb_check(const uint8_t *description, size_t description_length);

/* Size and alignment of the type with this number. Refused 1 to 7, then 8 for a number that is not below the count of types. */
cb_refusal cb_type_extent(const uint8_t *description, size_t description_length, uint8_t type, cb_extent *extent);

/* The classes of the type's eightbytes. Refused 1 to 8, as cb_type_extent. */
cb_refusal cb_type_classes(const uint8_t *description, size_t description_length, uint8_t type, cb_classes *classes);

/* The part of the description that holds the type numbers of a struct's or union's members; CB_NOWHERE for another kind of type, and
   for a refusal. Refused 1 to 8, as cb_type_extent. */
cb_refusal cb_member_run(const uint8_t *description, size_t description_length, uint8_t type, cb_part *run);

/* Where each member of a struct or a union lies in it, in bytes and in the members' order, into the first entries of a list of so many;
   the entries behind them stay. Another kind of type has no members. Refused 1 to 8, as cb_type_extent, then 11 for a list that is
   shorter than the members. */
cb_refusal cb_member_offsets(const uint8_t *description, size_t description_length, uint8_t type, size_t *offsets, size_t offsets_length);

/* The layout of the call. Refused 1 to 10. */
cb_refusal cb_layout_of(const uint8_t *description, size_t description_length, cb_layout *layout);

/* Whether an argument goes to the stack, told at the first that does: the arguments behind it are not placed. It is 1 exactly where the
   area of cb_layout_of is not 0, and where that call refuses only a too large area. Refused 1 to 9; 10 is not given here. */
cb_refusal cb_needs_stack(const uint8_t *description, size_t description_length, cb_stack_need *need);

/* As cb_layout_of, and one placement for each argument, in order, into the first entries of a list of so many records; the entries behind
   them stay. Refused 1 to 10, then 11 for a list that is shorter than the arguments. */
cb_refusal cb_lay_out(const uint8_t *description, size_t description_length, cb_layout *layout, cb_placement *list, size_t list_length);

/* The layout as text, without a final 0, at the start of a buffer of CB_LISTING_ROOM bytes; the bytes behind it stay. Answers the
   text's length. A description that is refused gives the line `refused n`, or `refused n type t` where the refusal names a type. */
size_t cb_write_listing(const uint8_t *description, size_t description_length, uint8_t *out);

/* ---- calls: tidying */

/* How many bytes cb_tidy writes. Refused 1 to 10, then 29 where the separate runs need over 255 members. */
cb_refusal cb_tidy_length(const uint8_t *description, size_t description_length, cb_tidied *tidied);

/* Writes the tidy form of the description: only the types that the call uses, equal ones once, each numbered when it is first completed
   going depth-first through the returned type, then the arguments, and each struct or union with a run of its own, in that order. It is
   a description with the same layout, type numbers apart; two descriptions have the same tidy form exactly where they have the same
   byte 6, the same counts of arguments and the same types written out. The buffer has exactly the length that cb_tidy_length gives.
   Refused 1 to 10, then 29 as cb_tidy_length, then 11 for another length. */
cb_refusal cb_tidy(const uint8_t *description, size_t description_length, uint8_t *out, size_t out_length);

/* ---- calls: moving bytes */

/* Places the values, packed argument after argument, into the three images, and zeros everywhere else in them. The hidden address goes
   into rdi where one is passed, and is not looked at otherwise. The lengths are the layout's `values`, CB_REGISTER_IMAGE,
   CB_UPPER_IMAGE, also where no vector of 32 bytes is passed, and the layout's `area`. Refused 1 to 10, then 11 for another length, then 27 for a hidden address of 2^32 or more that is passed under
   ILP32, then 12 for a _Bool argument's byte that is not 0 or 1. */
cb_refusal cb_place_values(const uint8_t *description, size_t description_length, uint64_t hidden,
                           const uint8_t *values, size_t values_length,
                           uint8_t *registers, size_t registers_length,
                           uint8_t *upper, size_t upper_length,
                           uint8_t *stack, size_t stack_length, cb_placed *placed);

/* The reverse: gathers the values again, packed, and the hidden address. Refused 1 to 10, then 11 as cb_place_values. */
cb_refusal cb_gather_values(const uint8_t *description, size_t description_length,
                            const uint8_t *registers, size_t registers_length,
                            const uint8_t *upper, size_t upper_length,
                            const uint8_t *stack, size_t stack_length,
                            uint8_t *values, size_t values_length, cb_gathered *gathered);

/* Puts a returned value into the return image and the upper return image, and zeros everywhere else in them: what the called function
   leaves. A value in memory has length 0 here: rax holds the hidden address, which is looked at in no other case. Any other has the
   layout's `return_size`, which is 0 for void. Of each long double ten bytes are put, the other six are zero. Refused 1 to 10, then 11
   for another length, or images whose lengths are not CB_RETURN_IMAGE and CB_RETURN_UPPER, then 27 for a hidden address of 2^32 or more
   that is returned under ILP32, then 12 for a returned _Bool's byte that is not 0 or 1. */
cb_refusal cb_put_returned(const uint8_t *description, size_t description_length, uint64_t hidden,
                           const uint8_t *value, size_t value_length, uint8_t *image, size_t image_length,
                           uint8_t *upper, size_t upper_length);

/* The reverse: takes the returned value out of the images, zeros for the six last bytes of a long double, and the hidden address.
   Refused 1 to 10, then 11 as cb_put_returned. */
cb_refusal cb_take_returned(const uint8_t *description, size_t description_length, const uint8_t *image, size_t image_length,
                            const uint8_t *upper, size_t upper_length,
                            uint8_t *value, size_t value_length, cb_gathered *taken);

/* ---- calls: station and walk. A seat has CB_SEAT_LENGTH bytes, and belongs to one station. */

/* A station that nothing was ever attached to: all fields 0. */
cb_station cb_new_station(void);

/* Attaches: copies the description into the seat, zeros behind it, and counts the station's number up. Refused 11 for the seat's or
   the station's length, 14 where something is attached, 15 where the number can count no further, then 1 to 10. */
cb_refusal cb_attach(cb_station *station, uint8_t *seat, size_t seat_length,
                     const uint8_t *description, size_t description_length);

/* Detaches: zeros the seat and the station's length, and keeps the number, so that walks of this attachment end. Refused 11 as
   cb_attach, then 13 where nothing is attached. */
cb_refusal cb_detach(cb_station *station, uint8_t *seat, size_t seat_length);

/* Changes modules: does what cb_detach does, its answer ignored, and then what cb_attach does. Refused 11 as cb_attach, 15, then 1 to 10.
   It is the one call where a refusal writes. Refused under 11 it changes nothing, and an open walk goes on. Refused under any other
   number it leaves nothing attached: what was attached is detached, the seat zero; where nothing was, nothing changes. A walk opened
   before it is refused under 17 where it was accepted and 13 where not. The description must not lie in the seat: the seat is zeroed
   before the description is read. */
cb_refusal cb_change(cb_station *station, uint8_t *seat, size_t seat_length,
                     const uint8_t *description, size_t description_length);

/* Opens a walk before the first unnamed argument. Refused 11 and 13 as cb_detach, then 1 to 10, then 16 for a function that is not
   variadic. */
cb_refusal cb_open_walk(const cb_station *station, const uint8_t *seat, size_t seat_length, cb_walk *walk);

/* Copies the argument that the walk stands before, of the type with this number, into `out`, of exactly the type's size, and moves
   the walk on. Refused 11 for seat, station and register image, 13, 1 to 10, then 17 for a walk of another attachment, 18 for a walk
   record that this description does not give, 19 at the end, 20 for another type, then 11 for stack image and out buffer. */
cb_refusal cb_step(const cb_station *station, const uint8_t *seat, size_t seat_length, cb_walk *walk,
                   const uint8_t *registers, size_t registers_length,
                   const uint8_t *stack, size_t stack_length, uint8_t type, uint8_t *out, size_t out_length);

/* All the rest at once: copies every argument from the walk's position on, packed, into `out`, of exactly the bytes that are left, and
   moves the walk behind the last. `types` are the type numbers of these arguments, in order. Where it is accepted, walk and bytes are those
   of one cb_step for each of them; every type and every length is looked at before a byte is written. Refused 11 for seat, station and
   register image, 13, 1 to 10, 17 and 18 as cb_step, then 24 where there are more or fewer types than arguments left, 20 where any of
   them is another type, then 11 for stack image and out buffer. It is never refused 19: no types with no argument left are accepted. */
cb_refusal cb_finish_walk(const cb_station *station, const uint8_t *seat, size_t seat_length, cb_walk *walk,
                          const uint8_t *registers, size_t registers_length,
                          const uint8_t *stack, size_t stack_length,
                          const uint8_t *types, size_t types_length, uint8_t *out, size_t out_length);

/* Shows where the argument that the walk stands before lies, and moves no walk: a part of the register image or of the stack image, or
   CB_NOWHERE where it lies in two vector registers, or in a general and a vector one, and for a refusal. Refused as cb_step, but for the
   out buffer. */
cb_refusal cb_show(const cb_station *station, const uint8_t *seat, size_t seat_length, const cb_walk *walk,
                   const uint8_t *registers, size_t registers_length,
                   const uint8_t *stack, size_t stack_length, uint8_t type, cb_part *part);

/* ---- helpers of this header: no part of the library */

#define CB_NO_OFFSET ((size_t)-1)

/* Where a register stands in the register image, CB_XMM0Y + k with its bytes 0 to 15; CB_NO_OFFSET for one that is not there. */
static inline size_t cb_register_offset(uint8_t number)
{
    if (number <= CB_R9) {
        return 8 * (size_t)number;
    }
    if (CB_XMM0 <= number && number <= CB_XMM7) {
        return 48 + 16 * (size_t)(number - CB_XMM0);
    }
    if (CB_XMM0H <= number && number <= CB_XMM7H) {
        return 48 + 16 * (size_t)(number - CB_XMM0H) + 8;
    }
    if (CB_XMM0Y <= number && number <= CB_XMM7Y) {
        return 48 + 16 * (size_t)(number - CB_XMM0Y);
    }
    return CB_NO_OFFSET;
}

/* Where bytes 16 to 31 of a vector of 32 bytes stand in the upper image; CB_NO_OFFSET for what is none. */
static inline size_t cb_upper_offset(uint8_t number)
{
    return CB_XMM0Y <= number && number <= CB_XMM7Y ? 16 * (size_t)(number - CB_XMM0Y) : CB_NO_OFFSET;
}

/* A register's name, as the listing has it; "" for CB_NONE and for numbers that are no register. */
static inline const char *cb_register_name(uint8_t number)
{
    static const char *const names[56] = {
        "rdi",   "rsi",   "rdx",   "rcx",   "r8",    "r9",    "rax",   "",
        "st0",   "st1",   "",      "",      "",      "",      "",      "",
        "xmm0",  "xmm1",  "xmm2",  "xmm3",  "xmm4",  "xmm5",  "xmm6",  "xmm7",
        "",      "",      "",      "",      "",      "",      "",      "",
        "xmm0h", "xmm1h", "xmm2h", "xmm3h", "xmm4h", "xmm5h", "xmm6h", "xmm7h",
        "",      "",      "",      "",      "",      "",      "",      "",
        "xmm0y", "xmm1y", "xmm2y", "xmm3y", "xmm4y", "xmm5y", "xmm6y", "xmm7y"
    };
    return number < 56 ? names[number] : "";
}

/* What a refusal means, in a line. */
static inline const char *cb_refusal_text(cb_refusal refusal)
{
    static const char *const texts[30] = {
        "accepted",
        "the description has under 11 bytes",
        "the description does not begin with KCB",
        "the description's version is not 1",
        "the description's counts of types or arguments, or its byte 6, are against the rules",
        "the description has not the length that its counts ask for",
        "a type record is against the rules",
        "a type has over 4096 bytes",
        "a type number names no type, or an array where a value is passed or returned",
        "an unnamed argument is a _Bool, char, short or float",
        "the stack area is over 16384 bytes",
        "a buffer has the wrong length, the list is too short, or the station's length is over 586",
        "the byte of a _Bool argument is not 0 or 1",
        "nothing is attached",
        "something is attached already",
        "the station's number can count no further",
        "the function is not variadic",
        "the walk is of another attachment",
        "the walk's position or offsets are not those of this description",
        "the walk has passed the last argument",
        "the argument is of another type",
        "",
        "",
        "",
        "the types asked are not as many as the arguments that are left",
        "",
        "",
        "the hidden address is 2^32 or more, where a pointer has 4 bytes",
        "",
        "the structs and unions that are used have over 255 members together"
    };
    return refusal.number < 30 && texts[refusal.number][0] != 0 ? texts[refusal.number] : "no refusal of this library";
}

/* 1 where the refusal's `type` is the number of a type, else 0. */
static inline int cb_refusal_names_type(cb_refusal refusal)
{
    return refusal.number == CB_WRONG_TYPE_RECORD || refusal.number == CB_TYPE_TOO_LARGE;
}

/* Bytes of the buffer of cb_refusal_line: the longest line and its final 0 have fewer. */
#define CB_REFUSAL_ROOM 128

/* Writes text, and a number in decimal; they answer where the next byte goes. For cb_refusal_line alone. */
static inline char *cb_write_text(char *at, const char *text)
{
    while (*text != 0) {
        *at++ = *text++;
    }
    return at;
}

static inline char *cb_write_number(char *at, uint8_t number)
{
    if (number >= 100) {
        *at++ = (char)('0' + number / 100);
    }
    if (number >= 10) {
        *at++ = (char)('0' + number / 10 % 10);
    }
    *at++ = (char)('0' + number % 10);
    return at;
}

/* Number, meaning and, where the refusal names one, type, as "6: a type record is against the rules, type 12", with a final 0, into a
   buffer of CB_REFUSAL_ROOM bytes. Answers the buffer. */
static inline char *cb_refusal_line(cb_refusal refusal, char *line)
{
    char *at = cb_write_number(line, refusal.number);
    at = cb_write_text(at, ": ");
    at = cb_write_text(at, cb_refusal_text(refusal));
    if (cb_refusal_names_type(refusal)) {
        at = cb_write_text(at, ", type ");
        at = cb_write_number(at, refusal.type);
    }
    *at = 0;
    return line;
}

/* ---- the builder: makes a description. It allocates nothing; cb_finish alone calls the library.

       cb_builder b = cb_begin();
       uint8_t real = cb_basic(&b, CB_DOUBLE);
       cb_returns(&b, real);
       cb_argument(&b, real);
       cb_argument(&b, real);
       uint8_t description[CB_MAX_DESCRIPTION];
       size_t length = cb_finish(&b, description, sizeof description);

   Types go in, and each answers its number; the other calls want numbers. A type that is there already is not made again: its number is
   answered. The first mistake is kept in the builder's `refusal`, by the number that the library has for it: 4 for too many types,
   members or arguments, 6 for a type that breaks the rules, with the number that it would have had, 8 for a number that no type has.
   Nothing that comes behind it heals it: cb_finish then answers 0, a length that every call of the library refuses. */

typedef struct cb_builder cb_builder;

/* A description in the making. All fields 0 is an empty one, as cb_begin gives it. */
struct cb_builder {
    cb_refusal refusal;                  /* the first mistake; number 0 where there was none */
    uint8_t type_count;
    uint8_t member_count;
    uint8_t argument_count;
    uint8_t named_count;                 /* arguments before cb_ellipsis */
    uint8_t variadic;                    /* CB_VARIADIC behind cb_ellipsis */
    uint8_t model;                       /* CB_ILP32 behind cb_begin_ilp32, 0 behind cb_begin */
    uint8_t returns;                     /* 1 behind cb_returns, whose number is `returned` */
    uint8_t returned;
    uint8_t types[4 * CB_MAX_TYPES];     /* records, members and arguments as they will stand in the description */
    uint8_t members[CB_MAX_MEMBERS];
    uint8_t arguments[CB_MAX_ARGUMENTS];
};

/* Keeps the first mistake, and answers CB_VOID, which is no type's number. This and the next four are for the builder's calls alone. */
static inline uint8_t cb_mistake(cb_builder *builder, uint8_t number, uint8_t type)
{
    if (builder->refusal.number == CB_ACCEPTED) {
        builder->refusal.number = number;
        builder->refusal.type = type;
    }
    return CB_VOID;
}

static inline int cb_same_bytes(const uint8_t *these, const uint8_t *those, size_t count)
{
    size_t i = 0;
    while (i < count && these[i] == those[i]) {
        i++;
    }
    return i == count;
}

/* Copies, and answers where the next byte goes. */
static inline uint8_t *cb_copy_bytes(uint8_t *to, const uint8_t *from, size_t count)
{
    for (size_t i = 0; i < count; i++) {
        to[i] = from[i];
    }
    return to + count;
}

/* The number of the type with this record, which is added where it is not there. */
static inline uint8_t cb_add_type(cb_builder *builder, uint8_t kind, uint8_t a, size_t count)
{
    const uint8_t record[4] = {kind, a, (uint8_t)(count % 256), (uint8_t)(count / 256)};
    for (uint8_t type = 0; type < builder->type_count; type++) {
        if (cb_same_bytes(builder->types + 4 * type, record, 4)) {
            return type;
        }
    }
    if (builder->type_count >= CB_MAX_TYPES) {
        return cb_mistake(builder, CB_WRONG_COUNTS, 0);
    }
    cb_copy_bytes(builder->types + 4 * builder->type_count, record, 4);
    return builder->type_count++;
}

/* The number of the struct or union with these members, which is added, with a run of its own, where it is not there. */
static inline uint8_t cb_add_aggregate(cb_builder *builder, uint8_t kind, const uint8_t *members, size_t count)
{
    if (count > CB_MAX_MEMBERS) {
        return cb_mistake(builder, CB_WRONG_COUNTS, 0);
    }
    if (count == 0) {
        return cb_mistake(builder, CB_WRONG_TYPE_RECORD, builder->type_count);
    }
    for (size_t i = 0; i < count; i++) {
        if (members[i] >= builder->type_count) {
            return cb_mistake(builder, CB_WRONG_TYPE_RECORD, builder->type_count);
        }
    }
    for (uint8_t type = 0; type < builder->type_count; type++) {
        const uint8_t *record = builder->types + 4 * type;
        if (record[0] == kind && record[2] == count && cb_same_bytes(builder->members + record[1], members, count)) {
            return type;
        }
    }
    if (builder->member_count + count > CB_MAX_MEMBERS) {
        return cb_mistake(builder, CB_WRONG_COUNTS, 0);
    }
    uint8_t first = builder->member_count;
    cb_copy_bytes(builder->members + first, members, count);
    builder->member_count = (uint8_t)(first + count);
    return cb_add_type(builder, kind, first, count);
}

/* An empty builder. */
static inline cb_builder cb_begin(void)
{
    cb_builder builder;
    uint8_t *bytes = (uint8_t *)&builder;
    for (size_t i = 0; i < sizeof builder; i++) {
        bytes[i] = 0;
    }
    return builder;
}

/* An empty builder for a function of a module that is built for ILP32. */
static inline cb_builder cb_begin_ilp32(void)
{
    cb_builder builder = cb_begin();
    builder.model = CB_ILP32;
    return builder;
}

/* The number of a basic type, by its enum cb_code. */
static inline uint8_t cb_basic(cb_builder *builder, unsigned code)
{
    if (code > CB_M256) {
        return cb_mistake(builder, CB_WRONG_TYPE_RECORD, builder->type_count);
    }
    return cb_add_type(builder, CB_BASIC, (uint8_t)code, 0);
}

/* The number of an array of 1 to CB_MAX_ELEMENTS elements: a member or an element, never an argument by itself, as in C. */
static inline uint8_t cb_array(cb_builder *builder, unsigned element, size_t count)
{
    if (element >= builder->type_count || count == 0 || count > CB_MAX_ELEMENTS) {
        return cb_mistake(builder, CB_WRONG_TYPE_RECORD, builder->type_count);
    }
    return cb_add_type(builder, CB_ARRAY, (uint8_t)element, count);
}

/* The number of a struct or a union of so many members, 1 or more, by their types' numbers in C's order. */
static inline uint8_t cb_struct(cb_builder *builder, const uint8_t *members, size_t count)
{
    return cb_add_aggregate(builder, CB_STRUCT, members, count);
}

static inline uint8_t cb_union(cb_builder *builder, const uint8_t *members, size_t count)
{
    return cb_add_aggregate(builder, CB_UNION, members, count);
}

/* What the function returns: a type's number, or CB_VOID, which it is where this is not called. */
static inline void cb_returns(cb_builder *builder, unsigned type)
{
    if (type != CB_VOID && type >= builder->type_count) {
        cb_mistake(builder, CB_WRONG_TYPE_NUMBER, 0);
        return;
    }
    builder->returns = 1;
    builder->returned = (uint8_t)type;
}

/* The next argument, from the left. */
static inline void cb_argument(cb_builder *builder, unsigned type)
{
    if (type >= builder->type_count) {
        cb_mistake(builder, CB_WRONG_TYPE_NUMBER, 0);
    } else if (builder->argument_count >= CB_MAX_ARGUMENTS) {
        cb_mistake(builder, CB_WRONG_COUNTS, 0);
    } else {
        builder->arguments[builder->argument_count++] = (uint8_t)type;
    }
}

/* C's `...`: the function is variadic, and the arguments behind are the unnamed ones of this call, as C passes them: int for a _Bool,
   char or short, double for a float. A second one is 4. */
static inline void cb_ellipsis(cb_builder *builder)
{
    if (builder->variadic) {
        cb_mistake(builder, CB_WRONG_COUNTS, 0);
        return;
    }
    builder->variadic = CB_VARIADIC;
    builder->named_count = builder->argument_count;
}

/* Writes the description at the start of a buffer of so many bytes, of which CB_MAX_DESCRIPTION are always enough, has cb_check judge
   it, and answers its length: no call refuses it 1 to 10. After a mistake, for a buffer that is too short (11) and for what cb_check
   refuses it answers 0, `refusal` says why, and the buffer's first bytes are zero, so that no older description is found there. */
#if defined(__GNUC__)
__attribute__((warn_unused_result))
#endif
static inline size_t cb_finish(cb_builder *builder, uint8_t *description, size_t room)
{
    size_t length = 11 + 4 * (size_t)builder->type_count + builder->member_count + builder->argument_count;
    if (room < length) {
        cb_mistake(builder, CB_WRONG_BUFFER, 0);
    }
    if (builder->refusal.number == CB_ACCEPTED) {
        const uint8_t head[11] = {'K', 'C', 'B', CB_FORMAT_VERSION % 256, CB_FORMAT_VERSION / 256, builder->type_count,
                                  (uint8_t)(builder->variadic | builder->model),
                                  builder->variadic ? builder->named_count : builder->argument_count, builder->argument_count,
                                  builder->returns ? builder->returned : (uint8_t)CB_VOID, builder->member_count};
        uint8_t *at = cb_copy_bytes(description, head, 11);
        at = cb_copy_bytes(at, builder->types, 4 * (size_t)builder->type_count);
        at = cb_copy_bytes(at, builder->members, builder->member_count);
        cb_copy_bytes(at, builder->arguments, builder->argument_count);
        builder->refusal = cb_check(description, length);
    }
    if (builder->refusal.number == CB_ACCEPTED) {
        return length;
    }
    for (size_t i = 0; i < 11 && i < room; i++) {
        description[i] = 0;
    }
    return 0;
}

#ifdef __cplusplus
}
#endif

#endif
