/* call.h: calls of functions that a description describes, with the jump that the call bridge leaves to its host. An example, no part
   of the library: jump.S and call.c are what a host copies.

       gcc -I include examples/call/pow.c examples/call/call.c examples/call/jump.S target/staticlib/libcallbridge.a -lm */
#ifndef CALL_H
#define CALL_H

#include "callbridge.h"

#ifdef __cplusplus
extern "C" {
#endif

/* Any function: cast the real one to this, (call_target)pow. */
typedef void (*call_target)(void);

/* A value that is passed: where it is, and how many bytes it has. */
typedef struct call_value {
    const void *at;
    size_t size;
} call_value;

#define CALL_VALUE(variable) {&(variable), sizeof(variable)}

/* Calls the function with so many values, in the arguments' order, and brings the result back, of so many bytes, into a place that is
   aligned for its type. Where nothing is returned, or nobody wants it, the result is NULL and 0.
   Refused 1 to 10 for the description, 11 for a number of values, or a size of one of them or of the result, that is not the
   description's, 12 for a _Bool that is not 0 or 1: then nothing was called. What no one can check is whether the function is the one
   that the description describes. */
cb_refusal call_function(call_target function, const uint8_t *description, size_t length, const call_value *values, size_t count,
                         void *result, size_t result_size);

/* Says on standard error why a call was refused; answers 1 where it was, else 0. */
int call_refused(cb_refusal refusal);

/* How many numbers come back on the x87 stack: 1 for a long double, 2 for a complex one, else 0. */
size_t call_x87(const cb_layout *layout);

/* 1 where a vector of 32 bytes goes or comes back in a register, and this processor has such registers (AVX). Without them no module can
   look at one. */
size_t call_wide(const cb_layout *layout, const cb_placement *arguments);

/* All that jump.S loads and stores. It finds each field by the offset that stands behind it. */
typedef struct call_frame {
    const uint8_t *stack;                    /*   0: the stack image */
    size_t area;                             /*   8: its bytes, a multiple of its alignment */
    size_t alignment;                        /*  16: of where it begins, the layout's area_alignment, 16 or 32 */
    size_t vectors;                          /*  24: vector registers used, 0 to 8 */
    size_t x87;                              /*  32: how many numbers come back on the x87 stack, 0 to 2 */
    size_t wide;                             /*  40: 1 where the upper images are used: call_wide */
    uint8_t registers[CB_REGISTER_IMAGE];    /*  48 */
    uint8_t upper[CB_UPPER_IMAGE];           /* 224 */
    uint8_t returned[CB_RETURN_IMAGE];       /* 352 */
    uint8_t returned_upper[CB_RETURN_UPPER]; /* 432 */
} call_frame;

/* jump.S: loads the images, calls, and stores what comes back into the return images. */
void jump(call_target function, call_frame *frame);

#ifdef __cplusplus
}
#endif

#endif
