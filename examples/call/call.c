/* call.c: lays a call out, places its values, jumps, and takes the result. */
#include "call.h"

#include <stdio.h>
#include <string.h>

static const cb_refusal accepted = {CB_ACCEPTED, 0}, wrong_size = {CB_WRONG_BUFFER, 0};

/* jump.S has the same numbers. */
_Static_assert(offsetof(call_frame, wide) == 40 && offsetof(call_frame, registers) == 48 && offsetof(call_frame, upper) == 224 &&
                   offsetof(call_frame, returned) == 352 && offsetof(call_frame, returned_upper) == 432,
               "the frame is as jump.S finds it");

int call_refused(cb_refusal refusal)
{
    if (refusal.number != CB_ACCEPTED) {
        char line[CB_REFUSAL_ROOM];
        fprintf(stderr, "refused %s\n", cb_refusal_line(refusal, line));
    }
    return refusal.number != CB_ACCEPTED;
}

size_t call_x87(const cb_layout *layout)
{
    return (size_t)(layout->return_first == CB_ST0) + (size_t)(layout->return_second == CB_ST1);
}

size_t call_wide(const cb_layout *layout, const cb_placement *arguments)
{
    int wide = layout->return_first == CB_XMM0Y;
    for (size_t i = 0; i < layout->arguments; i++) {
        wide |= cb_upper_offset(arguments[i].first) != CB_NO_OFFSET;
    }
    return wide && __builtin_cpu_supports("avx");
}

/* Packs the values, argument after argument; refused where one has not its type's size. */
static cb_refusal pack(const cb_layout *layout, const cb_placement *arguments, const call_value *values, size_t count, uint8_t *packed)
{
    if (count != layout->arguments) {
        return wrong_size;
    }
    for (size_t i = 0; i < count; i++) {
        if (values[i].size != arguments[i].size) {
            return wrong_size;
        }
        memcpy(packed, values[i].at, values[i].size);
        packed += values[i].size;
    }
    return accepted;
}

cb_refusal call_function(call_target function, const uint8_t *description, size_t length, const call_value *values, size_t count,
                         void *result, size_t result_size)
{
    cb_layout layout;
    cb_placement arguments[CB_MAX_ARGUMENTS];
    cb_refusal refusal = cb_lay_out(description, length, &layout, arguments, CB_MAX_ARGUMENTS);
    if (refusal.number != CB_ACCEPTED) {
        return refusal;
    }

    _Alignas(32) uint8_t unwanted[CB_MAX_TYPE];
    if (result == NULL && result_size == 0) {
        result = unwanted;
    } else if (result_size != layout.return_size) {
        return wrong_size;
    }

    uint8_t packed[CB_MAX_VALUES], stack[CB_MAX_AREA];
    call_frame frame;
    cb_placed placed;
    refusal = pack(&layout, arguments, values, count, packed);
    if (refusal.number != CB_ACCEPTED) {
        return refusal;
    }
    refusal = cb_place_values(description, length, (uintptr_t)result, packed, layout.values, frame.registers, sizeof frame.registers,
                              frame.upper, sizeof frame.upper, stack, layout.area, &placed);
    if (refusal.number != CB_ACCEPTED) {
        return refusal;
    }

    frame.stack = stack;
    frame.area = layout.area;
    frame.alignment = layout.area_alignment;
    frame.vectors = placed.vector_registers;
    frame.x87 = call_x87(&layout);
    frame.wide = call_wide(&layout, arguments);
    memset(frame.returned, 0, sizeof frame.returned);
    memset(frame.returned_upper, 0, sizeof frame.returned_upper);
    jump(function, &frame);
    /* A value in memory is at its address already, and has length 0 here. */
    cb_gathered taken;
    return cb_take_returned(description, length, frame.returned, sizeof frame.returned, frame.returned_upper,
                            sizeof frame.returned_upper, result, layout.hidden ? 0 : layout.return_size, &taken);
}
