/* examples/call on random calls: its jump, against a probe that stores what a callee finds (compiler/harness/probe.s), and its jump and
   its callbacks together: each value must arrive as it left, and so must the result.
       calls COUNT
   The last line ends with `ok` where everything agrees. */
#include "callback.h"

#include <stdio.h>
#include <stdlib.h>
#include <string.h>

static int wrong;

static void expect(const char *what, size_t is, size_t should)
{
    if (is != should) {
        printf("%s is %zu, should be %zu\n", what, is, should);
        wrong = 1;
    }
}

static void same(const char *what, const uint8_t *is, const uint8_t *should, size_t count)
{
    for (size_t i = 0; i < count; i++) {
        if (is[i] != should[i]) {
            printf("%s: byte %zu of %zu is %02x, should be %02x\n", what, i, count, is[i], should[i]);
            wrong = 1;
            return;
        }
    }
}

/* splitmix64 */
static uint64_t state = 1;

static uint64_t next(void)
{
    state += 0x9E3779B97F4A7C15u;
    uint64_t mixed = state;
    mixed = (mixed ^ (mixed >> 30)) * 0xBF58476D1CE4E5B9u;
    mixed = (mixed ^ (mixed >> 27)) * 0x94D049BB133111EBu;
    return mixed ^ (mixed >> 31);
}

static size_t below(size_t bound)
{
    return (size_t)(next() % bound);
}

static void fill(uint8_t *bytes, size_t count)
{
    for (size_t i = 0; i < count; i++) {
        bytes[i] = (uint8_t)next();
    }
}

/* ---- the jump alone */

/* Of probe.s: what it found, and what it gives back, the upper return image behind the other. */
void probe(void);
uint8_t probe_registers[CB_REGISTER_IMAGE], probe_upper[CB_UPPER_IMAGE], upper[CB_UPPER_IMAGE], probe_stack[CB_MAX_AREA];
uint8_t return_image[CB_RETURN_IMAGE + CB_RETURN_UPPER], source[1], *entered_stack;
uint64_t probe_rax, probe_area, probe_start, area_alignment, return_size;
uint32_t return_kind, judged_wide; /* judged_wide: 1 where the processor has AVX */

/* Of kept.S. */
size_t kept(call_target function, call_frame *frame);

/* The numbers on the x87 stack. */
static size_t x87_depth(void)
{
    struct {
        uint32_t words[7];
    } environment;
    size_t count = 0;
    __asm__ volatile("fnstenv %0" : "=m"(environment));
    for (int i = 0; i < 8; i++) {
        count += (environment.words[2] >> 2 * i & 3) != 3;
    }
    return count;
}

/* Any bytes in the images, and any that come back. */
static void jump_to_probe(void)
{
    static uint8_t stack[CB_MAX_AREA + 1], should[CB_RETURN_IMAGE];
    size_t odd = below(2), alignment = 16 + 16 * below(2);
    static call_frame frame;
    memset(&frame, 0xA5, sizeof frame);
    frame.stack = stack + odd;
    frame.area = alignment * below(below(4) == 0 ? CB_MAX_AREA / alignment + 1 : 20);
    frame.alignment = alignment;
    frame.vectors = below(9);
    frame.x87 = below(3);
    frame.wide = judged_wide & below(2);
    fill(frame.registers, sizeof frame.registers);
    fill(frame.upper, sizeof frame.upper);
    fill(stack + odd, frame.area);
    fill(return_image, sizeof return_image);
    memset(probe_registers, 0, sizeof probe_registers);
    memset(probe_upper, 0, sizeof probe_upper);
    memset(probe_stack, 0, sizeof probe_stack);
    probe_area = frame.area;
    return_kind = frame.x87 == 0 ? 0 : (uint32_t)frame.x87 + 1;
    const call_frame before = frame;
    expect("registers that were not kept", kept(probe, &frame), 0);
    same("the registers", probe_registers, frame.registers, sizeof probe_registers);
    same("the stack", probe_stack, stack + odd, frame.area);
    expect("where the stack begins", probe_start % alignment, 0);
    expect("al", (uint8_t)probe_rax, frame.vectors);
    expect("numbers left on the x87 stack", x87_depth(), 0);
    same("the frame before the return images", (const uint8_t *)&frame, (const uint8_t *)&before, offsetof(call_frame, returned));
    if (frame.wide) {
        same("the upper halves", probe_upper, frame.upper, sizeof probe_upper);
    } else {
        same("the upper return image", frame.returned_upper, before.returned_upper, sizeof frame.returned_upper);
    }
    memset(should, 0xA5, sizeof should);
    if (frame.x87 == 0) {
        memcpy(should, return_image, 48);
        same("what came back", frame.returned, should, sizeof should);
        if (frame.wide) {
            same("the upper half that came back", frame.returned_upper, return_image + CB_RETURN_IMAGE, CB_RETURN_UPPER);
        }
        return;
    }
    memcpy(should + 48, return_image + 48, 10);
    if (frame.x87 == 2) {
        memcpy(should + 64, return_image + 64, 10);
    }
    same("what came back on the x87 stack", frame.returned + 48, should + 48, sizeof should - 48);
}

/* ---- the jump and the callbacks */

/* A random description; 0 where it is refused. */
static size_t describe(uint8_t *description)
{
    cb_builder b = cb_begin();
    uint8_t types[40], members[6];
    size_t count = 1 + below(20), arguments = below(below(8) == 0 ? 64 : 16), ellipsis = below(64);
    for (size_t i = 0; i < count; i++) {
        size_t which = i == 0 ? 0 : below(5), run = 1 + below(which == 4 ? 3 : 6);
        for (size_t k = 0; k < run; k++) {
            members[k] = i == 0 ? 0 : types[below(i)];
        }
        types[i] = which < 2    ? cb_basic(&b, (unsigned)below(17))
                   : which == 2 ? cb_array(&b, members[0], 1 + below(below(10) == 0 ? 600 : 4))
                   : which == 3 ? cb_union(&b, members, run)
                                : cb_struct(&b, members, run);
    }
    if (below(8) != 0) {
        cb_returns(&b, types[below(count)]);
    }
    for (size_t i = 0; i < arguments; i++) {
        if (i == ellipsis) {
            cb_ellipsis(&b);
        }
        cb_argument(&b, types[below(count)]);
    }
    return cb_finish(&b, description, CB_MAX_DESCRIPTION);
}

static uint8_t sent[CB_MAX_VALUES], answer[CB_MAX_TYPE];
static size_t answer_size, arrivals;
static cb_layout layout;
static cb_placement placements[CB_MAX_ARGUMENTS];

static void handle(void *user, const void *const *values, void *result)
{
    expect("user", (uintptr_t)user, (uintptr_t)&arrivals);
    for (size_t i = 0; i < layout.arguments; i++) {
        expect("the alignment of a value", (uintptr_t)values[i] % 32, 0);
        same("a value", (const uint8_t *)values[i], sent + placements[i].value, placements[i].size);
    }
    memcpy(result, answer, answer_size);
    arrivals++;
}

/* Whether a value's type is _Bool, whose byte must be 0 or 1. */
static int is_bool(const uint8_t *description, uint8_t type)
{
    return type < description[5] && description[11 + 4 * type] == CB_BASIC && description[11 + 4 * type + 1] == CB_BOOL;
}

/* The bytes of the returned type, 0 for void. Byte 9 is its number; for CB_VOID this is refused, and a refusal leaves the extent as it was. */
static size_t returned_size(const uint8_t *description, size_t length)
{
    cb_extent extent = {0, 0};
    cb_type_extent(description, length, description[9], &extent);
    return extent.size;
}

/* Whether a vector of 32 bytes goes or comes back in a register. */
static int needs_avx(void)
{
    int needed = layout.return_first == CB_XMM0Y;
    for (size_t i = 0; i < layout.arguments; i++) {
        needed |= cb_upper_offset(placements[i].first) != CB_NO_OFFSET;
    }
    return needed;
}

static unsigned long on_stack, in_memory, on_x87, wide;

/* 1 where a call was made. */
static int call_and_be_called(void)
{
    uint8_t description[CB_MAX_DESCRIPTION];
    _Alignas(32) uint8_t result[CB_MAX_TYPE + 1];
    call_value values[CB_MAX_ARGUMENTS];
    size_t length = describe(description), at = 0, before = arrivals;
    if (length == 0) {
        return 0;
    }
    expect("the layout", cb_lay_out(description, length, &layout, placements, CB_MAX_ARGUMENTS).number, CB_ACCEPTED);
    answer_size = returned_size(description, length);
    expect("the layout's size of the result", layout.return_size, answer_size);
    if (!judged_wide && needs_avx()) {
        return 0;
    }
    fill(sent, layout.values);
    fill(answer, answer_size);
    for (size_t i = 0; i < layout.arguments; i++) {
        values[i].at = sent + at;
        values[i].size = placements[i].size;
        if (is_bool(description, placements[i].type)) {
            sent[at] %= 2;
        }
        at += values[i].size;
    }
    if (is_bool(description, description[9])) {
        answer[0] %= 2;
    }
    memset(result, 0xA5, sizeof result);
    call_target callback = callback_make(description, length, handle, &arrivals);
    expect("a callback", callback != NULL, 1);
    cb_refusal refusal = call_function(callback, description, length, values, layout.arguments, result, answer_size);
    callback_drop(callback);
    expect("the refusal of call_function", refusal.number, CB_ACCEPTED);
    expect("arrivals", arrivals, before + 1);
    if (call_x87(&layout) > 0) {
        memset(answer + 10, 0, 6);
        memset(answer + answer_size - 6, 0, 6);
    }
    on_stack += layout.area > 0;
    in_memory += layout.hidden;
    on_x87 += call_x87(&layout) > 0;
    wide += call_wide(&layout, placements);
    same("the result", result, answer, answer_size);
    expect("the byte behind the result", result[answer_size], 0xA5);
    expect("numbers left on the x87 stack", x87_depth(), 0);
    return 1;
}

/* ---- what is refused is not called */

static void never(void *user, const void *const *values, void *result)
{
    (void)user;
    (void)values;
    (void)result;
    arrivals++;
}

static void refusals(void)
{
    cb_builder b = cb_begin();
    uint8_t description[CB_MAX_DESCRIPTION];
    int number = 5, result = 7;
    uint8_t flag = 2;
    const call_value values[] = {CALL_VALUE(number), CALL_VALUE(flag), CALL_VALUE(flag)};
    const call_value small[] = {CALL_VALUE(flag), CALL_VALUE(flag)}, large[] = {CALL_VALUE(number), CALL_VALUE(number)};
    cb_returns(&b, cb_basic(&b, CB_INT));
    cb_argument(&b, cb_basic(&b, CB_INT));
    cb_argument(&b, cb_basic(&b, CB_BOOL));
    size_t length = cb_finish(&b, description, sizeof description), before = arrivals;
    call_target callback = callback_make(description, length, never, NULL);
    expect("too few values", call_function(callback, description, length, values, 1, &result, sizeof result).number, CB_WRONG_BUFFER);
    expect("too many values", call_function(callback, description, length, values, 3, &result, sizeof result).number, CB_WRONG_BUFFER);
    expect("a small value", call_function(callback, description, length, small, 2, &result, sizeof result).number, CB_WRONG_BUFFER);
    expect("a large value", call_function(callback, description, length, large, 2, &result, sizeof result).number, CB_WRONG_BUFFER);
    expect("a short result", call_function(callback, description, length, values, 2, &result, 2).number, CB_WRONG_BUFFER);
    expect("a bool of 2", call_function(callback, description, length, values, 2, &result, sizeof result).number, CB_WRONG_BOOL);
    expect("no description", call_function(callback, description, 0, values, 2, &result, sizeof result).number, CB_TOO_SHORT);
    expect("calls that were refused and made", arrivals, before);
    expect("the result of a refusal", (size_t)result, 7);
    flag = 1;
    expect("a result that nobody wants", call_function(callback, description, length, values, 2, NULL, 0).number, CB_ACCEPTED);
    expect("the call of it", arrivals, before + 1);
    callback_drop(callback);
}

static void entries(void)
{
    static const uint8_t description[] = {'K', 'C', 'B', 1, 0, 0, 0, 0, 0, CB_VOID, 0};
    call_target all[CALLBACKS];
    for (size_t i = 0; i < CALLBACKS; i++) {
        all[i] = callback_make(description, sizeof description, never, NULL);
        expect("a free entry", all[i] != NULL, 1);
        for (size_t k = 0; k < i; k++) {
            expect("two entries that are one", all[i] == all[k], 0);
        }
    }
    expect("one entry more", callback_make(description, sizeof description, never, NULL) == NULL, 1);
    for (size_t i = 0; i < CALLBACKS; i++) {
        size_t before = arrivals;
        all[i]();
        expect("the call of an entry", arrivals, before + 1);
        callback_drop(all[i]);
    }
    expect("no handler", callback_make(description, sizeof description, NULL, NULL) == NULL, 1);
    expect("no description", callback_make(description, 10, never, NULL) == NULL, 1);
    callback_drop(NULL);
}

int main(int count, char **words)
{
    unsigned long wanted = count == 2 ? strtoul(words[1], NULL, 10) : 0, made = 0;
    judged_wide = __builtin_cpu_supports("avx") != 0;
    refusals();
    entries();
    for (unsigned long i = 0; i < wanted && !wrong; i++) {
        jump_to_probe();
    }
    while (made < wanted && !wrong) {
        made += (unsigned long)call_and_be_called();
    }
    if (!wrong) {
        printf("%lu jumps to a probe; %lu calls of a callback, %lu with a stack image, %lu with a result in memory, %lu on the x87 stack, "
               "%lu with vectors of 32 bytes in registers: ok\n",
               wanted, made, on_stack, in_memory, on_x87, wide);
    }
    return wrong;
}
