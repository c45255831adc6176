/* libffi: ffi_prep_cif decides a layout, ffi_call decides it again, moves and jumps; a closure is the reverse way. It trusts its caller: nothing is
   checked that ours refuses. */
#include "measure.h"
#include <ffi.h>

#define T(name) ((ffi_type *)&ffi_type_##name)

static ffi_type *double_long_members[] = { T(double), T(slong), 0 };
static ffi_type *double_double_members[] = { T(double), T(double), 0 };
static ffi_type *long_long_members[] = { T(slong), T(slong), 0 };
static ffi_type double_long = { 0, 0, FFI_TYPE_STRUCT, double_long_members };
static ffi_type double_double = { 0, 0, FFI_TYPE_STRUCT, double_double_members };
static ffi_type long_long = { 0, 0, FFI_TYPE_STRUCT, long_long_members };

/* By shape and type number. Debian's libffi has no __int128: a struct of two longs goes in the same registers. */
static ffi_type *types[SHAPES][MOST_TYPES] = {
    { T(slong) },
    { T(sint), T(double), T(slong), &double_long, T(longdouble), &long_long },
    { T(double), T(slong) },
    { T(double), &double_double },
    { T(sint), T(double), T(slong) },
    { T(sint), T(double), T(slong), &double_long, T(float), T(pointer), &long_long, T(longdouble) }
};

static ffi_type *arguments[SHAPES][MOST_ARGUMENTS];
static ffi_cif cif[SHAPES];
static uint8_t returned[64];

static void decide(int which)
{
    const shape *s = &shapes[which];
    ffi_type *returns = which == 1 ? T(double) : T(void);
    if (s->named < s->arguments) {
        ffi_prep_cif_var(&cif[which], FFI_DEFAULT_ABI, (unsigned)s->named, (unsigned)s->arguments, returns, arguments[which]);
    } else {
        ffi_prep_cif(&cif[which], FFI_DEFAULT_ABI, (unsigned)s->arguments, returns, arguments[which]);
    }
}

static int prepare(int which)
{
    for (int i = 0; i < shapes[which].arguments; i++) {
        arguments[which][i] = types[which][type_of(which, i)];
    }
    decide(which);
    return 1;
}

/* The sizes of structs are kept after the first ffi_prep_cif; here they are worked out each time, as ours are. */
static void decide_anew(int which)
{
    double_long.size = double_double.size = long_long.size = 0;
    decide(which);
}

static void call(int which)
{
    ffi_call(&cif[which], FFI_FN(sink), returned, value[which]);
}

static void handle(ffi_cif *of, void *result, void **values, void *user)
{
    (void)values;
    (void)user;
    if (of->rtype->type == FFI_TYPE_DOUBLE) {
        *(double *)result = 0;
    }
}

static void *code[SHAPES];

static int prepare_closure(int which)
{
    prepare(which);
    if (!code[which]) {
        ffi_closure *closure = ffi_closure_alloc(sizeof *closure, &code[which]);
        ffi_prep_closure_loc(closure, &cif[which], handle, 0, code[which]);
    }
    return 1;
}

static void call_closure(int which)
{
    ffi_call(&cif[which], FFI_FN(code[which]), returned, value[which]);
}

const operation libffi_operations[] = {
    { "ffi_prep_cif", prepare, decide },
    { "ffi_prep_cif, sizes anew", prepare, decide_anew },
    { "ffi_call", prepare, call },
    { "ffi_call to a closure", prepare_closure, call_closure },
    { 0, 0, 0 }
};
