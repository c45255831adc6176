/* Shared by the harness and by the functions that the driver writes. */
#include <stdarg.h>
#include "types.h"

enum { ROOM = 65536 };

/* One function under judgement. Each address takes eight bytes, in the model of four as well, where the others are zero: the harness
   reads both. */
struct judged {
    _Alignas(8) void (*call)(const unsigned char *values); /* calls the probe */
    _Alignas(8) void (*callee)();                          /* reads named parameters, va_arg, returns */
    _Alignas(8) void (*walk)(va_list *list);               /* va_arg alone, where none is named */
    _Alignas(8) const unsigned *measures;                  /* of each type sizeof, _Alignof and, for each member, offsetof */
    _Alignas(8) unsigned numbers;                          /* so many in all */
};

extern const struct judged judged[];
extern const unsigned judged_count;
extern const unsigned judged_pointer; /* sizeof(void *) of the judged functions: 8, or 4 under ILP32 */
extern const unsigned judged_wide;    /* 1 where vectors of 32 bytes are among them, and the machine has such registers */

extern unsigned char sink[ROOM];   /* where read values go */
extern unsigned char source[ROOM]; /* the value to return */
/* Called through a pointer, so that gcc cannot know that the types differ. */
extern void (*volatile probe_at)(void);
void note(va_list list); /* notes gp_offset, fp_offset and the overflow offset */
