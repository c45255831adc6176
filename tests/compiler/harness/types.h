/* Names of the types that are no keywords everywhere. */
#include <stddef.h>

/* As gcc's own headers define them; those headers are not installed everywhere. */
typedef int __m64 __attribute__((__vector_size__(8), __may_alias__));
typedef float __m128 __attribute__((__vector_size__(16), __may_alias__));
typedef float __m256 __attribute__((__vector_size__(32), __may_alias__));

/* LP64 or ILP32: "long is described by code 3" there, and by code 4 here. */
_Static_assert(sizeof(long) == sizeof(void *) && _Alignof(long) == _Alignof(void *), "long is as wide as a pointer");

/* Where gcc makes code for another machine only sizes and alignments are judged,
   and this type has another name. */
#ifndef __x86_64__
typedef _Float128 __float128;
#endif
