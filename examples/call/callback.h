/* callback.h: C functions that the host makes out of a description and a handler, for a module to call. An example, no part of the
   library: callback.S and callback.c are what a host copies, with call.c. */
#ifndef CALLBACK_H
#define CALLBACK_H

#define CALLBACKS 16                    /* how many there are at once: each has a few bytes of code in callback.S */
#define CALLBACK_ENTRY 16               /* bytes of that code */

#ifndef __ASSEMBLER__
#include "call.h"

#ifdef __cplusplus
extern "C" {
#endif

/* What is called: values[i] is argument i, aligned to 32, the result goes where the last pointer says, in exactly the bytes of the
   returned type. The values are gone when the handler returns. */
typedef void callback_handler(void *user, const void *const *values, void *result);

/* A function of the described type that calls the handler. NULL where the description is refused (cb_check says why), and where
   CALLBACKS are in use. The description is copied. One thread makes and drops them. */
call_target callback_make(const uint8_t *description, size_t length, callback_handler *handler, void *user);

/* Takes it back. A module that calls it still ends the program, or reaches the callback that was made next: drop it when the module
   is gone. */
void callback_drop(call_target made);

#ifdef __cplusplus
}
#endif

#endif
#endif
