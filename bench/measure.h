/* The functions that are measured: six shapes as KCB descriptions, and the operations of each engine on them. */
#ifndef MEASURE_H
#define MEASURE_H

#include <stddef.h>
#include <stdint.h>

enum { SHAPES = 6, MOST_ARGUMENTS = 64, MOST_TYPES = 8, VALUES_ROOM = 1024 };

typedef struct shape {
    const char *name;
    const uint8_t *description;
    size_t length;
    int arguments;
    int named;
    int sizes[MOST_TYPES];  /* bytes, by type number */
} shape;

extern const shape shapes[SHAPES];

/* The type number of an argument. */
uint8_t type_of(int which, int argument);

/* What is measured: `prepare` answers 0 where the shape cannot be expressed; `call` is counted. */
typedef struct operation {
    const char *name;
    int (*prepare)(int which);
    void (*call)(int which);
} operation;

extern const operation bridge_operations[], libffi_operations[], gcc_operations[];

/* The values of each shape, packed argument after argument, and each at an aligned place of its own. */
extern uint8_t packed[SHAPES][VALUES_ROOM];
extern size_t packed_length[SHAPES];
extern void *value[SHAPES][MOST_ARGUMENTS];

/* A callee of one instruction: ret. */
void sink(void);

#endif
