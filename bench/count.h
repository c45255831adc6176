/* Counts what calls cost: instructions, under callgrind or under qemu with bench/qemu_counter.c, or nanoseconds where the program is run by itself.
   One line is written for each count, in the order of the counts: the case, the operation, how many calls, and the nanoseconds of one. */
#ifndef COUNT_H
#define COUNT_H

void count(const char *operation, int which, int times, void (*call)(int));

#endif
