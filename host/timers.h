/* Timers in a heap: the first is found at once, and setting one costs the logarithm of their number. */
#ifndef TIMERS_H
#define TIMERS_H

#include <stddef.h>
#include <stdint.h>

/* It is kept within what it is for. It begins as zero. */
struct timer {
    uint64_t due;
    size_t place; /* in the heap, from 1; 0 if it is not set */
};

struct timers {
    struct timer **heap; /* room for all, from 1 */
    size_t count;
};

void timers_set(struct timers *t, struct timer *x, uint64_t due); /* anew, too; UINT64_MAX is never */
void timers_unset(struct timers *t, struct timer *x);
struct timer *timers_first(struct timers *t); /* null where none is set */

#endif
