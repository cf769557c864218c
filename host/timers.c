#include "timers.h"

static void put(struct timers *t, size_t place, struct timer *x) {
    t->heap[place] = x;
    x->place = place;
}

static void rise(struct timers *t, struct timer *x) {
    size_t at = x->place;
    for (; at > 1 && t->heap[at / 2]->due > x->due; at /= 2) put(t, at, t->heap[at / 2]);
    put(t, at, x);
}

static void sink(struct timers *t, struct timer *x) {
    size_t at = x->place;
    for (size_t below = 2 * at; below <= t->count; below = 2 * at) {
        if (below < t->count && t->heap[below + 1]->due < t->heap[below]->due) below++;
        if (t->heap[below]->due >= x->due) break;
        put(t, at, t->heap[below]);
        at = below;
    }
    put(t, at, x);
}

void timers_set(struct timers *t, struct timer *x, uint64_t due) {
    if (due == UINT64_MAX) {
        timers_unset(t, x);
        return;
    }
    if (!x->place) put(t, ++t->count, x);
    x->due = due;
    rise(t, x);
    sink(t, x);
}

void timers_unset(struct timers *t, struct timer *x) {
    if (!x->place) return;
    struct timer *last = t->heap[t->count--];
    size_t place = x->place;
    x->place = 0;
    if (last == x) return;
    put(t, place, last);
    rise(t, last);
    sink(t, last);
}

struct timer *timers_first(struct timers *t) { return t->count ? t->heap[1] : NULL; }
