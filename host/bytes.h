/* Bytes that grow. Out of memory ends the process: the settings file is then the old one. */
#ifndef BYTES_H
#define BYTES_H

#include <stdint.h>
#include <stdio.h>
#include <stdlib.h>
#include <string.h>

struct bytes {
    uint8_t *at;
    size_t count, room;
};

static inline void *must(void *memory) {
    if (!memory) {
        fputs("out of memory\n", stderr);
        abort();
    }
    return memory;
}

/* Room for `more` bytes behind those that are there. */
static inline uint8_t *bytes_room(struct bytes *b, size_t more) {
    if (b->room - b->count < more || !b->at) {
        b->room = 2 * (b->count + more) + 64;
        b->at = must(realloc(b->at, b->room));
    }
    return b->at + b->count;
}

static inline void bytes_add(struct bytes *b, const void *from, size_t count) {
    uint8_t *to = bytes_room(b, count);
    if (count) memcpy(to, from, count);
    b->count += count;
}

static inline void bytes_free(struct bytes *b) {
    free(b->at);
    *b = (struct bytes){0};
}

#endif
