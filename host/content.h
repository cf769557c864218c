/* Bytes of an answer. All who send them share one copy, and none alters it. */
#ifndef CONTENT_H
#define CONTENT_H

#include "bytes.h"

#include <stdbool.h>

struct content {
    size_t users;
    bool latest; /* whoever asks next is given it too */
    struct bytes is;
};

/* The bytes as content with one user; they are the content's from now on. */
struct content *content_of(struct bytes bytes);
struct content *content_use(struct content *c); /* one user more */
void content_leave(struct content *c);          /* one less; with the last, it is gone */
void content_set_latest(struct content *c, bool latest);

/* Bytes of all content but the latest: what is kept for its users alone. */
size_t content_held(void);

#endif
