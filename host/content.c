#include "content.h"

static size_t held;

struct content *content_of(struct bytes bytes) {
    struct content *c = must(calloc(1, sizeof *c));
    if (bytes.room > bytes.count + 64) {
        bytes.room = bytes.count + 1;
        bytes.at = must(realloc(bytes.at, bytes.room));
    }
    *c = (struct content){.users = 1, .is = bytes};
    held += c->is.room;
    return c;
}

struct content *content_use(struct content *c) {
    c->users++;
    return c;
}

void content_leave(struct content *c) {
    if (--c->users) return;
    content_set_latest(c, false);
    held -= c->is.room;
    bytes_free(&c->is);
    free(c);
}

void content_set_latest(struct content *c, bool latest) {
    if (c->latest == latest) return;
    c->latest = latest;
    held = latest ? held - c->is.room : held + c->is.room;
}

size_t content_held(void) { return held; }
