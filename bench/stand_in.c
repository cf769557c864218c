/* A QUIC stack's place above host/http.h, taken by memory. Marked is what HTTP does, without what it asks of the stack. */
#include "requests.h"

#include "../host/http.h"
#include "marks.h"

enum { CONTROL = 3 }; /* our control stream */

static struct http http;
static struct gateway gateway;
static struct bytes sent;
static struct came came;

static uint64_t open_oneway(void *self) {
    (void)self;
    return CONTROL;
}

static void send_bytes(void *self, uint64_t id, const uint8_t *bytes, size_t count, int fin) {
    (void)self;
    mark(HTTP);
    if (id != CONTROL) {
        bytes_add(&sent, bytes, count);
        came.fin = fin;
    }
    mark(HTTP);
}

static void share_content(void *self, uint64_t id, struct content *content) { send_bytes(self, id, content->is.at, content->is.count, 1); }

static void refuse_stream(void *self, uint64_t id, uint64_t code) {
    (void)self, (void)id;
    came.refused = code;
}

static void close_connection(void *self, uint64_t code) {
    (void)self;
    fprintf(stderr, "bench: connection closed with 0x%04x\n", (unsigned)code);
    exit(1);
}

void stand_in_begin(const char *folder) {
    if (gateway_open(&gateway, folder)) {
        perror(folder);
        exit(1);
    }
    http_begin(&http, (struct stack){NULL, open_oneway, send_bytes, share_content, refuse_stream, close_connection}, &gateway);
    http_handshake(&http);
}

void stand_in_bytes(uint64_t id, const struct bytes *bytes, size_t piece, bool fin) {
    for (size_t at = 0; at < bytes->count;) {
        size_t n = bytes->count - at < piece ? bytes->count - at : piece;
        mark(HTTP);
        http_bytes(&http, id, bytes->at + at, n, fin && at + n == bytes->count);
        mark(HTTP);
        at += n;
    }
    if (!fin) return;
    mark(HTTP);
    http_closed(&http, id);
    mark(HTTP);
}

struct came stand_in_came(void) {
    struct came c = came;
    c.bytes = sent.at;
    c.count = sent.count;
    came = (struct came){0};
    sent.count = 0;
    return c;
}
