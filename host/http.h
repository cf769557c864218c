/* HTTP/3 above any QUIC stack: a stack's events come in here and become calls of the engine (include/eistulko.h); what is to be sent, refused or
   closed goes out through `struct stack`. It knows no QUIC stack, so a test or a fuzzer can stand in for one. */
#ifndef HTTP_H
#define HTTP_H

#include "eistulko.h"
#include "gateway.h"
#include "qpack.h"

/* What a QUIC stack does for a connection. Each may be called within any function below, and calls none of them back. */
struct stack {
    void *self;
    uint64_t (*open)(void *self);                                                           /* a one-way stream of ours: its ID */
    void (*send)(void *self, uint64_t id, const uint8_t *bytes, size_t count, int fin); /* the bytes are copied */
    void (*share)(void *self, uint64_t id, struct content *content); /* all of it, then the stream's end; the stack is one more user of it */
    void (*refuse)(void *self, uint64_t id, uint64_t code); /* reset the stream, and ask the peer to stop sending */
    void (*close)(void *self, uint64_t code);               /* close the connection */
};

/* Codes of RFC 9114 that are the host's own. */
enum { H3_NO_ERROR = 0x0100, H3_INTERNAL_ERROR = 0x0102 };

struct request;

/* One connection. */
struct http {
    eistulko_connection connection;
    eistulko_record row[EISTULKO_RECORDS];
    struct stack stack;
    struct gateway *gateway;
    struct qpack *qpack;
    struct request *requests; /* those that are open, in no order */
    uint64_t control;         /* our control stream */
    int ready, dead;          /* whether it is open; whether the connection was closed by us */
    int draining;             /* no new requests are wanted */
    uint64_t whole, refused;  /* requests that came so far */
};

void http_begin(struct http *h, struct stack stack, struct gateway *gateway);
void http_end(struct http *h); /* the connection is gone: whatever is open is reset */

/* ---- a stack's events */

void http_handshake(struct http *h);                                                              /* streams of ours may be opened */
void http_opened(struct http *h, uint64_t id); /* the first sign of a stream of the client's; one barred along with a higher one is refused now */
void http_bytes(struct http *h, uint64_t id, const uint8_t *piece, size_t count, int fin); /* the next bytes of a stream of the client's */
void http_reset(struct http *h, uint64_t id);  /* the client reset a stream of its own */
void http_closed(struct http *h, uint64_t id); /* the stack gave a stream up, the client's or ours; it may have ended, or not */

/* ---- the host's own */

void http_drain(struct http *h);           /* our GOAWAY: no new requests */
size_t http_open_requests(struct http *h); /* records of requests that are taken */
size_t http_held(struct http *h);          /* bytes of memory that open requests take */

#endif
