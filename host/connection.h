/* One connection over libngtcp2: its streams, what it sends and how it ends. The server that it belongs to is in server.c. */
#ifndef CONNECTION_H
#define CONNECTION_H

#include "guard.h"
#include "http.h"
#include "quic.h"

#include <ngtcp2/ngtcp2.h>
#include <ngtcp2/ngtcp2_crypto.h>
#include <stdbool.h>

#define CID_LENGTH 16
#define PACKET 1452  /* the most that a datagram of ours holds */
#define LARGEST 1500 /* of a client's, as it is told; what is larger is dropped */

/* A connection ID that names a connection. */
struct name {
    struct name *next;  /* of its hash */
    struct name *other; /* of its connection */
    struct connection *of;
    ngtcp2_cid id;
};

struct stream;

struct connection {
    struct timer timer; /* first, so that it leads to the connection */
    struct server *server;
    struct listener *listener;
    struct address from; /* where the client is: it is heard from nowhere else */
    size_t place; /* among the server's connections; NO_PLACE until its first packet was read */
    struct name *names;
    struct connection *next_due, *before_due;
    bool is_due;

    ngtcp2_conn *quic; /* null once it is closed from our side */
    gnutls_session_t tls;
    ngtcp2_crypto_conn_ref ref;
    ngtcp2_mem memory;
    struct guard guard;
    struct stream *streams;
    struct http http; /* begun when the handshake is done: */
    bool established;

    ngtcp2_tstamp moved; /* when it was begun, the handshake done, or a stream closed at last */
    size_t stack;        /* bytes that libngtcp2 keeps for it */
    size_t held;         /* bytes kept for it alone when last counted, those included */
    uint64_t oneways;    /* of the client's that are done */

    bool failed; /* HTTP closes the connection, with this: */
    uint64_t code;
    uint8_t alert; /* TLS closes it, for what GnuTLS does not look at */
    uint8_t farewell[PACKET]; /* our CONNECTION_CLOSE, said again to whoever still sends */
    size_t farewell_count;
    uint64_t after; /* packets that came since */
};

#define NO_PLACE SIZE_MAX

/* ---- beneath: server.c */

ngtcp2_tstamp now(void);
void random_bytes(void *to, size_t count);
void name_connection(struct connection *c, const ngtcp2_cid *id);
void unname_connection(struct connection *c, const ngtcp2_cid *id);
void transmit(const struct listener *from, const struct address *to, const uint8_t *packet, size_t count);

/* ---- its life: quic.c */

/* Of a client's first packet. `original` is what it called us before our Retry; null where there was none. Null where it cannot be begun. */
struct connection *connection_new(struct server *s, struct listener *at, const struct address *from, const ngtcp2_pkt_hd *head, const ngtcp2_cid *original);
void connection_free(struct connection *c);

int connection_read(struct connection *c, const uint8_t *packet, size_t count); /* 0, or libngtcp2's error */
int connection_expire(struct connection *c);                                    /* its timer is due. 0, or libngtcp2's error */

/* Writes what a turn allows. 0, or libngtcp2's error; `more` tells whether a turn did not suffice. */
int connection_write(struct connection *c, bool *more);

/* Our CONNECTION_CLOSE, for HTTP's code or for libngtcp2's error; nothing but it is kept. How long it is to be said again, 0 where there is none. */
ngtcp2_duration connection_close(struct connection *c, int error);
void connection_close_again(struct connection *c, size_t count); /* to who has sent that many bytes since */

void connection_fail(void *self, uint64_t code); /* HTTP's close; the packet at hand is read on */
void connection_count(struct connection *c);     /* what is kept for it */
size_t connection_weight(const struct connection *c); /* the same, and content that is there for who sends it alone */

ngtcp2_tstamp connection_timer(const struct connection *c);    /* when it must be looked at again */
ngtcp2_tstamp connection_progress(const struct connection *c); /* when what it has open, all of it, was last seen to move on */
bool connection_is_busy(const struct connection *c);           /* a request is open, or an answer was not taken yet */

#endif
