/* A QUIC server over libngtcp2 with GnuTLS: its events go to http.h. */
#ifndef QUIC_H
#define QUIC_H

#include "certificate.h"
#include "gateway.h"
#include "timers.h"

#include <netinet/in.h>

#define ESTABLISHED 1024 /* connections whose handshake is done */
#define HALF_OPEN 256    /* places beside them that are kept for handshakes */
#define HALF_OPEN_EACH 64 /* of these, the most that one host has: its own oldest gives way */
#define RETRY_FROM 64    /* half-open connections from which on a client must show that it is where it says */
#define MEASURES 4096    /* of hosts' handshakes, by their hash; and tokens that were used */
#define NAMES 4096       /* a power of two, above what is named at once in a crowd */
#define LISTENERS 2

/* The row has 24 records for a client's streams of both kinds: it is never granted more at once, so the row is never full. */
#define REQUESTS_AT_ONCE 21
#define ONEWAYS_AT_ONCE 3

struct connection;
struct name;

struct address {
    union {
        struct sockaddr any;
        struct sockaddr_in v4;
        struct sockaddr_in6 v6;
    };
    socklen_t size;
};

struct listener {
    int socket;
    struct address here;
};

/* What became of connections that are over. */
struct over {
    uint64_t connections, whole, refused;
    size_t taken; /* request records, which is a fault */
};

struct server {
    struct listener listeners[LISTENERS];
    size_t listening;
    uint64_t idle;     /* seconds without a packet until a connection is given up */
    uint64_t patience; /* seconds in which a request or an answer must move on by 16 KiB, or end */
    struct certificate certificate;
    struct gateway *gateway;
    uint8_t secret[32];
    int draining; /* no new connection is taken */
    size_t held; /* bytes kept for all connections: what came of requests, answers, and what libngtcp2 keeps */
    struct connection *connections[ESTABLISHED + HALF_OPEN]; /* in no order */
    size_t count, half; /* of connections, and of those without a handshake */
    struct name *names[NAMES]; /* connection IDs, each in the list of its hash */
    uint64_t spent[MEASURES]; /* when the measure is full again */
    struct used {
        uint64_t hash, at; /* of a token, and when */
    } used[MEASURES];
    struct address met; /* where the last first packet came from */
    uint64_t mixed;     /* when the one before it came from another host; 0: never */
    struct timers timers;
    struct over over; /* since it was last said */
    struct connection *due, *last_due; /* those that may have something to write, in their turn */
};

/* A socket on one more address, of those that are written in digits; port 0 takes any. 0, or -1 with errno. */
int server_listen(struct server *s, const char *address, uint16_t port);
void server_unlisten(struct server *s); /* the last of them is closed */
void server_close(struct server *s);

void server_turn(struct server *s, int most_ms); /* waits for packets or a timer, and handles them */
void server_drain(struct server *s);             /* our GOAWAY on every connection */
int server_is_idle(struct server *s);            /* no request is open and every answer was taken */
uint64_t server_ms(void);                        /* the clock of its timers */

#endif
