/* The connections of a server: who has a place, whose packet it is, and whose turn. */
#define _GNU_SOURCE
#include "connection.h"
#include "say.h"

#include <arpa/inet.h>
#include <errno.h>
#include <gnutls/crypto.h>
#include <inttypes.h>
#include <malloc.h>
#include <poll.h>
#include <sys/socket.h>
#include <time.h>
#include <unistd.h>

#define PLACES (ESTABLISHED + HALF_OPEN)
#define PACKETS_A_TURN 64
#define READING_A_TURN (20 * NGTCP2_MILLISECONDS) /* settings that go to a slow disk hold up nobody's answers for longer */
#define WRITING_A_TURN (20 * NGTCP2_MILLISECONDS) /* a crowd that takes answers holds up nobody's packets for longer */
#define HELD_MOST ((size_t)192 << 20)  /* bytes kept for all connections */
#define FAIR_SHARE ((size_t)96 << 10) /* of one: above what an idle one takes, and so little that all places together leave 72 MiB to who has more */
#define TOKEN_TIME (10 * NGTCP2_SECONDS)
#define HANDSHAKE_EVERY (5 * NGTCP2_MILLISECONDS) /* of one host, and of all that have not shown where they are: 200 a second, */
#define HANDSHAKES_AT_ONCE 400 /* and so many at once */
#define MIXED_TIME (10 * NGTCP2_SECONDS) /* for so long a host is measured after another was met */

ngtcp2_tstamp now(void) {
    struct timespec t;
    clock_gettime(CLOCK_MONOTONIC, &t);
    return (uint64_t)t.tv_sec * NGTCP2_SECONDS + (uint64_t)t.tv_nsec;
}

void random_bytes(void *to, size_t count) {
    if (gnutls_rnd(GNUTLS_RND_RANDOM, to, count)) abort();
}

/* A packet that the socket does not take is lost like any other. */
void transmit(const struct listener *from, const struct address *to, const uint8_t *packet, size_t count) {
    if (sendto(from->socket, packet, count, 0, &to->any, to->size) < 0 && errno != EAGAIN) say("a packet was not sent: %s", strerror(errno));
}

/* ---- connection IDs */

/* The secret keeps a client from choosing what is of one hash. */
static uint64_t hash_of(const struct server *s, const void *bytes, size_t count) {
    uint64_t hash = 0xcbf29ce484222325; /* FNV-1a */
    for (size_t i = 0; i < 16; i++) hash = (hash ^ s->secret[i]) * 0x100000001b3;
    for (size_t i = 0; i < count; i++) hash = (hash ^ ((const uint8_t *)bytes)[i]) * 0x100000001b3;
    return hash ^ hash >> 32;
}

static struct name **names_like(struct server *s, const uint8_t *id, size_t count) { return &s->names[hash_of(s, id, count) % NAMES]; }

static bool is_named(const struct name *n, const uint8_t *id, size_t count) { return n->id.datalen == count && !memcmp(n->id.data, id, count); }

static struct connection *addressee(struct server *s, const uint8_t *id, size_t count) {
    const struct name *n = *names_like(s, id, count);
    while (n && !is_named(n, id, count)) n = n->next;
    return n ? n->of : NULL;
}

void name_connection(struct connection *c, const ngtcp2_cid *id) {
    struct name **list = names_like(c->server, id->data, id->datalen), *n = must(calloc(1, sizeof *n));
    *n = (struct name){*list, c->names, c, *id};
    *list = c->names = n;
}

void unname_connection(struct connection *c, const ngtcp2_cid *id) {
    struct name **at = &c->names;
    while (*at && !is_named(*at, id->data, id->datalen)) at = &(*at)->other;
    struct name *n = *at;
    if (!n) return;
    *at = n->other;
    at = names_like(c->server, id->data, id->datalen);
    while (*at != n) at = &(*at)->next;
    *at = n->next;
    free(n);
}

/* ---- whose turn */

/* Behind those that are due already. */
static void make_due(struct connection *c) {
    struct server *s = c->server;
    if (c->is_due) return;
    c->is_due = true;
    c->next_due = NULL;
    c->before_due = s->last_due;
    *(s->last_due ? &s->last_due->next_due : &s->due) = c;
    s->last_due = c;
}

static void unmake_due(struct connection *c) {
    struct server *s = c->server;
    if (!c->is_due) return;
    c->is_due = false;
    *(c->before_due ? &c->before_due->next_due : &s->due) = c->next_due;
    *(c->next_due ? &c->next_due->before_due : &s->last_due) = c->before_due;
}

static void set_timer(struct connection *c) { timers_set(&c->server->timers, &c->timer, connection_timer(c)); }

/* ---- places */

static void place(struct connection *c) {
    struct server *s = c->server;
    c->place = s->count;
    s->connections[s->count++] = c;
    s->half++;
}

static void leave_place(struct connection *c) {
    struct server *s = c->server;
    struct connection *last = s->connections[--s->count];
    s->connections[c->place] = last;
    last->place = c->place;
    if (!c->established) s->half--;
}

static void forget(struct connection *c) {
    struct server *s = c->server;
    unmake_due(c);
    timers_unset(&s->timers, &c->timer);
    bool was_last = c->place != NO_PLACE && s->count == 1;
    if (c->place != NO_PLACE) leave_place(c);
    connection_free(c);
    if (was_last) malloc_trim(0); /* what a crowd took is given back when it is gone */
}

/* The connection is closed from our side: with HTTP's code, or with what went wrong below it. */
static void bid_farewell(struct connection *c, int error) {
    ngtcp2_duration again = connection_close(c, error);
    if (again && c->place != NO_PLACE) timers_set(&c->server->timers, &c->timer, now() + again);
    else forget(c);
}

/* It gives way to another. */
static void dismiss(struct connection *c) {
    if (c->quic && c->established) {
        connection_fail(c, EISTULKO_EXCESSIVE_LOAD);
        connection_close(c, 0);
    }
    forget(c);
}

/* Who gives way first: one that is closed, then one that asks for nothing and waits for nothing. */
static int rank(const struct connection *c) { return !c->quic ? 0 : !connection_is_busy(c) ? 1 : 2; }

static bool gives_way(const struct connection *c, const struct connection *other) {
    if (!other || rank(c) != rank(other)) return !other || rank(c) < rank(other);
    return connection_progress(c) < connection_progress(other);
}

/* Hosts, as far as addresses tell: of IPv6, those of one network are one. */
static size_t host_of(const struct address *a, const void **bytes) {
    bool v4 = a->any.sa_family == AF_INET;
    *bytes = v4 ? (const void *)&a->v4.sin_addr : &a->v6.sin6_addr;
    return v4 ? 4 : 8;
}

static bool is_same_host(const struct address *a, const struct address *b) {
    const void *ours, *theirs;
    size_t count = host_of(a, &ours);
    return host_of(b, &theirs) == count && !memcmp(ours, theirs, count);
}

/* Of those with a handshake or without, of a host if one is given, and of those that have more than so much, the first to give way. */
static struct connection *least(struct server *s, bool established, const struct address *host, size_t more_than) {
    struct connection *found = NULL;
    for (size_t i = 0; i < s->count; i++) {
        struct connection *c = s->connections[i];
        bool meant = c->established == established && (!more_than || connection_weight(c) >= more_than) && (!host || is_same_host(&c->from, host));
        if (meant && gives_way(c, found)) found = c;
    }
    return found;
}

static size_t count_of(struct server *s, bool established, const struct address *host) {
    size_t n = 0;
    for (size_t i = 0; i < s->count; i++) n += s->connections[i]->established == established && is_same_host(&s->connections[i]->from, host);
    return n;
}

/* Hosts in one walk: whoever has more than a quarter is among the few that are left at its end (Misra and Gries). */
enum { FEW = 4 };

struct tally {
    const struct address *host;
    size_t weight; /* 0: none */
};

/* Where this host is, or could be; FEW where there is no room for it. */
static size_t find_tally(const struct tally few[FEW], const struct address *host) {
    size_t free = FEW;
    for (size_t k = 0; k < FEW; k++) {
        if (few[k].weight && is_same_host(few[k].host, host)) return k;
        if (!few[k].weight) free = k;
    }
    return free;
}

static void tally_host(struct tally few[FEW], const struct address *host) {
    size_t k = find_tally(few, host);
    if (k < FEW) few[k] = (struct tally){host, few[k].weight + 1};
    else
        for (k = 0; k < FEW; k++) few[k].weight--;
}

/* A host that has more than a quarter of these places; null where none has. */
static const struct address *crowding_host(struct server *s, bool established) {
    struct tally few[FEW] = {{0}};
    for (size_t i = 0; i < s->count; i++)
        if (s->connections[i]->established == established) tally_host(few, &s->connections[i]->from);
    for (size_t k = 0; k < FEW; k++)
        if (few[k].weight && count_of(s, established, few[k].host) > (established ? ESTABLISHED : HALF_OPEN) / 4) return few[k].host;
    return NULL;
}

/* One more handshake of this host is within its measure. Clients that have not shown that they are where they say have one measure for all (null), so
   that nobody spends another's. */
static bool may_shake_hands(struct server *s, const struct address *host) {
    const void *bytes = NULL;
    size_t count = host ? host_of(host, &bytes) : 0;
    ngtcp2_tstamp at = now(), *spent = &s->spent[hash_of(s, bytes, count) % MEASURES];
    if (*spent < at) *spent = at;
    if (*spent >= at + HANDSHAKES_AT_ONCE * HANDSHAKE_EVERY) return false;
    *spent += HANDSHAKE_EVERY;
    return true;
}

/* First packets come from more than one host. A host that is alone takes nothing from another, and what its measure leaves out may be an honest client. */
static bool are_mixed(struct server *s, const struct address *host) {
    if (s->met.size && !is_same_host(&s->met, host)) s->mixed = now();
    s->met = *host;
    return s->mixed && now() < s->mixed + MIXED_TIME;
}

/* A token is good for one handshake: whoever sends its first packet again and again has no other. */
static struct used *use_of(struct server *s, uint64_t token) { return &s->used[token % MEASURES]; }

static bool is_used(struct server *s, uint64_t token) { return use_of(s, token)->hash == token && now() < use_of(s, token)->at + TOKEN_TIME; }

/* All of these places are taken: one is made free, and it is one of a host that has too many, if there is such. */
static void make_room(struct server *s, bool established) { dismiss(least(s, established, crowding_host(s, established), 0)); }

/* A handshake is done: the connection is one of those now. */
static void seat(struct connection *c) {
    struct server *s = c->server;
    if (s->count - s->half == ESTABLISHED) {
        c->established = false; /* not yet: it does not give way to itself */
        make_room(s, true);
        c->established = true;
    }
    s->half--;
}

/* Where too much is kept in all, of those that have more than a fair share the one that has moved on longest ago is closed. */
static void lighten(struct server *s) {
    while (s->held + content_held() > HELD_MOST) {
        struct connection *c = least(s, true, NULL, FAIR_SHARE);
        if (!c) c = least(s, false, NULL, FAIR_SHARE);
        if (!c) return;
        gateway_note(s->gateway, "connection closed with 0x%04x, as memory was short and it did not move on", EISTULKO_EXCESSIVE_LOAD);
        dismiss(c);
    }
}

/* ---- packets in */

struct datagram {
    struct listener *at;
    struct address from;
    uint8_t bytes[LARGEST + 1];
    size_t count;
};

static void say_versions(const struct datagram *d, const ngtcp2_version_cid *to) {
    const uint32_t versions[] = {NGTCP2_PROTO_VER_V1};
    uint8_t packet[256], any;
    random_bytes(&any, 1);
    ngtcp2_ssize n = ngtcp2_pkt_write_version_negotiation(packet, sizeof packet, any, to->scid, to->scidlen, to->dcid, to->dcidlen, versions, 1);
    if (n > 0) transmit(d->at, &d->from, packet, (size_t)n);
}

/* The client is to come again with this token: nothing is kept for it until then. */
static void say_retry(struct server *s, const struct datagram *d, const ngtcp2_pkt_hd *head) {
    uint8_t token[NGTCP2_CRYPTO_MAX_RETRY_TOKENLEN], packet[PACKET];
    ngtcp2_cid ours = {.datalen = CID_LENGTH};
    random_bytes(ours.data, CID_LENGTH);
    ngtcp2_ssize n = ngtcp2_crypto_generate_retry_token(token, s->secret, sizeof s->secret, head->version, &d->from.any, d->from.size, &ours, &head->dcid, now());
    if (n < 0) return;
    n = ngtcp2_crypto_write_retry(packet, sizeof packet, head->version, &head->scid, &ours, &head->dcid, token, (size_t)n);
    if (n > 0) transmit(d->at, &d->from, packet, (size_t)n);
}

/* A token that is not ours, or too old: the client begins anew without one. */
static void refuse_token(const struct datagram *d, const ngtcp2_pkt_hd *head) {
    uint8_t packet[PACKET];
    ngtcp2_ssize n = ngtcp2_crypto_write_connection_close(packet, sizeof packet, head->version, &head->scid, &head->dcid, NGTCP2_INVALID_TOKEN, NULL, 0);
    if (n > 0) transmit(d->at, &d->from, packet, (size_t)n);
}

/* A client's first packet. Nobody gives way to it before it was read. */
static void welcome(struct server *s, const struct datagram *d) {
    ngtcp2_pkt_hd head;
    if (s->draining || ngtcp2_accept(&head, d->bytes, d->count)) return;
    ngtcp2_cid original, *retried = NULL;
    bool mixed = are_mixed(s, &d->from);
    uint64_t token = hash_of(s, head.token.base, head.token.len);
    if (head.token.len) {
        if (ngtcp2_crypto_verify_retry_token(&original, head.token.base, head.token.len, s->secret, sizeof s->secret, head.version, &d->from.any,
                                             d->from.size, &head.dcid, TOKEN_TIME, now())) {
            refuse_token(d, &head);
            return;
        }
        retried = &original;
    } else if (s->half >= RETRY_FROM || !may_shake_hands(s, NULL)) {
        say_retry(s, d, &head);
        return;
    }
    if (retried && (is_used(s, token) || (mixed && !may_shake_hands(s, &d->from)))) return; /* an honest client asks again */
    struct connection *c = connection_new(s, d->at, &d->from, &head, retried);
    if (!c) return;
    int error = connection_read(c, d->bytes, d->count);
    if (error == NGTCP2_ERR_RETRY) say_retry(s, d, &head); /* a later part of its ClientHello came first: any order will do with a token */
    if (error) {
        bool faulty = error != NGTCP2_ERR_RETRY && error != NGTCP2_ERR_DROP_CONN && error != NGTCP2_ERR_DRAINING;
        if (faulty) bid_farewell(c, error);
        else forget(c);
        return;
    }
    if (mixed && s->half >= HALF_OPEN_EACH && count_of(s, false, &c->from) >= HALF_OPEN_EACH) dismiss(least(s, false, &c->from, 0));
    else if (s->half == HALF_OPEN) make_room(s, false);
    if (retried) *use_of(s, token) = (struct used){token, now()};
    place(c);
    make_due(c);
}

/* A client stays where it is (RFC 9000, 9 allows to ask it): what libngtcp2 does at a move has assertions that a peer can make fail. */
static bool is_from(const struct connection *c, const struct datagram *d) {
    return c->listener == d->at && c->from.size == d->from.size && !memcmp(&c->from.any, &d->from.any, d->from.size);
}

static void hear(struct connection *c, const struct datagram *d) {
    struct server *s = c->server;
    bool was_half = !c->established;
    int error = connection_read(c, d->bytes, d->count);
    if (was_half && c->established) seat(c);
    if (error == NGTCP2_ERR_DRAINING || error == NGTCP2_ERR_DROP_CONN) forget(c);
    else if (error || c->failed) bid_farewell(c, error);
    else make_due(c);
    lighten(s);
}

static void receive(struct server *s, const struct datagram *d) {
    ngtcp2_version_cid to = {0};
    int error = ngtcp2_pkt_decode_version_cid(&to, d->bytes, d->count, CID_LENGTH);
    bool other = to.version && to.version != NGTCP2_PROTO_VER_V1; /* libngtcp2 would take others too */
    bool large = d->count >= NGTCP2_MAX_UDP_PAYLOAD_SIZE;         /* as a first packet must be: we answer with less */
    if (error == NGTCP2_ERR_VERSION_NEGOTIATION || (!error && other && large)) say_versions(d, &to);
    if (error || other) return;
    struct connection *c = addressee(s, to.dcid, to.dcidlen);
    if (!c) welcome(s, d);
    else if (!is_from(c, d)) return;
    else if (!c->quic) connection_close_again(c, d->count);
    else hear(c, d);
}

/* ---- turns */

static void on_timer(struct connection *c) {
    if (!c->quic) { /* its CONNECTION_CLOSE was said for long enough */
        forget(c);
        return;
    }
    int error = connection_expire(c);
    if (error == NGTCP2_ERR_IDLE_CLOSE || error == NGTCP2_ERR_HANDSHAKE_TIMEOUT) forget(c);
    else if (c->failed) {
        gateway_note(c->server->gateway, "connection closed with 0x%04x, as a request or an answer did not move on", EISTULKO_EXCESSIVE_LOAD);
        bid_farewell(c, 0);
    } else if (error) bid_farewell(c, error);
    else make_due(c); /* its timer is set anew when it has written */
}

static int until_timer(struct server *s, int most_ms) {
    const struct timer *first = timers_first(&s->timers);
    ngtcp2_tstamp at = now();
    if (s->due || (first && first->due <= at)) return 0;
    uint64_t ms = first ? (first->due - at) / NGTCP2_MILLISECONDS + 1 : (uint64_t)most_ms;
    return ms < (uint64_t)most_ms ? (int)ms : most_ms;
}

uint64_t server_ms(void) { return now() / NGTCP2_MILLISECONDS; }

/* The next datagram of a socket; an empty one, or one that is too large, is nothing, and others may wait behind it. */
static bool read_one(struct server *s, struct listener *at) {
    static struct datagram d;
    d.at = at;
    d.from.size = sizeof d.from.v6;
    ssize_t n = recvfrom(at->socket, d.bytes, sizeof d.bytes, 0, &d.from.any, &d.from.size);
    if (n < 0) return false;
    d.count = (size_t)n;
    if (n && n <= LARGEST) receive(s, &d);
    return true;
}

static void read_packets(struct server *s) {
    ngtcp2_tstamp until = now() + READING_A_TURN;
    for (int k = 0; k < PACKETS_A_TURN && now() < until; k++) {
        bool any = false;
        for (size_t i = 0; i < s->listening; i++) any = read_one(s, &s->listeners[i]) || any;
        if (!any) return;
    }
}

static void write_for(struct connection *c) {
    bool more = false;
    unmake_due(c);
    if (!c->quic) return;
    int error = connection_write(c, &more);
    if (error) {
        bid_farewell(c, error);
        return;
    }
    set_timer(c);
    if (more) make_due(c);
}

/* Those that were read from or whose timer is due, each once, and nobody else. Whoever is not reached in time is first in the next turn. */
static void write_packets(struct server *s) {
    ngtcp2_tstamp until = now() + WRITING_A_TURN;
    const struct connection *last = s->last_due;
    for (bool done = !last; !done && now() < until;) {
        done = s->due == last;
        write_for(s->due);
    }
}

/* One line for all that are over since the last: where lines are left out, nothing is lost. */
static void say_over(struct server *s) {
    struct over *o = &s->over;
    if (o->connections == 1) say("connection over: %" PRIu64 " whole, %" PRIu64 " refused, %zu request records taken", o->whole, o->refused, o->taken);
    else say("%" PRIu64 " connections over: %" PRIu64 " whole, %" PRIu64 " refused, %zu request records taken", o->connections, o->whole, o->refused, o->taken);
    *o = (struct over){0};
}

void server_turn(struct server *s, int most_ms) {
    struct pollfd in[LISTENERS];
    for (size_t i = 0; i < s->listening; i++) in[i] = (struct pollfd){.fd = s->listeners[i].socket, .events = POLLIN};
    poll(in, s->listening, until_timer(s, most_ms));
    read_packets(s);
    ngtcp2_tstamp at = now();
    for (struct timer *first; (first = timers_first(&s->timers)) && first->due <= at;) {
        timers_unset(&s->timers, first); /* anew where there is a next */
        on_timer((struct connection *)first);
    }
    write_packets(s);
    if (s->over.connections && say_is_heard()) say_over(s);
}

/* ---- the server */

static int read_address(struct address *to, const char *text, uint16_t port) {
    *to = (struct address){.size = sizeof to->v4};
    if (inet_pton(AF_INET, text, &to->v4.sin_addr) == 1) {
        to->v4.sin_family = AF_INET;
        to->v4.sin_port = htons(port);
        return 0;
    }
    to->size = sizeof to->v6;
    to->v6.sin6_family = AF_INET6;
    to->v6.sin6_port = htons(port);
    errno = EINVAL;
    return inet_pton(AF_INET6, text, &to->v6.sin6_addr) == 1 ? 0 : -1;
}

static void begin(struct server *s) {
    static struct timer *heap[PLACES + 1];
    s->timers.heap = heap;
    random_bytes(s->secret, sizeof s->secret);
}

int server_listen(struct server *s, const char *address, uint16_t port) {
    struct listener *l = &s->listeners[s->listening];
    if (!s->listening) begin(s);
    if (read_address(&l->here, address, port)) return -1;
    l->socket = socket(l->here.any.sa_family, SOCK_DGRAM | SOCK_NONBLOCK | SOCK_CLOEXEC, 0);
    if (l->socket < 0) return -1;
    int yes = 1, why;
    if (l->here.any.sa_family == AF_INET6) setsockopt(l->socket, IPPROTO_IPV6, IPV6_V6ONLY, &yes, sizeof yes);
    if (bind(l->socket, &l->here.any, l->here.size) || getsockname(l->socket, &l->here.any, &l->here.size)) {
        why = errno;
        close(l->socket);
        errno = why;
        return -1;
    }
    s->listening++;
    return 0;
}

void server_unlisten(struct server *s) { close(s->listeners[--s->listening].socket); }

void server_drain(struct server *s) {
    s->draining = 1;
    for (size_t i = 0; i < s->count; i++) {
        struct connection *c = s->connections[i];
        if (!c->quic || !c->established) continue;
        http_drain(&c->http);
        make_due(c);
    }
}

int server_is_idle(struct server *s) {
    for (size_t i = 0; i < s->count; i++)
        if (connection_is_busy(s->connections[i])) return 0;
    return 1;
}

void server_close(struct server *s) {
    while (s->count) {
        struct connection *c = s->connections[s->count - 1];
        if (c->quic && c->established) {
            connection_fail(c, H3_NO_ERROR);
            connection_close(c, 0);
        }
        forget(c);
    }
    if (s->over.connections) say_over(s);
    while (s->listening) server_unlisten(s);
}
