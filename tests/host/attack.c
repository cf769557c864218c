/* attack PORT PID NAME [NUMBER..]: one of the hostile peers below, against the gateway on loopback with that process. Each ends by itself. Status 0 if
   the gateway did as it must; else a line says what it did not. What it prints besides are figures. */
#include "../peer/frames.h"

#include <inttypes.h>

#define LIMIT 5000u
#define PAYLOAD 1300 /* bytes of frames that a packet holds */

static const char *name;
static uint16_t port;
static int pid;
static char **numbers; /* of the command line, up to a null */

__attribute__((noreturn, format(printf, 1, 2))) static void fail(const char *form, ...) {
    va_list rest;
    printf("%s: ", name);
    va_start(rest, form);
    vprintf(form, rest);
    va_end(rest);
    putchar('\n');
    exit(1);
}

/* The next number of the command line. */
static unsigned long number_or(unsigned long otherwise) { return *numbers ? strtoul(*numbers++, NULL, 10) : otherwise; }

static void must_open(peer *p) {
    if (!peer_open(p, port)) fail("no connection");
}

static bool is_closed(void *c) { return client_closed(c, NULL) != CONNECTION_OPEN; }

/* The gateway must close this client's connection, with this of QUIC's codes. */
static void must_close(client *c, uint64_t expected) {
    uint64_t code;
    client_run(c, is_closed, c, LIMIT);
    client_closure how = client_closed(c, &code);
    if (how != CLOSED_BY_TRANSPORT || code != expected) fail("not closed with 0x%" PRIx64 " but %d, 0x%" PRIx64, expected, (int)how, code);
    client_drop(c);
}

static bool ping_is_answered(peer *p) {
    peer_heard(p, NULL, 0);
    peer_ping(p);
    for (int i = 0; i < 50; i++) {
        pause_ms(2);
        if (peer_heard(p, NULL, 0)) return true;
    }
    return false;
}

/* The connection is open: after a close the first, second, fourth and eighth packets alone are answered, each with the close. */
static bool is_open(peer *p) {
    int n = 0;
    while (n < 8 && ping_is_answered(p)) n++;
    return n == 8;
}

/* ---- what libngtcp2 0.12.1 ends the process for */

#define EXTENSION_TYPE 0x39 /* quic_transport_parameters */

/* The extension becomes one that nobody knows. */
static void hide_parameters(uint8_t first, uint8_t *frames, size_t count) {
    bool initial = (first & 0xf0) == 0xc0;
    for (size_t i = 8; initial && i + 4 < count; i++) /* its type, and a length of which one byte is 0 */
        if (frames[i] == 0 && frames[i + 1] == EXTENSION_TYPE && frames[i + 2] == 0 && frames[i + 3] > 20) {
            frames[i] = 0x7a;
            return;
        }
}

/* A ClientHello without transport parameters: 0x16d is TLS's missing_extension. */
static void noparams(void) {
    spoil = hide_parameters;
    for (unsigned long i = number_or(1); i; i--) must_close(client_start(port), 0x16d);
    spoil = NULL;
}

/* An integer of QUIC's at a place below the end; its length, or 0 where it is cut. */
static size_t get_integer(const uint8_t *at, const uint8_t *end, uint64_t *value) {
    size_t length = at < end ? (size_t)1 << (*at >> 6) : 0;
    if (!length || (size_t)(end - at) < length) return 0;
    *value = *at & 0x3f;
    for (size_t i = 1; i < length; i++) *value = *value << 8 | at[i];
    return length;
}

/* The last of the transport parameters, where it is long enough, becomes one that nobody knows, and behind it max_datagram_frame_size without a value. */
static void cut_parameters(uint8_t first, uint8_t *frames, size_t count) {
    bool initial = (first & 0xf0) == 0xc0;
    for (size_t i = 8; initial && i + 4 < count; i++) {
        uint8_t *at = frames + i + 4, *end = at + frames[i + 3], *last = NULL;
        if (frames[i] || frames[i + 1] != EXTENSION_TYPE || frames[i + 2] || frames[i + 3] <= 20 || end > frames + count) continue;
        for (uint64_t is, length; at < end;) {
            size_t head = get_integer(at, end, &is), more = head ? get_integer(at + head, end, &length) : 0;
            if (!more || length > (uint64_t)(end - at) - head - more) break;
            last = at;
            at += head + more + length;
        }
        if (at != end || !last || end - last < 4 || end - last > 66) continue;
        last[0] = 27; /* reserved to be unknown */
        last[1] = (uint8_t)(end - last - 4);
        end[-2] = 0x20;
        end[-1] = 0;
        return;
    }
}

/* A ClientHello with a transport parameter that is cut, for which quinn-proto 0.9.2 panics: 0x8 is TRANSPORT_PARAMETER_ERROR. */
static void cutparams(void) {
    spoil = cut_parameters;
    for (unsigned long i = number_or(1); i; i--) must_close(client_start(port), 0x8);
    spoil = NULL;
}

/* TLS messages behind the handshake, a KeyUpdate first. With 0, a stack that answers all that comes after its close is not faulted. */
static void messages(void) {
    static const uint8_t types[] = {24, 24, 0, 1, 2, 4, 5, 8, 11, 13, 15, 20, 254};
    bool strict = number_or(1);
    for (size_t i = 0; i < sizeof types; i++) {
        uint8_t frames[64], message[5] = {types[i], 0, 0, 1, (uint8_t)(i & 1)};
        peer p;
        must_open(&p);
        int times = 0; /* the gateway is busy with others, and a socket that is full loses packets */
        do {
            if (times++ == 5 && strict) fail("a message of type %d was taken", types[i]);
            peer_send(&p, frames, (size_t)(put_crypto(frames, 0, message, sizeof message) - frames));
        } while (strict && is_open(&p));
        client_drop(p.client);
    }
}

/* The client itself has announced as many as the gateway takes, that of the handshake among them; libngtcp2's takes no more than 8. */
static uint64_t first_id(const peer *p) {
    uint64_t most = ngtcp2_conn_get_remote_transport_params(p->client->quic)->active_connection_id_limit;
    return most < 8 ? most : 8;
}

/* Announcements of retired connection IDs, again and again: in one packet and behind a close, where they are read too. */
static void ids(void) {
    static const uint64_t orders[][8] = {{5, 5}, {5, 6, 5, 6, 7, 7}, {0}, {0, 0}, {7, 6, 5, 4, 3, 2, 1, 7}};
    static const uint8_t closing[] = {0x1d, 0x41, 0x00, 0x00};
    for (size_t k = 0; k < 2 * sizeof orders / sizeof *orders; k++) {
        uint8_t frames[1400], *at = put_new_id(frames, 8, 8, NULL);
        peer p;
        must_open(&p);
        peer_send(&p, frames, (size_t)(at - frames));
        at = k & 1 ? put_bytes(frames, closing, sizeof closing) : frames;
        for (size_t i = 0; i < 8 && (i == 0 || orders[k / 2][i]); i++) at = put_new_id(at, orders[k / 2][i], 0, NULL);
        peer_send(&p, frames, (size_t)(at - frames));
        peer_send(&p, frames, (size_t)(at - frames));
        pause_ms(10);
        client_drop(p.client);
    }
}

/* An honest client retires its IDs one by one, and says the one before again, as where an acknowledgement is late: it is answered, at its newest ID. */
static void retiring(void) {
    uint8_t frames[200], id[NEW_ID];
    peer p;
    must_open(&p);
    for (uint64_t first = first_id(&p), i = first; i <= first + 10; i++) {
        uint8_t *at = put_new_id(frames, i, i, id);
        if (i > first) at = put_new_id(at, i - 1, i - 1, NULL);
        peer_send(&p, frames, (size_t)(at - frames));
        size_t heard = 0;
        for (int k = 0; k < 500 && !heard; k++) {
            pause_ms(1);
            heard = peer_heard(&p, id, sizeof id);
        }
        if (!heard) fail("no packet to connection ID %" PRIu64, i);
    }
    client_drop(p.client);
}

/* The peer's packets come from another port from now on. */
static void move(peer *p) {
    int other = socket(AF_INET, SOCK_DGRAM | SOCK_CLOEXEC | SOCK_NONBLOCK, 0);
    if (other < 0 || connect(other, (struct sockaddr *)&p->client->remote, sizeof p->client->remote)) fail("no socket");
    dup2(other, p->client->socket);
    close(other);
}

/* A client that probes from port after port, with a new ID for each, and acknowledges nothing; then one that moves. */
static void moving(void) {
    for (int probing = 1; probing >= 0; probing--) {
        uint8_t frames[400];
        peer p;
        must_open(&p);
        for (uint64_t first = first_id(&p), i = first - 1; i <= 40; i++) { /* the first probe takes the ID that there is */
            uint8_t *at = i < first ? frames : put_new_id(frames, i, probing ? 0 : i - 1, NULL);
            *at++ = 0x1a; /* PATH_CHALLENGE */
            at = put_bytes(at, "challeng", 8);
            if (!probing) *at++ = 0x01; /* PING */
            move(&p);
            peer_send(&p, frames, (size_t)(at - frames));
            pause_ms(2);
        }
        client_drop(p.client);
    }
}

/* A packet that ends within a frame's type: what quinn-proto 0.9.2 panics for. */
static void cut(void) {
    static const uint8_t types[] = {0xc0, 0, 0, 0, 0, 0, 0};
    for (size_t count = 1; count <= sizeof types; count++) {
        peer p;
        must_open(&p);
        peer_send(&p, types, count);
        pause_ms(5);
        client_drop(p.client);
    }
}

/* ---- memory and time */

/* A crowd of peers, each kept open by a PING now and then. */
static peer *crowd;
static unsigned long crowd_count;

static void ping_crowd(void) {
    for (unsigned long i = 0; i < crowd_count; i++) {
        peer_heard(&crowd[i], NULL, 0);
        peer_ping(&crowd[i]);
        if (i % 40 == 39) pause_ms(1);
    }
}

static unsigned long crowd_open(void) {
    unsigned long open = 0;
    ping_crowd();
    pause_ms(300);
    for (unsigned long i = 0; i < crowd_count; i++) open += peer_heard(&crowd[i], NULL, 0) > 0;
    return open;
}

/* Each peer does its harm as it comes. */
static void gather_crowd(unsigned long count, void (*harm)(peer *)) {
    crowd = must(calloc(count + 1, sizeof *crowd));
    for (crowd_count = 0; crowd_count < count; crowd_count++) {
        must_open(&crowd[crowd_count]);
        if (harm) harm(&crowd[crowd_count]);
        if (crowd_count % 100 == 99) ping_crowd();
    }
}

static void hold_crowd(unsigned long seconds_held) {
    for (unsigned long i = 0; i < seconds_held; i++) {
        ping_crowd();
        pause_ms(1000);
    }
}

static void print_state(const char *what) {
    printf("%s: %lu peers, %lu KiB of memory, %.2f s of a processor\n", what, crowd_count, gateway_memory(pid), gateway_seconds(pid));
    fflush(stdout);
}

/* Packets go out in bursts that a socket takes. */
static void paced(peer *p, unsigned *sent) {
    if (++*sent % 10) return;
    pause_ms(1);
    peer_heard(p, NULL, 0);
}

/* Every second byte of 21 streams: each costs the stack a gap, of which it allows 1,000 a stream. */
static void send_gaps(peer *p) {
    uint8_t frames[PAYLOAD + 64], *at = frames;
    unsigned sent = 0;
    for (uint64_t id = 0; id < 21 * 4; id += 4)
        for (uint64_t offset = 1; offset < 1960; offset += 2) {
            at = put_stream(at, id, offset, "z", 1, false);
            if (at - frames < PAYLOAD) continue;
            peer_send(p, frames, (size_t)(at - frames));
            at = frames;
            paced(p, &sent);
        }
    if (at > frames) peer_send(p, frames, (size_t)(at - frames));
}

/* Bytes of a stream from its beginning on. */
static void send_on(peer *p, uint64_t id, const uint8_t *bytes, size_t count) {
    uint8_t frames[PAYLOAD + 64];
    unsigned sent = 0;
    for (size_t from = 0, part; from < count; from += part) {
        part = count - from < PAYLOAD ? count - from : PAYLOAD;
        peer_send(p, frames, (size_t)(put_stream(frames, id, from, bytes + from, part, false) - frames));
        paced(p, &sent);
    }
}

/* Requests for a path of 16 KB that never end. */
static void send_paths(peer *p) {
    static uint8_t section[20000];
    static char path[16200];
    memset(path, 'p', sizeof path - 1);
    path[0] = '/';
    size_t count = put_request(section, "GET", path, NULL);
    for (uint64_t id = 0; id < 21 * 4; id += 4) send_on(p, id, section, count);
}

/* A PUT of which 300 KB come. */
static void send_part(peer *p) {
    static uint8_t upload[300000];
    size_t count = put_request(upload, "PUT", "/settings", "1048576");
    count += h3_put_frame_head(upload + count, H3_DATA, 1048576);
    send_on(p, 0, upload, sizeof upload);
}

/* Requests for the settings, the answers to which are never granted anything. */
static void ask_in_vain(peer *p) {
    uint8_t section[200], frames[PAYLOAD + 64], *at = frames;
    size_t count = put_request(section, "GET", "/settings", NULL);
    for (uint64_t id = 0; id < 21 * 4; id += 4) at = put_stream(at, id, 0, section, count, true);
    peer_send(p, frames, (size_t)(at - frames));
    pause_ms(2);
}

/* Settings of 200 KB that nobody sent before, and requests for them as above: what they were must be kept for this peer alone. */
static void ask_for_old(peer *p) {
    static uint8_t upload[200000];
    static uint64_t number;
    uint8_t frames[64];
    size_t head = put_request(upload, "PUT", "/settings", "190000");
    head += h3_put_frame_head(upload + head, H3_DATA, 190000);
    memset(upload + head, 'o', 190000);
    memcpy(upload + head, &number, sizeof number);
    number++;
    send_on(p, 0, upload, head + 190000);
    peer_send(p, frames, (size_t)(put_stream(frames, 0, head + 190000, "", 0, true) - frames));
    pause_ms(10);
    uint8_t section[200], more[PAYLOAD + 64], *at = more;
    size_t count = put_request(section, "GET", "/settings", NULL);
    for (uint64_t id = 4; id < 21 * 4; id += 4) at = put_stream(at, id, 0, section, count, true);
    peer_send(p, more, (size_t)(at - more));
}

/* COUNT peers that do so, and hold on for SECONDS; MOST is what the gateway may have in memory then, in MiB, and 0 is no limit. */
static void hoard(void (*harm)(peer *)) {
    unsigned long count = number_or(20), held = number_or(1), most = number_or(0);
    gather_crowd(count, harm);
    print_state("gathered");
    long memory = gateway_memory(pid);
    hold_crowd(held);
    print_state("held");
    printf("%lu of %lu are open\n", crowd_open(), count);
    if (most && memory > (long)most << 10) fail("the gateway took %ld KiB", memory);
}

static void gaps(void) { hoard(send_gaps); }
static void paths(void) { hoard(send_paths); }
static void parts(void) { hoard(send_part); }
static void unread(void) {
    stream_window = 64;
    connection_window = 1024;
    hoard(ask_in_vain);
}

static void old(void) {
    stream_window = 64;
    connection_window = 4096;
    hoard(ask_for_old);
}

/* PINGs beside COUNT idle connections: each costs what it does beside none. */
static double cost_of_pings(peer *p, unsigned count) {
    double before = gateway_seconds(pid);
    for (unsigned i = 0; i < count; i++) {
        peer_ping(p);
        pause_ms(1);
        peer_heard(p, NULL, 0);
    }
    return (gateway_seconds(pid) - before) * 1000 / count;
}

static void idle(void) {
    unsigned long count = number_or(200), pings = number_or(800);
    peer p;
    must_open(&p);
    double alone = cost_of_pings(&p, (unsigned)pings);
    gather_crowd(count, NULL);
    pause_ms(1500); /* their last timers but that of their end */
    double beside = cost_of_pings(&p, (unsigned)pings);
    printf("a PING costs %.3f ms alone and %.3f ms beside %lu\n", alone, beside, count);
    if (beside > 2 * alone + 0.15) fail("a PING costs %.3f ms alone and %.3f ms beside %lu", alone, beside, count);
}

/* ---- places */

static uint8_t firsts[1024][1500]; /* first packets of clients that never come */
static size_t first_counts[1024], first_count, first_most;

static void keep_first(const uint8_t *packet, size_t count) {
    if (first_count == first_most || count > sizeof *firsts) return;
    memcpy(firsts[first_count], packet, count);
    first_counts[first_count++] = count;
}

static void make_firsts(size_t count) {
    divert = keep_first;
    while (first_count < count) {
        first_most = first_count + 1;
        client *c = client_start(port);
        client_run(c, NULL, NULL, 1);
        client_drop(c);
    }
    divert = NULL;
}

static int socket_to_gateway(void) {
    struct sockaddr_in to = {.sin_family = AF_INET, .sin_port = htons(port), .sin_addr.s_addr = htonl(INADDR_LOOPBACK)};
    struct sockaddr_in source = {.sin_family = AF_INET, .sin_addr.s_addr = htonl(client_source)};
    int s = socket(AF_INET, SOCK_DGRAM | SOCK_NONBLOCK | SOCK_CLOEXEC, 0);
    if (s < 0 || bind(s, (struct sockaddr *)&source, sizeof source) || connect(s, (struct sockaddr *)&to, sizeof to)) fail("no socket");
    return s;
}

/* How many packets came, and their bytes. */
static size_t drop_all(int from) {
    uint8_t packet[2048];
    size_t bytes = 0;
    for (ssize_t n; (n = recv(from, packet, sizeof packet, 0)) > 0;) bytes += (size_t)n;
    return bytes;
}

/* A packet a turn, RATE of them a second. */
static void send_for(unsigned long held, unsigned long rate, void (*one)(unsigned long)) {
    double begun = seconds();
    unsigned long sent = 0;
    while (seconds() < begun + (double)held) {
        while ((double)sent < (seconds() - begun) * (double)rate) one(sent++);
        pause_ms(1);
    }
    printf("%lu packets in %lu s\n", sent, held);
}

static int sockets[64];

static void replay(unsigned long n) {
    size_t k = n % first_count;
    send(sockets[k % 64], firsts[k], first_counts[k], 0);
    drop_all(sockets[k % 64]);
}

/* FILL connections that are kept open, then for SECONDS the same DISTINCT first packets again and again, RATE a second. */
static void initials(void) {
    unsigned long fill = number_or(0), rate = number_or(500), held = number_or(3), distinct = number_or(300);
    gather_crowd(fill, NULL);
    make_firsts(distinct);
    for (int i = 0; i < 64; i++) sockets[i] = socket_to_gateway();
    print_state("filled");
    send_for(held, rate, replay);
    print_state("after");
    printf("%lu of %lu are open\n", crowd_open(), fill);
}

/* Half-open connections, for each of which packets come that cannot be read yet. */
static void half(void) {
    static uint8_t junk[65000];
    unsigned long count = number_or(60);
    make_firsts(count < 1024 ? count : 1024);
    long before = gateway_memory(pid);
    for (size_t i = 0; i < first_count; i++) {
        int s = socket_to_gateway();
        uint8_t heard[2048];
        ssize_t n = -1;
        send(s, firsts[i], first_counts[i], 0);
        for (int k = 0; k < 100 && n < 0; k++) {
            pause_ms(1);
            n = recv(s, heard, sizeof heard, 0);
        }
        const uint8_t *id = heard + 6 + heard[5]; /* behind ours */
        if (n < 0 || (heard[0] & 0xf0) == 0xf0 || *id > ID_MOST) continue; /* a Retry: it wants to see us first */
        random_bytes(junk, sizeof junk);
        junk[0] = 0x43;
        memcpy(junk + 1, id + 1, *id);
        for (int k = 0; k < 8; k++) send(s, junk, k & 1 ? 1400 : 64000, 0);
        close(s);
    }
    printf("%zu half-open: %ld KiB more\n", first_count, gateway_memory(pid) - before);
}

/* ---- handshakes from one host that has shown where it is */

static int hello_socket;
static int hello_sockets[1024];

/* A first packet with a token is kept, not sent; one without goes its way. No other is sent, so that no handshake ends. */
static void keep_hello(const uint8_t *packet, size_t count) {
    size_t to = 6 + packet[5], token = count > to ? to + 1 + packet[to] : count;
    bool initial = (packet[0] & 0xf0) == 0xc0, shown = initial && token < count && packet[token];
    if (shown) keep_first(packet, count);
    else if (initial && write(hello_socket, packet, count) < 0) return; /* as one lost on the way */
}

static bool is_kept(void *any) {
    (void)any;
    return first_count == first_most;
}

/* Clients that are asked for no token stay half-open, until so many are that the next is asked. */
static void gather_hellos(size_t count) {
    first_count = first_most = 0;
    divert = keep_hello;
    for (size_t tries = 0; first_count < count; tries++) {
        if (tries == 2 * count + 200) fail("no Retry, but for %zu", first_count);
        first_most = first_count + 1;
        client *c = client_start(port);
        if (!c) fail("no client");
        hello_socket = hello_sockets[first_count] = dup(c->socket); /* the token is for this port */
        if (!client_run(c, is_kept, NULL, 30)) close(hello_socket);
        client_drop(c);
    }
    divert = NULL;
}

static void replay_hello(unsigned long n) {
    size_t k = n % first_count;
    send(hello_sockets[k], firsts[k], first_counts[k], 0);
    drop_all(hello_sockets[k]);
}

/* From a host of their own, COUNT first packets with our tokens, again and again for SECONDS, RATE a second: a handshake is begun for each, and none ends.
   MOST is what it may cost, in hundredths of a processor; 0 is no limit. */
static void hellos(void) {
    unsigned long count = number_or(300), rate = number_or(500), held = number_or(3), most = number_or(0);
    client_source++;
    make_firsts(70); /* so many half-open make it ask for tokens */
    for (size_t i = 0; i < first_count; i++) {
        send(socket_to_gateway(), firsts[i], first_counts[i], 0);
        pause_ms(1);
    }
    gather_hellos(count);
    double before = gateway_seconds(pid), begun = seconds();
    send_for(held, rate, replay_hello);
    double share = (gateway_seconds(pid) - before) / (seconds() - begun) * 100;
    printf("%.0f %% of a processor\n", share);
    if (most && share > (double)most) fail("%.0f %% of a processor", share);
}

/* A ClientHello of two packets, as those with a post-quantum key are, of which the second comes first. */
static int fill_hello(gnutls_session_t tls, gnutls_buffer_t to) {
    static const uint8_t filling[1400];
    (void)tls;
    return gnutls_buffer_append_data(to, filling, sizeof filling) ? -1 : (int)sizeof filling;
}

static int ignore_reply(gnutls_session_t tls, const unsigned char *bytes, size_t count) {
    (void)tls, (void)bytes, (void)count;
    return 0;
}

static client *begin_large(void) {
    client *c = client_start(port);
    if (!c || gnutls_session_ext_register(c->tls, "filling", 0x7a7a, GNUTLS_EXT_TLS, ignore_reply, fill_hello, NULL, NULL, NULL,
                                          GNUTLS_EXT_FLAG_TLS | GNUTLS_EXT_FLAG_CLIENT_HELLO)) fail("no such client");
    return c;
}

static void order(void) {
    for (int turned = 0; turned < 2; turned++) {
        client *c = begin_large();
        first_count = 0;
        first_most = 2;
        divert = keep_first;
        client_run(c, NULL, NULL, 20);
        divert = NULL;
        if (first_count != 2) fail("the ClientHello took %zu packets", first_count);
        double begun = seconds();
        for (size_t k = 0; k < 2; k++) send(c->socket, firsts[turned ? 1 - k : k], first_counts[turned ? 1 - k : k], 0);
        client_run(c, connected_or_ended, c, LIMIT);
        if (!client_connected(c)) fail("a ClientHello of two packets was not taken%s", turned ? ", the second first" : "");
        printf("%s: connected after %.0f ms\n", turned ? "the second first" : "in order", (seconds() - begun) * 1000);
        client_close(c, H3_NO_ERROR);
    }
}

/* ---- a crowd of others */

static bool is_answered(void *s) { return ((client_stream *)s)->fin_received; }

static void must_serve(client *c, const char *who) {
    uint8_t section[200];
    client_stream *s = client_open_bidi(c);
    if (!s) fail("%s has no stream", who);
    client_send(s, section, put_request(section, "GET", "/", NULL));
    client_fin(s);
    if (!client_run(c, is_answered, s, LIMIT)) fail("%s was not served", who);
}

/* A slow upload is under way, and another client idle, while more come from another host than there are places: neither gives way. */
static void crowded(void) {
    enum { PART = 20000, EACH = 100 };
    static uint8_t part[PART];
    unsigned long count = number_or(1100), length = count / EACH * PART;
    uint8_t section[300];
    char stated[24];
    client *at_rest = client_connect(port, LIMIT), *c = client_connect(port, LIMIT);
    client_stream *s = c ? client_open_bidi(c) : NULL;
    if (!s || !at_rest) fail("no connection");
    must_serve(at_rest, "a client that comes early");
    ngtcp2_conn_set_keep_alive_timeout(at_rest->quic, NGTCP2_SECONDS);
    client_source++;
    snprintf(stated, sizeof stated, "%lu", length);
    client_send(s, section, put_request(section, "PUT", "/nowhere", stated));
    client_send(s, section, h3_put_frame_head(section, H3_DATA, length));
    crowd = must(calloc(count, sizeof *crowd));
    while (crowd_count < count) {
        must_open(&crowd[crowd_count++]);
        if (crowd_count % EACH) continue;
        client_send(s, part, PART);
        client_run(c, NULL, NULL, 20);
        client_run(at_rest, NULL, NULL, 1);
        ping_crowd();
    }
    must_serve(at_rest, "a client that was idle");
    client_close(at_rest, H3_NO_ERROR);
    client_fin(s);
    uint64_t code = 0;
    if (!client_run(c, is_answered, s, LIMIT)) fail("an upload gave way to a crowd: closure %d, code 0x%" PRIx64, client_closed(c, &code), code);
    printf("%lu of %lu are open\n", crowd_open(), crowd_count);
    client_close(c, H3_NO_ERROR);
}

/* ---- packets that nobody can read */

static size_t bytes_out, bytes_back;

static void junk(unsigned long n) {
    static uint8_t packet[2000];
    size_t count = 1200 + (size_t)(n * 7 % 300);
    random_bytes(packet, count);
    if (n % 4 == 3) { /* as it stands */
    } else if (n % 4 == 2 && first_count) { /* a true one, spoiled in its head */
        count = first_counts[n % first_count];
        uint8_t at = packet[0] % 50, with = packet[1];
        memcpy(packet, firsts[n % first_count], count);
        packet[at] = with;
    } else { /* the head of a first packet, of version 1 or of any */
        packet[0] |= 0xc0;
        if (n % 4) memcpy(packet + 1, "\0\0\0\1", 4);
        packet[5] = 16;
        packet[22] = 8;
        memcpy(packet + 31, "\0\x44\x80", 3);
    }
    send(sockets[n % 64], packet, count, 0);
    bytes_out += count;
    bytes_back += drop_all(sockets[n % 64]);
}

static void garbage(void) {
    unsigned long held = number_or(2), rate = number_or(1000);
    make_firsts(20);
    for (int i = 0; i < 64; i++) sockets[i] = socket_to_gateway();
    send_for(held, rate, junk);
    printf("%zu bytes out, %zu back\n", bytes_out, bytes_back);
    if (bytes_back > 3 * bytes_out) fail("more than three times as much came back");
}

/* Other versions than 1 are told of 1 alone. */
static void versions(void) {
    static const uint8_t others[][4] = {{0x70, 0x9a, 0x50, 0xc4}, {0x6b, 0x33, 0x43, 0xcf}, {0xff, 0, 0, 29}, {0x1a, 0x2a, 0x3a, 0x4a}};
    for (size_t i = 0; i < sizeof others / sizeof *others; i++) {
        uint8_t packet[1200] = {0xc3}, heard[2048];
        int s = socket_to_gateway();
        memcpy(packet + 1, others[i], 4);
        packet[5] = packet[14] = 8;
        send(s, packet, sizeof packet, 0);
        ssize_t n = -1;
        for (int k = 0; k < 500 && n < 0; k++) {
            pause_ms(1);
            n = recv(s, heard, sizeof heard, 0);
        }
        if (n < 27 || memcmp(heard + 1, "\0\0\0\0", 4)) fail("version %zu heard %zd bytes", i, n);
        for (const uint8_t *at = heard + 23; at < heard + n; at += 4) /* some of a form that nobody has may be among them */
            if (memcmp(at, "\0\0\0\1", 4) && (at[0] & at[1] & at[2] & at[3] & 0x0f) != 0x0a) fail("version %zu heard of another", i);
        close(s);
    }
}

/* ---- requests without end */

static void ask_for(unsigned long held, const uint8_t *bytes, size_t count, bool stop) {
    client *c = client_connect(port, LIMIT);
    if (!c) fail("no connection");
    double until = seconds() + (double)held, before = gateway_seconds(pid);
    unsigned long asked = 0;
    while (seconds() < until && client_closed(c, NULL) == CONNECTION_OPEN) {
        for (client_stream *s; client_bidi_left(c) && (s = client_open_bidi(c)); asked++) {
            client_send(s, bytes, count);
            client_fin(s);
            if (stop) ngtcp2_conn_shutdown_stream_read(c->quic, s->id, 0x10c);
            client_forget(s);
        }
        client_run(c, NULL, NULL, 1);
    }
    printf("%lu requests in %lu s, for which the gateway took %.2f s\n", asked, held, gateway_seconds(pid) - before);
    client_close(c, H3_NO_ERROR);
}

/* Refusals as fast as streams are granted: each is a line. */
static void refusals(void) {
    uint8_t section[200];
    ask_for(number_or(2), section, put_request(section, "PUT", "/settings", NULL), false);
}

/* Answers that are stopped at once. */
static void stops(void) {
    uint8_t section[200];
    ask_for(number_or(2), section, put_request(section, "GET", "/log", NULL), true);
}

/* COUNT clients, one after another: each is served. */
static void comers(void) {
    for (unsigned long i = number_or(300); i; i--) {
        client *c = client_connect(port, LIMIT);
        client_stream *s = c ? client_open_bidi(c) : NULL;
        uint8_t section[200];
        if (!s) fail("no connection, %lu before the last", i);
        client_send(s, section, put_request(section, "GET", "/", NULL));
        client_fin(s);
        if (!client_run(c, is_answered, s, LIMIT)) fail("no answer, %lu before the last", i);
        client_close(c, H3_NO_ERROR);
    }
}

static const struct {
    const char *name;
    void (*run)(void);
} attacks[] = {{"noparams", noparams}, {"cutparams", cutparams}, {"messages", messages}, {"ids", ids}, {"retiring", retiring}, {"moving", moving}, {"cut", cut},
             {"gaps", gaps}, {"paths", paths}, {"parts", parts}, {"unread", unread}, {"old", old}, {"idle", idle}, {"initials", initials}, {"half", half}, {"hellos", hellos},
             {"order", order}, {"crowded", crowded}, {"garbage", garbage}, {"versions", versions}, {"refusals", refusals}, {"stops", stops}, {"comers", comers}};

int main(int count, char **words) {
    if (count < 4) return 2;
    port = (uint16_t)atoi(words[1]);
    pid = atoi(words[2]);
    name = words[3];
    numbers = words + 4;
    for (size_t i = 0; i < sizeof attacks / sizeof *attacks; i++) {
        if (strcmp(name, attacks[i].name)) continue;
        attacks[i].run();
        return 0;
    }
    return 2;
}
