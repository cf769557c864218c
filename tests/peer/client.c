/* See client.h. ngtcp2's callbacks only note what came; packets are written by write_packets alone, after all reading. */
#define _GNU_SOURCE
#include "client.h"

#include <arpa/inet.h>
#include <assert.h>
#include <errno.h>
#include <fcntl.h>
#include <gnutls/crypto.h>
#include <gnutls/gnutls.h>
#include <inttypes.h>
#include <ngtcp2/ngtcp2.h>
#include <ngtcp2/ngtcp2_crypto.h>
#include <ngtcp2/ngtcp2_crypto_gnutls.h>
#include <poll.h>
#include <stdarg.h>
#include <stdio.h>
#include <stdlib.h>
#include <string.h>
#include <sys/socket.h>
#include <time.h>
#include <unistd.h>

#define CONNECTION_ID_LENGTH 16
/* The server's id until it chooses its own: longer than those that servers choose, so that none takes it for one of its own. */
#define FIRST_SERVER_ID_LENGTH 18
#define PACKET_LENGTH 1452
#define DATAGRAM_LENGTH 65536
#define PIECES 16

#define IDLE_TIMEOUT (30 * NGTCP2_SECONDS)
#ifndef STREAM_WINDOW
#define STREAM_WINDOW (1u << 20)
#endif
#ifndef CONNECTION_WINDOW
#define CONNECTION_WINDOW (16u << 20)
#endif
#ifndef SERVER_UNI_STREAMS
#define SERVER_UNI_STREAMS 100
#endif

static const char priorities[] = "NORMAL:-VERS-ALL:+VERS-TLS1.3:-CIPHER-ALL:+AES-128-GCM:+AES-256-GCM:+CHACHA20-POLY1305:"
                                 "-GROUP-ALL:+GROUP-X25519:+GROUP-SECP256R1:%DISABLE_TLS13_COMPAT_MODE";

/* Bytes handed over at once by client_send. They never move, since ngtcp2 keeps pointers to them until they are acknowledged. */
struct chunk {
    struct chunk *next;
    size_t length;
    uint8_t bytes[];
};

struct client {
    int socket;
    struct sockaddr_in local, remote;
    ngtcp2_conn *quic;
    ngtcp2_crypto_conn_ref quic_ref;
    gnutls_session_t tls;
    gnutls_certificate_credentials_t credentials;

    client_stream **streams;
    size_t stream_count, stream_capacity;
    size_t turn; /* where the search for the next stream to write begins, so that each gets its turn */

    bool connected, unreachable, stateless_reset;
    client_closure closure;
    uint64_t closure_code;
};

/* ---- helpers */

static void *must(void *memory) {
    if (!memory) abort();
    return memory;
}

static ngtcp2_tstamp now(void) {
    struct timespec t;
    clock_gettime(CLOCK_MONOTONIC, &t);
    return (ngtcp2_tstamp)t.tv_sec * NGTCP2_SECONDS + (ngtcp2_tstamp)t.tv_nsec;
}

static void random_bytes(uint8_t *to, size_t length) {
    if (gnutls_rnd(GNUTLS_RND_RANDOM, to, length)) abort();
}

static void random_connection_id(ngtcp2_cid *cid, size_t length) {
    cid->datalen = length;
    random_bytes(cid->data, length);
}

/* The first end counts: what follows it (a silent port after a CONNECTION_CLOSE, say) is its consequence. */
static void ended(client *c, client_closure closure, uint64_t code) {
    if (c->closure != CONNECTION_OPEN) return;
    c->closure = closure;
    c->closure_code = code;
}

/* ---- streams: records and what they hold */

client_stream *client_find(const client *c, int64_t id) {
    for (size_t i = c->stream_count; i > 0; i--) {
        client_stream *s = c->streams[i - 1];
        if (s->id == id && !s->forgotten) return s;
    }
    return NULL;
}

/* Also finds forgotten streams, whose bytes must still be followed until QUIC closes them. */
static client_stream *any_stream(const client *c, int64_t id) {
    for (size_t i = c->stream_count; i > 0; i--) {
        if (c->streams[i - 1]->id == id) return c->streams[i - 1];
    }
    return NULL;
}

static client_stream *add_stream(client *c, int64_t id) {
    if (c->stream_count == c->stream_capacity) {
        c->stream_capacity = c->stream_capacity ? 2 * c->stream_capacity : 32;
        c->streams = must(realloc(c->streams, c->stream_capacity * sizeof *c->streams));
    }
    client_stream *s = must(calloc(1, sizeof *s));
    s->id = id;
    c->streams[c->stream_count++] = s;
    return s;
}

/* ngtcp2 does not announce every stream of the server's before its bytes. */
static client_stream *known_or_new(client *c, int64_t id) {
    client_stream *s = any_stream(c, id);
    return s ? s : add_stream(c, id);
}

static void free_first_chunk(client_stream *s) {
    struct chunk *old = s->first_chunk;
    s->first_chunk = old->next;
    s->first_offset += old->length;
    if (!s->first_chunk) s->last_chunk = NULL;
    free(old);
}

static void free_acked_chunks(client_stream *s) {
    while (s->first_chunk && s->first_offset + s->first_chunk->length <= s->acked) free_first_chunk(s);
}

static void free_all_chunks(client_stream *s) {
    while (s->first_chunk) free_first_chunk(s);
}

static void free_stream(client_stream *s) {
    free_all_chunks(s);
    free(s->received);
    free(s);
}

/* Done outside the callbacks, so that no record goes while a call of ngtcp2 is under way. */
static void free_forgotten_streams(client *c) {
    size_t kept = 0;
    for (size_t i = 0; i < c->stream_count; i++) {
        client_stream *s = c->streams[i];
        if (s->forgotten && s->closed) {
            free_stream(s);
        } else {
            c->streams[kept++] = s;
        }
    }
    c->stream_count = kept;
}

static void keep_received(client_stream *s, const uint8_t *bytes, size_t length) {
    if (!length || s->forgotten) return;
    /* Grown at powers of two, so that the capacity need not be kept beside the length. */
    size_t capacity = 1024;
    while (capacity < s->received_length) capacity *= 2;
    size_t needed = s->received_length + length;
    if (!s->received || needed > capacity) {
        while (capacity < needed) capacity *= 2;
        s->received = must(realloc(s->received, capacity));
    }
    memcpy(s->received + s->received_length, bytes, length);
    s->received_length = needed;
}

/* ---- ngtcp2's callbacks */

static void on_random(uint8_t *to, size_t length, const ngtcp2_rand_ctx *context) {
    (void)context;
    random_bytes(to, length);
}

static int on_new_connection_id(ngtcp2_conn *quic, ngtcp2_cid *cid, uint8_t *token, size_t length, void *user) {
    (void)quic, (void)user;
    random_connection_id(cid, length);
    random_bytes(token, NGTCP2_STATELESS_RESET_TOKENLEN);
    return 0;
}

static int on_handshake_completed(ngtcp2_conn *quic, void *user) {
    (void)quic;
    client *c = user;
    c->connected = true;
    return 0;
}

static int on_stateless_reset(ngtcp2_conn *quic, const ngtcp2_pkt_stateless_reset *reset, void *user) {
    (void)quic, (void)reset;
    client *c = user;
    c->stateless_reset = true;
    return 0;
}

static int on_stream_open(ngtcp2_conn *quic, int64_t id, void *user) {
    (void)quic;
    known_or_new(user, id);
    return 0;
}

static int on_stream_data(ngtcp2_conn *quic, uint32_t flags, int64_t id, uint64_t offset, const uint8_t *bytes, size_t length,
                          void *user, void *stream_user) {
    (void)offset, (void)stream_user;
    client_stream *s = known_or_new(user, id);
    keep_received(s, bytes, length);
    if (flags & NGTCP2_STREAM_DATA_FLAG_FIN) s->fin_received = true;
    ngtcp2_conn_extend_max_stream_offset(quic, id, length);
    ngtcp2_conn_extend_max_offset(quic, length);
    return 0;
}

static int on_stream_reset(ngtcp2_conn *quic, int64_t id, uint64_t final_size, uint64_t code, void *user, void *stream_user) {
    (void)quic, (void)final_size, (void)stream_user;
    client_stream *s = known_or_new(user, id);
    s->reset_received = true;
    s->reset_code = code;
    return 0;
}

static int on_acked(ngtcp2_conn *quic, int64_t id, uint64_t offset, uint64_t length, void *user, void *stream_user) {
    (void)quic, (void)stream_user;
    client_stream *s = any_stream(user, id);
    if (!s) return 0;
    s->acked = offset + length;
    /* The FIN travels with the last bytes, or alone after them: then this call has no bytes. */
    if (s->fin_sent && s->acked == s->queued) s->fin_acked = true;
    free_acked_chunks(s);
    return 0;
}

static int on_stream_close(ngtcp2_conn *quic, uint32_t flags, int64_t id, uint64_t code, void *user, void *stream_user) {
    (void)flags, (void)code, (void)stream_user;
    client *c = user;
    client_stream *s = any_stream(c, id);
    if (s) {
        s->closed = true;
        free_all_chunks(s);
    }
    if (!ngtcp2_conn_is_local_stream(quic, id)) ngtcp2_conn_extend_max_streams_uni(quic, 1);
    return 0;
}

/* A log line as "I00000004 0x2f8a frm rx 3 1RTT STOP_SENDING(0x05) id=0x0 app_error_code=(unknown)(0x10e)". */
static void note_stop_sending(client *c, const char *line) {
    const char *id = strstr(line, " id=0x"), *code = strrchr(line, '(');
    if (!strstr(line, " frm rx ") || !id || !code) return;
    client_stream *s = any_stream(c, strtoll(id + strlen(" id="), NULL, 16));
    if (!s || s->stop_sending_received) return;
    s->stop_sending_received = true;
    s->stop_sending_code = strtoull(code + 1, NULL, 16);
}

/* ngtcp2 0.12.1 has no callback for a STOP_SENDING that comes; its log is the one place that has the code. */
__attribute__((format(printf, 2, 3))) static void on_log(void *user, const char *format, ...) {
    if (!strstr(format, "STOP_SENDING")) return;
    char line[512];
    va_list arguments;
    va_start(arguments, format);
    vsnprintf(line, sizeof line, format, arguments);
    va_end(arguments);
    note_stop_sending(user, line);
}

static ngtcp2_conn *quic_of(ngtcp2_crypto_conn_ref *ref) {
    client *c = ref->user_data;
    return c->quic;
}

static const ngtcp2_callbacks callbacks = {
    .client_initial = ngtcp2_crypto_client_initial_cb,
    .recv_crypto_data = ngtcp2_crypto_recv_crypto_data_cb,
    .encrypt = ngtcp2_crypto_encrypt_cb,
    .decrypt = ngtcp2_crypto_decrypt_cb,
    .hp_mask = ngtcp2_crypto_hp_mask_cb,
    .recv_retry = ngtcp2_crypto_recv_retry_cb,
    .update_key = ngtcp2_crypto_update_key_cb,
    .delete_crypto_aead_ctx = ngtcp2_crypto_delete_crypto_aead_ctx_cb,
    .delete_crypto_cipher_ctx = ngtcp2_crypto_delete_crypto_cipher_ctx_cb,
    .get_path_challenge_data = ngtcp2_crypto_get_path_challenge_data_cb,
    .version_negotiation = ngtcp2_crypto_version_negotiation_cb,
    .rand = on_random,
    .get_new_connection_id = on_new_connection_id,
    .handshake_completed = on_handshake_completed,
    .recv_stateless_reset = on_stateless_reset,
    .stream_open = on_stream_open,
    .recv_stream_data = on_stream_data,
    .stream_reset = on_stream_reset,
    .acked_stream_data_offset = on_acked,
    .stream_close = on_stream_close,
};

/* ---- a connection's beginning and end */

static bool open_socket(client *c, uint16_t port) {
    c->remote.sin_family = AF_INET;
    c->remote.sin_port = htons(port);
    c->remote.sin_addr.s_addr = htonl(INADDR_LOOPBACK);
    c->socket = socket(AF_INET, SOCK_DGRAM | SOCK_NONBLOCK | SOCK_CLOEXEC, 0);
    if (c->socket < 0) return false;
#ifdef CLIENT_SOURCE /* the address that it comes from, where a test wants another than the system's choice */
    struct sockaddr_in source = {.sin_family = AF_INET, .sin_addr.s_addr = htonl(CLIENT_SOURCE)};
    if (bind(c->socket, (struct sockaddr *)&source, sizeof source)) return false;
#endif
    if (connect(c->socket, (struct sockaddr *)&c->remote, sizeof c->remote)) return false;
    socklen_t length = sizeof c->local;
    return getsockname(c->socket, (struct sockaddr *)&c->local, &length) == 0;
}

static ngtcp2_path path_of(client *c) {
    return (ngtcp2_path){
        .local = {(ngtcp2_sockaddr *)&c->local, sizeof c->local},
        .remote = {(ngtcp2_sockaddr *)&c->remote, sizeof c->remote},
    };
}

static bool start_quic(client *c) {
    ngtcp2_settings settings;
    ngtcp2_settings_default(&settings);
    settings.initial_ts = now();
    settings.log_printf = on_log;
    settings.no_pmtud = 1;

    ngtcp2_transport_params params;
    ngtcp2_transport_params_default(&params);
    params.initial_max_data = CONNECTION_WINDOW;
    params.initial_max_stream_data_bidi_local = STREAM_WINDOW;
    params.initial_max_stream_data_uni = STREAM_WINDOW;
    params.initial_max_streams_uni = SERVER_UNI_STREAMS;
    params.max_idle_timeout = IDLE_TIMEOUT;

    ngtcp2_cid destination, source;
    random_connection_id(&destination, FIRST_SERVER_ID_LENGTH);
    random_connection_id(&source, CONNECTION_ID_LENGTH);
    ngtcp2_path path = path_of(c);
    return ngtcp2_conn_client_new(&c->quic, &destination, &source, &path, NGTCP2_PROTO_VER_V1, &callbacks, &settings, &params,
                                  NULL, c) == 0;
}

static bool start_tls(client *c) {
    gnutls_datum_t alpn = {(unsigned char *)"h3", 2};
    if (gnutls_certificate_allocate_credentials(&c->credentials)) return false;
    if (gnutls_init(&c->tls, GNUTLS_CLIENT | GNUTLS_NO_END_OF_EARLY_DATA)) return false;
    if (ngtcp2_crypto_gnutls_configure_client_session(c->tls)) return false;
    if (gnutls_priority_set_direct(c->tls, priorities, NULL)) return false;
    if (gnutls_credentials_set(c->tls, GNUTLS_CRD_CERTIFICATE, c->credentials)) return false;
    if (gnutls_server_name_set(c->tls, GNUTLS_NAME_DNS, "localhost", strlen("localhost"))) return false;
    if (gnutls_alpn_set_protocols(c->tls, &alpn, 1, GNUTLS_ALPN_MANDATORY)) return false;
    c->quic_ref.get_conn = quic_of;
    c->quic_ref.user_data = c;
    gnutls_session_set_ptr(c->tls, &c->quic_ref);
    ngtcp2_conn_set_tls_native_handle(c->quic, c->tls);
    return true;
}

void client_drop(client *c) {
    if (c->socket >= 0) close(c->socket);
    /* ngtcp2 goes before the bytes that it points to. */
    if (c->quic) ngtcp2_conn_del(c->quic);
    if (c->tls) gnutls_deinit(c->tls);
    if (c->credentials) gnutls_certificate_free_credentials(c->credentials);
    for (size_t i = 0; i < c->stream_count; i++) free_stream(c->streams[i]);
    free(c->streams);
    free(c);
}

client *client_start(uint16_t port) {
    client *c = must(calloc(1, sizeof *c));
    c->socket = -1;
    if (open_socket(c, port) && start_quic(c) && start_tls(c)) return c;
    client_drop(c);
    return NULL;
}

bool client_connected(const client *c) { return c->connected; }

client_closure client_closed(const client *c, uint64_t *code) {
    if (code) *code = c->closure_code;
    return c->closure;
}

static bool connected_or_ended(void *argument) {
    client *c = argument;
    return c->connected || c->closure != CONNECTION_OPEN;
}

client *client_connect(uint16_t port, unsigned milliseconds) {
    client *c = client_start(port);
    if (!c) return NULL;
    client_run(c, connected_or_ended, c, milliseconds);
    if (c->connected && c->closure == CONNECTION_OPEN) return c;
    client_drop(c);
    return NULL;
}

/* ---- packets out */

static void send_packet(client *c, const uint8_t *packet, size_t length) {
    /* A packet that the socket does not take is as one lost on the way: QUIC sends its frames again. */
    if (send(c->socket, packet, length, 0) < 0 && errno == ECONNREFUSED) c->unreachable = true;
}

static void send_connection_close(client *c, const ngtcp2_connection_close_error *error) {
    uint8_t packet[PACKET_LENGTH];
    ngtcp2_pkt_info info;
    ngtcp2_ssize length = ngtcp2_conn_write_connection_close(c->quic, NULL, &info, packet, sizeof packet, error, now());
    if (length > 0) send_packet(c, packet, (size_t)length);
}

void client_close(client *c, uint64_t code) {
    if (c->closure == CONNECTION_OPEN) {
        ngtcp2_connection_close_error error;
        ngtcp2_connection_close_error_set_application_error(&error, code, NULL, 0);
        send_connection_close(c, &error);
    }
    client_drop(c);
}

/* ngtcp2 refused a packet or could not go on: the server is told, as QUIC wants it. */
static void failed(client *c, int result) {
    ngtcp2_connection_close_error error;
    ngtcp2_connection_close_error_default(&error);
    if (result == NGTCP2_ERR_CRYPTO) {
        ngtcp2_connection_close_error_set_transport_error_tls_alert(&error, ngtcp2_conn_get_tls_alert(c->quic), NULL, 0);
    } else {
        ngtcp2_connection_close_error_set_transport_error_liberr(&error, result, NULL, 0);
    }
    send_connection_close(c, &error);
    ended(c, CLOSED_BY_CLIENT, error.error_code);
}

static bool has_something_to_send(const client_stream *s) {
    if (s->blocked || client_refused(s)) return false;
    return s->sent < s->queued || (s->fin_queued && !s->fin_sent);
}

static client_stream *next_to_send(client *c) {
    for (size_t i = 0; i < c->stream_count; i++) {
        size_t at = (c->turn + i) % c->stream_count;
        if (has_something_to_send(c->streams[at])) {
            c->turn = at + 1;
            return c->streams[at];
        }
    }
    return NULL;
}

/* The bytes not yet sent, as many chunks as there is room for. */
static size_t unsent_pieces(const client_stream *s, ngtcp2_vec pieces[PIECES]) {
    size_t count = 0;
    uint64_t offset = s->first_offset;
    for (struct chunk *k = s->first_chunk; k && count < PIECES; k = k->next) {
        uint64_t skipped = s->sent > offset ? s->sent - offset : 0;
        if (skipped < k->length) pieces[count++] = (ngtcp2_vec){k->bytes + skipped, k->length - skipped};
        offset += k->length;
    }
    return count;
}

static size_t total_length(const ngtcp2_vec *pieces, size_t count) {
    size_t total = 0;
    for (size_t i = 0; i < count; i++) total += pieces[i].len;
    return total;
}

static void note_sent(client_stream *s, ngtcp2_ssize taken, bool with_fin) {
    if (taken < 0) return;
    s->sent += (uint64_t)taken;
    if (with_fin && s->sent == s->queued) s->fin_sent = true;
}

/* Adds one stream's bytes to the packet being built; gives ngtcp2's result. */
static ngtcp2_ssize write_stream(client *c, client_stream *s, uint8_t *packet, ngtcp2_pkt_info *info, ngtcp2_tstamp time) {
    ngtcp2_vec pieces[PIECES];
    size_t count = unsent_pieces(s, pieces);
    bool with_fin = s->fin_queued && s->sent + total_length(pieces, count) == s->queued;
    uint32_t flags = NGTCP2_WRITE_STREAM_FLAG_MORE | (with_fin ? NGTCP2_WRITE_STREAM_FLAG_FIN : 0);
    ngtcp2_ssize taken = -1;
    ngtcp2_ssize result = ngtcp2_conn_writev_stream(c->quic, NULL, info, packet, PACKET_LENGTH, &taken, flags, s->id, pieces,
                                                    count, time);
    note_sent(s, taken, with_fin);
    return result;
}

/* The packet with what it has so far, and with what QUIC itself has to say. */
static ngtcp2_ssize finish_packet(client *c, uint8_t *packet, ngtcp2_pkt_info *info, ngtcp2_tstamp time) {
    return ngtcp2_conn_writev_stream(c->quic, NULL, info, packet, PACKET_LENGTH, NULL, NGTCP2_WRITE_STREAM_FLAG_NONE, -1, NULL,
                                     0, time);
}

/* The packet is still open for other streams' bytes, or for none. */
static bool packet_goes_on(ngtcp2_ssize result) {
    return result == NGTCP2_ERR_WRITE_MORE || result == NGTCP2_ERR_STREAM_DATA_BLOCKED ||
           result == NGTCP2_ERR_STREAM_SHUT_WR || result == NGTCP2_ERR_STREAM_NOT_FOUND;
}

/* Builds one packet; its length, 0 if none can go now, or ngtcp2's error. */
static ngtcp2_ssize write_packet(client *c, uint8_t *packet, ngtcp2_tstamp time) {
    ngtcp2_pkt_info info;
    client_stream *s;
    while ((s = next_to_send(c)) != NULL) {
        ngtcp2_ssize result = write_stream(c, s, packet, &info, time);
        if (!packet_goes_on(result)) return result;
        if (result != NGTCP2_ERR_WRITE_MORE) s->blocked = true;
    }
    return finish_packet(c, packet, &info, time);
}

static void write_packets(client *c) {
    uint8_t packet[PACKET_LENGTH];
    ngtcp2_tstamp time = now();
    /* Asking a blocked stream again each time is cheaper than following every kind of credit. */
    for (size_t i = 0; i < c->stream_count; i++) c->streams[i]->blocked = false;
    for (;;) {
        ngtcp2_ssize length = write_packet(c, packet, time);
        if (length < 0) {
            failed(c, (int)length);
            return;
        }
        if (length == 0) break;
        send_packet(c, packet, (size_t)length);
    }
    ngtcp2_conn_update_pkt_tx_time(c->quic, time);
}

/* ---- packets in, and timers */

static void closed_by_server(client *c) {
    if (c->stateless_reset) {
        ended(c, CLOSED_BY_STATELESS_RESET, 0);
        return;
    }
    ngtcp2_connection_close_error error;
    ngtcp2_conn_get_connection_close_error(c->quic, &error);
    bool application = error.type == NGTCP2_CONNECTION_CLOSE_ERROR_CODE_TYPE_APPLICATION;
    ended(c, application ? CLOSED_BY_APPLICATION : CLOSED_BY_TRANSPORT, error.error_code);
}

static void read_packet(client *c, const uint8_t *packet, size_t length) {
    ngtcp2_path path = path_of(c);
    ngtcp2_pkt_info info = {0};
    int result = ngtcp2_conn_read_pkt(c->quic, &path, &info, packet, length, now());
    if (result == NGTCP2_ERR_DRAINING) {
        closed_by_server(c);
    } else if (result) {
        failed(c, result);
    }
}

static void read_packets(client *c) {
    uint8_t packet[DATAGRAM_LENGTH];
    while (c->closure == CONNECTION_OPEN) {
        ssize_t length = recv(c->socket, packet, sizeof packet, 0);
        if (length >= 0) {
            read_packet(c, packet, (size_t)length);
        } else if (errno == ECONNREFUSED) {
            /* The socket tells this before packets that came earlier, so those are read first. */
            c->unreachable = true;
        } else if (errno != EINTR) {
            break;
        }
    }
    if (c->unreachable) ended(c, CLOSED_AS_UNREACHABLE, 0);
}

static void handle_timers(client *c) {
    ngtcp2_tstamp time = now();
    if (c->closure != CONNECTION_OPEN || ngtcp2_conn_get_expiry(c->quic) > time) return;
    int result = ngtcp2_conn_handle_expiry(c->quic, time);
    if (result == NGTCP2_ERR_IDLE_CLOSE || result == NGTCP2_ERR_HANDSHAKE_TIMEOUT) {
        ended(c, CLOSED_BY_IDLE_TIMEOUT, 0);
    } else if (result) {
        failed(c, result);
    }
}

/* ---- the loop */

static bool all_ended(client **clients, size_t count) {
    for (size_t i = 0; i < count; i++) {
        if (clients[i]->closure == CONNECTION_OPEN) return false;
    }
    return true;
}

static void write_all(client **clients, size_t count) {
    for (size_t i = 0; i < count; i++) {
        if (clients[i]->closure == CONNECTION_OPEN) write_packets(clients[i]);
        free_forgotten_streams(clients[i]);
    }
}

static ngtcp2_tstamp earliest_expiry(client **clients, size_t count, ngtcp2_tstamp until) {
    for (size_t i = 0; i < count; i++) {
        if (clients[i]->closure != CONNECTION_OPEN) continue;
        ngtcp2_tstamp expiry = ngtcp2_conn_get_expiry(clients[i]->quic);
        if (expiry < until) until = expiry;
    }
    return until;
}

static void wait_for_packets(client **clients, size_t count, struct pollfd *sockets, ngtcp2_tstamp until) {
    for (size_t i = 0; i < count; i++) {
        bool open = clients[i]->closure == CONNECTION_OPEN;
        sockets[i] = (struct pollfd){.fd = open ? clients[i]->socket : -1, .events = POLLIN};
    }
    ngtcp2_tstamp time = now(), expiry = earliest_expiry(clients, count, until);
    ngtcp2_tstamp left = expiry > time ? expiry - time : 0;
    struct timespec wait = {(time_t)(left / NGTCP2_SECONDS), (long)(left % NGTCP2_SECONDS)};
    ppoll(sockets, count, &wait, NULL);
}

static void read_all(client **clients, size_t count) {
    for (size_t i = 0; i < count; i++) {
        read_packets(clients[i]);
        handle_timers(clients[i]);
    }
}

bool client_run_all(client **clients, size_t count, client_condition done, void *argument, unsigned milliseconds) {
    ngtcp2_tstamp until = now() + (ngtcp2_tstamp)milliseconds * NGTCP2_MILLISECONDS;
    struct pollfd *sockets = must(calloc(count + 1, sizeof *sockets));
    bool held;
    for (;;) {
        write_all(clients, count);
        held = done && done(argument);
        if (held || all_ended(clients, count) || now() >= until) break;
        wait_for_packets(clients, count, sockets, until);
        read_all(clients, count);
    }
    free(sockets);
    return held;
}

bool client_run(client *c, client_condition done, void *argument, unsigned milliseconds) {
    return client_run_all(&c, 1, done, argument, milliseconds);
}

/* ---- streams: what a test does with them */

client_stream *client_open_bidi(client *c) {
    int64_t id;
    return ngtcp2_conn_open_bidi_stream(c->quic, &id, NULL) ? NULL : add_stream(c, id);
}

client_stream *client_open_uni(client *c) {
    int64_t id;
    return ngtcp2_conn_open_uni_stream(c->quic, &id, NULL) ? NULL : add_stream(c, id);
}

uint64_t client_bidi_left(const client *c) { return ngtcp2_conn_get_streams_bidi_left(c->quic); }

uint64_t client_uni_left(const client *c) { return ngtcp2_conn_get_streams_uni_left(c->quic); }

void client_forget(client_stream *s) { s->forgotten = true; }

void client_send(client_stream *s, const void *bytes, size_t length) {
    assert(!s->fin_queued && !s->reset_sent);
    if (!length || s->closed) return;
    struct chunk *k = must(malloc(sizeof *k + length));
    k->next = NULL;
    k->length = length;
    memcpy(k->bytes, bytes, length);
    if (s->last_chunk) {
        s->last_chunk->next = k;
    } else {
        s->first_chunk = k;
    }
    s->last_chunk = k;
    s->queued += length;
}

void client_fin(client_stream *s) {
    assert(!s->fin_queued && !s->reset_sent);
    s->fin_queued = true;
}

void client_reset(client *c, client_stream *s, uint64_t code) {
    s->reset_sent = true;
    if (ngtcp2_conn_shutdown_stream_write(c->quic, s->id, code)) abort();
}

bool client_refused(const client_stream *s) { return s->stop_sending_received || s->reset_sent || s->closed; }

bool client_settled(const client_stream *s) {
    if (client_refused(s)) return true;
    return s->acked == s->queued && (!s->fin_queued || s->fin_acked);
}

bool client_flushed(const client *c) {
    for (size_t i = 0; i < c->stream_count; i++) {
        if (!client_settled(c->streams[i])) return false;
    }
    ngtcp2_conn_stat statistics;
    ngtcp2_conn_get_conn_stat(c->quic, &statistics);
    return statistics.bytes_in_flight == 0;
}
