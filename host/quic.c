#define _GNU_SOURCE
#include "connection.h"

#include <gnutls/crypto.h>
#include <malloc.h>
#include <ngtcp2/ngtcp2_crypto_gnutls.h>

#define PACKETS_A_TURN 64 /* of one connection, before the others' */
#define ONEWAYS_MORE 100  /* one-way streams granted to a client in all, beyond the first */
#define STREAM_WINDOW (256 << 10)
#define WINDOW (256 << 10)
#define QUANTUM (16 << 10) /* a stream moves on when so much more of it came, or was taken, or when it ends */

/* Bytes handed to the stack: they stay in place until they are acknowledged, since a lost packet is made anew from them. */
struct chunk {
    struct chunk *next;
    size_t count, sent;
    const uint8_t *at;
    struct content *of; /* whose bytes they are; null where they are here: */
    uint8_t bytes[];
};

/* A stream that we send on. */
struct stream {
    struct stream *next;
    int64_t id;
    struct chunk *first, *last;
    uint64_t taken; /* bytes of chunks that are gone */
    bool begun, fin, done, blocked; /* an answer is; its end is due; all was handed over; the peer grants no more for now */
    ngtcp2_tstamp moved;
    size_t since; /* bytes that came or were taken since then */
};

/* ---- streams that we send on */

static struct stream *find_stream(const struct connection *c, int64_t id) {
    struct stream *s = c->streams;
    while (s && s->id != id) s = s->next;
    return s;
}

static struct stream *add_stream(struct connection *c, int64_t id) {
    struct stream *s = must(calloc(1, sizeof *s));
    s->id = id;
    s->moved = now();
    s->next = c->streams;
    c->streams = s;
    return s;
}

static void drop_chunk(struct stream *s) {
    struct chunk *k = s->first;
    s->taken += k->count;
    s->first = k->next;
    if (!s->first) s->last = NULL;
    if (k->of) content_leave(k->of);
    free(k);
}

static void drop_stream(struct connection *c, int64_t id) {
    for (struct stream **at = &c->streams; *at; at = &(*at)->next) {
        struct stream *s = *at;
        if (s->id != id) continue;
        *at = s->next;
        while (s->first) drop_chunk(s);
        free(s);
        return;
    }
}

static bool has_more(const struct stream *s) {
    return !s->done && (s->fin || (s->last && s->last->sent < s->last->count));
}

static void add_chunk(struct stream *s, struct chunk *k) {
    if (s->last) s->last->next = k;
    else s->first = k;
    s->last = k;
    s->begun = true;
}

static struct chunk *copy_of(const uint8_t *bytes, size_t count) {
    struct chunk *k = must(malloc(sizeof *k + count));
    *k = (struct chunk){.count = count, .at = k->bytes};
    memcpy(k->bytes, bytes, count);
    return k;
}

static struct chunk *share_of(struct content *content) {
    struct chunk *k = must(malloc(sizeof *k));
    *k = (struct chunk){.count = content->is.count, .at = content->is.at, .of = content_use(content)};
    return k;
}

static void move_on(struct stream *s, size_t count) {
    s->since += count;
    if (s->since < QUANTUM) return;
    s->since = 0;
    s->moved = now();
}

/* ---- what HTTP asks of the stack */

void connection_fail(void *self, uint64_t code) {
    struct connection *c = self;
    if (c->failed) return;
    c->failed = true;
    c->code = code;
}

static uint64_t open_oneway(void *self) {
    struct connection *c = self;
    int64_t id = -1;
    if (ngtcp2_conn_open_uni_stream(c->quic, &id, NULL)) connection_fail(c, EISTULKO_STREAM_CREATION_ERROR);
    else add_stream(c, id);
    return (uint64_t)id;
}

static void send_bytes(void *self, uint64_t id, const uint8_t *bytes, size_t count, int fin) {
    struct stream *s = find_stream(self, (int64_t)id);
    if (!s) return;
    add_chunk(s, copy_of(bytes, count));
    s->fin = fin;
}

static void share_content(void *self, uint64_t id, struct content *content) {
    struct stream *s = find_stream(self, (int64_t)id);
    if (!s) return;
    add_chunk(s, share_of(content));
    s->fin = true;
}

static void refuse_stream(void *self, uint64_t id, uint64_t code) {
    struct connection *c = self;
    struct stream *s = find_stream(c, (int64_t)id);
    if (s) s->done = true;
    ngtcp2_conn_shutdown_stream(c->quic, (int64_t)id, code);
}

/* ---- what the stack tells */

static int verdict(struct connection *c) {
    return c->failed ? NGTCP2_ERR_CALLBACK_FAILURE : 0;
}

/* A client may grant us no stream. It is closed after this packet, not from here: libngtcp2 0.12.1 would fail an assertion and end the process. */
static int on_handshake(ngtcp2_conn *quic, void *self) {
    (void)quic;
    struct connection *c = self;
    c->established = true;
    c->moved = now();
    http_begin(&c->http, (struct stack){c, open_oneway, send_bytes, share_content, refuse_stream, connection_fail}, c->server->gateway);
    if (c->server->draining) http_drain(&c->http);
    http_handshake(&c->http);
    return 0;
}

static int on_open(ngtcp2_conn *quic, int64_t id, void *self) {
    struct connection *c = self;
    if (ngtcp2_is_bidi_stream(id)) add_stream(c, id);
    else ngtcp2_conn_set_stream_user_data(quic, id, c); /* until it is done */
    http_opened(&c->http, (uint64_t)id);
    return verdict(c);
}

/* A one-way stream is done, so another is granted. It is not left to `on_close`: libngtcp2 0.12.1 never closes these, and keeps a little memory for
   each, for which they are not without end. One that was reset before any other sign of it is not here: libngtcp2 grants another itself. */
static void end_oneway(struct connection *c, int64_t id, const void *of_stream) {
    if (!of_stream) return;
    ngtcp2_conn_set_stream_user_data(c->quic, id, NULL);
    if (c->oneways++ < ONEWAYS_MORE) ngtcp2_conn_extend_max_streams_uni(c->quic, 1);
}

static int on_bytes(ngtcp2_conn *quic, uint32_t flags, int64_t id, uint64_t offset, const uint8_t *bytes, size_t count, void *self, void *of_stream) {
    (void)offset;
    struct connection *c = self;
    bool fin = flags & NGTCP2_STREAM_DATA_FLAG_FIN;
    struct stream *s = find_stream(c, id);
    if (s) move_on(s, fin ? QUANTUM : count);
    http_bytes(&c->http, (uint64_t)id, count ? bytes : (const uint8_t *)"", count, fin);
    ngtcp2_conn_extend_max_stream_offset(quic, id, count);
    ngtcp2_conn_extend_max_offset(quic, count);
    if (fin) end_oneway(c, id, of_stream);
    return verdict(c);
}

static int on_reset(ngtcp2_conn *quic, int64_t id, uint64_t size, uint64_t code, void *self, void *of_stream) {
    (void)size, (void)code;
    struct connection *c = self;
    http_reset(&c->http, (uint64_t)id);
    end_oneway(c, id, of_stream);
    struct stream *s = find_stream(c, id);
    /* A request that was taken back has no answer. Were our side not ended too, the stream would never close, and none be granted for it. */
    if (s && !s->begun) ngtcp2_conn_shutdown_stream_write(quic, id, EISTULKO_REQUEST_CANCELLED);
    return verdict(c);
}

static int on_close(ngtcp2_conn *quic, uint32_t flags, int64_t id, uint64_t code, void *self, void *of_stream) {
    (void)flags, (void)code, (void)of_stream;
    struct connection *c = self;
    bool ours = ngtcp2_conn_is_local_stream(quic, id);
    http_closed(&c->http, (uint64_t)id);
    drop_stream(c, id);
    c->moved = now();
    if (!ours && ngtcp2_is_bidi_stream(id)) ngtcp2_conn_extend_max_streams_bidi(quic, 1);
    return verdict(c);
}

static int on_taken(ngtcp2_conn *quic, int64_t id, uint64_t offset, uint64_t count, void *self, void *of_stream) {
    (void)quic, (void)of_stream;
    struct stream *s = find_stream(self, id);
    if (!s) return 0;
    move_on(s, count);
    while (s->first && s->taken + s->first->count <= offset + count) drop_chunk(s);
    return 0;
}

static int on_grant(ngtcp2_conn *quic, int64_t id, uint64_t most, void *self, void *of_stream) {
    (void)quic, (void)most, (void)of_stream;
    struct stream *s = find_stream(self, id);
    if (s) s->blocked = false;
    return 0;
}

static void on_random(uint8_t *to, size_t count, const ngtcp2_rand_ctx *context) {
    (void)context;
    random_bytes(to, count);
}

static int on_new_cid(ngtcp2_conn *quic, ngtcp2_cid *cid, uint8_t *token, size_t count, void *self) {
    (void)quic;
    struct connection *c = self;
    cid->datalen = count;
    random_bytes(cid->data, count);
    name_connection(c, cid);
    return ngtcp2_crypto_generate_stateless_reset_token(token, c->server->secret, sizeof c->server->secret, cid) ? NGTCP2_ERR_CALLBACK_FAILURE : 0;
}

static int on_old_cid(ngtcp2_conn *quic, const ngtcp2_cid *cid, void *self) {
    (void)quic;
    unname_connection(self, cid);
    return 0;
}

/* ---- what libngtcp2 0.12.1 would end the process for, beside guard.h */

enum { ALERT_UNEXPECTED_MESSAGE = 10, ALERT_MISSING_EXTENSION = 109 }; /* of TLS */

/* A ClientHello without transport parameters: libngtcp2 would fail an assertion at its first Handshake packet. RFC 9001, 8.2. */
static int on_tx_key(ngtcp2_conn *quic, ngtcp2_crypto_level level, void *self) {
    (void)level;
    struct connection *c = self;
    if (ngtcp2_conn_get_remote_transport_params(quic)) return 0;
    c->alert = ALERT_MISSING_EXTENSION;
    return NGTCP2_ERR_CALLBACK_FAILURE;
}

/* Behind the handshake a client has nothing to say in TLS. GnuTLS would act on a KeyUpdate, for which libngtcp2 would fail an assertion. RFC 9001, 6. */
static int on_crypto(ngtcp2_conn *quic, ngtcp2_crypto_level level, uint64_t offset, const uint8_t *bytes, size_t count, void *self) {
    if (level != NGTCP2_CRYPTO_LEVEL_APPLICATION && !ngtcp2_conn_get_handshake_completed(quic))
        return ngtcp2_crypto_recv_crypto_data_cb(quic, level, offset, bytes, count, self);
    ((struct connection *)self)->alert = ALERT_UNEXPECTED_MESSAGE;
    return NGTCP2_ERR_CRYPTO;
}

static struct connection *reading; /* whose packet libngtcp2 reads: it does not tell when it has one decrypted */

static int on_decrypt(uint8_t *to, const ngtcp2_crypto_aead *aead, const ngtcp2_crypto_aead_ctx *context, const uint8_t *from, size_t count,
                      const uint8_t *nonce, size_t nonces, const uint8_t *head, size_t heads) {
    int failed = ngtcp2_crypto_decrypt_cb(to, aead, context, from, count, nonce, nonces, head, heads);
    bool is_long = head[0] & 0x80; /* those have no frame to guard against, or are not read */
    if (!failed && !is_long) guard_frames(&reading->guard, to, count - aead->max_overhead);
    return failed;
}

static const ngtcp2_callbacks callbacks = {
    .recv_client_initial = ngtcp2_crypto_recv_client_initial_cb,
    .recv_crypto_data = on_crypto,
    .encrypt = ngtcp2_crypto_encrypt_cb,
    .decrypt = on_decrypt,
    .hp_mask = ngtcp2_crypto_hp_mask_cb,
    .update_key = ngtcp2_crypto_update_key_cb,
    .delete_crypto_aead_ctx = ngtcp2_crypto_delete_crypto_aead_ctx_cb,
    .delete_crypto_cipher_ctx = ngtcp2_crypto_delete_crypto_cipher_ctx_cb,
    .get_path_challenge_data = ngtcp2_crypto_get_path_challenge_data_cb,
    .version_negotiation = ngtcp2_crypto_version_negotiation_cb,
    .rand = on_random,
    .get_new_connection_id = on_new_cid,
    .remove_connection_id = on_old_cid,
    .handshake_completed = on_handshake,
    .recv_tx_key = on_tx_key,
    .stream_open = on_open,
    .recv_stream_data = on_bytes,
    .stream_reset = on_reset,
    .stream_close = on_close,
    .acked_stream_data_offset = on_taken,
    .extend_max_stream_data = on_grant,
};

/* ---- memory */

static void *counted(struct connection *c, void *memory) {
    if (memory) c->stack += malloc_usable_size(memory);
    return memory;
}

static void *stack_malloc(size_t size, void *self) { return counted(self, malloc(size)); }

static void *stack_calloc(size_t count, size_t size, void *self) { return counted(self, calloc(count, size)); }

static void stack_free(void *memory, void *self) {
    struct connection *c = self;
    if (memory) c->stack -= malloc_usable_size(memory);
    free(memory);
}

static void *stack_realloc(void *memory, size_t size, void *self) {
    struct connection *c = self;
    size_t before = memory ? malloc_usable_size(memory) : 0;
    void *moved = realloc(memory, size);
    if (moved) c->stack -= before;
    return counted(c, moved);
}

void connection_count(struct connection *c) {
    size_t held = c->stack + (c->quic && c->established ? http_held(&c->http) : 0);
    for (struct stream *s = c->streams; s; s = s->next)
        for (struct chunk *k = s->first; k; k = k->next) held += sizeof *k + (k->of ? 0 : k->count);
    c->server->held += held - c->held;
    c->held = held;
}

size_t connection_weight(const struct connection *c) {
    size_t weight = c->held;
    for (const struct stream *s = c->streams; s; s = s->next)
        for (const struct chunk *k = s->first; k; k = k->next)
            if (k->of && !k->of->latest) weight += k->count;
    return weight;
}

/* ---- a connection's life */

static ngtcp2_conn *conn_of(ngtcp2_crypto_conn_ref *ref) {
    return ((struct connection *)ref->user_data)->quic;
}

static int begin_tls(struct connection *c) {
    static const char ciphers[] = "NORMAL:-VERS-ALL:+VERS-TLS1.3:-CIPHER-ALL:+AES-128-GCM:+AES-256-GCM:+CHACHA20-POLY1305:-GROUP-ALL:+GROUP-X25519:"
                                  "+GROUP-SECP256R1:%DISABLE_TLS13_COMPAT_MODE";
    gnutls_datum_t h3 = {(unsigned char *)"h3", 2};
    if (gnutls_init(&c->tls, GNUTLS_SERVER | GNUTLS_NO_AUTO_SEND_TICKET | GNUTLS_NO_END_OF_EARLY_DATA)) return -1;
    c->ref = (ngtcp2_crypto_conn_ref){conn_of, c};
    gnutls_session_set_ptr(c->tls, &c->ref);
    return gnutls_priority_set_direct(c->tls, ciphers, NULL) || gnutls_credentials_set(c->tls, GNUTLS_CRD_CERTIFICATE, certificate_now(&c->server->certificate)) ||
           gnutls_alpn_set_protocols(c->tls, &h3, 1, GNUTLS_ALPN_MANDATORY) || ngtcp2_crypto_gnutls_configure_server_session(c->tls);
}

static int begin_quic(struct connection *c, const ngtcp2_pkt_hd *head, const ngtcp2_path *path, const ngtcp2_cid *original) {
    ngtcp2_settings settings;
    ngtcp2_settings_default(&settings);
    settings.initial_ts = now();
    ngtcp2_transport_params grant;
    ngtcp2_transport_params_default(&grant);
    grant.initial_max_stream_data_bidi_remote = grant.initial_max_stream_data_uni = STREAM_WINDOW;
    grant.initial_max_data = WINDOW;
    grant.initial_max_streams_bidi = REQUESTS_AT_ONCE;
    grant.initial_max_streams_uni = ONEWAYS_AT_ONCE;
    grant.max_idle_timeout = c->server->idle * NGTCP2_SECONDS;
    grant.max_udp_payload_size = LARGEST;
    grant.disable_active_migration = 1; /* see `receive` of server.c */
    grant.original_dcid = head->dcid;
    if (original) {
        grant.original_dcid = *original;
        grant.retry_scid = head->dcid;
        grant.retry_scid_present = 1;
        settings.token = head->token;
    }
    ngtcp2_cid ours = {.datalen = CID_LENGTH};
    random_bytes(ours.data, CID_LENGTH);
    if (ngtcp2_conn_server_new(&c->quic, &head->scid, &ours, path, head->version, &callbacks, &settings, &grant, &c->memory, c)) return -1;
    ngtcp2_conn_set_tls_native_handle(c->quic, c->tls);
    name_connection(c, &head->dcid);
    name_connection(c, &ours);
    return 0;
}

static ngtcp2_path path_of(struct connection *c) {
    struct address *here = &c->listener->here;
    return (ngtcp2_path){.local = {&here->any, here->size}, .remote = {&c->from.any, c->from.size}};
}

struct connection *connection_new(struct server *s, struct listener *at, const struct address *from, const ngtcp2_pkt_hd *head, const ngtcp2_cid *original) {
    struct connection *c = must(calloc(1, sizeof *c));
    *c = (struct connection){.server = s, .listener = at, .from = *from, .place = NO_PLACE, .guard = guard_new(), .moved = now()};
    c->memory = (ngtcp2_mem){c, stack_malloc, stack_free, stack_calloc, stack_realloc};
    ngtcp2_path path = path_of(c);
    if (!begin_tls(c) && !begin_quic(c, head, &path, original)) return c;
    connection_free(c);
    return NULL;
}

/* No event comes any more: what was kept for it is freed, also where its CONNECTION_CLOSE is still to be said again. */
static void end_quic(struct connection *c) {
    if (c->quic && c->established) {
        struct over *over = &c->server->over;
        http_end(&c->http);
        over->connections++;
        over->whole += c->http.whole;
        over->refused += c->http.refused;
        over->taken += http_open_requests(&c->http);
    }
    if (c->quic) ngtcp2_conn_del(c->quic);
    if (c->tls) gnutls_deinit(c->tls);
    c->quic = NULL;
    c->tls = NULL;
    while (c->streams) drop_stream(c, c->streams->id); /* libngtcp2 goes before the bytes that it points to */
    connection_count(c);
}

void connection_free(struct connection *c) {
    end_quic(c);
    while (c->names) unname_connection(c, &c->names->id);
    free(c);
}

int connection_read(struct connection *c, const uint8_t *packet, size_t count) {
    ngtcp2_path path = path_of(c);
    ngtcp2_pkt_info info = {0};
    reading = c;
    int error = ngtcp2_conn_read_pkt(c->quic, &path, &info, packet, count, now());
    reading = NULL;
    connection_count(c);
    return error;
}

/* ---- the end */

ngtcp2_duration connection_close(struct connection *c, int error) {
    ngtcp2_connection_close_error why;
    ngtcp2_connection_close_error_default(&why);
    if (c->failed) ngtcp2_connection_close_error_set_application_error(&why, c->code, NULL, 0);
    else if (error == NGTCP2_ERR_CRYPTO || c->alert)
        ngtcp2_connection_close_error_set_transport_error_tls_alert(&why, c->alert ? c->alert : ngtcp2_conn_get_tls_alert(c->quic), NULL, 0);
    else ngtcp2_connection_close_error_set_transport_error_liberr(&why, error, NULL, 0);
    ngtcp2_pkt_info info;
    ngtcp2_ssize n = ngtcp2_conn_write_connection_close(c->quic, NULL, &info, c->farewell, sizeof c->farewell, &why, now());
    ngtcp2_duration again = 3 * ngtcp2_conn_get_pto(c->quic);
    end_quic(c);
    if (n <= 0) return 0;
    c->farewell_count = (size_t)n;
    transmit(c->listener, &c->from, c->farewell, c->farewell_count);
    return again;
}

/* Ever more seldom, and never much longer than what asks for it: who sends under another's address does not make us flood that one. */
void connection_close_again(struct connection *c, size_t count) {
    c->after++;
    if ((c->after & (c->after - 1)) == 0 && c->farewell_count <= 3 * count) transmit(c->listener, &c->from, c->farewell, c->farewell_count);
}

/* ---- packets out */

static struct stream *next_to_send(struct connection *c) {
    struct stream *s = c->streams;
    while (s && (s->blocked || !has_more(s))) s = s->next;
    return s;
}

/* What was handed over of a stream. */
static void advance(struct stream *s, size_t count) {
    for (struct chunk *k = s->first; k; k = k->next) {
        size_t part = k->count - k->sent < count ? k->count - k->sent : count;
        k->sent += part;
        count -= part;
    }
    if (s->fin && (!s->last || s->last->sent == s->last->count)) s->done = true;
}

/* Of one stream, what one call can take: the pieces that are unsent, and the end behind the last of them. */
static size_t gather(const struct stream *s, ngtcp2_vec *pieces, size_t most, bool *last) {
    size_t n = 0;
    const struct chunk *k = s->first;
    for (; k && n < most; k = k->next)
        if (k->sent < k->count) pieces[n++] = (ngtcp2_vec){(uint8_t *)k->at + k->sent, k->count - k->sent};
    *last = s->fin && !k;
    return n;
}

int connection_write(struct connection *c, bool *more) {
    uint8_t packet[PACKET];
    ngtcp2_tstamp at = now();
    int k = 0;
    while (k < PACKETS_A_TURN) {
        struct stream *s = next_to_send(c);
        ngtcp2_vec pieces[8];
        bool last = false;
        size_t n = s ? gather(s, pieces, 8, &last) : 0;
        uint32_t flags = NGTCP2_WRITE_STREAM_FLAG_MORE | (last ? NGTCP2_WRITE_STREAM_FLAG_FIN : 0);
        ngtcp2_pkt_info info;
        ngtcp2_ssize took = -1;
        ngtcp2_ssize count = ngtcp2_conn_writev_stream(c->quic, NULL, &info, packet, sizeof packet, &took, flags, s ? s->id : -1, pieces, n, at);
        if (s && took >= 0) advance(s, (size_t)took);
        if (count == NGTCP2_ERR_WRITE_MORE) continue;
        if (count == NGTCP2_ERR_STREAM_DATA_BLOCKED) s->blocked = true;
        else if (count == NGTCP2_ERR_STREAM_SHUT_WR || count == NGTCP2_ERR_STREAM_NOT_FOUND) s->done = true;
        else if (count < 0) return (int)count;
        else if (count == 0) break;
        else {
            transmit(c->listener, &c->from, packet, (size_t)count);
            k++;
        }
    }
    *more = k == PACKETS_A_TURN;
    ngtcp2_conn_update_pkt_tx_time(c->quic, at);
    connection_count(c);
    return 0;
}

/* ---- time */

static ngtcp2_tstamp oldest(const struct connection *c, ngtcp2_tstamp none) {
    ngtcp2_tstamp first = none;
    for (const struct stream *s = c->streams; s; s = s->next)
        if (ngtcp2_is_bidi_stream(s->id) && s->moved < first) first = s->moved;
    return first;
}

ngtcp2_tstamp connection_progress(const struct connection *c) {
    return connection_is_busy(c) ? oldest(c, UINT64_MAX) : c->moved;
}

bool connection_is_busy(const struct connection *c) { return oldest(c, UINT64_MAX) != UINT64_MAX; }

/* When a request or an answer of it must have moved on. */
static ngtcp2_tstamp deadline(const struct connection *c) {
    ngtcp2_tstamp first = oldest(c, UINT64_MAX);
    return first == UINT64_MAX ? first : first + c->server->patience * NGTCP2_SECONDS;
}

ngtcp2_tstamp connection_timer(const struct connection *c) {
    ngtcp2_tstamp stack = ngtcp2_conn_get_expiry(c->quic), ours = deadline(c);
    return stack < ours ? stack : ours;
}

int connection_expire(struct connection *c) {
    ngtcp2_tstamp at = now();
    if (deadline(c) <= at) connection_fail(c, EISTULKO_EXCESSIVE_LOAD);
    return ngtcp2_conn_get_expiry(c->quic) <= at ? ngtcp2_conn_handle_expiry(c->quic, at) : 0;
}
