/* A client that sends frames as they stand: client.c makes its handshake, the keys are taken where that encrypts, and packets are then made here.
   It is taken in whole, to reach what is below it, by tests that include this file before any other.
   What a test may set before a connection is begun: what the client grants, the address that it comes from, and two hooks. */
#ifndef PEER_FRAMES_H
#define PEER_FRAMES_H
#define _GNU_SOURCE
#include <netinet/in.h>
#include <stdbool.h>
#include <stdint.h>
#include <stdio.h>
#include <string.h>
#include <sys/socket.h>

#include <ngtcp2/ngtcp2.h>
#include <ngtcp2/ngtcp2_crypto.h>

static unsigned long server_streams = 100, stream_window = 1 << 20, connection_window = 16 << 20;
static uint32_t client_source = INADDR_LOOPBACK; /* any of 127.0.0.0/8 */
#define CLIENT_SOURCE client_source
#define SERVER_UNI_STREAMS server_streams
#define STREAM_WINDOW stream_window
#define CONNECTION_WINDOW connection_window

/* Sees a packet's first byte and its frames, and may spoil them, before the client encrypts them. */
static void (*spoil)(uint8_t first, uint8_t *frames, size_t count);

/* Takes a packet in the socket's place. */
static void (*divert)(const uint8_t *packet, size_t count);

/* ---- the keys, taken in passing */

#define ID_MOST 20 /* the most that a connection ID has */
#define NUMBER 4   /* the length of packet numbers made here */
#define FIRST_NUMBER 100000 /* beyond those of the client itself */

typedef struct {
    ngtcp2_crypto_aead aead;
    ngtcp2_crypto_aead_ctx sealing;
    uint8_t iv[12], to[ID_MOST];
    size_t to_length;
    ngtcp2_crypto_cipher cipher;
    ngtcp2_crypto_cipher_ctx masking;
    uint32_t number;
    bool taken;
} packet_keys;

static packet_keys last_keys;
static bool mask_is_next; /* a header is masked right behind its packet */

static void nonce_of(uint8_t nonce[12], const uint8_t iv[12], uint32_t number) {
    memcpy(nonce, iv, 12);
    for (int i = 0; i < 4; i++) nonce[11 - i] ^= (uint8_t)(number >> 8 * i);
}

static void take_keys(const ngtcp2_crypto_aead *aead, const ngtcp2_crypto_aead_ctx *sealing, const uint8_t *nonce, const uint8_t *head, size_t count) {
    size_t length = 1 + (head[0] & 3), to = count - 1 - length;
    if (to > ID_MOST) return; /* no packet's head: a Retry is checked by the same cipher */
    uint32_t number = 0;
    for (size_t i = 0; i < length; i++) number = number << 8 | head[1 + to + i];
    last_keys = (packet_keys){.aead = *aead, .sealing = *sealing, .to_length = to, .number = FIRST_NUMBER, .taken = true};
    nonce_of(last_keys.iv, nonce, number);
    memcpy(last_keys.to, head + 1, to);
    mask_is_next = true;
}

static int tapped_encrypt(uint8_t *to, const ngtcp2_crypto_aead *aead, const ngtcp2_crypto_aead_ctx *sealing, const uint8_t *frames, size_t count,
                          const uint8_t *nonce, size_t nonces, const uint8_t *head, size_t heads) {
    uint8_t spoiled[2048];
    if (!(head[0] & 0x80)) take_keys(aead, sealing, nonce, head, heads);
    if (spoil && count <= sizeof spoiled) {
        memcpy(spoiled, frames, count);
        spoil(head[0], spoiled, count);
        frames = spoiled;
    }
    return ngtcp2_crypto_encrypt_cb(to, aead, sealing, frames, count, nonce, nonces, head, heads);
}

static int tapped_mask(uint8_t *to, const ngtcp2_crypto_cipher *cipher, const ngtcp2_crypto_cipher_ctx *masking, const uint8_t *sample) {
    if (mask_is_next) {
        last_keys.cipher = *cipher;
        last_keys.masking = *masking;
        mask_is_next = false;
    }
    return ngtcp2_crypto_hp_mask_cb(to, cipher, masking, sample);
}

static ssize_t diverted_send(int to, const void *packet, size_t count, int flags) {
    if (!divert) return send(to, packet, count, flags);
    divert(packet, count);
    return (ssize_t)count;
}

#define ngtcp2_crypto_encrypt_cb tapped_encrypt
#define ngtcp2_crypto_hp_mask_cb tapped_mask
#define send diverted_send
#include "client.c"
#undef ngtcp2_crypto_encrypt_cb
#undef ngtcp2_crypto_hp_mask_cb
#undef send

#include "h3.h"

/* ---- a peer */

typedef struct {
    client *client; /* no more than its socket and its keys once the handshake is done */
    packet_keys keys;
} peer;

static bool have_keys(void *argument) {
    (void)argument;
    return last_keys.taken;
}

static bool peer_open(peer *p, uint16_t port) {
    last_keys.taken = false;
    p->client = client_connect(port, 5000);
    if (!p->client) return false;
    client_run(p->client, have_keys, NULL, 500);
    client_run(p->client, NULL, NULL, 5);
    p->keys = last_keys;
    return last_keys.taken;
}

/* One packet. */
static void peer_send(peer *p, const uint8_t *frames, size_t count) {
    static uint8_t packet[65536];
    enum { TAG = 16 };
    size_t at = 1 + p->keys.to_length, head = at + NUMBER;
    uint32_t number = p->keys.number++;
    uint8_t nonce[12], mask[16];
    nonce_of(nonce, p->keys.iv, number);
    packet[0] = 0x40 | (NUMBER - 1);
    memcpy(packet + 1, p->keys.to, p->keys.to_length);
    for (int i = 0; i < NUMBER; i++) packet[at + (size_t)i] = (uint8_t)(number >> (8 * (NUMBER - 1 - i)));
    if (ngtcp2_crypto_encrypt_cb(packet + head, &p->keys.aead, &p->keys.sealing, frames, count, nonce, sizeof nonce, packet, head)) abort();
    if (ngtcp2_crypto_hp_mask_cb(mask, &p->keys.cipher, &p->keys.masking, packet + head)) abort();
    packet[0] ^= mask[0] & 0x1f;
    for (int i = 0; i < NUMBER; i++) packet[at + (size_t)i] ^= mask[1 + i];
    send(p->client->socket, packet, head + count + TAG, 0);
}

static void peer_ping(peer *p) { peer_send(p, (const uint8_t[]){0x01}, 1); }

/* How many packets have come, which are then dropped. Those that begin as `like` alone, if given. */
static size_t peer_heard(peer *p, const uint8_t *like, size_t count) {
    uint8_t packet[65536];
    size_t heard = 0;
    ssize_t n;
    while ((n = recv(p->client->socket, packet, sizeof packet, MSG_DONTWAIT)) > 0)
        heard += !like || ((size_t)n > count && !memcmp(packet + 1, like, count));
    return heard;
}

/* ---- frames, written behind one another: each gives where the next goes */

static uint8_t *put_integer(uint8_t *to, uint64_t value) { return to + h3_put_varint(to, value, h3_varint_size(value)); }

static uint8_t *put_bytes(uint8_t *to, const void *bytes, size_t count) {
    memcpy(to, bytes, count);
    return to + count;
}

static uint8_t *put_stream(uint8_t *to, uint64_t id, uint64_t offset, const void *bytes, size_t count, bool fin) {
    *to++ = fin ? 0x0f : 0x0e;
    return put_bytes(put_integer(put_integer(put_integer(to, id), offset), count), bytes, count);
}

static uint8_t *put_crypto(uint8_t *to, uint64_t offset, const void *bytes, size_t count) {
    *to++ = 0x06;
    return put_bytes(put_integer(put_integer(to, offset), count), bytes, count);
}

/* The ID and its token are made of the number; `id` gets the ID, if given. */
#define NEW_ID 8
static uint8_t *put_new_id(uint8_t *to, uint64_t number, uint64_t prior, uint8_t *id) {
    *to++ = 0x18;
    to = put_integer(put_integer(to, number), prior);
    *to++ = NEW_ID;
    for (int i = 0; i < NEW_ID + 16; i++) to[i] = (uint8_t)(number * 31 + (uint64_t)i * 7 + 1);
    if (id) memcpy(id, to, NEW_ID);
    return to + NEW_ID + 16;
}

/* A request's HEADERS frame, as bytes of its stream; how many. */
static size_t put_request(uint8_t *to, const char *method, const char *path, const char *length) {
    h3_field fields[] = {{":method", method}, {":scheme", "https"}, {":authority", "a"}, {":path", path}, {"content-length", length}};
    h3_bytes frame = h3_headers_frame(fields, length ? 5 : 4);
    memcpy(to, frame.bytes, frame.length);
    free(frame.bytes);
    return frame.length;
}

/* ---- the gateway's process, as the system sees it */

static long gateway_memory(int pid) { /* KiB */
    char name[64], line[256];
    long memory = -1;
    snprintf(name, sizeof name, "/proc/%d/status", pid);
    FILE *f = fopen(name, "r");
    if (!f) return -1;
    while (fgets(line, sizeof line, f))
        if (!strncmp(line, "VmRSS:", 6)) memory = atol(line + 6);
    fclose(f);
    return memory;
}

static double gateway_seconds(int pid) { /* of a processor */
    char name[64], line[1024] = "";
    unsigned long user = 0, system = 0;
    snprintf(name, sizeof name, "/proc/%d/stat", pid);
    FILE *f = fopen(name, "r");
    if (!f) return -1;
    if (!fgets(line, sizeof line, f)) line[0] = 0;
    fclose(f);
    const char *rest = strrchr(line, ')');
    if (rest) sscanf(rest + 2, "%*c %*d %*d %*d %*d %*d %*u %*u %*u %*u %*u %lu %lu", &user, &system);
    return (double)(user + system) / (double)sysconf(_SC_CLK_TCK);
}

static double seconds(void) { return (double)now() / NGTCP2_SECONDS; }

static void pause_ms(unsigned ms) { nanosleep(&(struct timespec){ms / 1000, (long)(ms % 1000) * 1000000}, NULL); }

#endif
