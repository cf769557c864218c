#define _GNU_SOURCE
#include "certificate.h"

#include "files.h"
#include "say.h"

#include <gnutls/crypto.h>
#include <stdint.h>
#include <stdio.h>
#include <stdlib.h>
#include <string.h>

#ifndef LIFE
#define LIFE (10 * 86400) /* seconds; browsers take a pinned certificate for at most 14 days */
#endif
#define RENEWED (LIFE / 3) /* before it ends */
#ifndef LOOK
#define LOOK 60            /* seconds from one look at the operator's files to the next */
#endif
#ifndef HANDSHAKE
#define HANDSHAKE 15       /* seconds, in which any that was begun with the one before is over */
#endif

static void sure(int failed) {
    if (!failed) return;
    fprintf(stderr, "certificate: %s\n", gnutls_strerror(failed));
    exit(1);
}

static void fill(gnutls_x509_crt_t c, gnutls_x509_privkey_t key, time_t now) {
    const uint8_t v4[4] = {127, 0, 0, 1}, v6[16] = {[15] = 1};
    uint8_t serial[8];
    sure(gnutls_rnd(GNUTLS_RND_NONCE, serial, sizeof serial));
    serial[0] = (serial[0] & 0x7f) | 1; /* a positive number */
    sure(gnutls_x509_crt_set_version(c, 3));
    sure(gnutls_x509_crt_set_serial(c, serial, sizeof serial));
    sure(gnutls_x509_crt_set_activation_time(c, now - 3600));
    sure(gnutls_x509_crt_set_expiration_time(c, now + LIFE));
    sure(gnutls_x509_crt_set_dn(c, "CN=localhost", NULL));
    sure(gnutls_x509_crt_set_issuer_dn(c, "CN=localhost", NULL));
    sure(gnutls_x509_crt_set_subject_alt_name(c, GNUTLS_SAN_DNSNAME, "localhost", 9, GNUTLS_FSAN_SET));
    sure(gnutls_x509_crt_set_subject_alt_name(c, GNUTLS_SAN_IPADDRESS, v4, sizeof v4, GNUTLS_FSAN_APPEND));
    sure(gnutls_x509_crt_set_subject_alt_name(c, GNUTLS_SAN_IPADDRESS, v6, sizeof v6, GNUTLS_FSAN_APPEND));
    sure(gnutls_x509_crt_set_basic_constraints(c, 0, -1));
    sure(gnutls_x509_crt_set_key_usage(c, GNUTLS_KEY_DIGITAL_SIGNATURE));
    sure(gnutls_x509_crt_set_key(c, key));
    sure(gnutls_x509_crt_sign2(c, c, key, GNUTLS_DIG_SHA256, 0));
}

static int tell_pin(gnutls_x509_crt_t c, char pin[64]) {
    uint8_t hash[32];
    size_t n = sizeof hash;
    int failed = gnutls_x509_crt_get_key_id(c, GNUTLS_KEYID_USE_SHA256, hash, &n);
    gnutls_datum_t from = {hash, (unsigned)n}, text;
    if (failed || (failed = gnutls_base64_encode2(&from, &text))) return failed;
    snprintf(pin, 64, "%.*s", (int)text.size, (const char *)text.data);
    gnutls_free(text.data);
    return 0;
}

static gnutls_certificate_credentials_t make(struct certificate *c, time_t now) {
    gnutls_certificate_credentials_t made;
    gnutls_x509_crt_t crt;
    sure(gnutls_x509_crt_init(&crt));
    fill(crt, c->key, now);
    sure(tell_pin(crt, c->pin));
    sure(gnutls_certificate_allocate_credentials(&made));
    sure(gnutls_certificate_set_x509_key(made, &crt, 1, c->key));
    gnutls_x509_crt_deinit(crt);
    c->ends = now + LIFE;
    return made;
}

/* What is wrong with the certificate that was read; null where it is good. One that is over is good for nobody. */
static const char *fault_of(gnutls_certificate_credentials_t read, char pin[64]) {
    gnutls_x509_crt_t *chain;
    unsigned count = 0;
    if (gnutls_certificate_get_x509_crt(read, 0, &chain, &count) || !count) return "no certificate of X.509";
    bool over = gnutls_x509_crt_get_expiration_time(chain[0]) <= time(NULL), odd = !over && tell_pin(chain[0], pin);
    for (unsigned i = 0; i < count; i++) gnutls_x509_crt_deinit(chain[i]);
    gnutls_free(chain);
    return over ? "the certificate is over" : odd ? "its key has no pin" : NULL;
}

/* Null where the files are none of a good certificate and its key, which is said once. */
static gnutls_certificate_credentials_t read_files(struct certificate *c) {
    gnutls_certificate_credentials_t read;
    sure(gnutls_certificate_allocate_credentials(&read));
    int failed = gnutls_certificate_set_x509_key_file(read, c->file, c->key_file, GNUTLS_X509_FMT_PEM);
    const char *fault = failed < 0 ? gnutls_strerror(failed) : fault_of(read, c->pin);
    if (fault) {
        if (!c->faulty) say("certificate: %s, %s: %s", c->file, c->key_file, fault);
        gnutls_certificate_free_credentials(read);
    }
    c->faulty = fault;
    return fault ? NULL : read;
}

static void look_at(const struct certificate *c, struct stat is[2]) {
    const char *files[] = {c->file, c->key_file};
    for (int i = 0; i < 2; i++)
        if (stat(files[i], &is[i])) is[i] = (struct stat){0};
}

/* Files that were no good are read again at each look: one of the two may have come late. */
static gnutls_certificate_credentials_t renewed(struct certificate *c, time_t now) {
    if (now < c->renewed + HANDSHAKE) return NULL;
    if (!c->file) return now >= c->ends - RENEWED ? make(c, now) : NULL;
    if (now < c->looked + LOOK) return NULL;
    c->looked = now;
    struct stat is[2];
    look_at(c, is);
    bool same = is_same_file(is, c->is) && is_same_file(is + 1, c->is + 1);
    if (same && !c->faulty) return NULL;
    c->faulty = c->faulty && same; /* what is wrong with others is said too */
    memcpy(c->is, is, sizeof is);
    return read_files(c);
}

void certificate_look(struct certificate *c) {
    c->looked = 0;
    certificate_now(c);
}

int certificate_begin(struct certificate *c, const char *file, const char *key_file) {
    time_t now = time(NULL);
    *c = (struct certificate){.file = file, .key_file = key_file, .looked = now};
    if (file) {
        look_at(c, c->is);
        c->now = read_files(c);
        return c->now ? 0 : -1;
    }
    sure(gnutls_x509_privkey_init(&c->key));
    sure(gnutls_x509_privkey_generate(c->key, GNUTLS_PK_ECDSA, GNUTLS_CURVE_TO_BITS(GNUTLS_ECC_CURVE_SECP256R1), 0));
    c->now = make(c, now);
    return 0;
}

/* A handshake is over in seconds, so whoever used the one before the last has no more use of it. */
gnutls_certificate_credentials_t certificate_now(struct certificate *c) {
    gnutls_certificate_credentials_t fresh = renewed(c, time(NULL));
    if (!fresh) return c->now;
    if (c->before) gnutls_certificate_free_credentials(c->before);
    c->before = c->now;
    c->now = fresh;
    c->renewed = time(NULL);
    say("certificate renewed, pin %s", c->pin);
    return fresh;
}

void certificate_end(struct certificate *c) {
    if (c->before) gnutls_certificate_free_credentials(c->before);
    gnutls_certificate_free_credentials(c->now);
    if (c->key) gnutls_x509_privkey_deinit(c->key);
}
