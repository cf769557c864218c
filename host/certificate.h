/* The server's certificate: one for localhost, made at start, signed by itself and made anew before it ends; or the operator's own, from files that
   are read again when they change. Where they are then no pair that is good, the one before stays. */
#ifndef CERTIFICATE_H
#define CERTIFICATE_H

#include <gnutls/gnutls.h>
#include <gnutls/x509.h>
#include <stdbool.h>
#include <sys/stat.h>
#include <time.h>

struct certificate {
    const char *file, *key_file; /* the operator's, in PEM; null where it is made here */
    gnutls_x509_privkey_t key; /* of those made here, the same for all: so their pin is the same */
    gnutls_certificate_credentials_t now, before; /* handshakes may be under way with the one before */
    time_t looked, renewed, ends; /* when the files were looked at, when the one before was put away, when the one at hand ends */
    struct stat is[2];            /* the files, as they were when they were last read */
    bool faulty;                  /* they were no good then, which was said */
    char pin[64]; /* the SHA-256 of its public key in base64, by which a browser can be told to trust it */
};

/* 0, or -1 where the files cannot be read, which is said. */
int certificate_begin(struct certificate *c, const char *file, const char *key_file);
void certificate_end(struct certificate *c);

/* The operator's files are to be looked at now. */
void certificate_look(struct certificate *c);

/* What a new session is to use. */
gnutls_certificate_credentials_t certificate_now(struct certificate *c);

#endif
