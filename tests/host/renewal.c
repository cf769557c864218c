/* renewal FOLDER, where one.pem and two.pem are certificates, one.key and two.key their keys: a certificate that lives for six seconds (-DLIFE=6) has
   another a third before its end, with the same pin; and of the operator's, a pair that is no good leaves the one before in use, and a good one does not.
   Status 0 if so. */
#include "certificate.h"

#include <stdio.h>
#include <stdlib.h>
#include <string.h>
#include <unistd.h>

static int made_anew(void) {
    struct certificate c;
    char pin[64];
    if (certificate_begin(&c, NULL, NULL)) return 1;
    strcpy(pin, c.pin);
    gnutls_certificate_credentials_t first = certificate_now(&c);
    time_t ends = c.ends;
    sleep(1);
    if (certificate_now(&c) != first) return 1;
    sleep(4);
    gnutls_certificate_credentials_t second = certificate_now(&c);
    if (second == first || time(NULL) >= ends || c.ends <= ends || strcmp(pin, c.pin)) return 1;
    certificate_end(&c);
    return 0;
}

static void sure(int failed) {
    if (failed) exit(1);
}

static void write_file(const char *name, gnutls_datum_t text) {
    FILE *file = fopen(name, "w");
    sure(!file || fwrite(text.data, text.size, 1, file) != 1 || fclose(file));
    gnutls_free(text.data);
}

/* A certificate that was over an hour ago, and its key. */
static void make_over(void) {
    gnutls_x509_privkey_t key;
    gnutls_x509_crt_t crt;
    gnutls_datum_t text;
    time_t now = time(NULL);
    sure(gnutls_x509_privkey_init(&key) || gnutls_x509_privkey_generate(key, GNUTLS_PK_ECDSA, GNUTLS_CURVE_TO_BITS(GNUTLS_ECC_CURVE_SECP256R1), 0));
    sure(gnutls_x509_crt_init(&crt) || gnutls_x509_crt_set_version(crt, 3) || gnutls_x509_crt_set_serial(crt, "1", 1) ||
         gnutls_x509_crt_set_activation_time(crt, now - 7200) || gnutls_x509_crt_set_expiration_time(crt, now - 3600) ||
         gnutls_x509_crt_set_dn(crt, "CN=localhost", NULL) || gnutls_x509_crt_set_key(crt, key) ||
         gnutls_x509_crt_sign2(crt, crt, key, GNUTLS_DIG_SHA256, 0));
    sure(gnutls_x509_crt_export2(crt, GNUTLS_X509_FMT_PEM, &text));
    write_file("over.pem", text);
    sure(gnutls_x509_privkey_export2(key, GNUTLS_X509_FMT_PEM, &text));
    write_file("over.key", text);
    gnutls_x509_crt_deinit(crt);
    gnutls_x509_privkey_deinit(key);
}

/* What the operator's two files hold from now on. */
static void put(const char *certificate, const char *key) {
    char line[256];
    snprintf(line, sizeof line, "cat %s >now.pem; cat %s >now.key", certificate, key);
    if (system(line)) exit(1);
}

static int read_anew(void) {
    static const char *bad[][2] = {
        {"two.pem", "one.key"}, {"one.pem", "two.key"}, {"one.key", "one.key"}, {"/dev/null", "/dev/null"}, {"two.pem", "/dev/null"}, {"over.pem", "over.key"}};
    struct certificate c;
    char pin[64];
    make_over();
    put("one.pem", "one.key");
    if (certificate_begin(&c, "now.pem", "now.key")) return 1;
    strcpy(pin, c.pin);
    gnutls_certificate_credentials_t first = certificate_now(&c);
    for (size_t i = 0; i < sizeof bad / sizeof *bad; i++) {
        put(bad[i][0], bad[i][1]);
        for (int k = 0; k < 3; k++) certificate_look(&c); /* said once */
        if (certificate_now(&c) != first || strcmp(pin, c.pin)) return 1;
    }
    if (rename("now.key", "away.key")) return 1;
    certificate_look(&c);
    if (certificate_now(&c) != first) return 1;
    put("two.pem", "two.key");
    certificate_look(&c);
    if (certificate_now(&c) == first || !strcmp(pin, c.pin)) return 1;
    certificate_end(&c);
    return 0;
}

int main(int count, char **words) { return count != 2 || chdir(words[1]) || made_anew() || read_anew(); }
