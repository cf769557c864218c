/* gateway [OPTION..] PORT FOLDER [IDLE [PATIENCE]]: the dryer's gateway. PORT 0 takes any; FOLDER holds settings and log, and no two gateways share one.
   After IDLE seconds without a packet a connection is given up; after PATIENCE seconds in which a request or an answer has not moved on by 16 KiB, nor
   ended, it is closed: 30 each if not said.
     --listen ADDRESS                 an address in digits, of IPv4 or IPv6, up to two times; if not said, 127.0.0.1 and, where there is one, ::1
     --certificate FILE --key FILE    the operator's own, in PEM, read again when they change; if not said, one is made for localhost
   SIGHUP: the operator's certificate is looked at now, not within the minute.
   SIGTERM or SIGINT: our GOAWAY, the open requests are let finish for up to two seconds, then every connection is closed. */
#define _GNU_SOURCE
#include "eistulko.h"
#include "quic.h"

#include <arpa/inet.h>
#include <errno.h>
#include <fcntl.h>
#include <signal.h>
#include <unistd.h>

#define DRAIN_MS 2000
#define DRAIN_TURN_MS 50
#define TRIES 20 /* for a port that both addresses have free */

static volatile sig_atomic_t stopped, called;

static void on_stop(int signal) {
    (void)signal;
    stopped = 1;
}

static void on_call(int signal) {
    (void)signal;
    called = 1;
}

static void fail(const char *what, const char *why) {
    fprintf(stderr, "gateway: %s: %s\n", what, why);
    exit(1);
}

/* The library and the header are of one version. */
static void same_sizes(void) {
    if (eistulko_connection_size() == sizeof(eistulko_connection) && eistulko_record_size() == sizeof(eistulko_record) &&
        eistulko_report_size() == sizeof(eistulko_report) && eistulko_written_size() == sizeof(eistulko_written))
        return;
    fail("the library", "not of this header");
}

/* ---- the command line */

struct words {
    const char *listen[LISTENERS], *certificate, *key, *rest[4];
    size_t listening, count;
};

static void usage(void) {
    fputs("usage: gateway [--listen ADDRESS].. [--certificate FILE --key FILE] PORT FOLDER [IDLE [PATIENCE]]\n", stderr);
    exit(2);
}

static void read_words(struct words *w, char **at) {
    for (; *at; at++) {
        bool option = !strncmp(*at, "--", 2);
        if (!option && w->count < 4) w->rest[w->count++] = *at;
        else if (!option || !at[1]) usage();
        else if (!strcmp(*at, "--listen") && w->listening < LISTENERS) w->listen[w->listening++] = *++at;
        else if (!strcmp(*at, "--certificate")) w->certificate = *++at;
        else if (!strcmp(*at, "--key")) w->key = *++at;
        else usage();
    }
    if (w->count < 2 || !w->certificate != !w->key) usage();
}

static unsigned long number(const char *word, unsigned long otherwise, unsigned long most) {
    if (!word) return otherwise;
    char *end;
    unsigned long n = strtoul(word, &end, 10);
    if (*word < '0' || *word > '9' || *end || n > most) usage();
    return n;
}

/* ---- addresses */

static uint16_t port_of(const struct listener *l) { return ntohs(l->here.any.sa_family == AF_INET ? l->here.v4.sin_port : l->here.v6.sin6_port); }

/* Both on one port. Where the system has no ::1, 127.0.0.1 is enough. */
static int listen_to_both(struct server *s, uint16_t port) {
    for (int k = 0; k < TRIES; k++) {
        if (server_listen(s, "127.0.0.1", port)) return -1;
        if (!server_listen(s, "::1", port_of(s->listeners)) || errno == EADDRNOTAVAIL || errno == EAFNOSUPPORT) return 0;
        if (errno != EADDRINUSE || port) return -1;
        server_unlisten(s);
    }
    return -1;
}

static void listen_to(struct server *s, const struct words *w, uint16_t port) {
    if (!w->listening && listen_to_both(s, port)) fail("127.0.0.1", strerror(errno));
    for (size_t i = 0; i < w->listening; i++)
        if (server_listen(s, w->listen[i], i ? port_of(s->listeners) : port)) fail(w->listen[i], strerror(errno));
    for (size_t i = 0; i < s->listening; i++) {
        const struct address *here = &s->listeners[i].here;
        char text[INET6_ADDRSTRLEN];
        bool v4 = here->any.sa_family == AF_INET;
        inet_ntop(here->any.sa_family, v4 ? (const void *)&here->v4.sin_addr : &here->v6.sin6_addr, text, sizeof text);
        const char *form = v4 ? "listening on %s:%d%s%s" : "listening on [%s]:%d%s%s"; /* the pin is said once */
        say(form, text, port_of(&s->listeners[i]), i ? "" : ", certificate pin ", i ? "" : s->certificate.pin);
    }
}

/* By the clock: a busy client makes turns short. The first ones send our GOAWAY. */
static void drain(struct server *s) {
    server_drain(s);
    uint64_t end = server_ms() + DRAIN_MS;
    for (int k = 0; server_ms() < end && (k < 2 || !server_is_idle(s)); k++) server_turn(s, DRAIN_TURN_MS);
}

/* A descriptor of these that is closed would be given to the next file, and what is said would go there. */
static void own_descriptors(void) {
    int any;
    do any = open("/dev/null", O_RDWR);
    while (any >= 0 && any <= STDERR_FILENO);
    if (any >= 0) close(any);
}

int main(int count, char **words) {
    (void)count;
    own_descriptors();
    same_sizes();
    static struct server s;
    static struct gateway g;
    struct words w = {0};
    read_words(&w, words + 1);
    struct sigaction stop = {.sa_handler = on_stop}, call = {.sa_handler = on_call};
    sigaction(SIGTERM, &stop, NULL);
    sigaction(SIGINT, &stop, NULL);
    sigaction(SIGHUP, &call, NULL);
    signal(SIGPIPE, SIG_IGN); /* whoever read our output may go: the gateway stays */
    signal(SIGXFSZ, SIG_IGN); /* settings beyond a limit of the system are not kept, and that is all */
    if (gateway_open(&g, w.rest[1])) fail(w.rest[1], errno == EWOULDBLOCK ? "another gateway has this folder" : strerror(errno));
    s.gateway = &g;
    s.idle = number(w.rest[2], 30, 86400);
    s.patience = number(w.rest[3], 30, 86400);
    if (certificate_begin(&s.certificate, w.certificate, w.key)) return 1;
    listen_to(&s, &w, (uint16_t)number(w.rest[0], 0, UINT16_MAX));
    while (!stopped) {
        if (called) {
            called = 0;
            certificate_look(&s.certificate);
        }
        server_turn(&s, 1000);
    }
    drain(&s);
    server_close(&s);
    certificate_end(&s.certificate);
    gateway_close(&g);
    say_last("stopped");
    return 0;
}
