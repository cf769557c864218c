/* odd PORT NAME [PID]: one of the clients below, each of which does what raw has no word for. Status 0 if the gateway did as it must; else a line says
   what it did not. PID is the gateway's, where the client ends it. The QUIC client is taken in whole, to reach libngtcp2 below it. */
/* What the client grants. */
static unsigned long server_streams = 100, stream_window = 1 << 20, connection_window = 16 << 20;
#define SERVER_UNI_STREAMS server_streams
#define STREAM_WINDOW stream_window
#define CONNECTION_WINDOW connection_window

#include "../peer/client.c"
#include "../peer/h3.h"

#include <signal.h>

#define LIMIT 5000u

static const char *name;

static void sure(bool holds, const char *what) {
    if (holds) return;
    printf("%s: %s\n", name, what);
    exit(1);
}

static void send_request(client_stream *s, const char *method, const char *path, const char *length) {
    h3_field fields[] = {{":method", method}, {":scheme", "https"}, {":authority", "a"}, {":path", path}, {"content-length", length}};
    h3_bytes frame = h3_headers_frame(fields, length ? 5 : 4);
    client_send(s, frame.bytes, frame.length);
    free(frame.bytes);
}

static client_stream *request(client *c, const char *method, const char *path, const char *length) {
    client_stream *s = client_open_bidi(c);
    sure(s != NULL, "no stream is granted");
    send_request(s, method, path, length);
    return s;
}

static bool is_closed(void *c) { return client_closed(c, NULL) != CONNECTION_OPEN; }
static bool is_refused(void *s) { return ((client_stream *)s)->reset_received; }
static bool is_answered(void *s) { return ((client_stream *)s)->fin_received; }
static bool is_over(void *s) { return ((client_stream *)s)->closed; }
static bool is_drained(void *c) {
    client_stream *control = client_find(c, 3);
    return control && control->received_length == 15 && control->received[12] == 7;
}

static void must_close(client *c, uint64_t expected) {
    uint64_t code;
    client_run(c, is_closed, c, LIMIT);
    sure(client_closed(c, &code) == CLOSED_BY_APPLICATION && code == expected, "the connection was not closed as it must be");
}

static void must_refuse(client *c, client_stream *s, uint64_t code) {
    sure(client_run(c, is_refused, s, LIMIT) && s->reset_code == code, "the stream was not reset with the code");
}

static void must_serve(client *c) {
    client_stream *s = request(c, "GET", "/", NULL);
    client_fin(s);
    sure(client_run(c, is_answered, s, LIMIT), "a request was not answered");
}

/* ---- the clients */

/* A refusal is a reset and a wish that we stop sending, both with the code. */
static void refusal(client *c, int pid) {
    (void)pid;
    client_stream *s = request(c, "PUT", "/settings", NULL);
    must_refuse(c, s, 0x10b);
    sure(s->stop_sending_received && s->stop_sending_code == 0x10b, "nothing asked to stop sending, or not with the code");
    must_serve(c);
}

/* The gateway's control stream may not be stopped. */
static void control(client *c, int pid) {
    (void)pid;
    must_serve(c);
    ngtcp2_conn_shutdown_stream_read(c->quic, 3, 0x100);
    must_close(c, 0x104);
}

/* Answers that nobody wants: streams come free again. */
static void unwanted(client *c, int pid) {
    (void)pid;
    for (int i = 0; i < 60; i++) {
        client_stream *s = request(c, "GET", "/settings", NULL);
        client_fin(s);
        ngtcp2_conn_shutdown_stream_read(c->quic, s->id, 0x10c);
        client_run(c, is_over, s, LIMIT);
    }
    must_serve(c);
}

/* A stream whose first sign is that we want no answer, and one whose first sign is a reset, which lower ones follow. */
static void signs(client *c, int pid) {
    (void)pid;
    client_stream *first = client_open_bidi(c), *second = client_open_bidi(c), *third = client_open_bidi(c);
    ngtcp2_conn_shutdown_stream_read(c->quic, first->id, 0x10c);
    client_reset(c, third, 0x10c);
    client_run(c, NULL, NULL, 100);
    send_request(second, "GET", "/", NULL);
    client_fin(second);
    sure(client_run(c, is_answered, second, LIMIT), "a lower stream was not answered");
    client_fin(first);
    must_serve(c);
}

/* A request at the end of the gateway: those that its GOAWAY bars are refused in any order, and the one that is open goes on. */
static void goaway(client *c, int pid) {
    client_stream *open = request(c, "PUT", "/settings", "3");
    client_run(c, NULL, NULL, 50);
    kill(pid, SIGTERM);
    sure(client_run(c, is_drained, c, LIMIT), "no GOAWAY came");
    client_stream *low = client_open_bidi(c), *high = request(c, "GET", "/", NULL);
    must_refuse(c, high, 0x10b);
    send_request(low, "GET", "/", NULL);
    must_refuse(c, low, 0x10b);
    client_send(open, "\0\3new", 5);
    client_fin(open);
    sure(client_run(c, is_answered, open, LIMIT), "the open request was not answered");
    must_close(c, 0x100);
}

/* A client that grants no stream for our control stream. */
static void narrow(client *c, int pid) {
    (void)pid;
    server_streams = 0;
    client *other = client_connect(ntohs(c->remote.sin_port), LIMIT);
    sure(other != NULL, "no connection");
    must_close(other, 0x103);
    client_drop(other);
    must_serve(c);
}

static void must_get(uint16_t port) {
    client *c = client_connect(port, LIMIT);
    sure(c != NULL, "no connection");
    for (int i = 0; i < 2; i++) client_fin(request(c, "GET", "/log", NULL));
    client_stream *s = request(c, "GET", "/log", NULL);
    client_fin(s);
    sure(client_run(c, is_answered, s, LIMIT), "a slow reader was not answered");
    client_close(c, H3_NO_ERROR);
}

/* Clients that grant little at a time, on the stream and on the connection. */
static void slow(client *c, int pid) {
    (void)pid;
    stream_window = 500;
    must_get(ntohs(c->remote.sin_port));
    stream_window = 1 << 20;
    connection_window = 500;
    must_get(ntohs(c->remote.sin_port));
}

/* More connections than there are places: none keeps a new one out. */
static void many(client *c, int pid) {
    (void)pid;
    for (int i = 0; i < 1100; i++) {
        client *other = client_connect(ntohs(c->remote.sin_port), LIMIT);
        sure(other != NULL, "a client was kept out");
        if (i % 100) client_drop(other); /* as a link that drops */
        else must_serve(other);
    }
}

static const struct {
    const char *name;
    void (*run)(client *, int pid);
} clients[] = {{"refusal", refusal}, {"control", control}, {"unwanted", unwanted}, {"signs", signs}, {"goaway", goaway}, {"many", many}, {"narrow", narrow}, {"slow", slow}};

int main(int count, char **words) {
    if (count < 3) return 2;
    name = words[2];
    for (size_t i = 0; i < sizeof clients / sizeof *clients; i++) {
        if (strcmp(name, clients[i].name)) continue;
        client *c = client_connect((uint16_t)atoi(words[1]), LIMIT);
        sure(c != NULL, "no connection");
        clients[i].run(c, count > 3 ? atoi(words[3]) : 0);
        client_close(c, H3_NO_ERROR);
        return 0;
    }
    return 2;
}
