/* Has a row's request answered again and again, or makes one call of the engine, for a tool that counts instructions; every answer is checked.
   requests: a line for each row, with how often to ask over QUIC, and for each kind of call.
   requests alone PART ROW FOLDER: host/http.c answers, with no QUIC stack.
   requests call PART KIND: one call, of the engine.
   requests empty PART: marks with nothing between.
   requests quic TIMES ROW PORT: the gateway on that port answers, on one connection.
   Prints how many marks of the part were met (bench/marks.h), and in how many requests. */
#include "requests.h"

#include "../tests/peer/client.h"
#include "../tests/peer/h3.h"
#include "marks.h"

#include <valgrind/callgrind.h>

#define LEN(a) (sizeof(a) / sizeof *(a))
#define BEFORE 3     /* requests that are not counted: the first ones find no memory at hand */
#define TIMES 10     /* those that are */
#define LIMIT 60000u /* milliseconds: a gateway that is counted is slow */
#define PACKET 1158  /* bytes of a stream in most packets that the peer sends, of 1,200 */
#define LOG 1000     /* bytes of the log that bench/run makes */

struct row {
    const char *name, *method, *path;
    size_t stated, sent, piece;
    int status; /* 0: refused, with the code */
    size_t answer;
    uint64_t code;
    int times; /* over QUIC */
};

static const struct row rows[] = {
    {"GET /log of 1,000 bytes", "GET", "/log", 0, 0, PACKET, 200, LOG, 0, 400},
    {"PUT of 1,240 bytes, one piece", "PUT", "/settings", 1240, 1240, 2000, 200, 14, 0, 400},
    {"PUT of 64 KiB", "PUT", "/settings", 1 << 16, 1 << 16, PACKET, 200, 14, 0, 40},
    {"PUT of 1 MiB", "PUT", "/settings", 1 << 20, 1 << 20, PACKET, 200, 14, 0, 4},
    {"PUT of 1,240 bytes, cut at 620", "PUT", "/settings", 1240, 620, PACKET, 0, 0, 0x010e, 400},
};

enum part chosen;
unsigned long marks;

/* Not inlined, so that it costs the same wherever it stands. */
__attribute__((noinline)) void mark(enum part part) {
    if (part != chosen) return;
    marks++;
    CALLGRIND_TOGGLE_COLLECT;
}

static void fail(const struct row *row, const char *what) {
    fprintf(stderr, "bench: %s: %s\n", row->name, what);
    exit(1);
}

static void take(struct bytes *to, h3_bytes from) {
    bytes_add(to, from.bytes, from.length);
    free(from.bytes);
}

struct bytes request_stream(const char *method, const char *path, size_t stated, size_t sent) {
    char length[24];
    snprintf(length, sizeof length, "%zu", stated);
    h3_field fields[] = {{":method", method},           {":scheme", "https"}, {":authority", "localhost:44330"}, {":path", path},
                         {"user-agent", "curl/8.14.1"}, {"accept", "*/*"},    {"content-length", length}};
    struct bytes all = {0};
    take(&all, h3_headers_frame(fields, stated ? 7 : 6));
    if (!sent) return all;
    uint8_t *content = must(malloc(sent));
    memset(content, 'x', sent);
    take(&all, h3_frame(H3_DATA, content, sent));
    free(content);
    return all;
}

/* A cut request has a shorter DATA frame, so that the stated length alone tells. */
static struct bytes stream_of(const struct row *row) { return request_stream(row->method, row->path, row->stated, row->sent); }

/* The client's one-way streams, as curl and browsers open them: control, QPACK encoder, QPACK decoder. */
static struct bytes oneway(uint64_t k) {
    struct bytes all = {0};
    if (k == 0) take(&all, h3_control_opening());
    else bytes_add(&all, k == 1 ? "\x02" : "\x03", 1);
    return all;
}

static void check(const struct row *row, struct came came) {
    if (row->code != came.refused) fail(row, "not refused as expected");
    if (row->code) return;
    h3_response r;
    if (!came.fin || !h3_read_response(&r, came.bytes, came.count)) fail(row, "no whole response");
    if (r.status != row->status || r.content_length != row->answer) fail(row, "another response");
    h3_free_response(&r);
}

/* ---- with no QUIC stack */

static void alone(const struct row *row, enum part part, const char *folder) {
    struct bytes stream = stream_of(row);
    chosen = NONE;
    stand_in_begin(folder);
    for (uint64_t k = 0; k < 3; k++) {
        struct bytes b = oneway(k);
        stand_in_bytes(4 * k + 2, &b, b.count, false);
        bytes_free(&b);
    }
    for (uint64_t i = 0; i < BEFORE + TIMES; i++) {
        chosen = i < BEFORE ? NONE : part;
        stand_in_bytes(4 * i, &stream, row->piece, true);
        check(row, stand_in_came());
    }
    bytes_free(&stream);
}

/* ---- over QUIC */

static bool is_answered(void *of) {
    const client_stream *s = of;
    return s->fin_received || s->reset_received;
}

static bool is_flushed(void *of) { return client_flushed(of); }

static void ask(const struct row *row, client *c, const struct bytes *stream) {
    client_stream *s = client_open_bidi(c);
    if (!s) fail(row, "no stream allowed");
    client_send(s, stream->at, stream->count);
    client_fin(s);
    if (!client_run(c, is_answered, s, LIMIT)) fail(row, "no answer");
    check(row, (struct came){s->received, s->received_length, s->fin_received, s->reset_received ? s->reset_code : 0});
    client_forget(s);
}

static void over_quic(const struct row *row, int times, uint16_t port) {
    client *c = client_connect(port, LIMIT);
    if (!c) fail(row, "no connection");
    for (uint64_t k = 0; k < 3; k++) {
        struct bytes b = oneway(k);
        client_stream *s = client_open_uni(c);
        if (!s) fail(row, "no one-way stream allowed");
        client_send(s, b.at, b.count);
        bytes_free(&b);
    }
    struct bytes stream = stream_of(row);
    for (int i = 0; i < times; i++) ask(row, c, &stream);
    bytes_free(&stream);
    if (!client_run(c, is_flushed, c, LIMIT)) fail(row, "not all was acknowledged");
    client_close(c, H3_NO_ERROR);
}

int main(int argc, char **argv) {
    const char *what = argc > 1 ? argv[1] : "";
    long how = argc > 2 ? strtol(argv[2], NULL, 10) : 0;
    size_t which = argc > 3 ? strtoul(argv[3], NULL, 10) : 0;
    if (argc == 1) {
        for (size_t i = 0; i < LEN(rows); i++) printf("request %d %s\n", rows[i].times, rows[i].name);
        for (size_t i = 0; i < KINDS; i++) printf("call %s\n", kinds[i]);
        return 0;
    }
    if (argc == 5 && which < LEN(rows) && !strcmp(what, "quic")) {
        over_quic(&rows[which], (int)how, (uint16_t)strtoul(argv[4], NULL, 10));
        return 0;
    }
    int times = 1;
    chosen = (enum part)how;
    if (argc == 5 && which < LEN(rows) && !strcmp(what, "alone")) alone(&rows[which], chosen, argv[4]), times = TIMES;
    else if (argc == 4 && which < KINDS && !strcmp(what, "call")) one_call(which);
    else if (argc == 3 && !strcmp(what, "empty")) mark(chosen), mark(chosen);
    else return 2;
    printf("%lu %d\n", marks, times);
    return 0;
}
