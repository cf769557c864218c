/* A fuzzer that stands in for the QUIC stack: any order of stream events that a stack may bring goes into host/http.c with the real library behind
   it, and the host's duties are checked from the bytes that were sent, by a reader of its own. tests/host/fuzz builds and runs it.

   The input is a list of events, each a byte for what, a byte for the stream and a byte for how much:
     bytes as they stand, a header section of a list, a DATA frame, an end, a reset, a stream given up, our GOAWAY, our control stream stopped. */
#define _GNU_SOURCE
#include "http.h"

#include <fcntl.h>
#include <nghttp3/nghttp3.h>
#include <stdbool.h>
#include <sys/stat.h>
#include <unistd.h>

#define STREAMS 64 /* of a kind; more never come in one run */
#define REQUESTS_AT_ONCE 21
#define ONEWAYS_AT_ONCE 3

#define HOLDS(what)                                        \
    do {                                                   \
        if (!(what)) {                                     \
            fprintf(stderr, "does not hold: %s\n", #what); \
            abort();                                       \
        }                                                  \
    } while (0)

/* What the stack knows of a stream. */
struct seen {
    struct bytes bytes;
    bool met, fin, reset, closed, refused, answered;
};

struct run {
    struct http *http;
    struct seen requests[STREAMS], oneways[STREAMS];
    struct seen *acting; /* the one whose bytes HTTP is being told */
    size_t granted[2];
    bool closed;
    const uint8_t *at, *end;
};

static struct gateway gateway;
static ino_t settings; /* the file's; 0 while there is none */

/* ---- a reader of its own */

struct reading {
    bool whole, put, upload, stated, large, unreadable; /* put: of the settings; upload: any PUT, POST or PATCH; the last two: a section is */
    uint64_t length;
    struct bytes content;
};

static size_t integer(const uint8_t *at, size_t left, uint64_t *value) {
    size_t size = left ? (size_t)1 << (at[0] >> 6) : 1;
    if (left < size) return 0;
    *value = at[0] & 0x3f;
    for (size_t i = 1; i < size; i++) *value = *value << 8 | at[i];
    return size;
}

static bool is(nghttp3_rcbuf *text, const char *what) {
    nghttp3_vec v = nghttp3_rcbuf_get_buf(text);
    return v.len == strlen(what) && !memcmp(v.base, what, v.len);
}

static void read_line(struct reading *r, const nghttp3_qpack_nv *line, bool *method, bool *path) {
    if (is(line->name, ":method")) {
        *method = is(line->value, "PUT");
        r->upload = *method || is(line->value, "POST") || is(line->value, "PATCH");
    }
    if (is(line->name, ":path")) *path = is(line->value, "/settings");
    if (is(line->name, "content-length")) {
        nghttp3_vec v = nghttp3_rcbuf_get_buf(line->value);
        r->stated = v.len > 0;
        for (size_t i = 0; i < v.len; i++) {
            if (v.base[i] < '0' || v.base[i] > '9') r->stated = false;
            r->length = r->length * 10 + (uint64_t)(v.base[i] - '0');
        }
    }
}

static bool read_section(struct reading *r, const uint8_t *at, size_t count) {
    nghttp3_qpack_decoder *decoder;
    nghttp3_qpack_stream_context *context;
    HOLDS(!nghttp3_qpack_decoder_new(&decoder, 0, 0, nghttp3_mem_default()));
    HOLDS(!nghttp3_qpack_stream_context_new(&context, 0, nghttp3_mem_default()));
    bool method = false, path = false, good = false;
    size_t size = 0;
    for (;;) {
        nghttp3_qpack_nv line;
        uint8_t flags = 0;
        nghttp3_ssize n = nghttp3_qpack_decoder_read_request(decoder, context, &line, &flags, at, count, 1);
        if (n < 0) break;
        at += n;
        count -= (size_t)n;
        if (flags & NGHTTP3_QPACK_DECODE_FLAG_EMIT) {
            read_line(r, &line, &method, &path);
            size += nghttp3_rcbuf_get_buf(line.name).len + nghttp3_rcbuf_get_buf(line.value).len + 32;
            nghttp3_rcbuf_decref(line.name);
            nghttp3_rcbuf_decref(line.value);
        }
        good = (flags & NGHTTP3_QPACK_DECODE_FLAG_FINAL) != 0;
        if (good || flags & NGHTTP3_QPACK_DECODE_FLAG_BLOCKED) break;
    }
    nghttp3_qpack_stream_context_del(context);
    nghttp3_qpack_decoder_del(decoder);
    r->put = method && path;
    r->large = size > 16384;
    return good;
}

/* What a stream's bytes are, if they end here. */
static struct reading read_all(const struct bytes *b) {
    struct reading r = {0};
    size_t at = 0, sections = 0;
    while (at < b->count) {
        uint64_t type, length;
        size_t n = integer(b->at + at, b->count - at, &type);
        size_t m = n ? integer(b->at + at + n, b->count - at - n, &length) : 0;
        if (!m || length > b->count - at - n - m) return r;
        at += n + m;
        if (type == 0) {
            if (sections != 1) return r;
            bytes_add(&r.content, b->at + at, length);
        }
        if (type == 1) {
            struct reading trailers = {0};
            if (++sections > 2) return r;
            r.unreadable = !read_section(sections == 1 ? &r : &trailers, b->at + at, length);
            if (r.unreadable) return r;
            r.large |= trailers.large;
        }
        if (type >= 2 && type <= 9) return r;
        if (type == 13) return r;
        at += length;
    }
    r.whole = sections > 0;
    return r;
}

/* ---- the stack that HTTP sees */

static struct seen *seen_of(struct run *r, uint64_t id) {
    HOLDS(id / 4 < STREAMS && !(id & 1));
    return (id & 2 ? r->oneways : r->requests) + id / 4;
}

static uint64_t stack_open(void *self) {
    HOLDS(!((struct run *)self)->closed);
    return 3;
}

static void stack_send(void *self, uint64_t id, const uint8_t *bytes, size_t count, int fin) {
    struct run *r = self;
    volatile uint8_t last = count ? bytes[count - 1] : 0; /* the bytes are there */
    (void)last;
    HOLDS(!r->closed);
    if (id == 3) {
        HOLDS(!fin);
        return;
    }
    HOLDS(!(id & 3));
    struct seen *s = seen_of(r, id);
    HOLDS(s == r->acting && s->fin && !s->reset && !s->refused && !s->answered);
    if (fin) s->answered = true;
}

static void stack_share(void *self, uint64_t id, struct content *content) {
    HOLDS(content->users && content->is.count);
    stack_send(self, id, content->is.at, content->is.count, 1);
}

static void stack_refuse(void *self, uint64_t id, uint64_t code) {
    struct run *r = self;
    HOLDS(!r->closed && !(id & 3));
    HOLDS(code >= 0x10b && code <= 0x10e);
    if (id / 4 >= STREAMS) return;
    struct seen *s = seen_of(r, id);
    HOLDS(!s->answered);
    HOLDS(!s->refused);
    s->refused = true;
}

static void stack_close(void *self, uint64_t code) {
    struct run *r = self;
    HOLDS(!r->closed);
    HOLDS((code >= 0x103 && code <= 0x10a) || (code >= 0x200 && code <= 0x202)); /* 0x102 would be a fault of the host */
    r->closed = true;
    if (code != 0x200) return;
    HOLDS(r->acting);
    struct reading read = read_all(&r->acting->bytes);
    HOLDS(read.unreadable);
    bytes_free(&read.content);
}

/* ---- what may not change but by a whole PUT */

static void check_settings(struct run *r, struct seen *s) {
    struct stat about;
    ino_t is = fstatat(gateway.folder, "settings", &about, 0) ? 0 : about.st_ino;
    if (is == settings) return;
    settings = is;
    HOLDS(is && s && s->fin && !s->reset && !s->refused && !r->closed && s->answered);
    struct reading read = read_all(&s->bytes);
    HOLDS(read.whole && read.put && read.stated && read.length == read.content.count);
    HOLDS((uint64_t)about.st_size == read.content.count);
    uint8_t *kept = must(malloc(read.content.count + 1));
    int file = openat(gateway.folder, "settings", O_RDONLY | O_CLOEXEC);
    HOLDS(pread(file, kept, read.content.count + 1, 0) == (ssize_t)read.content.count);
    HOLDS(!read.content.count || !memcmp(kept, read.content.at, read.content.count));
    close(file);
    free(kept);
    bytes_free(&read.content);
}

/* An answered request was a whole one with no section too large, and an answered upload stated its length. */
static void check_end(struct run *r, struct seen *s) {
    if (!s->answered) return;
    struct reading read = read_all(&s->bytes);
    HOLDS(read.whole && !read.large && !r->closed);
    HOLDS(!read.stated || read.length == read.content.count);
    HOLDS(!read.upload || read.stated);
    bytes_free(&read.content);
}

/* ---- events */

static uint8_t next(struct run *r) { return r->at < r->end ? *r->at++ : 0; }

static bool is_done(const struct seen *s) { return s->fin || s->reset || s->closed; }

static bool has_record(const struct http *h, uint64_t id) {
    for (size_t i = 0; i < EISTULKO_RECORDS; i++)
        if (h->row[i].kind && h->row[i].id == id) return true;
    return false;
}

/* From its first sign on, a stream has a record or was refused in a way that the client hears. */
static void meet_first(struct run *r, uint64_t id, struct seen *s) {
    s->met = true;
    s->refused = false;
    http_opened(r->http, id);
    HOLDS(r->closed || has_record(r->http, id) != s->refused);
}

static void bytes_event(struct run *r, uint64_t id, const uint8_t *from, size_t count, bool fin) {
    struct seen *s = seen_of(r, id);
    if (is_done(s)) return;
    if (!s->met) meet_first(r, id, s);
    uint8_t *piece = must(malloc(count ? count : 1)); /* of its own, so that a byte too far is seen */
    memcpy(piece, from, count);
    bytes_add(&s->bytes, piece, count);
    s->fin = fin;
    r->acting = s;
    http_bytes(r->http, id, piece, count, fin);
    r->acting = NULL;
    free(piece);
    if (fin) check_end(r, s);
    check_settings(r, s);
}

/* In pieces of `cut` bytes, if that is not 0. */
static void feed(struct run *r, uint64_t id, const struct bytes *b, size_t cut) {
    for (size_t at = 0; at < b->count;) {
        size_t part = cut && cut < b->count - at ? cut : b->count - at;
        bytes_event(r, id, b->at + at, part, false);
        at += part;
    }
}

static void add_head(struct bytes *b, uint64_t type, uint64_t length) {
    eistulko_written w = eistulko_write_header(type, length, bytes_room(b, 16), 16);
    b->count += w.count;
}

#define LINE(n, v) ((nghttp3_nv){(uint8_t *)(n), (uint8_t *)(v), strlen(n), strlen(v), NGHTTP3_NV_FLAG_NONE})

/* A HEADERS frame with one of a list of sections. */
static void add_section(struct bytes *b, uint8_t which, uint8_t number) {
    static const char *methods[] = {"GET", "PUT", "PUT", "PATCH", "HEAD", "POST", "CONNECT", "OPTIONS"};
    static const char *paths[] = {"/settings", "/log", "/", "*"};
    static char long_name[400];
    memset(long_name, 'n', sizeof long_name - 1);
    char length[24];
    snprintf(length, sizeof length, "%u", number == 255 ? 1048577 : number);
    nghttp3_nv lines[5 + 2 * 255] = {LINE(":method", methods[which & 7]), LINE(":scheme", "https"), LINE(":authority", "a"), LINE(":path", paths[which >> 3 & 3])};
    size_t n = 4;
    if (which & 0x80) lines[0] = LINE("trailer", "t"), n = 1;
    else if (which & 0x20) lines[n++] = LINE("content-length", length);
    if (which & 0x40 && !(number & 1)) lines[n++] = LINE(long_name, "y");
    else if (which & 0x40) /* from a few lines to more than a section may have */
        for (unsigned i = 0; i < 2u * number; i++) lines[n++] = LINE("x", "y");
    nghttp3_qpack_encoder *encoder;
    nghttp3_buf prefix, section, table;
    nghttp3_buf_init(&prefix);
    nghttp3_buf_init(&section);
    nghttp3_buf_init(&table);
    HOLDS(!nghttp3_qpack_encoder_new(&encoder, 0, nghttp3_mem_default()));
    HOLDS(!nghttp3_qpack_encoder_encode(encoder, &prefix, &section, &table, 0, lines, n));
    add_head(b, 1, nghttp3_buf_len(&prefix) + nghttp3_buf_len(&section));
    bytes_add(b, prefix.pos, nghttp3_buf_len(&prefix));
    bytes_add(b, section.pos, nghttp3_buf_len(&section));
    nghttp3_buf_free(&prefix, nghttp3_mem_default());
    nghttp3_buf_free(&section, nghttp3_mem_default());
    nghttp3_buf_free(&table, nghttp3_mem_default());
    nghttp3_qpack_encoder_del(encoder);
}

static void reset_event(struct run *r, uint64_t id, struct seen *s) {
    if (s->reset || s->closed) return; /* one may come after an end */
    s->reset = true;
    http_reset(r->http, id);
    check_settings(r, NULL);
    if (s->met) return;
    s->closed = true; /* one that was never met comes and goes with no other sign */
    r->granted[id >> 1 & 1]++;
}

static void closed_event(struct run *r, uint64_t id, struct seen *s) {
    if (s->closed || !s->met || (id & 2 && !is_done(s))) return;
    s->closed = true;
    http_closed(r->http, id);
    check_settings(r, NULL);
    r->granted[id >> 1 & 1]++;
}

static void one_event(struct run *r) {
    uint8_t what = next(r), which = next(r), much = next(r);
    size_t kind = which & 1;
    uint64_t number = (which >> 1) % STREAMS;
    if (number >= r->granted[kind]) number %= r->granted[kind] < STREAMS ? r->granted[kind] : STREAMS;
    uint64_t id = number * 4 + kind * 2;
    struct seen *s = seen_of(r, id);
    struct bytes b = {0};
    size_t count;
    switch (what & 7) {
    case 0: /* bytes as they stand */
    case 1:
        for (size_t n = much; n && r->at < r->end; n--) bytes_add(&b, r->at++, 1);
        feed(r, id, &b, what >> 3);
        break;
    case 2: /* a section of the list */
        add_section(&b, much, next(r));
        feed(r, id, &b, what >> 3);
        break;
    case 3: /* a DATA frame; at the high bit a long one */
        if (kind) break;
        count = what & 0x80 ? (size_t)much << 6 : much;
        add_head(&b, 0, count);
        memset(bytes_room(&b, count), which, count);
        b.count += count;
        feed(r, id, &b, (size_t)(what >> 3 & 15) << (what & 0x80 ? 6 : 0));
        break;
    case 4: /* an end, with bytes before it */
        for (size_t n = much; n && r->at < r->end; n--) bytes_add(&b, r->at++, 1);
        bytes_event(r, id, b.count ? b.at : (const uint8_t *)"", b.count, true);
        break;
    case 5:
        reset_event(r, id, s);
        break;
    case 6:
        closed_event(r, id, s);
        break;
    case 7:
        if (much > 0xe0) http_drain(r->http);
        if (much > 0x20) break;
        http_closed(r->http, 3); /* our control stream is stopped by the client */
        HOLDS(r->closed || !r->http->ready);
        break;
    }
    bytes_free(&b);
}

/* Every stream that is not over is reset: no record may be left. */
static void end_all(struct run *r) {
    for (uint64_t i = 0; i < STREAMS; i++) {
        if (r->requests[i].met && !is_done(&r->requests[i])) reset_event(r, i * 4, &r->requests[i]);
        if (r->requests[i].met) closed_event(r, i * 4, &r->requests[i]);
    }
    /* Those below a met one were opened with it, and the stack has yet to see them. */
    for (uint64_t i = 0; i < STREAMS && i * 4 < r->http->connection.requests; i++)
        if (!r->requests[i].met) reset_event(r, i * 4, &r->requests[i]);
    if (!r->closed) HOLDS(!http_open_requests(r->http) && !r->http->requests);
}

static bool is_known(const char *text) {
    if (*text >= '1' && *text <= '9') return strstr(text, " lines left out") != NULL;
    static const char *known[] = {"request refused with 0x", "connection closed with 0x", "settings of ", "request lost with its connection"};
    for (size_t i = 0; i < sizeof known / sizeof *known; i++)
        if (!strncmp(text, known[i], strlen(known[i]))) return true;
    return false;
}

/* A file has whole lines of the known kinds alone. */
static void check_lines(int file) {
    static char log[1 << 16];
    ssize_t n = pread(file, log, sizeof log - 1, 0);
    HOLDS(n >= 0);
    log[n] = 0;
    HOLDS((size_t)n == strlen(log));
    char *rest = NULL;
    for (char *line = strtok_r(log, "\n", &rest); line; line = strtok_r(NULL, "\n", &rest))
        HOLDS(n == sizeof log - 1 || (strlen(line) > 21 && line[19] == 'Z' && is_known(line + 21)));
    HOLDS(!ftruncate(file, 0));
}

/* A folder for this process, in the one that the runner gives and takes away. */
static void begin_folder(void) {
    static char folder[4096];
    if (gateway.folder) return;
    const char *in = getenv("FUZZ_FOLDER");
    snprintf(folder, sizeof folder, "%s/XXXXXX", in ? in : "/dev/shm");
    HOLDS(mkdtemp(folder) && !gateway_open(&gateway, folder));
}

int LLVMFuzzerTestOneInput(const uint8_t *data, size_t count) {
    begin_folder();
    struct run *r = must(calloc(1, sizeof *r));
    r->at = data;
    r->end = data + count;
    r->granted[0] = REQUESTS_AT_ONCE;
    r->granted[1] = ONEWAYS_AT_ONCE;
    r->http = must(malloc(sizeof *r->http));
    http_begin(r->http, (struct stack){r, stack_open, stack_send, stack_share, stack_refuse, stack_close}, &gateway);
    if (next(r) & 1) http_handshake(r->http);
    while (r->at < r->end) one_event(r);
    if (count & 1) end_all(r);
    http_end(r->http);
    check_settings(r, NULL);
    check_lines(gateway.log.file);
    check_lines(gateway.refused.file);
    for (size_t i = 0; i < STREAMS; i++) {
        bytes_free(&r->requests[i].bytes);
        bytes_free(&r->oneways[i].bytes);
    }
    free(r->http);
    free(r);
    return 0;
}
