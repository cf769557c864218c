#include "http.h"

#include <inttypes.h>
#include <stdbool.h>

/* What the host keeps beside a request's record: its section until it is complete, what it asks for, and its content. */
struct request {
    struct request *next;
    uint64_t id;
    bool begun; /* the header section was taken; another section is trailers */
    char method[8], path[16]; /* empty where longer than any that the gateway knows: nobody makes us keep 16 KiB of them */
    unsigned fields;
    struct bytes section, content;
};

/* The engine's two, as every call takes them. */
#define PAIR(h) &(h)->connection, (h)->row, EISTULKO_RECORDS

/* ---- requests */

static struct request *find(struct http *h, uint64_t id) {
    struct request *r = h->requests;
    while (r && r->id != id) r = r->next;
    return r;
}

static void add(struct http *h, uint64_t id) {
    struct request *r = must(calloc(1, sizeof *r));
    r->id = id;
    r->next = h->requests;
    h->requests = r;
}

static void drop(struct http *h, uint64_t id) {
    for (struct request **at = &h->requests; *at; at = &(*at)->next) {
        struct request *r = *at;
        if (r->id != id) continue;
        *at = r->next;
        bytes_free(&r->section);
        bytes_free(&r->content);
        free(r);
        return;
    }
}

size_t http_open_requests(struct http *h) {
    size_t n = 0;
    for (size_t i = 0; i < EISTULKO_RECORDS; i++) n += h->row[i].kind == 1;
    return n;
}

size_t http_held(struct http *h) {
    size_t n = 0;
    for (struct request *r = h->requests; r; r = r->next) n += sizeof *r + r->section.room + r->content.room;
    return n;
}

/* ---- refusals */

static void close_with(struct http *h, uint64_t code) {
    if (h->dead) return;
    h->dead = 1;
    gateway_note(h->gateway, "connection closed with 0x%04" PRIx64, code);
    h->stack.close(h->stack.self, code);
}

static void refuse(struct http *h, uint64_t id, uint64_t code) {
    h->refused++;
    gateway_note(h->gateway, "request refused with 0x%04" PRIx64, code);
    drop(h, id);
    h->stack.refuse(h->stack.self, id, code);
}

/* What a call answered, if not 0. Numbers 1 to 9 would be a fault of this host, as it opens in order and gives what is due. */
static bool accepted(struct http *h, uint64_t id, uint64_t number) {
    if (number == EISTULKO_ACCEPTED) return true;
    if (eistulko_is_stream_fault(number)) refuse(h, id, number);
    else close_with(h, eistulko_is_connection_fault(number) ? number : H3_INTERNAL_ERROR);
    return false;
}

/* The host gives a request up by itself: for the engine that is a reset. */
static void give_up(struct http *h, uint64_t id, uint64_t code) {
    if (accepted(h, id, eistulko_reset(PAIR(h), id).number)) refuse(h, id, code);
}

/* ---- answers */

static void send_head(struct http *h, uint64_t id, uint64_t type, size_t count, int fin) {
    uint8_t head[16];
    eistulko_written w = eistulko_write_header(type, count, head, sizeof head);
    h->stack.send(h->stack.self, id, head, w.count, fin);
}

/* HEAD gets the fields alone, and so does who has what there is. */
static void answer(struct http *h, const struct request *r, const struct answer *a) {
    bool bare = !strcmp(r->method, "HEAD") || a->status == 304;
    char status[12], length[24];
    snprintf(status, sizeof status, "%d", a->status);
    size_t count = a->content->is.count;
    snprintf(length, sizeof length, "%zu", count);
    struct line lines[] = {{":status", status}, {"content-type", "text/plain"}, {"content-length", length}, {"allow", a->allow}};
    struct bytes section = {0};
    qpack_encode(h->qpack, r->id, lines, a->allow ? 4 : 3, &section);
    send_head(h, r->id, 1, section.count, 0);
    h->stack.send(h->stack.self, r->id, section.at, section.count, bare);
    if (!bare) send_head(h, r->id, 0, count, !count);
    if (!bare && count) h->stack.share(h->stack.self, r->id, a->content);
    bytes_free(&section);
}

static void act(struct http *h, struct request *r) {
    struct answer a = {0};
    struct asked q = {r->method, r->path, r->fields, r->content.at, r->content.count};
    h->whole++;
    gateway_answer(h->gateway, &q, &a);
    answer(h, r, &a);
    content_leave(a.content);
}

/* ---- sections */

/* A field line of a block that the engine has accepted. */
struct read_line {
    const uint8_t *name, *value;
    size_t name_count, value_count;
};

static const uint8_t *read_line(const uint8_t *at, struct read_line *line) {
    size_t length = (size_t)(at[0] | at[1] << 8), n = (size_t)(at[4] | at[5] << 8);
    *line = (struct read_line){at + 6, at + 6 + n, n, length - 4 - n};
    return at + 2 + length;
}

static bool is(const uint8_t *bytes, size_t count, const char *text) { return count == strlen(text) && !memcmp(bytes, text, count); }

static void keep_text(char *to, size_t room, const struct read_line *line) {
    if (line->value_count < room) memcpy(to, line->value, line->value_count); /* the rest is 0 */
}

/* What a line says of the request beside its method and its path. */
static unsigned meaning(const struct read_line *line) {
    bool any = is(line->value, line->value_count, "*");
    if (is(line->name, line->name_count, "content-range")) return ASKED_PART;
    if (is(line->name, line->name_count, "if-match")) return any ? ASKED_IF_ANY : ASKED_IF_TAG;
    if (is(line->name, line->name_count, "if-none-match")) return any ? ASKED_IF_NONE : 0; /* no settings have a tag */
    if (is(line->name, line->name_count, "if-unmodified-since")) return ASKED_IF_OLD;
    return 0;
}

/* A header section was accepted. */
static void begin(struct request *r, const struct bytes *block) {
    r->begun = true;
    for (const uint8_t *at = block->at, *end = at + block->count; at < end;) {
        struct read_line line;
        at = read_line(at, &line);
        if (is(line.name, line.name_count, ":method")) keep_text(r->method, sizeof r->method, &line);
        if (is(line.name, line.name_count, ":path")) keep_text(r->path, sizeof r->path, &line);
        r->fields |= meaning(&line);
    }
}

/* The section is due: it is decoded and given. */
static void give(struct http *h, struct request *r) {
    struct bytes block = {0};
    bytes_room(&block, 1);
    uint64_t code = qpack_decode(h->qpack, r->id, r->section.at, r->section.count, &block);
    if (eistulko_is_stream_fault(code)) give_up(h, r->id, code);
    else if (code) close_with(h, code);
    else if (accepted(h, r->id, eistulko_give(PAIR(h), r->id, block.at, block.count).number)) {
        bytes_free(&r->section);
        if (!r->begun) begin(r, &block);
    }
    bytes_free(&block);
}

/* ---- streams */

/* A stream of the client's is met: it and every lower one of its kind that is not open yet are opened, in order. */
static void meet(struct http *h, uint64_t id) {
    const uint64_t *next = id & 2 ? &h->connection.oneways : &h->connection.requests;
    while (!h->dead && *next <= id) {
        uint64_t opened = *next;
        if (accepted(h, opened, eistulko_open(PAIR(h), opened).number) && !(opened & 2)) add(h, opened);
    }
}

/* The event of a feed. A part of it lies in the piece. */
static void take(struct http *h, uint64_t id, const eistulko_report *e, const uint8_t *piece) {
    struct request *r = find(h, id);
    uint64_t code;
    switch (e->event) {
    case EISTULKO_CONTENT:
        bytes_add(&r->content, piece + e->start, e->len);
        break;
    case EISTULKO_SECTION:
    case EISTULKO_SECTION_END:
        bytes_add(&r->section, piece + e->start, e->len);
        if (e->event == EISTULKO_SECTION_END) give(h, r);
        break;
    case EISTULKO_QPACK:
        code = qpack_heard(h->qpack, e->value, piece + e->start, e->len);
        if (code) close_with(h, code);
        break;
    }
}

/* A request that was refused has no record any more, and its bytes no meaning. */
static bool is_over(struct http *h, uint64_t id) {
    return h->dead || (!(id & 2) && !find(h, id));
}

static void finish(struct http *h, uint64_t id) {
    eistulko_report e = eistulko_end(PAIR(h), id);
    if (!accepted(h, id, e.number)) return;
    if (e.event == EISTULKO_WHOLE) act(h, find(h, id));
    drop(h, id);
}

void http_opened(struct http *h, uint64_t id) {
    bool met = id < (id & 2 ? h->connection.oneways : h->connection.requests);
    meet(h, id);
    if (met && !h->dead && is_over(h, id)) h->stack.refuse(h->stack.self, id, EISTULKO_REQUEST_REJECTED);
}

void http_bytes(struct http *h, uint64_t id, const uint8_t *piece, size_t count, int fin) {
    meet(h, id);
    while (count && !is_over(h, id)) {
        eistulko_report e = eistulko_feed(PAIR(h), id, piece, count, UINT64_MAX); /* a packet bounds the work of a call */
        if (!accepted(h, id, e.number)) return;
        take(h, id, &e, piece);
        piece += e.used;
        count -= e.used;
    }
    if (fin && !is_over(h, id)) finish(h, id);
}

void http_reset(struct http *h, uint64_t id) {
    meet(h, id);
    if (is_over(h, id)) return;
    uint64_t number = eistulko_reset(PAIR(h), id).number;
    drop(h, id);
    if (number != EISTULKO_NOT_OPEN) accepted(h, id, number); /* a one-way stream may have ended before */
}

void http_closed(struct http *h, uint64_t id) {
    if (h->ready && id == h->control) close_with(h, EISTULKO_CLOSED_CRITICAL_STREAM); /* the client asked us to stop: RFC 9114, 6.2.1 */
    else if (find(h, id)) http_reset(h, id);
}

/* ---- the connection */

void http_begin(struct http *h, struct stack stack, struct gateway *gateway) {
    *h = (struct http){.stack = stack, .gateway = gateway, .qpack = qpack_new()};
    eistulko_start(PAIR(h));
}

void http_handshake(struct http *h) {
    uint8_t opening[12];
    eistulko_written w = eistulko_write_opening(opening, sizeof opening);
    h->control = h->stack.open(h->stack.self);
    h->stack.send(h->stack.self, h->control, opening, w.count, 0);
    h->ready = 1;
    if (h->draining) http_drain(h);
}

void http_drain(struct http *h) {
    uint8_t frame[10];
    h->draining = 1;
    if (!h->ready || h->dead) return;
    eistulko_written w = eistulko_goaway(&h->connection, h->connection.requests, frame, sizeof frame);
    if (w.number == EISTULKO_ACCEPTED) h->stack.send(h->stack.self, h->control, frame, w.count, 0);
}

void http_end(struct http *h) {
    while (h->requests) {
        uint64_t id = h->requests->id;
        if (!h->dead) gateway_note(h->gateway, "request lost with its connection");
        eistulko_reset(PAIR(h), id);
        drop(h, id);
    }
    if (h->connection.code) eistulko_start(PAIR(h)); /* after a connection fault no reset frees a record */
    qpack_free(h->qpack);
}
