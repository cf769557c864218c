/* What include/eistulko.h promises of every call, whatever is in the lent memory, held of one call at a time.
 *
 * Each call is made twice on equal memory: with its piece, block or room at the end of a heap block, where a sanitizer sees a byte too many, and
 * at the end of a page with a shut one behind it, where the machine does. Both have to answer and leave the same. */
#ifndef HELD_H
#define HELD_H

#include "eistulko.h"
#include "libc.h"

#if defined(__SANITIZE_ADDRESS__)
#define ADDRESSES_ARE_SEEN 1
#elif defined(__has_feature)
#if __has_feature(address_sanitizer)
#define ADDRESSES_ARE_SEEN 1
#endif
#endif

#ifdef ADDRESSES_ARE_SEEN
void __asan_poison_memory_region(void const volatile *from, size_t bytes);
void __asan_unpoison_memory_region(void const volatile *from, size_t bytes);
#else
#define __asan_poison_memory_region(from, bytes) ((void)(from), (void)(bytes))
#define __asan_unpoison_memory_region(from, bytes) ((void)(from), (void)(bytes))
#endif

/* ---- the lent memory, between guards */

#define LARGEST ((1ull << 62) - 1)
#define ROW_MOST 32 /* records that stand in memory; a call is lent any number of them */

typedef struct {
    uint8_t guard[32];
    eistulko_connection connection;
    uint8_t between[32];
    eistulko_record row[ROW_MOST];
    uint8_t behind[32];
} memory;

static void set_guards(memory *m) {
    memset(m->guard, 0xa5, sizeof m->guard);
    memset(m->between, 0x5a, sizeof m->between);
    memset(m->behind, 0xc3, sizeof m->behind);
}

/* While a call runs, an instrumented engine may touch the connection and the records that it was lent. */
static void shut_guards(memory *m, size_t records) {
    __asan_poison_memory_region(m->guard, sizeof m->guard);
    __asan_poison_memory_region(m->between, sizeof m->between);
    __asan_poison_memory_region(m->row + records, (size_t)((uint8_t *)(m + 1) - (uint8_t *)(m->row + records)));
}

static void open_guards(memory *m) { __asan_unpoison_memory_region(m, sizeof *m); }

/* ---- where a piece, a block or a room stands */

#define SHUT_BYTES (1u << 16) /* a multiple of any page */
#define PIECE_MOST (1u << 21)

static uint8_t *page_end; /* the first byte of the shut pages */

static void make_pages(void) {
    uint8_t *at = mmap(0, PIECE_MOST + SHUT_BYTES, READ_AND_WRITE, PRIVATE_AND_OF_NO_FILE, -1, 0);
    if (at == (void *)-1 || mprotect(at + PIECE_MOST, SHUT_BYTES, SHUT)) abort();
    page_end = at + PIECE_MOST;
}

/* ---- a call, and what it answers */

typedef enum { START, OPEN, FEED, GIVE, END, RESET, GOAWAY, HEADER, INTEGER, OPENING, KINDS } kind;

static const char *const kind_names[KINDS] = {"start", "open",   "feed",         "give",                "end",
                                              "reset", "goaway", "write_header", "write_integer_frame", "write_opening"};

typedef struct {
    kind kind;
    size_t records;       /* how many of the row are lent */
    uint64_t id;          /* the stream, or the ID of our GOAWAY, or the frame type to write */
    uint64_t value;       /* the allowance of a feed, or the length or integer to write */
    const uint8_t *bytes; /* the piece or block, or what is in the room */
    size_t count;
    int sound;            /* the pair had a start, and only our calls touched it since */
} call;

/* What no field speaks of for a kind of call is 0. */
typedef struct {
    eistulko_report report;
    eistulko_written written;
} answer;

static answer invoke(const call *c, memory *m, uint8_t *bytes) {
    eistulko_connection *connection = &m->connection;
    answer a = {0};
    switch (c->kind) {
    case START: a.report.number = eistulko_start(connection, m->row, c->records); break;
    case OPEN: a.report = eistulko_open(connection, m->row, c->records, c->id); break;
    case FEED: a.report = eistulko_feed(connection, m->row, c->records, c->id, bytes, c->count, c->value); break;
    case GIVE: a.report = eistulko_give(connection, m->row, c->records, c->id, bytes, c->count); break;
    case END: a.report = eistulko_end(connection, m->row, c->records, c->id); break;
    case RESET: a.report = eistulko_reset(connection, m->row, c->records, c->id); break;
    case GOAWAY: a.written = eistulko_goaway(connection, c->id, bytes, c->count); break;
    case HEADER: a.written = eistulko_write_header(c->id, c->value, bytes, c->count); break;
    case INTEGER: a.written = eistulko_write_integer_frame(c->id, c->value, bytes, c->count); break;
    case OPENING: a.written = eistulko_write_opening(bytes, c->count); break;
    default: abort();
    }
    return a;
}

/* ---- rules: each function answers the first that does not hold, in its own words, or null */

#define HOLD(rule)                                                                                                                                   \
    do {                                                                                                                                             \
        if (!(rule)) return #rule;                                                                                                                   \
    } while (0)

static int equal(const void *a, const void *b, size_t bytes) { return memcmp(a, b, bytes) == 0; }

static int only_number(const eistulko_report *r, uint64_t number) {
    return equal(r, &(eistulko_report){.number = number}, sizeof *r);
}

static int is_free(const eistulko_record *r) { return equal(r, &(eistulko_record){0}, sizeof *r); }

/* The first record that the call is about, and 24 if there is none. */
static size_t wanted(const call *c, const memory *m) {
    size_t at = 0;
    while (at < EISTULKO_RECORDS && (c->kind == OPEN ? !is_free(m->row + at) : m->row[at].kind == 0 || m->row[at].id != c->id)) at++;
    return at;
}

static const char *start_broken(const call *c, const answer *a, memory *expected) {
    HOLD(only_number(&a->report, c->records == EISTULKO_RECORDS ? 0 : 9));
    if (a->report.number == 0) {
        expected->connection = (eistulko_connection){.oneways = 2};
        memset(expected->row, 0, EISTULKO_RECORDS * sizeof *expected->row);
    }
    return 0;
}

/* What an opening of a live connection answers. */
static uint64_t opening_number(uint64_t id, const eistulko_connection *before, int has_free) {
    if (id > LARGEST || id % 2 || id != (id % 4 ? before->oneways : before->requests)) return 2;
    if (id % 4 == 0 && before->sent && before->ours <= id) return 0x010b;
    return has_free ? 0 : 3;
}

static const char *open_broken(const call *c, const answer *a, memory *expected, size_t at) {
    eistulko_connection *connection = &expected->connection;
    HOLD(only_number(&a->report, opening_number(c->id, connection, at < EISTULKO_RECORDS)));
    if (a->report.number == 0) expected->row[at] = (eistulko_record){.id = c->id, .kind = c->id % 4 ? 2 : 1};
    if (a->report.number == 0 || a->report.number == 0x010b) *(c->id % 4 ? &connection->oneways : &connection->requests) += 4;
    return 0;
}

static int waits_for_section(const eistulko_record *r) { return r->kind == 1 && (r->mode == 6 || r->mode == 7); }

/* A section that is due where none may come: no start and no call of ours leaves such a record, and the rules call it out of place. */
static int out_of_place(const eistulko_record *r) { return r->phase != (r->mode == 6 ? 0 : 1); }

/* What the end or a reset of an open stream answers. */
static uint64_t closing_number(kind k, const eistulko_record *r) {
    if (r->kind != 1) return r->kind >= 3 && r->kind <= 5 ? 0x0104 : 0;
    if (k == RESET) return 0;
    if (waits_for_section(r)) return 4;
    if (r->mode || r->due) return 0x0106;
    if (r->phase == 0) return 0x010d;
    return r->has && r->stated != r->sum ? 0x010e : 0;
}

/* Whether a call on an open stream may answer the number. */
static int may_answer(const call *c, const eistulko_record *r, uint64_t number) {
    kind k = c->kind;
    if (k == END || k == RESET) return number == closing_number(k, r);
    if (k == FEED && waits_for_section(r)) return number == 4;
    if (k == GIVE && !waits_for_section(r)) return number == 5;
    if (k == GIVE) return number == 0 || number == 6 || number == 0x010b || number == 0x010e || (number == 0x0105 && !c->sound && out_of_place(r));
    if (r->kind == 1) return number == 0 || number == 0x0105 || number == 0x0107 || number == 0x010c || number == 0x010e;
    return number == 0 || (eistulko_is_connection_fault(number) && number != EISTULKO_CLOSED_CRITICAL_STREAM);
}

static int is_fault(uint64_t number) { return eistulko_is_connection_fault(number) || eistulko_is_stream_fault(number); }

/* A refusal tells no event and no part, consumed something only where a byte brought a fault, and leaves what its number says. */
static const char *refusal_broken(const call *c, const answer *a, memory *expected, size_t at) {
    const eistulko_report *r = &a->report;
    HOLD(r->event == 0 && r->start == 0 && r->len == 0 && r->value == 0);
    if (c->kind == FEED && is_fault(r->number)) HOLD(r->used >= 1 && r->used <= c->count && r->heads <= c->value && 2 * r->heads <= r->used + 1);
    else HOLD(r->used == 0 && r->heads == 0);
    if (eistulko_is_connection_fault(r->number)) expected->connection.code = r->number;
    if (eistulko_is_stream_fault(r->number)) expected->row[at] = (eistulko_record){0};
    return 0;
}

/* The part of the piece ends where the feed stopped; an event without one has neither start nor length. */
static const char *event_broken(const eistulko_report *r, int request, const eistulko_connection *after) {
    int parted = r->event == EISTULKO_CONTENT || r->event == EISTULKO_SECTION || r->event == EISTULKO_SECTION_END || r->event == EISTULKO_QPACK;
    int told = r->event == EISTULKO_QPACK || r->event == EISTULKO_SETTINGS || r->event == EISTULKO_GOAWAY || r->event == EISTULKO_MAX_PUSH_ID;
    HOLD(r->event == EISTULKO_NOTHING || (request ? parted && r->event != EISTULKO_QPACK : told));
    HOLD(parted ? r->start <= r->used && r->len == r->used - r->start : r->start == 0 && r->len == 0);
    HOLD(!parted || r->event == EISTULKO_SECTION_END || r->len >= 1);
    HOLD(r->event == EISTULKO_NOTHING || r->used >= 1);
    switch (r->event) {
    case EISTULKO_QPACK: HOLD(r->value == 2 || r->value == 3); break;
    case EISTULKO_GOAWAY: HOLD(r->value == after->theirs); break;
    case EISTULKO_MAX_PUSH_ID: HOLD(r->value == after->push); break;
    default: HOLD(r->value == 0);
    }
    return 0;
}

/* Of the connection, a one-way stream's bytes alter what it was told by one-way streams; a request's alter nothing. */
static void take_told(eistulko_connection *expected, const eistulko_connection *after) {
    eistulko_connection told = *after;
    told.code = expected->code;
    told.requests = expected->requests;
    told.oneways = expected->oneways;
    told.sent = expected->sent;
    told.ours = expected->ours;
    *expected = told;
}

/* A CANCEL_PUSH payload before SETTINGS: no start and no call of ours leaves such a record. The rules judge it as SETTINGS, and it has no event. */
static int cancels_early(const eistulko_record *r) { return r->kind == 3 && r->mode == 11 && r->phase == 3; }

static const char *feed_broken(const call *c, const answer *a, memory *expected, const memory *after, size_t at) {
    const eistulko_report *r = &a->report;
    const eistulko_record *was = expected->row + at, *is = after->row + at;
    const char *rule = event_broken(r, was->kind == 1, &after->connection);
    if (rule) return rule;
    HOLD(r->used <= c->count && r->heads <= c->value && 2 * r->heads <= r->used + 1);
    HOLD(r->event || r->used == c->count || r->heads == c->value || (!c->sound && cancels_early(was)));
    HOLD(is->id == was->id && (is->kind == was->kind || (was->kind == 2 && is->kind >= 3 && is->kind <= 6)));
    HOLD((r->event == 3) == waits_for_section(is));
    HOLD(is->kind != 3 || after->connection.held <= sizeof after->connection.bytes);
    if (was->kind != 1) take_told(&expected->connection, &after->connection);
    expected->row[at] = *is;
    return 0;
}

static const char *accepted_broken(const call *c, const answer *a, memory *expected, const memory *after, size_t at) {
    int request = expected->row[at].kind == 1;
    switch (c->kind) {
    case FEED: return feed_broken(c, a, expected, after, at);
    case GIVE:
        HOLD(only_number(&a->report, 0));
        HOLD(after->row[at].kind == 1 && after->row[at].id == c->id);
        expected->row[at] = after->row[at];
        return 0;
    default:
        HOLD(equal(&a->report, &(eistulko_report){.event = request && c->kind == END ? 11 : 12}, sizeof a->report));
        expected->row[at] = (eistulko_record){0};
        return 0;
    }
}

/* A call on one stream: 9; the code of a dead connection, whatever number it is; then what a live one answers. */
static const char *stream_broken(const call *c, const answer *a, memory *expected, const memory *after) {
    uint64_t code = expected->connection.code;
    size_t at = wanted(c, expected);
    if (c->records != EISTULKO_RECORDS) {
        HOLD(only_number(&a->report, 9));
        return 0;
    }
    if (code) {
        HOLD(only_number(&a->report, code));
        return 0;
    }
    if (c->kind == OPEN) return open_broken(c, a, expected, at);
    if (a->report.number == 1) {
        HOLD(only_number(&a->report, 1));
        HOLD(at == EISTULKO_RECORDS || !c->sound);
        return 0;
    }
    HOLD(at < EISTULKO_RECORDS && may_answer(c, expected->row + at, a->report.number));
    if (a->report.number) return refusal_broken(c, a, expected, at);
    return accepted_broken(c, a, expected, after, at);
}

/* ---- writes */

/* An integer in its shortest form: how many bytes it takes. */
static size_t put_integer(uint8_t *to, uint64_t value) {
    unsigned size = value < 1u << 6 ? 0 : value < 1u << 14 ? 1 : value < 1u << 30 ? 2 : 3;
    size_t bytes = (size_t)1 << size;
    for (size_t i = 0; i < bytes; i++) to[i] = (uint8_t)(value >> 8 * (bytes - 1 - i));
    to[0] |= (uint8_t)(size << 6);
    return bytes;
}

/* What a write has to put into a room that is long enough. */
static size_t put_expected(uint8_t *to, const call *c) {
    static const uint8_t opening[] = {0x00, 0x04, 0x09, 0x01, 0x00, 0x06, 0x80, 0x00, 0x40, 0x00, 0x07, 0x00};
    uint8_t payload[8];
    size_t n = 0, length;
    switch (c->kind) {
    case HEADER: n = put_integer(to, c->id); return n + put_integer(to + n, c->value);
    case OPENING: memcpy(to, opening, sizeof opening); return sizeof opening;
    default:
        length = put_integer(payload, c->kind == GOAWAY ? c->id : c->value);
        n = put_integer(to, c->kind == GOAWAY ? 7 : c->id);
        n += put_integer(to + n, length);
        memcpy(to + n, payload, length);
        return n + length;
    }
}

static int bad_value(const call *c, const eistulko_connection *before) {
    switch (c->kind) {
    case GOAWAY: return c->id > LARGEST || c->id % 4 || (before->sent && c->id > before->ours);
    case OPENING: return 0;
    default: return c->id > LARGEST || c->value > LARGEST;
    }
}

static const char *write_broken(const call *c, const answer *a, memory *expected, const uint8_t *room) {
    uint8_t bytes[24];
    eistulko_written want = {0};
    if (c->kind == GOAWAY && expected->connection.code) want.number = expected->connection.code;
    else if (bad_value(c, &expected->connection)) want.number = 8;
    else want.count = put_expected(bytes, c);
    if (want.count > c->count) want = (eistulko_written){.number = 7};
    HOLD(a->written.number == want.number && a->written.count == want.count);
    HOLD(equal(room, bytes, want.count));
    HOLD(equal(room + want.count, c->bytes + want.count, c->count - want.count));
    if (c->kind == GOAWAY && want.number == 0) expected->connection.sent = 1, expected->connection.ours = c->id;
    return 0;
}

/* ---- a call, made twice and held */

static const char *broken(const call *c, const memory *before, const answer *a, const memory *after, const uint8_t *bytes) {
    memory expected = *before;
    const char *rule;
    if (c->kind == START) rule = start_broken(c, a, &expected);
    else if (c->kind < GOAWAY) rule = stream_broken(c, a, &expected, after);
    else rule = write_broken(c, a, &expected, bytes);
    if (rule) return rule;
    HOLD(c->kind >= GOAWAY || equal(bytes, c->bytes, c->count));
    HOLD(equal(after, &expected, sizeof expected));
    return 0;
}

/* How a call is made: `invoke`, or a way that also measures it. */
typedef answer way(const call *c, memory *m, uint8_t *bytes);

static answer made(way *by, const call *c, memory *m, uint8_t *bytes) {
    memcpy(bytes, c->bytes, c->count);
    shut_guards(m, c->records);
    answer a = by(c, m, bytes);
    open_guards(m);
    return a;
}

/* Makes the call on m: the rule that did not hold, or null. */
static const char *held(way *by, const call *c, memory *m, answer *a) {
    static memory twin, before;
    uint8_t *heap = c->count ? malloc(c->count) : page_end, *page = page_end - c->count; /* a heap block of no byte may have one */
    before = twin = *m;
    *a = made(by, c, m, heap);
    answer b = made(by, c, &twin, page);
    const char *rule = broken(c, &before, a, m, heap);
    if (!rule && !equal(a, &b, sizeof b)) rule = "one answer";
    if (!rule && !(equal(m, &twin, sizeof twin) && equal(heap, page, c->count))) rule = "one content of the lent memory";
    if (c->count) free(heap);
    return rule;
}

#endif
