/* A schedule of calls, read from bytes: how the memory is filled, then call after call, each of them held (held.h).
 * Any bytes are a schedule; what is past their end reads as 0. tests/link plays random ones, tests/fuzz those that reach new code. */
#ifndef PLAYED_H
#define PLAYED_H

#include "held.h"

typedef struct {
    const uint8_t *at, *end;
} source;

static uint64_t take(source *s, unsigned bytes) {
    uint64_t value = 0;
    for (unsigned i = 0; i < bytes && s->at < s->end; i++) value |= (uint64_t)*s->at++ << 8 * i;
    return value;
}

static uint64_t noise(uint64_t *state) {
    *state ^= *state << 13;
    *state ^= *state >> 7;
    *state ^= *state << 17;
    return *state * 0x2545f4914f6cdd1dull;
}

static void fill_with_noise(void *to, size_t bytes, uint64_t seed) {
    uint64_t state = 2 * seed + 1, word = 0;
    for (size_t i = 0; i < bytes; i++, word >>= 8) {
        if (i % 8 == 0) word = noise(&state);
        ((uint8_t *)to)[i] = (uint8_t)word;
    }
}

/* ---- memory that is nearly sound: fields from small sets */

static uint64_t take_number(source *s) {
    static const uint64_t numbers[] = {0, 1, 2, 3, 4, 8, 63, 255, 256, 257, 16384, 16385, 1048576, 1048577, LARGEST, LARGEST + 1};
    uint64_t which = take(s, 1);
    return which < 128 ? which % 8 : which < 240 ? numbers[which % 16] : take(s, 8);
}

/* Most records have nothing in fields that their kind, mode or phase does not use, as a sound one has. */
static void tidy(eistulko_record *r) {
    r->owner = 0, r->room = 0;
    if (r->kind == 3) r->phase = r->phase % 2 + 3, r->mode = r->mode < 3 ? r->mode : r->mode % 4 + 8;
    else if (r->kind > 1) r->phase = 0, r->mode = 0;
    else r->phase %= 3, r->mode %= 8;
    if (r->phase % 3 == 0 || r->phase > 2) r->has = 0, r->stated = 0, r->sum = 0;
    if (!r->has) r->stated = 0;
    if (r->mode != 1) r->ftype = 0;
    if (r->mode > 1) r->due = 0;
    if (r->mode == 6 || r->mode == 7 || (r->mode < 2 && !r->due)) r->acc = 0;
    if (r->mode == 4 || r->mode == 6) r->phase = 0, r->has = 0, r->stated = 0, r->sum = 0;
}

static void fill_record(source *s, eistulko_record *r) {
    unsigned how = (unsigned)take(s, 1);
    memset(r, 0, sizeof *r);
    if (how < 64) return;
    if (how < 72) {
        fill_with_noise(r, sizeof *r, take(s, 8));
        return;
    }
    r->kind = (uint8_t)(take(s, 1) % 8);
    r->id = 4 * (take(s, 1) % 32) + (r->kind > 1 ? 2 : 0);
    r->mode = (uint8_t)(take(s, 1) % 12);
    r->phase = (uint8_t)(take(s, 1) % 5);
    r->due = (uint8_t)(take(s, 1) % 8);
    r->has = (uint8_t)(take(s, 1) % 2);
    r->acc = take_number(s), r->ftype = take_number(s), r->stated = take_number(s), r->sum = take_number(s);
    r->owner = (uint8_t)(how % 3), r->room = (uint16_t)(how % 5);
    if (how >= 80) tidy(r);
}

static void fill_connection(source *s, eistulko_connection *c) {
    uint64_t *const flags[] = {&c->sent, &c->control, &c->encoder, &c->decoder, &c->set, &c->limited, &c->goaways, &c->pushes};
    uint64_t *const numbers[] = {&c->size, &c->capacity, &c->blocked, &c->theirs, &c->push, &c->held};
    unsigned bits = (unsigned)take(s, 1);
    for (unsigned i = 0; i < 8; i++) *flags[i] = bits >> i & 1;
    for (unsigned i = 0; i < 6; i++) *numbers[i] = take_number(s);
    c->code = take(s, 1) < 240 ? 0 : take_number(s);
    c->requests = 4 * take_number(s), c->oneways = 4 * take_number(s) + 2, c->ours = 4 * take_number(s);
    fill_with_noise(c->bytes, sizeof c->bytes, take(s, 1));
}

/* ---- bytes for a call: a piece of a stream or a section block */

#define BYTES_MOST (1u << 16)

typedef struct {
    uint8_t bytes[BYTES_MOST];
    size_t count;
} text;

static void add(text *t, const void *bytes, size_t count) {
    if (count > BYTES_MOST - t->count) count = BYTES_MOST - t->count;
    memcpy(t->bytes + t->count, bytes, count);
    t->count += count;
}

static void take_raw(source *s, text *t) {
    size_t count = (size_t)take(s, 1);
    if (count == 255) count = (size_t)take(s, 2);
    if (count > (size_t)(s->end - s->at)) count = (size_t)(s->end - s->at);
    add(t, s->at, count);
    s->at += count;
}

typedef struct {
    size_t count;
    const uint8_t *bytes;
} token;

#define FRAME(hex) {sizeof hex - 1, (const uint8_t *)hex}
#define COUNT(list) (sizeof(list) / sizeof *(list))

/* What clients send and what they may not, the sound ones first: on a request stream, on a control stream, and as a one-way stream begins. */
static const token of_request[] = {
    FRAME("\x01\x01\x00"), FRAME("\x01\x00"), FRAME("\x40\x01\x40\x02xy"), FRAME("\x00\x03xyz"), FRAME("\x00\x00"), FRAME("\x00\x01w\x00\x02uv"),
    FRAME("\x21\x00"), FRAME("\xc0\x00\x00\x00\x00\x00\x00\x21\x01t"), FRAME("\x01\x80\x00\x40\x00"), FRAME("\x00\x80\x10\x00\x00"),
    FRAME("\x21\xff\xff\xff\xff\xff\xff\xff\xff"), FRAME("\x01"), FRAME("\x80\x00\x00"), FRAME("\x01\x80\x00\x40\x01"), FRAME("\x00\x80\x10\x00\x01"),
    FRAME("\x00\xff\xff\xff\xff\xff\xff\xff\xff"), FRAME("\x04\x00"), FRAME("\x05\x00"), FRAME("\x02\x00"), FRAME("\x07\x01\x00"),
};
static const token of_control[] = {
    FRAME("\x07\x01\x05"), FRAME("\x07\x02\x40\x03"), FRAME("\x0d\x01\x07"), FRAME("\x0d\x08\xff\xff\xff\xff\xff\xff\xff\xff"), FRAME("\x21\x00"),
    FRAME("\x21\x02uv"), FRAME("\x07"), FRAME("\x0d\x08\x00"), FRAME("\x04\x00"), FRAME("\x07\x00"), FRAME("\x07\x02\x05\x05"), FRAME("\x0d\x09"),
    FRAME("\x03\x01\x00"), FRAME("\x03\x02\x00\x00"), FRAME("\x05\x00"), FRAME("\x09\x00"), FRAME("\x00\x00"), FRAME("\x01\x00"),
};
static const token of_begin[] = {
    FRAME("\x00\x04\x00"), FRAME("\x00\x04\x04\x06\x05\x07\x03"), FRAME("\x00\x04\x04\x01\x40\x64\x33\x01"), FRAME("\x00\x04\x02\x06\x05\x0d\x01\x07"),
    FRAME("\x00\x04\x41\x00\x21\x00"), FRAME("\x02"), FRAME("\x40\x02q"), FRAME("\x03rs"), FRAME("\x21t"), FRAME("\x00"), FRAME("\xc0\x00"), FRAME("\x01"),
    FRAME("\x00\x07\x01"), FRAME("\x00\x04\x02\x02\x00"), FRAME("\x00\x04\x04\x06\x01\x06\x02"), FRAME("\x00\x04\x01\x06"), FRAME("\x00\x04\x41\x01"),
};

/* What a request has to say, each in six ways: the first is sound. An upload must also state a length. */
#define WAYS 6
static const char *const asked[4][1 + WAYS] = {
    {":method", "GET", "PUT", "POST", "OPTIONS", "CONNECT", ""},
    {":scheme", "https", "http", "https", "ftp", "HTTP", ""},
    {":path", "/", "/x", "*", "*", "x", ""},
    {":authority", "h", "h", "g", "a@h", "@", ""},
};

/* What else it may say, the sound ones first. */
static const char *const fields[][2] = {
    {"host", "h"}, {"name", "v"}, {"name", ""}, {"te", "trailers"}, {"cookie", "a=b\x09\x80"}, {"content-length", "0"}, {"content-length", "3"},
    {"content-length", "6"}, {"content-length", "1048576"}, {"content-length", "0003"}, {"content-length", "1048577"}, {"content-length", "4611686018427387904"},
    {"content-length", "99999999999999999999999"}, {"content-length", "3x"}, {"content-length", ""}, {"host", "g"}, {"host", ""}, {":status", "200"},
    {":path", "/"}, {"te", "gzip"}, {"connection", "close"}, {"keep-alive", "1"}, {"proxy-connection", "x"}, {"transfer-encoding", "x"}, {"upgrade", "x"},
    {"Name", "v"}, {"name", " v"}, {"name", "v\x09"}, {"", "v"}, {"na me", "v"}, {"name", "a\x01"},
};

static size_t length_of(const char *s) {
    size_t n = 0;
    while (s[n]) n++;
    return n;
}

static void add_line(text *t, const char *name, const char *value) {
    size_t n = length_of(name), v = length_of(value), all = 4 + n + v;
    const uint8_t head[] = {(uint8_t)all, (uint8_t)(all >> 8), 1, 0, (uint8_t)n, (uint8_t)(n >> 8)};
    add(t, head, sizeof head);
    add(t, name, n);
    add(t, value, v);
}

static void add_sound(text *t, const char *method) {
    add_line(t, asked[0][0], method);
    for (unsigned i = 1; i < 4; i++) add_line(t, asked[i][0], asked[i][1]);
}

#define SECTION_LIMIT 16384u
#define LINE_SIZE 32u /* what each line adds to its name and value bytes */

/* So many lines, which come to that size; the first has a value, and each name is one byte. */
static void add_lines(text *t, size_t size, size_t lines) {
    static char value[SECTION_LIMIT + 1];
    size_t length = size - lines * (LINE_SIZE + 1);
    memset(value, 'v', length);
    value[length] = 0;
    for (size_t i = 0; i < lines; i++) add_line(t, "n", i ? "" : value);
}

/* One of so many, and mostly of the first half. */
static size_t take_choice(source *s, size_t many) {
    size_t which = (size_t)take(s, 1);
    return which < 192 ? which % (many / 2) : which % many;
}

static void take_cut(source *s, text *t) {
    size_t less = (size_t)take(s, 1);
    if (less >= 224 && t->count) t->count = less % t->count;
}

static void take_frames(source *s, text *t, const token *list, size_t many) {
    for (unsigned i = (unsigned)take(s, 1) % 4 + 1; i; i--) {
        const token *f = list + take_choice(s, many);
        add(t, f->bytes, f->count);
    }
}

/* Mostly what the stream may send. */
static void take_piece(source *s, text *t, unsigned stream) {
    unsigned how = (unsigned)take(s, 1) % 16;
    t->count = 0;
    if (how == 0) take_raw(s, t);
    else if (how == 1 || stream == 2) take_frames(s, t, of_begin, COUNT(of_begin));
    else if (how == 2 || stream == 3) take_frames(s, t, of_control, COUNT(of_control));
    else take_frames(s, t, of_request, COUNT(of_request));
    take_cut(s, t);
}

static void take_asked(source *s, text *t) {
    for (unsigned i = 0; i < 4; i++) {
        unsigned which = (unsigned)take(s, 1);
        if (which < 240) add_line(t, asked[i][0], asked[i][1 + (which < 160 ? 0 : which % WAYS)]);
    }
}

static void take_block(source *s, text *t) {
    unsigned how = (unsigned)take(s, 1) % 16;
    t->count = 0;
    if (how == 0) take_raw(s, t);
    else if (how < 4) take_asked(s, t);
    else if (how < 14) add_sound(t, how < 12 ? "GET" : how == 12 ? "PUT" : "PATCH");
    for (unsigned i = (unsigned)take(s, 1) % 4; i; i--) {
        size_t which = take_choice(s, COUNT(fields));
        add_line(t, fields[which][0], fields[which][1]);
    }
    unsigned full = (unsigned)take(s, 1); /* as large as a section may be, and too large with any other line */
    if (full > 250) add_lines(t, SECTION_LIMIT, full > 253 ? SECTION_LIMIT / (LINE_SIZE + 1) : 1);
    take_cut(s, t);
}

/* ---- a schedule */

typedef struct {
    memory lent;
    int sound;                           /* what a call may count on: see `call` */
    text piece;                          /* of the last feed.. */
    uint64_t id;                         /* ..its stream.. */
    size_t used;                         /* ..and how much of it was consumed */
    way *by;                             /* how calls are made */
    kind kind;                           /* of the last one.. */
    uint64_t number, event;              /* ..and what it answered */
    uint64_t calls, kinds[KINDS];        /* how many were made, in all and of each kind */
    uint64_t numbers[0x10f], events[13]; /* how often each came while the connection lived */
} play;

static int may_be_for(kind k, const eistulko_record *r) { return r->kind && (k != GIVE || r->mode == 6 || r->mode == 7); }

/* The place of a record that the call may be about, one of those that there are; else of any. */
static size_t take_place(source *s, const memory *m, kind k) {
    size_t places[EISTULKO_RECORDS], many = 0, which = (size_t)take(s, 1);
    for (size_t i = 0; i < EISTULKO_RECORDS; i++)
        if (may_be_for(k, m->row + i)) places[many++] = i;
    return many ? places[which % many] : which % EISTULKO_RECORDS;
}

static uint64_t take_id(source *s, const memory *m, kind k) {
    unsigned how = (unsigned)take(s, 1);
    if (how >= 248) return take(s, 8);
    if (how >= 240) return take(s, 1);
    if (k != OPEN) return m->row[take_place(s, m, k)].id;
    return how % 2 ? m->connection.requests : m->connection.oneways;
}

static size_t take_records(source *s) {
    unsigned which = (unsigned)take(s, 1);
    return which < 240 ? EISTULKO_RECORDS : take(s, 1) % (ROW_MOST + 1);
}

static uint64_t take_allowance(source *s) {
    unsigned which = (unsigned)take(s, 1);
    return which < 128 ? UINT64_MAX : which < 250 ? which % 5 : take(s, 8);
}

/* The rule that did not hold, or null. */
static const char *make(play *p, const call *c, answer *a) {
    int alive = p->lent.connection.code == 0;
    call known = *c;
    known.sound = p->sound;
    const char *rule = held(p->by, &known, &p->lent, a);
    if (c->kind == START && a->report.number == 0) p->sound = 1;
    p->kind = c->kind, p->number = a->report.number + a->written.number, p->event = a->report.event;
    p->calls++;
    p->kinds[c->kind]++;
    if (!rule && alive) p->numbers[p->number]++, p->events[a->report.event]++;
    return rule;
}

/* Offers what the last feed did not consume, or a part of it, to the same stream. */
static const char *offer(play *p, size_t records, uint64_t allowance, size_t most) {
    size_t left = p->piece.count - p->used;
    call c = {FEED, records, p->id, allowance, p->piece.bytes + p->used, left < most ? left : most, 0};
    answer a;
    const char *rule = make(p, &c, &a);
    if (!rule) p->used += (size_t)a.report.used;
    return rule;
}

static const char *feed_piece(play *p, source *s) {
    p->id = take_id(s, &p->lent, FEED);
    size_t records = take_records(s), at = wanted(&(call){.kind = FEED, .id = p->id}, &p->lent);
    uint64_t allowance = take_allowance(s);
    take_piece(s, &p->piece, p->lent.row[at].kind);
    p->used = 0;
    return offer(p, records, allowance, SIZE_MAX);
}

static const char *feed_again(play *p, source *s) {
    unsigned most = (unsigned)take(s, 1);
    return offer(p, EISTULKO_RECORDS, take_allowance(s), most < 128 ? SIZE_MAX : most % 8);
}

static const char *call_stream(play *p, source *s, kind k) {
    static text block;
    uint64_t id = k == START ? 0 : take_id(s, &p->lent, k);
    call c = {k, take_records(s), id, 0, block.bytes, 0, 0};
    answer a;
    if (k == GIVE) take_block(s, &block), c.count = block.count;
    return make(p, &c, &a);
}

static const char *write_frame(play *p, source *s, kind k) {
    uint8_t room[24];
    memset(room, (int)take(s, 1), sizeof room);
    uint64_t id = take_number(s), value = take_number(s);
    size_t bytes = (size_t)take(s, 1) % (sizeof room + 1);
    if (k == GOAWAY && value != 1) id *= 4; /* mostly an ID that ours may have */
    call c = {k, EISTULKO_RECORDS, id, value, room, bytes, 0};
    answer a;
    return make(p, &c, &a);
}

/* A few bits of the lent memory turned, as a host never should. */
static void flip(play *p, source *s) {
    p->sound = 0;
    for (unsigned many = (unsigned)take(s, 1) % 4 + 1; many; many--) {
        unsigned at = (unsigned)take(s, 2), bit = at >> 13;
        at %= sizeof p->lent.connection + EISTULKO_RECORDS * sizeof *p->lent.row;
        uint8_t *c = (uint8_t *)&p->lent.connection, *r = (uint8_t *)p->lent.row;
        *(at < sizeof p->lent.connection ? c + at : r + (at - sizeof p->lent.connection)) ^= (uint8_t)(1u << bit);
    }
}

static void fill(play *p, source *s) {
    memory *m = &p->lent;
    unsigned how = (unsigned)take(s, 1) % 16;
    fill_with_noise(m, sizeof *m, how < 9 ? 9114 : take(s, 8));
    set_guards(m);
    if (how < 9) eistulko_start(&m->connection, m->row, EISTULKO_RECORDS);
    else if (how == 9) m->connection.code = 0;
    else if (how > 10) {
        fill_connection(s, &m->connection);
        for (unsigned i = 0; i < EISTULKO_RECORDS; i++) fill_record(s, m->row + i);
    }
    p->sound = how < 9;
    p->piece.count = p->used = 0, p->id = p->event = 0;
}

static const char *step(play *p, source *s) {
    unsigned which = (unsigned)take(s, 1) % 32;
    if (which % 2) p->lent.connection.code = 0; /* after a fault, all is as before it */
    /* mostly a host goes on with what it has read */
    if (which >= 8 && p->event == EISTULKO_SECTION_END) return call_stream(p, s, GIVE);
    if (which >= 8 && p->number == 0 && p->used < p->piece.count) return feed_again(p, s);
    if (which < 6) return call_stream(p, s, OPEN);
    if (which < 14) return feed_piece(p, s);
    if (which < 18) return feed_again(p, s);
    if (which < 22) return call_stream(p, s, GIVE);
    if (which < 25) return call_stream(p, s, END);
    if (which < 26) return call_stream(p, s, RESET);
    if (which < 30) return write_frame(p, s, which - 26 + GOAWAY);
    if (which < 31) return call_stream(p, s, START);
    flip(p, s);
    return 0;
}

/* Plays the schedule: the rule that did not hold, or null. */
static const char *played(play *p, const uint8_t *bytes, size_t count) {
    source s = {bytes, bytes + count};
    const char *rule = 0;
    if (!page_end) make_pages();
    fill(p, &s);
    while (s.at < s.end && !rule) rule = step(p, &s);
    return rule;
}

#endif
