/* Two libraries beside each other on the same random memory: every byte that a feed answers and leaves must be the same.
   Connection, row, ID, piece and allowance are drawn near what the engine leaves, and at random. differ [COUNT [SEED]] */
#include <inttypes.h>
#include <stdio.h>
#include <stdlib.h>
#include <string.h>

#include "eistulko.h"

#define LEN(a) (sizeof(a) / sizeof *(a))
#define ROOM (EISTULKO_RECORDS + 2)
#define PIECE 64

typedef eistulko_report feed(eistulko_connection *, eistulko_record *, size_t, uint64_t, const uint8_t *, size_t, uint64_t);
feed old_eistulko_feed, new_eistulko_feed;

typedef struct {
    eistulko_connection connection;
    eistulko_record row[ROOM];
} Lent;

static uint64_t state = 88172645463325252u;

static uint64_t any(void) {
    state ^= state << 13, state ^= state >> 7, state ^= state << 17;
    return state;
}

static uint64_t below(uint64_t n) { return any() % n; }
static int one_in(uint64_t n) { return below(n) == 0; }

static uint64_t number(void) {
    static const uint64_t edges[] = {0, 1, 2, 3, 16, 63, 64, 1024, 16383, 16384, 1048575, 1048576, 1048577, (1ull << 62) - 1, 1ull << 62, (1ull << 62) + 1, UINT64_MAX};
    switch (below(4)) {
    case 0: return edges[below(LEN(edges))];
    case 1: return below(64);
    case 2: return below(1 << 21);
    default: return any() >> below(64);
    }
}

/* Free, or a stream's: most often a request behind its section, in a payload or between two frames. Some have one number off. */
static void draw_record(eistulko_record *r) {
    memset(r, 0, sizeof *r);
    if (one_in(4)) return;
    r->id = below(8) * 4 + (one_in(4) ? 2 : 0);
    r->kind = one_in(5) ? (uint8_t)below(8) : 1;
    r->phase = one_in(5) ? (uint8_t)below(6) : 1;
    r->has = (uint8_t)below(one_in(8) ? 4 : 2);
    r->stated = r->has ? number() : 0;
    r->sum = number();
    if (r->has && one_in(2)) {
        uint64_t left = below(40);
        r->sum = r->stated - (left < r->stated ? left : 0);
    }
    switch (below(4)) {
    case 0: r->mode = 3, r->acc = 1 + below(40); break;
    case 1: r->mode = 3, r->acc = number(); break;
    case 2: r->mode = 0; break;
    default: r->mode = (uint8_t)below(13), r->acc = number(), r->due = (uint8_t)below(9), r->ftype = number(); break;
    }
    switch (below(24)) {
    case 0: r->owner = (uint8_t)below(3); break;
    case 1: r->room = (uint16_t)below(3); break;
    case 2: r->due = (uint8_t)below(3); break;
    case 3: r->ftype = below(3); break;
    case 4: r->stated = number(); break;
    case 5: r->id = number(); break;
    case 6: r->acc = number(); break;
    case 7: r->has = (uint8_t)below(4); break;
    }
}

static void draw_lent(Lent *lent) {
    memset(&lent->connection, 0, sizeof lent->connection);
    if (one_in(8))
        for (size_t k = 0; k < sizeof lent->connection; k++) ((uint8_t *)&lent->connection)[k] = (uint8_t)any();
    if (!one_in(16)) lent->connection.code = 0;
    for (size_t k = 0; k < ROOM; k++) draw_record(&lent->row[k]);
}

static size_t draw_piece(uint8_t *piece) {
    size_t n = below(PIECE);
    for (size_t i = 0; i < n; i++) piece[i] = (uint8_t)(one_in(3) ? any() : below(4));
    if (n > 2 && one_in(2)) piece[0] = 0;
    if (n > 2 && one_in(3)) piece[1] = (uint8_t)(0x40 | below(2)), piece[2] = (uint8_t)any();
    return n;
}

int main(int argc, char **argv) {
    uint64_t count = argc > 1 ? strtoull(argv[1], NULL, 10) : 10000000, content = 0, other = 0, faults = 0, refused = 0;
    if (argc > 2) state = strtoull(argv[2], NULL, 10) | 1; /* 0 would stay 0 */
    static Lent a, b;
    static uint8_t piece[PIECE];
    for (uint64_t i = 0; i < count; i++) {
        draw_lent(&a);
        b = a;
        size_t records = one_in(16) ? below(ROOM + 1) : EISTULKO_RECORDS, n = draw_piece(piece);
        uint64_t id = one_in(4) ? number() : a.row[below(EISTULKO_RECORDS)].id, allow = one_in(4) ? below(4) : UINT64_MAX;
        eistulko_report x = old_eistulko_feed(&a.connection, a.row, records, id, piece, n, allow);
        eistulko_report y = new_eistulko_feed(&b.connection, b.row, records, id, piece, n, allow);
        if (memcmp(&x, &y, sizeof x) || memcmp(&a, &b, sizeof a)) {
            printf("feed %" PRIu64 " differs: number %" PRIu64 " and %" PRIu64 ", event %" PRIu64 " and %" PRIu64 "\n", i, x.number, y.number, x.event, y.event);
            return 1;
        }
        if (x.number == 0) x.event == EISTULKO_CONTENT ? content++ : other++;
        else eistulko_is_connection_fault(x.number) || eistulko_is_stream_fault(x.number) ? faults++ : refused++;
    }
    printf("%" PRIu64 " feeds, the same: %" PRIu64 " content, %" PRIu64 " otherwise accepted, %" PRIu64 " faults, %" PRIu64 " refused\n", count, content, other, faults, refused);
    return 0;
}
