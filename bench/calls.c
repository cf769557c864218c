/* The engine's calls, one of each kind, on a connection with the client's three one-way streams and one request. */
#include "marks.h"
#include "requests.h"

#include "../host/qpack.h"
#include "../tests/peer/h3.h"
#include "eistulko.h"

#define PIECE 1200
#define CONTENT (2 * PIECE - 3) /* behind the three bytes of its frame's head: two pieces */

enum kind { OPEN, FEED_HEADERS, GIVE, FEED_HEAD, FEED_INSIDE, END, RESET };
const char *const kinds[KINDS] = {
    "open",
    "feed: a HEADERS frame",
    "give",
    "feed: 1,200 bytes, DATA begins",
    "feed: 1,200 bytes inside DATA",
    "end",
    "reset",
};

#define PAIR &connection, row, EISTULKO_RECORDS

static eistulko_connection connection;
static eistulko_record row[EISTULKO_RECORDS];
static struct bytes stream;
static size_t section_end;
static uint8_t block[256];
static size_t block_bytes;

static void expect(bool held, const char *what) {
    if (held) return;
    fprintf(stderr, "bench: %s: not answered as expected\n", what);
    exit(1);
}

static eistulko_report call(enum kind kind, uint64_t id) {
    switch (kind) {
    case OPEN: return eistulko_open(PAIR, id);
    case FEED_HEADERS: return eistulko_feed(PAIR, id, stream.at, section_end, UINT64_MAX);
    case GIVE: return eistulko_give(PAIR, id, block, block_bytes);
    case FEED_HEAD: return eistulko_feed(PAIR, id, stream.at + section_end, PIECE, UINT64_MAX);
    case FEED_INSIDE: return eistulko_feed(PAIR, id, stream.at + section_end + PIECE, PIECE, UINT64_MAX);
    case END: return eistulko_end(PAIR, id);
    case RESET: return eistulko_reset(PAIR, id);
    }
    abort();
}

static void prepare(void) {
    stream = request_stream("PUT", "/settings", CONTENT, CONTENT);
    uint64_t length;
    size_t head = 1 + h3_get_varint(stream.at + 1, stream.count - 1, &length);
    section_end = head + length;
    struct bytes section = {0};
    struct qpack *q = qpack_new();
    expect(!qpack_decode(q, 0, stream.at + head, length, &section) && section.count <= sizeof block, "decode");
    memcpy(block, section.at, section.count);
    block_bytes = section.count;
    qpack_free(q);
    bytes_free(&section);
    h3_bytes control = h3_control_opening();
    const uint8_t encoder = 0x02, decoder = 0x03;
    eistulko_start(PAIR);
    for (uint64_t id = 2; id <= 10; id += 4) expect(!eistulko_open(PAIR, id).number, "open");
    expect(eistulko_feed(PAIR, 2, control.bytes, control.length, UINT64_MAX).event == EISTULKO_SETTINGS, "control stream");
    expect(!eistulko_feed(PAIR, 6, &encoder, 1, UINT64_MAX).number, "encoder stream");
    expect(!eistulko_feed(PAIR, 10, &decoder, 1, UINT64_MAX).number, "decoder stream");
    free(control.bytes);
}

/* The kinds up to the one asked for, which alone is counted: bench/marks.c has the engine's marks. */
void one_call(size_t kind) {
    static const uint64_t events[] = {EISTULKO_NOTHING, EISTULKO_SECTION_END, EISTULKO_NOTHING, EISTULKO_CONTENT, EISTULKO_CONTENT, EISTULKO_WHOLE, EISTULKO_FREED};
    enum part part = chosen;
    chosen = NONE;
    prepare();
    for (size_t k = 0; k <= kind; k++) {
        uint64_t id = k == RESET ? 4 : 0;
        if (k == RESET) expect(!call(OPEN, id).number, kinds[OPEN]);
        chosen = k == kind ? part : NONE;
        eistulko_report r = call((enum kind)k, id);
        chosen = NONE;
        expect(!r.number && r.event == events[k], kinds[k]);
    }
}
