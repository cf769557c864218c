/* The library as a host calls it: it feeds a piece, takes the event, offers the rest. The connection's record and the row are the host's. The
   client's three one-way streams are open before the request, so that its record is the fourth. The host sums what it is told of; it copies nothing. */
#include "bench.h"
#include "eistulko.h"

#define PAIR &connection, row, EISTULKO_RECORDS

static eistulko_connection connection;
static eistulko_record row[EISTULKO_RECORDS];
static uint64_t id, next;
static int live;

static void must(int held) {
    if (!held) __builtin_trap();
}

static void begin(void) {
    static const uint8_t control[] = {0x00, 0x04, 0x00}, encoder[] = {0x02}, decoder[] = {0x03};
    must(eistulko_start(PAIR) == 0);
    for (uint64_t way = 2; way <= 10; way += 4) must(eistulko_open(PAIR, way).number == 0);
    must(eistulko_feed(PAIR, 2, control, sizeof control, UINT64_MAX).event == EISTULKO_SETTINGS);
    must(eistulko_feed(PAIR, 6, encoder, 1, UINT64_MAX).number == 0 && eistulko_feed(PAIR, 10, decoder, 1, UINT64_MAX).number == 0);
}

void ours_open(void) {
    if (next == 0) begin();
    if (live) eistulko_reset(PAIR, id);
    id = next;
    next += 4;
    must(eistulko_open(PAIR, id).number == 0);
    live = 1;
}

int ours_run(const Byte *bytes, Count n, Count piece, int fin, Tally *tally) {
    for (Count at = 0; at < n;) {
        Count end = n - at < piece ? n : at + piece;
        while (at < end) {
            eistulko_report told = eistulko_feed(PAIR, id, bytes + at, end - at, UINT64_MAX);
            tally->calls++;
            if (told.number) return 0;
            at += told.used;
            if (told.event == EISTULKO_CONTENT) {
                tally->content += told.len;
            } else if (told.event != EISTULKO_NOTHING) {
                tally->section += told.len;
                if (told.event == EISTULKO_SECTION_END && eistulko_give(PAIR, id, block, block_bytes).number) return 0;
            }
        }
    }
    if (fin) {
        if (eistulko_end(PAIR, id).event != EISTULKO_WHOLE) return 0;
        live = 0;
        tally->ends++;
    }
    return 1;
}
