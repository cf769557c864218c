/* The calls that answer with a report, on a machine where C returns a struct of 56 bytes in another way than x86-64 does. There the caller's place for
   it is the first parameter; so it is in the module, whose calls have `_at` behind their names here. */
#include "eistulko.h"

#define PAIR eistulko_connection *connection, eistulko_record *row, size_t records, uint64_t id

void *eistulko_open_at(eistulko_report *, PAIR);
void *eistulko_feed_at(eistulko_report *, PAIR, const uint8_t *piece, size_t bytes, uint64_t allow);
void *eistulko_give_at(eistulko_report *, PAIR, const uint8_t *block, size_t bytes);
void *eistulko_end_at(eistulko_report *, PAIR);
void *eistulko_reset_at(eistulko_report *, PAIR);

eistulko_report eistulko_open(PAIR) {
    eistulko_report r;
    eistulko_open_at(&r, connection, row, records, id);
    return r;
}

eistulko_report eistulko_feed(PAIR, const uint8_t *piece, size_t bytes, uint64_t allow) {
    eistulko_report r;
    eistulko_feed_at(&r, connection, row, records, id, piece, bytes, allow);
    return r;
}

eistulko_report eistulko_give(PAIR, const uint8_t *block, size_t bytes) {
    eistulko_report r;
    eistulko_give_at(&r, connection, row, records, id, block, bytes);
    return r;
}

eistulko_report eistulko_end(PAIR) {
    eistulko_report r;
    eistulko_end_at(&r, connection, row, records, id);
    return r;
}

eistulko_report eistulko_reset(PAIR) {
    eistulko_report r;
    eistulko_reset_at(&r, connection, row, records, id);
    return r;
}
