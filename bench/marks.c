/* The calls that cross from the host into the engine and into QPACK (host/qpack.c over libnghttp3), marked; the linker puts them between (--wrap). */
#include "marks.h"

#include "../host/http.h"

#define NAMES(result, name, parameters) \
    result __real_##name parameters;    \
    result __wrap_##name parameters;

#define MARKED(part, result, name, parameters, arguments) \
    NAMES(result, name, parameters)                       \
    result __wrap_##name parameters {                     \
        mark(part);                                       \
        result r = __real_##name arguments;               \
        mark(part);                                       \
        return r;                                         \
    }

#define MARKED_VOID(part, name, parameters, arguments) \
    NAMES(void, name, parameters)                      \
    void __wrap_##name parameters {                    \
        mark(part);                                    \
        __real_##name arguments;                       \
        mark(part);                                    \
    }

#define PAIR eistulko_connection *connection, eistulko_record *row, size_t records, uint64_t id
#define HANDED connection, row, records, id

MARKED(ENGINE, eistulko_report, eistulko_open, (PAIR), (HANDED))
MARKED(ENGINE, eistulko_report, eistulko_feed, (PAIR, const uint8_t *piece, size_t bytes, uint64_t allow), (HANDED, piece, bytes, allow))
MARKED(ENGINE, eistulko_report, eistulko_give, (PAIR, const uint8_t *block, size_t bytes), (HANDED, block, bytes))
MARKED(ENGINE, eistulko_report, eistulko_end, (PAIR), (HANDED))
MARKED(ENGINE, eistulko_report, eistulko_reset, (PAIR), (HANDED))
MARKED(ENGINE, eistulko_written, eistulko_write_header, (uint64_t type, uint64_t length, uint8_t *room, size_t bytes), (type, length, room, bytes))

MARKED(QPACK, uint64_t, qpack_decode, (struct qpack *q, uint64_t stream, const uint8_t *payload, size_t count, struct bytes *block), (q, stream, payload, count, block))
MARKED_VOID(QPACK, qpack_encode, (struct qpack *q, uint64_t stream, const struct line *lines, size_t count, struct bytes *payload), (q, stream, lines, count, payload))
