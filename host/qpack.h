/* Header sections between the wire and the engine, by libnghttp3's QPACK coder, with no dynamic table. */
#ifndef QPACK_H
#define QPACK_H

#include "bytes.h"

struct qpack;

/* The codes of RFC 9204 that close a connection. */
enum { QPACK_DECOMPRESSION_FAILED = 0x0200, QPACK_ENCODER_STREAM_ERROR = 0x0201, QPACK_DECODER_STREAM_ERROR = 0x0202 };

struct qpack *qpack_new(void);
void qpack_free(struct qpack *q);

/* The payload of a HEADERS frame as a section block (include/eistulko.h, eistulko_give), added to `block`. 0, or the code: of RFC 9204, or
   0x010b where a name is longer, as sent, than the 256 bytes that libnghttp3 takes. */
uint64_t qpack_decode(struct qpack *q, uint64_t stream, const uint8_t *payload, size_t count, struct bytes *block);

/* Bytes of the client's QPACK stream of this type, 2 or 3. 0, or the code. */
uint64_t qpack_heard(struct qpack *q, uint64_t type, const uint8_t *bytes, size_t count);

struct line {
    const char *name, *value;
};

/* Field lines as the payload of a HEADERS frame, added to `payload`. */
void qpack_encode(struct qpack *q, uint64_t stream, const struct line *lines, size_t count, struct bytes *payload);

#endif
