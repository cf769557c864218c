/* What the second table's program is made of. */
#ifndef REQUESTS_H
#define REQUESTS_H

#include "../host/bytes.h"

#include <stdbool.h>

/* A request's stream: the section that curl sends, and one DATA frame, if any. */
struct bytes request_stream(const char *method, const char *path, size_t stated, size_t sent);

/* The engine's calls, one of each kind; bench/calls.c. */
extern const char *const kinds[];
#define KINDS 7
void one_call(size_t kind);

/* A connection without a QUIC stack: bench/stand_in.c stands in for one above host/http.h, with the gateway's files in the folder. */
void stand_in_begin(const char *folder);
void stand_in_bytes(uint64_t id, const struct bytes *bytes, size_t piece, bool fin); /* in pieces, as packets bring them */

/* What came back on a request's stream. */
struct came {
    const uint8_t *bytes;
    size_t count;
    bool fin;
    uint64_t refused; /* the code, where it was refused */
};
struct came stand_in_came(void); /* since the last time */

#endif
