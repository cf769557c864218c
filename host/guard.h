/* What libngtcp2 0.12.1 would end the process for is kept from it (docs/HOST.md, "What a hostile peer can do"). */
#ifndef GUARD_H
#define GUARD_H

#include <stddef.h>
#include <stdint.h>

/* Of one connection: which of the client's connection IDs were announced, by their sequence numbers. */
struct guard {
    uint64_t prior; /* the largest Retire Prior To */
    uint64_t top;   /* the largest sequence number */
    uint64_t seen;  /* bit n: the number top - n was seen; older ones count as seen */
};

/* A new connection's: number 0 is that of the handshake. */
static inline struct guard guard_new(void) { return (struct guard){.seen = 1}; }

/* The frames of a 1-RTT packet that was decrypted, before libngtcp2 reads them. A NEW_CONNECTION_ID of a retired ID that was seen before becomes a
   PING: RFC 9000 (19.15) wants nothing done for it, and libngtcp2 would fail an assertion. */
void guard_frames(struct guard *g, uint8_t *frames, size_t count);

#endif
