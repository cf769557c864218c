#include "guard.h"

#include <stdbool.h>
#include <string.h>

enum { PADDING = 0x00, PING = 0x01, NEW_CONNECTION_ID = 0x18 };

/* What follows each frame's type, a letter a field: i an integer, a the ranges of an ACK, b a length and as many bytes, r the packet's rest,
   c a connection ID behind its length in one byte, 8 and t that many bytes and 16. Types of two bytes and others than these libngtcp2 refuses. */
static const char *const layouts[] = {
    "",   "",   "iia", "iiaiii", "iii", "ii",  "ib",   "b", /* PADDING PING ACK ACK RESET_STREAM STOP_SENDING CRYPTO NEW_TOKEN */
    "ir", "ir", "ib",  "ib",     "iir", "iir", "iib",  "iib", /* STREAM */
    "i",  "ii", "i",   "i",      "i",   "ii",  "i",    "i", /* MAX_DATA .. STREAMS_BLOCKED */
    "iict", "i", "8",  "8",      "iib", "ib",  "",          /* NEW_CONNECTION_ID RETIRE_ PATH_ PATH_ CONNECTION_CLOSE _CLOSE HANDSHAKE_DONE */
};

/* An integer of RFC 9000, 16. Null where it is cut. */
static uint8_t *integer(uint8_t *at, const uint8_t *end, uint64_t *value) {
    if (at == end) return NULL;
    size_t count = (size_t)1 << (*at >> 6);
    if ((size_t)(end - at) < count) return NULL;
    *value = *at & 0x3f;
    for (size_t i = 1; i < count; i++) *value = *value << 8 | at[i];
    return at + count;
}

static uint8_t *integers(uint8_t *at, const uint8_t *end, uint64_t count) {
    uint64_t any;
    while (at && count--) at = integer(at, end, &any);
    return at;
}

static uint8_t *bytes(uint8_t *at, const uint8_t *end, uint64_t count) {
    return at && count <= (uint64_t)(end - at) ? at + count : NULL;
}

/* Behind a field; null where it is cut. */
static uint8_t *field(char kind, uint8_t *at, uint8_t *end, uint64_t *value) {
    switch (kind) {
    case 'i': return integer(at, end, value);
    case 'a': at = integer(at, end, value); return at ? integers(at, end, 1 + 2 * *value) : NULL;
    case 'b': at = integer(at, end, value); return bytes(at, end, *value);
    case 'c': return at == end ? NULL : bytes(at + 1, end, *at);
    case '8': return bytes(at, end, 8);
    case 't': return bytes(at, end, 16);
    default: return end;
    }
}

/* Behind a frame, whose first two integers are kept; null where it is cut or of no known type. */
static uint8_t *frame(uint8_t *at, uint8_t *end, uint64_t first[2]) {
    if (*at >= sizeof layouts / sizeof *layouts) return NULL;
    const char *fields = layouts[*at++];
    for (int i = 0; at && fields[i]; i++) {
        uint64_t value = 0;
        at = field(fields[i], at, end, &value);
        if (i < 2) first[i] = value;
    }
    return at;
}

/* Whether the number was seen before; now it is. */
static bool seen(struct guard *g, uint64_t number) {
    if (number > g->top) {
        uint64_t on = number - g->top;
        g->seen = (on < 64 ? g->seen << on : 0) | 1;
        g->top = number;
        return false;
    }
    uint64_t back = g->top - number;
    if (back >= 64) return true;
    bool was = g->seen >> back & 1;
    g->seen |= (uint64_t)1 << back;
    return was;
}

/* Whether libngtcp2 is to see this announcement. One that retires itself it refuses. */
static bool harmless(struct guard *g, uint64_t number, uint64_t prior) {
    if (prior > number) return true;
    if (prior > g->prior) g->prior = prior;
    return !seen(g, number) || number >= g->prior;
}

/* What cannot be read is libngtcp2's to refuse. */
void guard_frames(struct guard *g, uint8_t *frames, size_t count) {
    uint8_t *end = frames + count;
    for (uint8_t *at = frames; at != end;) {
        uint64_t first[2] = {0};
        uint8_t *next = frame(at, end, first);
        if (!next) return;
        if (*at == NEW_CONNECTION_ID && !harmless(g, first[0], first[1])) {
            memset(at, PADDING, (size_t)(next - at));
            *at = PING; /* the packet is still acknowledged */
        }
        at = next;
    }
}
