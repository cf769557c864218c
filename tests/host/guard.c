/* What host/guard.c keeps from libngtcp2, frame by frame. Status 0 if all is as it must be. */
#include "guard.h"

#include <stdbool.h>
#include <stdio.h>
#include <stdlib.h>
#include <string.h>

enum { ID = 8, FRAME = 4 + ID + 16, PING = 1 };

/* A NEW_CONNECTION_ID with numbers below 64. */
static void announce(uint8_t *to, uint8_t number, uint8_t prior) {
    memset(to, 0xaa, FRAME);
    memcpy(to, (const uint8_t[]){0x18, number, prior, ID}, 4);
}

static void must(bool holds, const char *what) {
    if (holds) return;
    printf("guard: %s\n", what);
    exit(1);
}

/* Whether an announcement behind these frames is let through; if not, it must be a PING and PADDING. */
static bool passes(struct guard *g, const uint8_t *before, size_t count, uint8_t number, uint8_t prior) {
    uint8_t *frames = malloc(count + FRAME), whole[FRAME], blank[FRAME] = {PING}; /* of its exact size, for a sanitizer to see */
    if (count) memcpy(frames, before, count);
    announce(whole, number, prior);
    memcpy(frames + count, whole, FRAME);
    guard_frames(g, frames, count + FRAME);
    bool same = !memcmp(frames + count, whole, FRAME);
    must(!count || !memcmp(frames, before, count), "a frame before it was altered");
    must(same || !memcmp(frames + count, blank, FRAME), "it became something else than a PING");
    free(frames);
    return same;
}

static bool alone(struct guard *g, uint8_t number, uint8_t prior) { return passes(g, NULL, 0, number, prior); }

#define BEHIND(what, ...)                                                              \
    do {                                                                               \
        const uint8_t frames[] = {__VA_ARGS__};                                        \
        struct guard g = guard_new();                                                  \
        must(alone(&g, 8, 8), "the one that retires");                                 \
        must(passes(&g, frames, sizeof frames, 5, 0), "one that is late, behind " what); \
        must(!passes(&g, frames, sizeof frames, 5, 0), "the same again, behind " what);  \
    } while (0)

int main(void) {
    struct guard g = guard_new();
    must(alone(&g, 1, 0) && alone(&g, 1, 0), "one that is in force, twice");
    must(alone(&g, 8, 8), "one that retires");
    must(alone(&g, 8, 8), "the same again");
    must(!alone(&g, 0, 0), "the handshake's");
    must(!alone(&g, 1, 0), "one that was seen and is retired");
    must(alone(&g, 5, 0), "one that is late");
    must(!alone(&g, 5, 0), "one that is late, again");
    must(alone(&g, 9, 0) && alone(&g, 63, 20) && alone(&g, 12, 0), "new ones");
    must(!alone(&g, 9, 0) && !alone(&g, 12, 0), "those, retired");
    must(alone(&g, 5, 6), "one that retires itself is libngtcp2's to refuse");

    BEHIND("PADDING, PING and HANDSHAKE_DONE", 0, 0, 1, 0x1e);
    BEHIND("an ACK", 0x02, 9, 0, 2, 1, 0, 0, 1, 1);
    BEHIND("an ACK with counts", 0x03, 0x40, 9, 0, 0, 1, 1, 2, 3);
    BEHIND("RESET_STREAM and STOP_SENDING", 0x04, 0, 1, 2, 0x05, 0, 0x41, 0x0c);
    BEHIND("CRYPTO and NEW_TOKEN", 0x06, 0, 3, 0x18, 5, 0, 0x07, 1, 0x18);
    BEHIND("STREAM", 0x0a, 0, 2, 0x18, 5, 0x0f, 4, 0x80, 0, 0, 9, 1, 0x18);
    BEHIND("MAX_ and _BLOCKED", 0x10, 9, 0x11, 0, 9, 0x12, 9, 0x13, 9, 0x14, 9, 0x15, 0, 9, 0x16, 9, 0x17, 9);
    BEHIND("RETIRE_CONNECTION_ID and PATH_", 0x19, 1, 0x1a, 1, 2, 3, 4, 5, 6, 7, 8, 0x1b, 1, 2, 3, 4, 5, 6, 7, 8);
    BEHIND("CONNECTION_CLOSE", 0x1c, 1, 0, 2, 0x18, 5, 0x1d, 0x41, 0, 0);

    /* Cut or unknown frames, and a STREAM to the packet's end, have nothing behind them that is read. */
    static const uint8_t ends[][4] = {{0x08, 0, 1, 1}, {0x30, 1, 1, 1}, {0x40, 0x18, 1, 1}, {0x06, 0, 0x7f, 0xff}, {0x02, 9, 0, 0x3f}};
    for (size_t i = 0; i < sizeof ends / sizeof *ends; i++) {
        g = guard_new();
        must(alone(&g, 8, 8) && alone(&g, 5, 0) && passes(&g, ends[i], 4, 5, 0), "what is behind the last frame that can be read");
    }
    for (size_t cut = 1; cut < FRAME; cut++) {
        uint8_t *frames = malloc(cut), whole[FRAME];
        announce(whole, 5, 0);
        memcpy(frames, whole, cut);
        guard_frames(&g, frames, cut);
        must(!memcmp(frames, whole, cut), "one that is cut was altered");
        free(frames);
    }
    return 0;
}
