/* What the soak sends. Every upload has a number, and its body is made from the seed and that number: a settings file can be held, byte for byte,
   against what was sent. Each body also ends in a checksum over itself, so that a torn or mixed one is told from one that was never sent. */
#ifndef SOAK_UPLOADS_H
#define SOAK_UPLOADS_H

#include <stdbool.h>
#include <stddef.h>
#include <stdint.h>

/* ---- random numbers */

typedef struct {
    uint64_t state;
} dice;

uint64_t roll(dice *d);
uint64_t below(dice *d, uint64_t end);                   /* 0 to end - 1 */
uint64_t between(dice *d, uint64_t first, uint64_t last); /* both can come */

/* ---- uploads */

#define SMALLEST_UPLOAD 64

/* What the gateway can have made of an upload, as far as the client knows. */
typedef enum { NEVER_WHOLE, MAYBE_KEPT, ACKNOWLEDGED } fate;

typedef struct {
    size_t size;
    fate fate;
} upload;

void uploads_begin(uint64_t seed);
size_t upload_new(size_t size); /* its number; it is NEVER_WHOLE until the test says more */
upload *upload_at(size_t number);
size_t upload_next(void); /* the number that the next one will have */

/* What bytes are: NULL and the number if they are an upload's body, whole; else what is wrong with them. */
const char *upload_known(const uint8_t *bytes, size_t count, size_t *number);

/* ---- request streams */

/* A frame ends here, and this is what has come until then. */
typedef struct {
    size_t head_end, end;
    bool begun;     /* the header section */
    size_t content; /* bytes of DATA */
} frame_end;

/* All bytes of a request stream. */
typedef struct {
    uint8_t *bytes;
    size_t count, room;
    frame_end *frames;
    size_t frame_count, frame_room;
    size_t size; /* the stated Content-Length */
} message;

typedef enum { AT_BOUNDARY, IN_FRAME_HEADER, IN_PAYLOAD } place;

message message_get(const char *path);
/* DATA frames of any sizes, none too, unknown frames between, before and behind them, and trailers, as the dice fall. */
message message_put(dice *d, size_t number);
void message_free(message *m);

/* A cut after that many bytes. With the stream's end there, the code that is due: 0 if the request is whole. */
place message_place(const message *m, size_t cut);
uint64_t message_code(const message *m, size_t cut);
size_t message_random_cut(dice *d, const message *m); /* each place comes about as often */

#endif
