/* packets PORT SEED SECONDS: a fuzzer of decrypted packets. Clients of their own making send what no stack would: TLS and frames spoiled before the handshake
   is done, any frames under true keys behind it, acknowledgements that make an answer lost again and again, an honest upload's packets spoiled one by one, and
   heads of packets spoiled on the way. An honest client is served after every round. Status 0 if all were. What is sent is decided by the seed, when it comes
   by the machine. */
#include "../peer/frames.h"

#include <inttypes.h>

#define LIMIT 10000u
#define ROUND 25 /* clients between two honest ones */

static uint16_t port;
static uint64_t state;
static struct {
    unsigned long before, behind, losing, spoiled, heads, packets, honest;
} done;

/* ---- chance */

static uint64_t dice(uint64_t sides) { /* xorshift64* */
    state ^= state >> 12;
    state ^= state << 25;
    state ^= state >> 27;
    return state * 0x2545f4914f6cdd1d % sides;
}

static uint64_t any_number(void) {
    static const uint64_t edges[] = {63, 64, 100, 255, 256, 1023, 16383, 16384, 65535, 65536, 262143, 262144, (1u << 30) - 1, 1u << 30,
                                     (UINT64_C(1) << 60), (UINT64_C(1) << 62) - 2, (UINT64_C(1) << 62) - 1, FIRST_NUMBER, FIRST_NUMBER + 5};
    switch (dice(4)) {
    case 0: return dice(9);
    case 1: return dice(120);
    case 2: return edges[dice(sizeof edges / sizeof *edges)];
    default: return dice(1 << dice(20));
    }
}

/* ---- frames of any kind */

/* What follows each type: i an integer, a an ACK's ranges, b a length and bytes, r bytes to the packet's end, c an ID, 8 and t that many bytes and 16. */
static const char *const layouts[] = {"", "", "iia", "iiaiii", "iii", "ii", "ib", "b", "ir", "ir", "ib", "ib", "iir", "iir", "iib", "iib",
                                      "i", "ii", "i", "i", "i", "ii", "i", "i", "iict", "i", "8", "8", "iib", "ib", ""};
#define TYPES (sizeof layouts / sizeof *layouts)

static uint8_t *put_any_bytes(uint8_t *to, size_t count) {
    for (size_t i = 0; i < count; i++) to[i] = (uint8_t)dice(256);
    return to + count;
}

static uint8_t *put_any_field(uint8_t *to, char kind) {
    size_t count;
    switch (kind) {
    case 'i': return put_integer(to, any_number());
    case 'a':
        count = dice(8) ? dice(4) : dice(60);
        to = put_integer(to, dice(20) ? count : any_number());
        for (size_t i = 0; i < 1 + 2 * count; i++) to = put_integer(to, dice(3) ? dice(4) : any_number());
        return to;
    case 'b':
        count = dice(60);
        return put_any_bytes(put_integer(to, dice(20) ? count : any_number()), count);
    case 'c':
        count = dice(10) ? 8 : dice(30);
        *to++ = (uint8_t)count;
        return put_any_bytes(to, count);
    case '8': return put_any_bytes(to, 8);
    case 't': return put_any_bytes(to, 16);
    default: return put_any_bytes(to, dice(100));
    }
}

/* NEW_CONNECTION_ID, streams and ACKs are where most can be said, so they come oftener. */
static uint8_t *put_any_frame(uint8_t *to) {
    static const uint8_t often[] = {0x18, 0x18, 0x19, 0x02, 0x0e, 0x0f, 0x04, 0x05, 0x06, 0x1a};
    uint8_t type = (uint8_t)(dice(2) ? often[dice(sizeof often)] : dice(50) ? dice(TYPES) : dice(256));
    *to++ = type;
    for (const char *f = type < TYPES ? layouts[type] : "ii"; *f; f++) to = put_any_field(to, *f);
    return to;
}

static size_t any_frames(uint8_t *to) {
    uint8_t *at = to;
    do at = put_any_frame(at);
    while (at - to < 900 && dice(4));
    size_t count = (size_t)(at - to);
    while (!dice(4)) to[dice(count)] = (uint8_t)dice(256);
    return dice(20) ? count : 1 + dice(count);
}

/* ---- spoiling */

static unsigned spoil_one_in;

/* A few bytes, mostly near the front where frames and TLS messages begin; or frames of any kind in their place. */
static void spoil_any(uint8_t first, uint8_t *frames, size_t count) {
    if (!count || dice(spoil_one_in)) return;
    done.packets++;
    if (!dice(5) && first & 0x80 && count > 1000) {
        uint8_t other[4096];
        size_t made = any_frames(other);
        memcpy(frames, other, made < count ? made : count);
        return;
    }
    for (uint64_t n = 1 + dice(4); n; n--) {
        size_t at = dice(3) ? dice(count < 400 ? count : 400) : dice(count);
        frames[at] = (uint8_t)(dice(2) ? dice(256) : frames[at] ^ 1u << dice(8));
    }
}

static int raw_socket = -1;

static void spoil_head(const uint8_t *packet, size_t count) {
    uint8_t spoiled[4096];
    if (count > 2048) return;
    memcpy(spoiled, packet, count);
    done.packets++;
    switch (dice(5)) {
    case 0: count = 1 + dice(count); break;
    case 1:
        memcpy(spoiled + count, packet, count);
        count *= 2;
        break;
    default:
        for (uint64_t n = 1 + dice(3); n; n--) spoiled[dice(count < 60 ? count : 60)] = (uint8_t)dice(256);
    }
    send(raw_socket, spoiled, count, 0);
}

/* ---- clients */

static void before(void) {
    spoil = spoil_any;
    spoil_one_in = 1 + (unsigned)dice(3);
    client *c = client_start(port);
    if (c) {
        client_run(c, NULL, NULL, 4 + (unsigned)dice(8));
        client_drop(c);
    }
    spoil = NULL;
    done.before++;
}

static void behind(void) {
    peer p;
    if (!peer_open(&p, port)) return;
    uint8_t frames[4096];
    for (uint64_t n = 1 + dice(40); n; n--) {
        peer_send(&p, frames, any_frames(frames));
        done.packets++;
        if (!dice(10)) pause_ms(1);
        peer_heard(&p, NULL, 0);
    }
    client_drop(p.client);
    done.behind++;
}

/* An ACK of some of the packets that have come, with gaps. */
static uint8_t *put_some_ack(uint8_t *to, uint64_t most) {
    uint64_t largest = dice(most + 1), left = largest, ranges = dice(12);
    *to++ = 0x02;
    to = put_integer(put_integer(put_integer(to, largest), dice(1000)), ranges);
    for (uint64_t i = 0; i < 1 + 2 * ranges; i++) { /* a range, then gaps and ranges in turn */
        uint64_t step = dice(left / 2 + 1);
        to = put_integer(to, step);
        left = left > step + 1 ? left - step - 1 : 0;
    }
    return to;
}

/* What a client may say of an answer under way. */
static uint8_t *put_word(uint8_t *to, uint64_t most) {
    uint64_t id = 4 * dice(6);
    switch (dice(8)) {
    case 0: /* STOP_SENDING */
        *to++ = 0x05;
        return put_integer(put_integer(to, id), 0x10c);
    case 1: /* RESET_STREAM */
        *to++ = 0x04;
        return put_integer(put_integer(put_integer(to, id), 0x10c), dice(2) ? 0 : any_number());
    case 2: /* MAX_STREAM_DATA */
        *to++ = 0x11;
        return put_integer(put_integer(to, id), 1000 * dice(2000));
    case 3: /* MAX_DATA */
        *to++ = 0x10;
        return put_integer(to, 1000 * dice(20000));
    default: return put_some_ack(to, most);
    }
}

/* Answers to some requests, acknowledged in part, stopped, granted more. */
static void losing(void) {
    peer p;
    if (dice(2)) stream_window = 1 + dice(100000);
    bool open = peer_open(&p, port);
    stream_window = 1 << 20;
    if (!open) return;
    uint8_t section[200], frames[4096];
    size_t length = put_request(section, "GET", "/settings", NULL), heard = 2;
    for (uint64_t id = 0; id < 4 * 6; id += 4) peer_send(&p, frames, (size_t)(put_stream(frames, id, 0, section, length, true) - frames));
    for (uint64_t n = 5 + dice(60); n; n--) {
        uint8_t *at = frames;
        do at = put_word(at, heard);
        while (at - frames < 800 && dice(3));
        peer_send(&p, frames, (size_t)(at - frames));
        done.packets++;
        if (!dice(3)) pause_ms((unsigned)dice(4));
        if (!dice(60)) pause_ms(120); /* for a timer of theirs */
        heard += peer_heard(&p, NULL, 0);
    }
    client_drop(p.client);
    done.losing++;
}

/* An upload whose packets are spoiled now and then. */
static void spoiled(void) {
    client *c = client_connect(port, LIMIT);
    if (!c) return;
    uint8_t section[300], content[20000];
    client_stream *s = client_open_bidi(c);
    if (s) {
        client_send(s, section, put_request(section, "PUT", "/nowhere", "20000"));
        size_t head = h3_put_frame_head(section, H3_DATA, sizeof content);
        put_any_bytes(content, sizeof content);
        client_send(s, section, head);
        client_send(s, content, sizeof content);
        spoil = spoil_any;
        spoil_one_in = 1 + (unsigned)dice(20);
        client_run(c, NULL, NULL, 5 + (unsigned)dice(20));
        spoil = NULL;
    }
    client_drop(c);
    done.spoiled++;
}

/* A client whose packets all have their heads spoiled. */
static void heads(void) {
    client *c = client_start(port);
    if (!c) return;
    raw_socket = c->socket;
    divert = spoil_head;
    client_run(c, NULL, NULL, 3);
    divert = NULL;
    client_drop(c);
    done.heads++;
}

static bool is_answered(void *s) { return ((client_stream *)s)->fin_received; }

static bool honest(void) {
    client *c = client_connect(port, LIMIT);
    client_stream *s = c ? client_open_bidi(c) : NULL;
    uint8_t section[200];
    if (!s) return false;
    client_send(s, section, put_request(section, "GET", "/settings", NULL));
    client_fin(s);
    bool served = client_run(c, is_answered, s, LIMIT);
    client_close(c, H3_NO_ERROR);
    done.honest++;
    return served;
}

int main(int count, char **words) {
    static void (*const kinds[])(void) = {before, before, behind, behind, losing, losing, spoiled, heads};
    if (count < 4) return 2;
    port = (uint16_t)atoi(words[1]);
    state = strtoull(words[2], NULL, 10) | 1;
    double until = seconds() + atof(words[3]);
    bool served = true;
    while (served && seconds() < until) {
        for (int i = 0; i < ROUND; i++) kinds[dice(sizeof kinds / sizeof *kinds)]();
        served = honest();
    }
    printf("%lu clients spoiled before the handshake, %lu behind it, %lu losing answers, %lu in an upload, %lu in their heads; %lu packets; %lu honest clients %s\n",
           done.before, done.behind, done.losing, done.spoiled, done.heads, done.packets, done.honest, served ? "served" : "of whom THE LAST WAS NOT SERVED");
    return !served;
}
