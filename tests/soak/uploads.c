#include "uploads.h"

#include <inttypes.h>
#include <stdio.h>
#include <stdlib.h>
#include <string.h>

#include "../peer/h3.h"

#define CHECKSUM 8

enum { FRAME_ERROR = 0x106, REQUEST_INCOMPLETE = 0x10d, MESSAGE_ERROR = 0x10e };

static uint64_t seed;
static upload *uploads;
static size_t upload_count, upload_room;

static void *must(void *memory) {
    if (!memory) abort();
    return memory;
}

/* ---- random numbers: splitmix64 */

uint64_t roll(dice *d) {
    uint64_t z = d->state += 0x9e3779b97f4a7c15;
    z = (z ^ z >> 30) * 0xbf58476d1ce4e5b9;
    z = (z ^ z >> 27) * 0x94d049bb133111eb;
    return z ^ z >> 31;
}

uint64_t below(dice *d, uint64_t end) { return roll(d) % end; }

uint64_t between(dice *d, uint64_t first, uint64_t last) { return first + below(d, last - first + 1); }

/* ---- uploads */

void uploads_begin(uint64_t s) { seed = s; }

size_t upload_new(size_t size) {
    if (upload_count == upload_room) {
        upload_room = upload_room ? 2 * upload_room : 1024;
        uploads = must(realloc(uploads, upload_room * sizeof *uploads));
    }
    uploads[upload_count] = (upload){size < SMALLEST_UPLOAD ? SMALLEST_UPLOAD : size, NEVER_WHOLE};
    return upload_count++;
}

upload *upload_at(size_t number) { return &uploads[number]; }

size_t upload_next(void) { return upload_count; }

/* FNV-1a. */
static uint64_t checksum(const uint8_t *bytes, size_t count) {
    uint64_t sum = 0xcbf29ce484222325;
    for (size_t i = 0; i < count; i++) sum = (sum ^ bytes[i]) * 0x100000001b3;
    return sum;
}

static uint8_t *make_body(size_t number) {
    size_t size = uploads[number].size, filled = size - CHECKSUM;
    uint8_t *body = must(malloc(size));
    dice d = {seed ^ number << 20};
    for (size_t i = 0; i < filled; i++) body[i] = (uint8_t)roll(&d);
    snprintf((char *)body, 24, "upload %zu", number);
    uint64_t sum = checksum(body, filled);
    memcpy(body + filled, &sum, CHECKSUM);
    return body;
}

const char *upload_known(const uint8_t *bytes, size_t count, size_t *number) {
    if (count < SMALLEST_UPLOAD) return "too short for any";
    uint64_t sum = checksum(bytes, count - CHECKSUM);
    if (memcmp(bytes + count - CHECKSUM, &sum, CHECKSUM)) return "torn or mixed: the checksum is not theirs";
    if (sscanf((const char *)bytes, "upload %zu", number) != 1 || *number >= upload_count) return "none that was sent";
    if (count != uploads[*number].size) return "of another size than was sent";
    uint8_t *body = make_body(*number);
    bool same = !memcmp(bytes, body, count);
    free(body);
    return same ? NULL : "not the bytes that were sent";
}

/* ---- request streams */

static void add_bytes(message *m, const uint8_t *bytes, size_t count) {
    if (m->room - m->count < count) {
        m->room = 2 * (m->count + count);
        m->bytes = must(realloc(m->bytes, m->room));
    }
    if (count) memcpy(m->bytes + m->count, bytes, count);
    m->count += count;
}

static void end_frame(message *m, size_t head_end, bool begins, size_t content) {
    if (m->frame_count == m->frame_room) {
        m->frame_room = m->frame_room ? 2 * m->frame_room : 16;
        m->frames = must(realloc(m->frames, m->frame_room * sizeof *m->frames));
    }
    frame_end before = m->frame_count ? m->frames[m->frame_count - 1] : (frame_end){0};
    m->frames[m->frame_count++] = (frame_end){head_end, m->count, before.begun || begins, before.content + content};
}

/* An integer in one of its forms, not always the shortest. */
static void add_integer(dice *d, message *m, uint64_t value) {
    uint8_t form[8];
    size_t size = h3_varint_size(value);
    while (size < 8 && !below(d, 4)) size *= 2;
    add_bytes(m, form, h3_put_varint(form, value, size));
}

static void add_frame(dice *d, message *m, uint64_t type, const uint8_t *payload, size_t count) {
    add_integer(d, m, type);
    add_integer(d, m, count);
    size_t head_end = m->count;
    add_bytes(m, payload, count);
    end_frame(m, head_end, false, type == H3_DATA ? count : 0);
}

/* Types that no one has a meaning for: those that RFC 9114 keeps free for this. */
static void add_unknown_frames(dice *d, message *m) {
    while (!below(d, 4)) {
        uint8_t payload[300];
        size_t count = below(d, 2) ? below(d, sizeof payload) : 0;
        for (size_t i = 0; i < count; i++) payload[i] = (uint8_t)roll(d);
        uint64_t type = 0x21 + 0x1f * (below(d, UINT64_C(1) << 56) >> below(d, 57));
        add_frame(d, m, type, payload, count);
    }
}

static void add_section(message *m, const h3_field *fields, size_t count) {
    uint64_t type, length;
    h3_bytes frame = h3_headers_frame(fields, count);
    size_t head = h3_get_varint(frame.bytes, frame.length, &type);
    head += h3_get_varint(frame.bytes + head, frame.length - head, &length);
    add_bytes(m, frame.bytes, frame.length);
    end_frame(m, m->count - frame.length + head, true, 0);
    free(frame.bytes);
}

message message_get(const char *path) {
    message m = {0};
    h3_field fields[] = {{":method", "GET"}, {":scheme", "https"}, {":authority", "localhost"}, {":path", path}};
    add_section(&m, fields, 4);
    return m;
}

message message_put(dice *d, size_t number) {
    message m = {.size = uploads[number].size};
    char length[24];
    snprintf(length, sizeof length, "%zu", m.size);
    h3_field fields[] = {{":method", "PUT"}, {":scheme", "https"}, {":authority", "localhost"}, {":path", "/settings"}, {"content-length", length}};
    h3_field trailer = {"x-trailer", "behind the content"};
    uint8_t *body = make_body(number);

    add_unknown_frames(d, &m);
    add_section(&m, fields, 5);
    for (size_t sent = 0; sent < m.size;) {
        add_unknown_frames(d, &m);
        size_t left = m.size - sent, part = below(d, 5) ? below(d, left + 1) : 0;
        if (!below(d, 4)) part = left;
        add_frame(d, &m, H3_DATA, body + sent, part);
        sent += part;
    }
    add_unknown_frames(d, &m);
    if (!below(d, 4)) add_frame(d, &m, H3_DATA, body, 0);
    if (!below(d, 3)) add_section(&m, &trailer, 1);
    add_unknown_frames(d, &m);
    free(body);
    return m;
}

void message_free(message *m) {
    free(m->bytes);
    free(m->frames);
    *m = (message){0};
}

/* The frame that a cut is in or in front of. */
static size_t frame_at(const message *m, size_t cut) {
    size_t i = 0;
    while (i < m->frame_count && m->frames[i].end <= cut) i++;
    return i;
}

place message_place(const message *m, size_t cut) {
    size_t i = frame_at(m, cut), start = i ? m->frames[i - 1].end : 0;
    if (cut == start) return AT_BOUNDARY;
    return cut < m->frames[i].head_end ? IN_FRAME_HEADER : IN_PAYLOAD;
}

uint64_t message_code(const message *m, size_t cut) {
    size_t i = frame_at(m, cut);
    if (message_place(m, cut) != AT_BOUNDARY) return FRAME_ERROR;
    if (!i || !m->frames[i - 1].begun) return REQUEST_INCOMPLETE;
    return m->frames[i - 1].content == m->size ? 0 : MESSAGE_ERROR;
}

size_t message_random_cut(dice *d, const message *m) {
    size_t i = below(d, m->frame_count), start = i ? m->frames[i - 1].end : 0;
    size_t head_end = m->frames[i].head_end, end = m->frames[i].end;
    switch (below(d, 4)) {
    case AT_BOUNDARY:
        return start;
    case IN_FRAME_HEADER:
        return between(d, start + 1, head_end - 1);
    case IN_PAYLOAD:
        return end > head_end ? between(d, head_end, end - 1) : start;
    default:
        return below(d, m->count + 1);
    }
}
