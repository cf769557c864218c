/* See h3.h. */
#include "h3.h"

#include <assert.h>
#include <nghttp3/nghttp3.h>
#include <stdlib.h>
#include <string.h>

enum { QPACK_MAX_TABLE_CAPACITY = 0x01, MAX_FIELD_SECTION_SIZE = 0x06, QPACK_BLOCKED_STREAMS = 0x07 };

static void *must(void *memory) {
    if (!memory) abort();
    return memory;
}

/* ---- integers and frames */

size_t h3_varint_size(uint64_t value) {
    if (value < 1u << 6) return 1;
    if (value < 1u << 14) return 2;
    if (value < 1u << 30) return 4;
    return 8;
}

size_t h3_put_varint(uint8_t *to, uint64_t value, size_t size) {
    static const uint8_t marks[] = {[1] = 0x00, [2] = 0x40, [4] = 0x80, [8] = 0xc0};
    assert(value <= H3_VARINT_MAX && size >= h3_varint_size(value));
    assert(size == 1 || size == 2 || size == 4 || size == 8);
    for (size_t i = 0; i < size; i++) to[i] = (uint8_t)(value >> 8 * (size - 1 - i));
    to[0] |= marks[size];
    return size;
}

size_t h3_get_varint(const uint8_t *bytes, size_t length, uint64_t *value) {
    if (!length) return 0;
    size_t size = (size_t)1 << (bytes[0] >> 6);
    if (length < size) return 0;
    *value = bytes[0] & 0x3f;
    for (size_t i = 1; i < size; i++) *value = *value << 8 | bytes[i];
    return size;
}

static size_t put_shortest(uint8_t *to, uint64_t value) { return h3_put_varint(to, value, h3_varint_size(value)); }

size_t h3_put_frame_head(uint8_t *to, uint64_t type, uint64_t length) {
    size_t size = put_shortest(to, type);
    return size + put_shortest(to + size, length);
}

h3_bytes h3_frame(uint64_t type, const uint8_t *payload, size_t length) {
    h3_bytes frame = {must(malloc(H3_FRAME_HEAD_ROOM + length)), 0};
    frame.length = h3_put_frame_head(frame.bytes, type, length);
    if (length) memcpy(frame.bytes + frame.length, payload, length);
    frame.length += length;
    return frame;
}

/* ---- the control stream */

static size_t put_setting(uint8_t *to, uint64_t identifier, uint64_t value) {
    size_t size = put_shortest(to, identifier);
    return size + put_shortest(to + size, value);
}

h3_bytes h3_control_opening(void) {
    uint8_t settings[3 * 16];
    size_t length = 0;
    length += put_setting(settings + length, QPACK_MAX_TABLE_CAPACITY, 0);
    length += put_setting(settings + length, MAX_FIELD_SECTION_SIZE, 65536);
    length += put_setting(settings + length, QPACK_BLOCKED_STREAMS, 0);

    h3_bytes opening = {must(malloc(8 + H3_FRAME_HEAD_ROOM + sizeof settings)), 0};
    opening.length = put_shortest(opening.bytes, H3_CONTROL_STREAM);
    opening.length += h3_put_frame_head(opening.bytes + opening.length, H3_SETTINGS, length);
    memcpy(opening.bytes + opening.length, settings, length);
    opening.length += length;
    return opening;
}

/* ---- a request's header section */

static nghttp3_nv *lent_fields(const h3_field *fields, size_t count) {
    nghttp3_nv *lent = must(calloc(count + 1, sizeof *lent));
    for (size_t i = 0; i < count; i++) {
        lent[i] = (nghttp3_nv){
            .name = (uint8_t *)fields[i].name,
            .value = (uint8_t *)fields[i].value,
            .namelen = strlen(fields[i].name),
            .valuelen = strlen(fields[i].value),
        };
    }
    return lent;
}

/* A section is its prefix and its field lines, which the encoder gives apart. */
static h3_bytes section_frame(const nghttp3_buf *prefix, const nghttp3_buf *lines) {
    size_t prefix_length = nghttp3_buf_len(prefix), lines_length = nghttp3_buf_len(lines);
    uint8_t *section = must(malloc(prefix_length + lines_length + 1));
    memcpy(section, prefix->pos, prefix_length);
    if (lines_length) memcpy(section + prefix_length, lines->pos, lines_length);
    h3_bytes frame = h3_frame(H3_HEADERS, section, prefix_length + lines_length);
    free(section);
    return frame;
}

h3_bytes h3_headers_frame(const h3_field *fields, size_t count) {
    const nghttp3_mem *memory = nghttp3_mem_default();
    nghttp3_qpack_encoder *encoder;
    nghttp3_buf prefix, lines, instructions;
    nghttp3_buf_init(&prefix);
    nghttp3_buf_init(&lines);
    nghttp3_buf_init(&instructions);
    nghttp3_nv *lent = lent_fields(fields, count);

    /* The stream's id matters to a dynamic table alone; there is none, and so no instructions either. */
    if (nghttp3_qpack_encoder_new(&encoder, 0, memory)) abort();
    if (nghttp3_qpack_encoder_encode(encoder, &prefix, &lines, &instructions, 0, lent, count)) abort();
    h3_bytes frame = section_frame(&prefix, &lines);

    nghttp3_qpack_encoder_del(encoder);
    nghttp3_buf_free(&prefix, memory);
    nghttp3_buf_free(&lines, memory);
    nghttp3_buf_free(&instructions, memory);
    free(lent);
    return frame;
}

/* ---- a response */

/* What one field section tells. */
typedef struct {
    bool readable;
    int status; /* 0 if it has no :status, as trailers */
} section;

static int status_of(nghttp3_vec text) {
    int status = 0;
    if (text.len != 3) return 0;
    for (size_t i = 0; i < text.len; i++) {
        if (text.base[i] < '0' || text.base[i] > '9') return 0;
        status = 10 * status + (text.base[i] - '0');
    }
    return status;
}

static void take_field(section *found, const nghttp3_qpack_nv *field) {
    nghttp3_vec name = nghttp3_rcbuf_get_buf(field->name);
    if (name.len == strlen(":status") && !memcmp(name.base, ":status", name.len)) {
        found->status = status_of(nghttp3_rcbuf_get_buf(field->value));
    }
    nghttp3_rcbuf_decref(field->name);
    nghttp3_rcbuf_decref(field->value);
}

static section decode_lines(nghttp3_qpack_decoder *decoder, nghttp3_qpack_stream_context *context, const uint8_t *bytes,
                            size_t length) {
    section found = {false, 0};
    for (;;) {
        nghttp3_qpack_nv field;
        uint8_t flags;
        nghttp3_ssize used = nghttp3_qpack_decoder_read_request(decoder, context, &field, &flags, bytes, length, 1);
        if (used < 0 || flags & NGHTTP3_QPACK_DECODE_FLAG_BLOCKED) return found;
        if (flags & NGHTTP3_QPACK_DECODE_FLAG_EMIT) take_field(&found, &field);
        bytes += used;
        length -= (size_t)used;
        if (flags & NGHTTP3_QPACK_DECODE_FLAG_FINAL) {
            found.readable = true;
            return found;
        }
    }
}

static section decode_section(const uint8_t *bytes, size_t length) {
    const nghttp3_mem *memory = nghttp3_mem_default();
    nghttp3_qpack_decoder *decoder;
    nghttp3_qpack_stream_context *context;
    if (nghttp3_qpack_decoder_new(&decoder, 0, 0, memory)) abort();
    if (nghttp3_qpack_stream_context_new(&context, 0, memory)) abort();
    section found = decode_lines(decoder, context, bytes, length);
    nghttp3_qpack_stream_context_del(context);
    nghttp3_qpack_decoder_del(decoder);
    return found;
}

/* How far a response has come. */
typedef enum { BEFORE_HEADERS, IN_CONTENT, AFTER_TRAILERS } stage;

static bool read_headers(h3_response *r, stage *at, const uint8_t *payload, size_t length) {
    section found = decode_section(payload, length);
    if (!found.readable || *at == AFTER_TRAILERS) return false;
    if (*at == IN_CONTENT) {
        *at = AFTER_TRAILERS;
        return found.status == 0;
    }
    if (found.status < 100) return false;
    /* An interim response (1xx) goes before the one that counts. */
    if (found.status < 200) return true;
    r->status = found.status;
    *at = IN_CONTENT;
    return true;
}

static bool read_data(h3_response *r, const stage *at, const uint8_t *payload, size_t length) {
    if (*at != IN_CONTENT) return false;
    memcpy(r->content + r->content_length, payload, length);
    r->content_length += length;
    return true;
}

/* Frames of HTTP/3 that are not for a response stream, and those that HTTP/2 had; all other types are to be passed over. */
static bool is_out_of_place(uint64_t type) { return (type >= 0x02 && type <= 0x09) || type == 0x0d; }

static bool read_frame(h3_response *r, stage *at, uint64_t type, const uint8_t *payload, size_t length) {
    if (type == H3_HEADERS) return read_headers(r, at, payload, length);
    if (type == H3_DATA) return read_data(r, at, payload, length);
    return !is_out_of_place(type);
}

bool h3_read_response(h3_response *r, const uint8_t *bytes, size_t length) {
    stage at = BEFORE_HEADERS;
    *r = (h3_response){.content = must(malloc(length + 1))};
    while (length) {
        uint64_t type, payload_length;
        size_t type_size = h3_get_varint(bytes, length, &type);
        if (!type_size) return false;
        size_t length_size = h3_get_varint(bytes + type_size, length - type_size, &payload_length);
        if (!length_size) return false;
        bytes += type_size + length_size;
        length -= type_size + length_size;
        if (payload_length > length || !read_frame(r, &at, type, bytes, (size_t)payload_length)) return false;
        bytes += payload_length;
        length -= (size_t)payload_length;
    }
    return at != BEFORE_HEADERS;
}

void h3_free_response(h3_response *r) {
    free(r->content);
    *r = (h3_response){0};
}
