#include "qpack.h"

#include "eistulko.h"

#include <nghttp3/nghttp3.h>

/* With no table, a section needs nothing of another, nor of the client's encoder stream: so each has a decoder of its own. */
struct qpack {
    nghttp3_qpack_decoder *sections, *instructions;
    nghttp3_qpack_encoder *encoder;
};

static void sure(int failed) {
    if (failed) must(NULL);
}

static nghttp3_qpack_decoder *new_decoder(void) {
    nghttp3_qpack_decoder *d;
    sure(nghttp3_qpack_decoder_new(&d, 0, 0, nghttp3_mem_default()));
    return d;
}

struct qpack *qpack_new(void) {
    struct qpack *q = must(calloc(1, sizeof *q));
    q->sections = new_decoder();
    q->instructions = new_decoder();
    sure(nghttp3_qpack_encoder_new(&q->encoder, 0, nghttp3_mem_default()));
    return q;
}

void qpack_free(struct qpack *q) {
    nghttp3_qpack_decoder_del(q->sections);
    nghttp3_qpack_decoder_del(q->instructions);
    nghttp3_qpack_encoder_del(q->encoder);
    free(q);
}

/* ---- reading */

static void put16(uint8_t *at, size_t n) {
    at[0] = (uint8_t)n;
    at[1] = (uint8_t)(n >> 8);
}

/* One record of the block. A payload has at most 16,384 bytes and Huffman's shortest code 5 bits, so the lengths fit in two bytes. */
static void add_line(struct bytes *block, nghttp3_vec name, nghttp3_vec value) {
    uint8_t head[6];
    put16(head, 4 + name.len + value.len);
    put16(head + 2, 1);
    put16(head + 4, name.len);
    bytes_add(block, head, sizeof head);
    bytes_add(block, name.base, name.len);
    bytes_add(block, value.base, value.len);
}

static uint64_t decode(struct qpack *q, nghttp3_qpack_stream_context *context, const uint8_t *payload, size_t count, struct bytes *block) {
    for (;;) {
        nghttp3_qpack_nv line;
        uint8_t flags = 0;
        nghttp3_ssize n = nghttp3_qpack_decoder_read_request(q->sections, context, &line, &flags, payload, count, 1);
        if (n == NGHTTP3_ERR_QPACK_HEADER_TOO_LARGE) return EISTULKO_REQUEST_REJECTED;
        if (n < 0) return QPACK_DECOMPRESSION_FAILED;
        payload += n;
        count -= (size_t)n;
        if (flags & NGHTTP3_QPACK_DECODE_FLAG_EMIT) {
            add_line(block, nghttp3_rcbuf_get_buf(line.name), nghttp3_rcbuf_get_buf(line.value));
            nghttp3_rcbuf_decref(line.name);
            nghttp3_rcbuf_decref(line.value);
        }
        if (flags & NGHTTP3_QPACK_DECODE_FLAG_FINAL) return 0;
        /* What waits for a table that we do not have, or goes no further, is no section. */
        if (flags & NGHTTP3_QPACK_DECODE_FLAG_BLOCKED || (n == 0 && !(flags & NGHTTP3_QPACK_DECODE_FLAG_EMIT))) return QPACK_DECOMPRESSION_FAILED;
    }
}

uint64_t qpack_decode(struct qpack *q, uint64_t stream, const uint8_t *payload, size_t count, struct bytes *block) {
    nghttp3_qpack_stream_context *context;
    sure(nghttp3_qpack_stream_context_new(&context, (int64_t)stream, nghttp3_mem_default()));
    uint64_t code = decode(q, context, payload, count, block);
    nghttp3_qpack_stream_context_del(context);
    if (code) { /* a decoder that refused one section refuses all that follow */
        nghttp3_qpack_decoder_del(q->sections);
        q->sections = new_decoder();
    }
    return code;
}

uint64_t qpack_heard(struct qpack *q, uint64_t type, const uint8_t *bytes, size_t count) {
    if (type == 2) return nghttp3_qpack_decoder_read_encoder(q->instructions, bytes, count) < 0 ? QPACK_ENCODER_STREAM_ERROR : 0;
    return nghttp3_qpack_encoder_read_decoder(q->encoder, bytes, count) < 0 ? QPACK_DECODER_STREAM_ERROR : 0;
}

/* ---- writing */

void qpack_encode(struct qpack *q, uint64_t stream, const struct line *lines, size_t count, struct bytes *payload) {
    nghttp3_nv pairs[8];
    if (count > sizeof pairs / sizeof *pairs) abort();
    for (size_t i = 0; i < count; i++)
        pairs[i] = (nghttp3_nv){(uint8_t *)lines[i].name, (uint8_t *)lines[i].value, strlen(lines[i].name), strlen(lines[i].value), NGHTTP3_NV_FLAG_NONE};
    nghttp3_buf prefix, section, table;
    nghttp3_buf_init(&prefix);
    nghttp3_buf_init(&section);
    nghttp3_buf_init(&table);
    sure(nghttp3_qpack_encoder_encode(q->encoder, &prefix, &section, &table, (int64_t)stream, pairs, count));
    bytes_add(payload, prefix.pos, nghttp3_buf_len(&prefix));
    bytes_add(payload, section.pos, nghttp3_buf_len(&section));
    nghttp3_buf_free(&prefix, nghttp3_mem_default());
    nghttp3_buf_free(&section, nghttp3_mem_default());
    nghttp3_buf_free(&table, nghttp3_mem_default());
}
