/* Times the library's feed, libnghttp3 and a bare scanner beside each other over the same streams, and prints the table.
   bench: reads the instructions of each row and reader from standard input, times all, prints.
   bench count ROW READER: that row once, inside `counted`, for a tool that counts instructions there. */
#include <nghttp3/nghttp3.h>
#include <stdint.h>
#include <stdio.h>
#include <stdlib.h>
#include <string.h>
#include <time.h>

#include "bench.h"

#define LEN(a) (sizeof(a) / sizeof *(a))
#define MIB (1u << 20)

static void fail(const char *what, const char *row, const char *reader) {
    fprintf(stderr, "bench: %s: %s, %s\n", what, row, reader);
    exit(1);
}

/* ---- libnghttp3: a server's connection, each stream a new one on it; the callbacks only sum */

static Tally *tally_now;
static nghttp3_conn *conn;
static int64_t stream_id = -1;

static int on_data(nghttp3_conn *c, int64_t id, const uint8_t *data, size_t n, void *u, void *su) {
    (void)c, (void)id, (void)data, (void)u, (void)su;
    tally_now->content += n;
    return 0;
}

static int on_end(nghttp3_conn *c, int64_t id, void *u, void *su) {
    (void)c, (void)id, (void)u, (void)su;
    tally_now->ends++;
    return 0;
}

static int nghttp3_fed(int64_t id, const Byte *bytes, Count n, int fin) {
    return nghttp3_conn_read_stream(conn, id, bytes, n, fin) >= 0;
}

static void nghttp3_open(void) {
    static const Byte control[] = {0x00, 0x04, 0x00}, encoder[] = {0x02}, decoder[] = {0x03};
    if (!conn) {
        nghttp3_callbacks callbacks = {0};
        nghttp3_settings settings;
        callbacks.recv_data = on_data;
        callbacks.end_stream = on_end;
        nghttp3_settings_default(&settings);
        if (nghttp3_conn_server_new(&conn, &callbacks, &settings, nghttp3_mem_default(), NULL)) abort();
        nghttp3_conn_set_max_client_streams_bidi(conn, 1ull << 60);
        if (nghttp3_conn_bind_control_stream(conn, 3) || nghttp3_conn_bind_qpack_streams(conn, 7, 11)) abort();
        if (!nghttp3_fed(2, control, sizeof control, 0) || !nghttp3_fed(6, encoder, 1, 0) || !nghttp3_fed(10, decoder, 1, 0)) abort();
        stream_id = 0;
        return;
    }
    nghttp3_conn_close_stream(conn, stream_id, NGHTTP3_H3_NO_ERROR);
    stream_id += 4;
}

static int nghttp3_run(const Byte *bytes, Count n, Count piece, int fin, Tally *tally) {
    tally_now = tally;
    for (Count at = 0; at < n; at += piece) {
        Count k = n - at < piece ? n - at : piece;
        if (!nghttp3_fed(stream_id, bytes + at, k, fin && at + k == n)) return 0;
        tally->calls++;
    }
    return 1;
}

enum { OURS, NGHTTP3, SCANNER, READERS };
static const Reader readers[READERS] = {
    {"the library's feed", ours_open, ours_run},
    {"libnghttp3", nghttp3_open, nghttp3_run},
    {"the bare scanner", scan_open, scan_run},
};

/* ---- the rows */

typedef struct {
    const char *name;
    Count type, len, count, piece;
    int whole; /* the whole request, from its first byte to its end; else the frames behind its HEADERS */
} Row;

static const Row rows[] = {
    {"1 KiB DATA, 1200-byte pieces", 0x00, 1024, 1024, 1200, 0},
    {"1 KiB DATA, 64 KiB pieces", 0x00, 1024, 1024, 65536, 0},
    {"16-byte DATA, 64 KiB pieces", 0x00, 16, 65536, 65536, 0},
    {"empty unknown, 64 KiB pieces", 0x21, 0, 65536, 65536, 0},
    {"1 MiB PUT, 1200-byte pieces", 0x00, 16384, 64, 1200, 1},
    {"the same, no section, no end", 0x00, 16384, 64, 1200, 0},
};

/* PUT https://localhost/ with a Content-Length of 1 MiB, as its HEADERS frame has it and as a block. */
static const Byte headers[] = "\x01\x19\x00\x00\xd5\xd7\x50\x09localhost\xc1\x54\x07" "1048576";
#define HEADERS (sizeof headers - 1)
Byte block[256];
Count block_bytes;

static void field(const char *name, const char *value) {
    Count name_n = strlen(name), value_n = strlen(value);
    Byte *at = block + block_bytes;
    at[0] = (Byte)(4 + name_n + value_n);
    at[2] = 1;
    at[4] = (Byte)name_n;
    memcpy(at + 6, name, name_n);
    memcpy(at + 6 + name_n, value, value_n);
    block_bytes += 6 + name_n + value_n;
}

static Byte bytes[4 * MIB];

static Count integer(Byte *at, Count value) {
    if (value < 64) return at[0] = (Byte)value, 1;
    if (value < 16384) return at[0] = (Byte)(0x40 | value >> 8), at[1] = (Byte)value, 2;
    return at[0] = (Byte)(0x80 | value >> 24), at[1] = (Byte)(value >> 16), at[2] = (Byte)(value >> 8), at[3] = (Byte)value, 4;
}

static Count stream_of(const Row *row) {
    memcpy(bytes, headers, HEADERS);
    Count n = HEADERS;
    for (Count i = 0; i < row->count; i++) {
        n += integer(bytes + n, row->type);
        n += integer(bytes + n, row->len);
        memset(bytes + n, (int)i, row->len);
        n += row->len;
    }
    return n;
}

static Count frames_of(const Row *row) { return row->count + (row->whole ? 1 : 0); }

/* What is timed and counted. */
__attribute__((noinline)) int counted(const Row *row, const Reader *reader, Count n, Tally *tally) {
    Count from = row->whole ? 0 : HEADERS;
    return reader->run(bytes + from, n - from, row->piece, row->whole, tally);
}

static double seconds(void) {
    struct timespec t;
    clock_gettime(CLOCK_MONOTONIC, &t);
    return (double)t.tv_sec + (double)t.tv_nsec * 1e-9;
}

/* Once: the seconds that it took. Every run must have read all that the row has. */
static double once(const Row *row, const Reader *reader, Count n, Count *calls) {
    Tally before = {0}, tally = {0};
    reader->open();
    if (!row->whole && !reader->run(bytes, HEADERS, HEADERS, 0, &before)) fail("refused", row->name, reader->name);
    double start = seconds();
    int taken = counted(row, reader, n, &tally);
    double took = seconds() - start;
    Count content = row->type == 0 ? row->len * row->count : 0;
    if (!taken || tally.content != content || tally.ends != (Count)row->whole) fail("read something else", row->name, reader->name);
    *calls = tally.calls;
    return took;
}

static void print_table(double took[][READERS], double count[][READERS], Count calls[][READERS]) {
    printf("libnghttp3 %s\n", nghttp3_version(0)->version_str);
    printf("%-30s %24s %26s   %15s %15s %8s\n", "", "nanoseconds a frame", "instructions a frame", "time against", "instr. against", "feeds");
    printf("%-30s %8s %8s %7s %8s %8s %8s   %8s %6s %8s %6s %8s\n", "", "ours", "nghttp3", "scan", "ours", "nghttp3", "scan", "nghttp3",
           "scan", "nghttp3", "scan", "a frame");
    for (Count i = 0; i < LEN(rows); i++) {
        double frames = (double)frames_of(&rows[i]), *t = took[i], *c = count[i];
        printf("%-30s", rows[i].name);
        printf(" %8.1f %8.1f %7.1f", t[OURS] * 1e9 / frames, t[NGHTTP3] * 1e9 / frames, t[SCANNER] * 1e9 / frames);
        printf(" %8.1f %8.1f %8.1f", c[OURS] / frames, c[NGHTTP3] / frames, c[SCANNER] / frames);
        printf("   %8.2f %6.2f %8.2f %6.2f", t[OURS] / t[NGHTTP3], t[OURS] / t[SCANNER], c[OURS] / c[NGHTTP3], c[OURS] / c[SCANNER]);
        printf(" %8.2f\n", (double)calls[i][OURS] / frames);
    }
    for (Count i = 0; i < LEN(rows); i++) {
        double *t = took[i], half = t[OURS] / t[NGHTTP3], floor = t[OURS] / t[SCANNER];
        printf("%-30s half of nghttp3's time: %s; 1.5 of the scanner's: %s\n", rows[i].name, half <= 0.5 ? "reached" : "not reached",
               floor <= 1.5 ? "reached" : "not reached");
    }
}

int main(int argc, char **argv) {
    static double took[LEN(rows)][READERS], count[LEN(rows)][READERS];
    static Count calls[LEN(rows)][READERS];
    field(":method", "PUT");
    field(":scheme", "https");
    field(":authority", "localhost");
    field(":path", "/");
    field("content-length", "1048576");
    if (argc == 4 && !strcmp(argv[1], "count")) {
        Count i = strtoul(argv[2], NULL, 10), r = strtoul(argv[3], NULL, 10);
        if (i >= LEN(rows) || r >= READERS) return 2;
        once(&rows[i], &readers[r], stream_of(&rows[i]), &calls[i][r]);
        return 0;
    }
    for (Count i = 0; i < LEN(rows); i++)
        for (Count r = 0; r < READERS; r++)
            if (scanf("%lf", &count[i][r]) != 1) fail("no count", rows[i].name, readers[r].name);
    /* Rows and readers take turns, so that what else the machine does falls on all; the best of all turns stands. */
    for (int round = 0; round < 12; round++)
        for (Count i = 0; i < LEN(rows); i++) {
            Count n = stream_of(&rows[i]);
            int turns = rows[i].count < 4096 ? 60 : 10;
            for (int turn = 0; turn < turns; turn++)
                for (Count r = 0; r < READERS; r++) {
                    double t = once(&rows[i], &readers[r], n, &calls[i][r]);
                    if (took[i][r] == 0 || t < took[i][r]) took[i][r] = t;
                }
        }
    print_table(took, count, calls);
    return 0;
}
