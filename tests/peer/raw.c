/* raw PORT WORD...: a client of the server on 127.0.0.1:PORT that does what the words say, to see what the server makes of cut or
   bad streams. Nothing is added to what the words say, but that the first ones are `control`, unless `bare` stands there.

     control                      opens a control stream with our SETTINGS
     request METHOD PATH [F=V]..  opens a request stream with a HEADERS frame: the pseudo-header fields and those named
     stream, uni                  opens an empty bidirectional, or unidirectional, stream
                                  (each stream opened is then the one that the following words are about)
     data FILE                    queues a DATA frame with the file's bytes
     part FILE FROM TO            queues a DATA frame with the file's bytes from FROM up to, not with, TO
     head TYPE LENGTH             queues a frame's type and length alone
     bytes FILE FROM TO           queues those bytes of the file with no frame
     hex BYTES                    queues these bytes
     fin                          queues the stream's FIN
     reset CODE                   resets the stream; what has not gone out by then (see flush) never does
     flush                        sends, until all queued is acknowledged or the server refused it (10 s at most)
     show                         lets each later wait print a response's content after its line, as it came
     wait                         sends, until the stream was ended or reset by the server or the connection closed (10 s at most);
                                  prints one line: what came
     vanish                       ends the program, the server being told nothing

   Queued bytes go out in flush and wait, and while a stream to be opened waits for the server's limit (10 s at most).
   At the end the connection is closed with 0x100. Numbers are decimal, or hexadecimal after 0x.
   Exit status: 0 the script was run, 1 the server allowed no stream for it, 2 bad usage, 3 no connection came about. */
#include <errno.h>
#include <inttypes.h>
#include <stdio.h>
#include <stdlib.h>
#include <string.h>

#include "client.h"
#include "h3.h"

enum { RAN = 0, NO_STREAM = 1, BAD_USAGE = 2, NO_CONNECTION = 3 };

#define LIMIT 10000u
/* After STOP_SENDING a server may still answer. */
#define ANSWER_AFTER_STOP 1000u

static void *must(void *memory) {
    if (!memory) abort();
    return memory;
}

__attribute__((noreturn)) static void bad_usage(const char *word, const char *what) {
    fprintf(stderr, "raw: %s: %s\n", word, what);
    exit(BAD_USAGE);
}

/* ---- the script: words are read as a whole before anything is sent */

typedef enum { OPEN_BIDI, OPEN_UNI, QUEUE, FIN, RESET, FLUSH, SHOW, WAIT, VANISH } action;

typedef struct {
    action action;
    h3_bytes bytes;
    uint64_t code;
} step;

typedef struct {
    char **words;     /* those still to be read */
    const char *word; /* the one being read */
    uint16_t port;
    step *steps;
    size_t count, capacity;
    bool has_stream, has_fin, has_reset;
} script;

static void add_step(script *s, action what, h3_bytes bytes, uint64_t code) {
    if (s->count == s->capacity) {
        s->capacity = s->capacity ? 2 * s->capacity : 16;
        s->steps = must(realloc(s->steps, s->capacity * sizeof *s->steps));
    }
    s->steps[s->count++] = (step){what, bytes, code};
}

static void add_plain(script *s, action what) { add_step(s, what, (h3_bytes){0}, 0); }

static void add_open(script *s, action what) {
    add_plain(s, what);
    s->has_stream = true;
    s->has_fin = s->has_reset = false;
}

static void add_queue(script *s, h3_bytes bytes) {
    if (!s->has_stream) bad_usage(s->word, "no stream is open");
    if (s->has_fin || s->has_reset) bad_usage(s->word, "the stream has ended");
    add_step(s, QUEUE, bytes, 0);
}

static const char *next_word(script *s, const char *what) {
    if (!*s->words) bad_usage(s->word, what);
    return *s->words++;
}

static uint64_t number(const char *word, uint64_t max) {
    char *end;
    errno = 0;
    bool hexadecimal = !strncmp(word, "0x", 2);
    uint64_t value = strtoull(word, &end, hexadecimal ? 16 : 10);
    if (*word < '0' || *word > '9' || *end || errno || value > max) bad_usage(word, "not a number that fits");
    return value;
}

static uint64_t next_number(script *s, const char *what) { return number(next_word(s, what), H3_VARINT_MAX); }

static h3_bytes file_bytes(const char *name) {
    h3_bytes all = {NULL, 0};
    FILE *f = fopen(name, "rb");
    if (!f) bad_usage(name, strerror(errno));
    size_t capacity = 1u << 16, got;
    all.bytes = must(malloc(capacity));
    while ((got = fread(all.bytes + all.length, 1, capacity - all.length, f)) > 0) {
        all.length += got;
        if (all.length == capacity) all.bytes = must(realloc(all.bytes, capacity *= 2));
    }
    if (ferror(f)) bad_usage(name, "cannot be read");
    fclose(f);
    return all;
}

/* FILE FROM TO. */
static h3_bytes next_file_part(script *s) {
    const char *name = next_word(s, "wants a file");
    h3_bytes part = file_bytes(name);
    uint64_t from = next_number(s, "wants where the part begins");
    uint64_t to = next_number(s, "wants where the part ends");
    if (from > to || to > part.length) bad_usage(name, "has no such part");
    memmove(part.bytes, part.bytes + from, (size_t)(to - from));
    part.length = (size_t)(to - from);
    return part;
}

static void add_data_frame(script *s, h3_bytes content) {
    add_queue(s, h3_frame(H3_DATA, content.bytes, content.length));
    free(content.bytes);
}

/* ---- one function a word */

static void read_control(script *s) {
    add_open(s, OPEN_UNI);
    add_queue(s, h3_control_opening());
}

static bool is_field(const char *word) { return word && strchr(word, '='); }

/* NAME=VALUE, cut in two. */
static h3_field split_field(char *word) {
    char *equals = strchr(word, '=');
    *equals = '\0';
    return (h3_field){word, equals + 1};
}

static void read_request(script *s) {
    size_t count = 4;
    char authority[32];
    snprintf(authority, sizeof authority, "localhost:%u", s->port);
    const char *method = next_word(s, "wants a method");
    const char *path = next_word(s, "wants a path");
    while (is_field(s->words[count - 4])) count++;

    h3_field *fields = must(calloc(count, sizeof *fields));
    fields[0] = (h3_field){":method", method};
    fields[1] = (h3_field){":scheme", "https"};
    fields[2] = (h3_field){":authority", authority};
    fields[3] = (h3_field){":path", path};
    for (size_t i = 4; i < count; i++) fields[i] = split_field(*s->words++);
    add_open(s, OPEN_BIDI);
    add_queue(s, h3_headers_frame(fields, count));
    free(fields);
}

static void read_stream(script *s) { add_open(s, OPEN_BIDI); }

static void read_uni(script *s) { add_open(s, OPEN_UNI); }

static void read_data(script *s) { add_data_frame(s, file_bytes(next_word(s, "wants a file"))); }

static void read_part(script *s) { add_data_frame(s, next_file_part(s)); }

static void read_bytes(script *s) { add_queue(s, next_file_part(s)); }

static void read_head(script *s) {
    h3_bytes head = {must(malloc(H3_FRAME_HEAD_ROOM)), 0};
    uint64_t type = next_number(s, "wants a frame's type");
    head.length = h3_put_frame_head(head.bytes, type, next_number(s, "wants a frame's length"));
    add_queue(s, head);
}

static unsigned hex_digit(const char *word, char digit) {
    static const char digits[] = "0123456789abcdef";
    const char *found = digit ? strchr(digits, digit >= 'A' && digit <= 'F' ? digit + ('a' - 'A') : digit) : NULL;
    if (!found) bad_usage(word, "not pairs of hexadecimal digits");
    return (unsigned)(found - digits);
}

static void read_hex(script *s) {
    const char *word = next_word(s, "wants hexadecimal digits");
    h3_bytes given = {must(malloc(strlen(word) + 1)), 0};
    for (const char *at = word; *at; at += 2) {
        unsigned high = hex_digit(word, at[0]);
        given.bytes[given.length++] = (uint8_t)(high << 4 | hex_digit(word, at[1]));
    }
    add_queue(s, given);
}

static void read_fin(script *s) {
    if (!s->has_stream) bad_usage(s->word, "no stream is open");
    if (s->has_fin || s->has_reset) bad_usage(s->word, "the stream has ended");
    add_plain(s, FIN);
    s->has_fin = true;
}

static void read_reset(script *s) {
    uint64_t code = next_number(s, "wants an error code");
    if (!s->has_stream) bad_usage(s->word, "no stream is open");
    if (s->has_reset) bad_usage(s->word, "the stream is reset already");
    add_step(s, RESET, (h3_bytes){0}, code);
    s->has_reset = true;
}

static void read_wait(script *s) {
    if (!s->has_stream) bad_usage(s->word, "no stream is open");
    add_plain(s, WAIT);
}

static void read_flush(script *s) { add_plain(s, FLUSH); }

static void read_show(script *s) { add_plain(s, SHOW); }

static void read_vanish(script *s) { add_plain(s, VANISH); }

static const struct {
    const char *word;
    void (*read)(script *);
} known[] = {
    {"control", read_control}, {"request", read_request}, {"stream", read_stream}, {"uni", read_uni},   {"data", read_data},
    {"part", read_part},       {"head", read_head},       {"bytes", read_bytes},   {"hex", read_hex},   {"fin", read_fin},
    {"reset", read_reset},     {"flush", read_flush},     {"show", read_show},     {"wait", read_wait}, {"vanish", read_vanish},
};

static void read_word(script *s) {
    s->word = *s->words++;
    for (size_t i = 0; i < sizeof known / sizeof *known; i++) {
        if (!strcmp(s->word, known[i].word)) {
            known[i].read(s);
            return;
        }
    }
    bad_usage(s->word, "no such word");
}

static script read_script(uint16_t port, char **words) {
    script s = {.words = words, .port = port};
    if (*s.words && !strcmp(*s.words, "bare")) {
        s.words++;
    } else {
        read_control(&s);
    }
    while (*s.words) read_word(&s);
    return s;
}

static void free_script(script *s) {
    for (size_t i = 0; i < s->count; i++) free(s->steps[i].bytes.bytes);
    free(s->steps);
}

/* ---- the run */

typedef struct {
    client *client;
    client_stream *stream; /* the one that the words are about; none while the connection is closed */
    bool show;
} run;

static bool is_open(const run *r) { return client_closed(r->client, NULL) == CONNECTION_OPEN; }

static bool flushed(void *argument) { return client_flushed(((run *)argument)->client); }

static bool may_open_bidi(void *argument) { return client_bidi_left(((run *)argument)->client) > 0; }

static bool may_open_uni(void *argument) { return client_uni_left(((run *)argument)->client) > 0; }

static bool is_bidi(const client_stream *s) { return (s->id & 2) == 0; }

static bool answered(void *argument) {
    const client_stream *s = ((run *)argument)->stream;
    return s->fin_received || s->reset_received;
}

static bool answered_or_stopped(void *argument) {
    return answered(argument) || ((run *)argument)->stream->stop_sending_received;
}

/* False if the server allows no stream in the time. On a closed connection there is none, and the script goes on to its waits. */
static bool open_stream(run *r, action what) {
    bool bidi = what == OPEN_BIDI;
    client_condition may_open = bidi ? may_open_bidi : may_open_uni;
    r->stream = NULL;
    /* Only if it must: a run would send what is queued before the script says so. */
    if (!may_open(r)) client_run(r->client, may_open, r, LIMIT);
    if (!is_open(r)) return true;
    r->stream = bidi ? client_open_bidi(r->client) : client_open_uni(r->client);
    return r->stream != NULL;
}

static void print_closure(const run *r) {
    uint64_t code;
    switch (client_closed(r->client, &code)) {
    case CONNECTION_OPEN:
        break;
    case CLOSED_BY_APPLICATION:
        printf("connection closed with 0x%" PRIx64 "\n", code);
        break;
    case CLOSED_BY_TRANSPORT:
        printf("connection closed with transport error 0x%" PRIx64 "\n", code);
        break;
    case CLOSED_BY_STATELESS_RESET:
        printf("connection closed by a stateless reset\n");
        break;
    case CLOSED_BY_IDLE_TIMEOUT:
        printf("connection closed by its idle timeout\n");
        break;
    case CLOSED_AS_UNREACHABLE:
        printf("connection closed: nobody listens on the port\n");
        break;
    case CLOSED_BY_CLIENT:
        printf("connection closed by the client with transport error 0x%" PRIx64 "\n", code);
        break;
    }
}

static void print_response(const run *r) {
    const client_stream *s = r->stream;
    h3_response response;
    if (h3_read_response(&response, s->received, s->received_length)) {
        printf("stream %" PRId64 ": status %d, %zu bytes\n", s->id, response.status, response.content_length);
        if (r->show) fwrite(response.content, 1, response.content_length, stdout);
    } else {
        printf("stream %" PRId64 ": no whole response in %zu bytes\n", s->id, s->received_length);
    }
    h3_free_response(&response);
}

static void print_what_came(const run *r) {
    const client_stream *s = r->stream;
    if (s && s->reset_received) {
        printf("stream %" PRId64 ": reset with 0x%" PRIx64 "\n", s->id, s->reset_code);
    } else if (s && s->fin_received) {
        print_response(r);
    } else if (!is_open(r)) {
        print_closure(r);
    } else if (s && s->stop_sending_received) {
        printf("stream %" PRId64 ": stop sending with 0x%" PRIx64 "\n", s->id, s->stop_sending_code);
    } else if (s) {
        printf("stream %" PRId64 ": no answer\n", s->id);
    }
    fflush(stdout);
}

static void wait_for_answer(run *r) {
    if (r->stream) {
        client_run(r->client, answered_or_stopped, r, LIMIT);
        bool may_still_answer = r->stream->stop_sending_received && is_bidi(r->stream);
        if (may_still_answer) client_run(r->client, answered, r, ANSWER_AFTER_STOP);
    }
    print_what_came(r);
}

static void flush(run *r) {
    if (!client_run(r->client, flushed, r, LIMIT) && is_open(r)) fprintf(stderr, "raw: not all was acknowledged in time\n");
}

/* What a step does to the stream that the words are about. */
static void do_to_stream(run *r, const step *what) {
    if (!r->stream) return;
    if (what->action == QUEUE) client_send(r->stream, what->bytes.bytes, what->bytes.length);
    if (what->action == FIN) client_fin(r->stream);
    if (what->action == RESET) client_reset(r->client, r->stream, what->code);
}

/* False if the step cannot be done. */
static bool do_step(run *r, const step *what) {
    switch (what->action) {
    case OPEN_BIDI:
    case OPEN_UNI:
        return open_stream(r, what->action);
    case QUEUE:
    case FIN:
    case RESET:
        do_to_stream(r, what);
        return true;
    case FLUSH:
        flush(r);
        return true;
    case SHOW:
        r->show = true;
        return true;
    case WAIT:
        wait_for_answer(r);
        return true;
    case VANISH:
        return true;
    }
    return false;
}

static int run_script(const script *s, uint16_t port) {
    run r = {.client = client_connect(port, LIMIT)};
    if (!r.client) {
        fprintf(stderr, "raw: no connection\n");
        return NO_CONNECTION;
    }
    for (size_t i = 0; i < s->count; i++) {
        if (s->steps[i].action == VANISH) {
            client_drop(r.client);
            return RAN;
        }
        if (!do_step(&r, &s->steps[i])) {
            fprintf(stderr, "raw: the server allows no stream\n");
            client_close(r.client, H3_NO_ERROR);
            return NO_STREAM;
        }
    }
    client_close(r.client, H3_NO_ERROR);
    return RAN;
}

int main(int count, char **words) {
    if (count < 2) bad_usage("usage", "raw PORT WORD...");
    uint16_t port = (uint16_t)number(words[1], UINT16_MAX);
    script s = read_script(port, words + 2);
    int status = run_script(&s, port);
    free_script(&s);
    return status;
}
