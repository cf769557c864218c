/* soak GATEWAY FOLDER SEED SIZE GROWTH: keeps a gateway under load, kills its clients and itself, and holds its settings file, after each wave of
   uploads, to what was sent. SIZE scales all counts; 10 is a full run. GROWTH is the memory in KiB that the gateway may keep, when its clients are gone,
   beyond what it had after its first request. One line for each part; status 1 at the first failure.
   The seed decides what is sent and where it is cut; moments are the machine's. */
#define _GNU_SOURCE
#include <inttypes.h>
#include <poll.h>
#include <signal.h>
#include <stdio.h>
#include <stdlib.h>
#include <string.h>
#include <sys/inotify.h>
#include <sys/mman.h>
#include <sys/wait.h>
#include <unistd.h>

#include "../peer/client.h"
#include "../peer/h3.h"
#include "serving.h"
#include "uploads.h"

#define LIMIT 30000u
#define REQUESTS 21 /* at once, beside the client's three one-way streams */
#define CONNECTIONS_AT_ONCE 60
#define CLIENTS_AT_ONCE 4
#define REQUEST_CANCELLED 0x10c
#define CROWDS 5

static dice the_dice;
static size_t growth;

/* Of one life of the gateway. */
static struct {
    size_t connected;
    uint64_t answered, ended; /* answers seen; requests that were sent to their end, whole */
} life;

/* ---- the settings in force */

/* The upload that the file held last, and the first of the wave sent since. */
static size_t in_force, wave;

static bool wave_is_acknowledged(void) {
    for (size_t n = wave; n < upload_next(); n++)
        if (upload_at(n)->fate == ACKNOWLEDGED) return true;
    return false;
}

/* Which upload these settings are; it must be one that may be in force. */
static size_t judge(const char *when, const uint8_t *bytes, size_t count) {
    size_t number;
    const char *fault = upload_known(bytes, count, &number);
    if (fault) fail("%s, settings of %zu bytes are %s", when, count, fault);
    if (number < wave && number != in_force) fail("%s, upload %zu is in force, which is older than %zu", when, number, in_force);
    if (upload_at(number)->fate == NEVER_WHOLE) fail("%s, upload %zu is in force, which was never sent whole", when, number);
    return number;
}

/* No request is under way: the wave is over. */
static void settle(const char *when) {
    size_t count;
    uint8_t *bytes = serving_settings(&count);
    if (!bytes) fail("%s, there are no settings", when);
    size_t number = judge(when, bytes, count);
    if (number < wave && wave_is_acknowledged()) fail("%s, upload %zu is in force, and a later one that was acknowledged is lost", when, number);
    free(bytes);
    in_force = number;
    wave = upload_next();
}

/* ---- connections */

static client *connected(void) {
    client *c = client_connect(serving_port(), LIMIT);
    if (!c) fail("no connection to the gateway");
    life.connected++;
    return c;
}

typedef struct {
    client_stream *control, *encoder, *decoder;
} oneways;

static oneways open_oneways(client *c) {
    oneways o = {client_open_uni(c), client_open_uni(c), client_open_uni(c)};
    if (!o.control || !o.encoder || !o.decoder) fail("the gateway does not grant three one-way streams");
    h3_bytes opening = h3_control_opening();
    client_send(o.control, opening.bytes, opening.length);
    client_send(o.encoder, "\x02", 1);
    client_send(o.decoder, "\x03", 1);
    free(opening.bytes);
    return o;
}

/* Some bytes that have no effect on each: an unknown frame, the dynamic table's size set to none, a stream of which nothing was decoded given up. */
static void talk_on_oneways(const oneways *o) {
    client_send(o->control, "\x21\x02xy", 4);
    client_send(o->encoder, "\x20", 1);
    client_send(o->decoder, "\x40", 1);
}

/* In either way a client can go. */
static void leave(client *c) {
    if (below(&the_dice, 4)) client_close(c, H3_NO_ERROR);
    else client_drop(c);
}

/* ---- requests */

typedef enum { PUT_SETTINGS, GET_SETTINGS, GET_LOG } kind;

typedef struct {
    client *client;
    client_stream *stream;
    kind kind;
    size_t number; /* of the upload */
    message message;
    size_t at; /* bytes handed over */
} request;

typedef struct {
    request *requests;
    size_t count;
} batch;

static request begin_as(client *c, kind k, size_t size) {
    request r = {.client = c, .stream = client_open_bidi(c), .kind = k};
    if (!r.stream) fail("the gateway grants no stream");
    if (k == PUT_SETTINGS) {
        r.number = upload_new(size);
        r.message = message_put(&the_dice, r.number);
    } else {
        r.message = message_get(k == GET_LOG ? "/log" : "/settings");
    }
    return r;
}

/* A log is long: it comes seldom. */
static kind random_kind(unsigned puts_of_100) {
    if (below(&the_dice, 100) < puts_of_100) return PUT_SETTINGS;
    return below(&the_dice, 50) ? GET_SETTINGS : GET_LOG;
}

static void push(request *r, size_t count) {
    client_send(r->stream, r->message.bytes + r->at, count);
    r->at += count;
}

/* The rest, and the end. */
static void push_end(request *r) {
    push(r, r->message.count - r->at);
    client_fin(r->stream);
    life.ended++;
    if (r->kind == PUT_SETTINGS) upload_at(r->number)->fate = MAYBE_KEPT;
}

static bool is_sent(const client_stream *s) { return s->sent == s->queued && s->fin_queued == s->fin_sent; }

static bool all_sent(void *argument) {
    const batch *b = argument;
    for (size_t i = 0; i < b->count; i++)
        if (!is_sent(b->requests[i].stream)) return false;
    return true;
}

static bool is_answered(const client_stream *s) { return s->fin_received || s->reset_received; }

static bool all_answered(void *argument) {
    const batch *b = argument;
    for (size_t i = 0; i < b->count; i++)
        if (!is_answered(b->requests[i].stream)) return false;
    return true;
}

static bool may_open(void *argument) { return client_bidi_left(argument) > 0; }

static void hear(request *r) {
    client_stream *s = r->stream;
    h3_response a;
    if (s->reset_received) fail("a whole request was refused with 0x%" PRIx64, s->reset_code);
    if (!s->fin_received) fail("a whole request was not answered");
    if (!h3_read_response(&a, s->received, s->received_length) || a.status != 200) fail("a whole request was answered with %d", a.status);
    if (r->kind == PUT_SETTINGS) upload_at(r->number)->fate = ACKNOWLEDGED;
    if (r->kind == GET_SETTINGS) judge("in an answer", a.content, a.content_length);
    life.answered++;
    h3_free_response(&a);
}

static void forget(batch *b) {
    for (size_t i = 0; i < b->count; i++) {
        message_free(&b->requests[i].message);
        client_forget(b->requests[i].stream);
    }
}

/* One request, alone. */
static void ask(client *c, kind k, size_t size) {
    if (!may_open(c)) client_run(c, may_open, c, LIMIT);
    request r = begin_as(c, k, size);
    batch b = {&r, 1};
    push_end(&r);
    client_run(c, all_answered, &b, LIMIT);
    hear(&r);
    forget(&b);
    if (k == PUT_SETTINGS) settle("after one PUT");
}

static void shuffle(size_t *order, size_t count) {
    for (size_t i = 0; i < count; i++) order[i] = i;
    for (size_t i = count; i > 1; i--) {
        size_t j = below(&the_dice, i), kept = order[i - 1];
        order[i - 1] = order[j];
        order[j] = kept;
    }
}

/* Hands a small piece of each request over in turn, again and again, until each lacks its last byte alone. False if the gateway is gone. */
static bool fill_in_turn(client *c, batch *b, size_t largest) {
    size_t order[REQUESTS];
    for (bool more = true; more;) {
        more = false;
        shuffle(order, b->count);
        for (size_t i = 0; i < b->count; i++) {
            request *r = &b->requests[order[i]];
            size_t left = r->message.count - r->at - 1, piece = between(&the_dice, 1, largest);
            if (!left) continue;
            push(r, piece < left ? piece : left);
            more = true;
            if (!client_run(c, all_sent, b, LIMIT)) return false;
        }
    }
    return true;
}

/* ---- part 1: 24 streams at once */

static bool all_granted(void *argument) { return client_bidi_left(argument) == REQUESTS; }

static void one_round(client *c, const oneways *o, size_t *puts_sent) {
    request requests[REQUESTS];
    batch b = {requests, REQUESTS};
    size_t order[REQUESTS];
    if (!client_run(c, all_granted, c, LIMIT)) fail("%" PRIu64 " requests are granted where %d were", client_bidi_left(c), REQUESTS);
    for (size_t i = 0; i < REQUESTS; i++) {
        requests[i] = begin_as(c, random_kind(50), between(&the_dice, 0, 3000));
        *puts_sent += requests[i].kind == PUT_SETTINGS;
    }
    if (client_open_bidi(c)) fail("more than %d requests are granted", REQUESTS);
    talk_on_oneways(o);
    if (!fill_in_turn(c, &b, 400)) fail("the gateway takes no more bytes");
    shuffle(order, REQUESTS);
    for (size_t i = 0; i < REQUESTS; i++) {
        push_end(&requests[order[i]]);
        if (below(&the_dice, 2)) client_run(c, all_sent, &b, LIMIT);
    }
    client_run(c, all_answered, &b, LIMIT);
    for (size_t i = 0; i < REQUESTS; i++) hear(&requests[i]);
    forget(&b);
    settle("after a round");
}

static void part_rounds(size_t rounds) {
    size_t puts_sent = 0;
    client *c = connected();
    oneways o = open_oneways(c);
    for (size_t i = 0; i < rounds; i++) {
        one_round(c, &o, &puts_sent);
        ask(c, PUT_SETTINGS, 500);
    }
    client_close(c, H3_NO_ERROR);
    printf("1. 24 streams at once: %zu rounds of 21 requests, %zu of them PUTs, and a PUT alone after each; all answered 200\n", rounds, puts_sent);
}

/* ---- part 2: one after another */

static void one_crowd(void) {
    client *clients[CONNECTIONS_AT_ONCE];
    request requests[CONNECTIONS_AT_ONCE];
    batch b = {requests, CONNECTIONS_AT_ONCE};
    for (size_t i = 0; i < b.count; i++) {
        clients[i] = connected();
        open_oneways(clients[i]);
        requests[i] = begin_as(clients[i], random_kind(30), between(&the_dice, 0, 5000));
        push_end(&requests[i]);
    }
    client_run_all(clients, b.count, all_answered, &b, LIMIT);
    for (size_t i = 0; i < b.count; i++) hear(&requests[i]);
    forget(&b);
    for (size_t i = 0; i < b.count; i++) leave(clients[i]);
    settle("after requests on many connections");
}

/* Also what a gateway's memory is measured after: it keeps room for the most connections that it had. */
static void some_crowds(void) {
    for (size_t i = 0; i < CROWDS; i++) one_crowd();
}

static void part_sequence(size_t requests, size_t connections) {
    client *c = connected();
    open_oneways(c);
    for (size_t i = 0; i < requests; i++) ask(c, random_kind(20), between(&the_dice, 0, 2000));
    client_close(c, H3_NO_ERROR);
    printf("2. one after another: %zu requests on one connection", requests);

    size_t more = 0;
    for (size_t i = 0; i < connections; i++) {
        size_t count = between(&the_dice, 0, 20);
        c = connected();
        if (below(&the_dice, 2)) open_oneways(c);
        for (size_t k = 0; k < count; k++) ask(c, random_kind(20), between(&the_dice, 0, 2000));
        leave(c);
        more += count;
    }
    some_crowds();
    printf(", %zu on %zu connections, %d times one on each of %d connections at once; all answered 200\n", more, connections, CROWDS, CONNECTIONS_AT_ONCE);
}

/* ---- part 3: clients that die */

typedef enum { KILLED_AT_BYTE, KILLED_AT_TIME, DROPPED, RESET, ENDED, WAYS } way;

typedef struct {
    way way;
    size_t number, cut;
    message message;
    bool end_apart; /* the FIN goes alone behind the bytes */
    pid_t process;
} plan;

/* What a client saw until it died, in memory that outlives it. */
typedef struct {
    bool ended; /* the FIN was handed over */
    int status; /* of a response, else 0 */
    bool reset;
    uint64_t reset_code, closure_code;
    client_closure closure;
} outcome;

static bool stream_is_sent(void *stream) { return is_sent(stream); }
static bool stream_is_answered(void *stream) { return is_answered(stream); }
static bool everything_is_acknowledged(void *c) { return client_flushed(c); }

static void wait_for_answer(client *c, client_stream *s, volatile outcome *o) {
    h3_response a;
    client_run(c, stream_is_answered, s, LIMIT);
    if (s->fin_received && h3_read_response(&a, s->received, s->received_length)) o->status = a.status;
    o->reset = s->reset_received;
    o->reset_code = s->reset_code;
    uint64_t code;
    o->closure = client_closed(c, &code);
    o->closure_code = code;
}

/* A process of its own. */
__attribute__((noreturn)) static void be_client(const plan *p, volatile outcome *o) {
    client *c = client_connect(serving_port(), LIMIT);
    if (!c) _exit(1);
    open_oneways(c);
    client_stream *s = client_open_bidi(c);
    dice d = {p->number};
    bool ends = p->way == ENDED || p->way == KILLED_AT_TIME;
    for (size_t at = 0; at < p->cut;) {
        size_t piece = between(&d, 1, 1 + p->cut / 3);
        if (piece > p->cut - at) piece = p->cut - at;
        client_send(s, p->message.bytes + at, piece);
        at += piece;
        if (at == p->cut && ends && !p->end_apart) break;
        client_run(c, stream_is_sent, s, LIMIT);
    }
    if (ends) {
        o->ended = true;
        client_fin(s);
        wait_for_answer(c, s, o);
    }
    if (p->way == KILLED_AT_BYTE) raise(SIGKILL);
    if (p->way == KILLED_AT_TIME) pause();
    if (p->way == RESET) {
        client_reset(c, s, REQUEST_CANCELLED);
        client_run(c, everything_is_acknowledged, c, LIMIT);
    }
    if (p->way == DROPPED) client_drop(c);
    else client_close(c, H3_NO_ERROR);
    _exit(0);
}

static plan random_plan(void) {
    plan p = {.way = below(&the_dice, WAYS), .end_apart = below(&the_dice, 2)};
    p.number = upload_new(below(&the_dice, 4) ? between(&the_dice, 0, 2000) : between(&the_dice, 2000, 60000));
    p.message = message_put(&the_dice, p.number);
    p.cut = p.way == KILLED_AT_TIME || !below(&the_dice, 5) ? p.message.count : message_random_cut(&the_dice, &p.message);
    return p;
}

/* The client came to the end that its plan has, and heard what is due there. */
static void check_client(const plan *p, int status, const volatile outcome *o) {
    bool killed = p->way == KILLED_AT_BYTE || p->way == KILLED_AT_TIME;
    if (killed ? !WIFSIGNALED(status) || WTERMSIG(status) != SIGKILL : status != 0) fail("a client did not end as planned");
    if (o->status) upload_at(p->number)->fate = ACKNOWLEDGED;
    if (o->status && o->status != 200) fail("a PUT was answered with %d", o->status);
    if (p->way != ENDED) return;
    uint64_t due = message_code(&p->message, p->cut), heard = o->reset ? o->reset_code : o->closure_code;
    bool fits = due ? !o->status && heard == due : o->status == 200;
    if (!fits) fail("a PUT of %zu bytes, ended after %zu, was answered with %d and 0x%" PRIx64 "; due is 0x%" PRIx64, p->message.count, p->cut, o->status, heard, due);
}

/* All that the dead have sent is read before this is answered: the gateway has one socket. */
static void wait_for_gateway(void) {
    client *c = connected();
    ask(c, GET_SETTINGS, 0);
    client_close(c, H3_NO_ERROR);
}

static void some_clients(volatile outcome *outcomes, size_t counts[WAYS], size_t places[3], size_t *acknowledged) {
    plan plans[CLIENTS_AT_ONCE];
    size_t count = below(&the_dice, 2) ? 1 : between(&the_dice, 2, CLIENTS_AT_ONCE);
    for (size_t i = 0; i < count; i++) plans[i] = random_plan();
    for (size_t i = 0; i < count; i++) {
        outcomes[i] = (outcome){0};
        plans[i].process = fork_child();
        if (!plans[i].process) be_client(&plans[i], &outcomes[i]);
    }
    for (size_t i = 0; i < count; i++) {
        if (plans[i].way != KILLED_AT_TIME) continue;
        usleep((useconds_t)below(&the_dice, 40000));
        kill(plans[i].process, SIGKILL);
    }
    for (size_t i = 0; i < count; i++) {
        const plan *p = &plans[i];
        int status;
        waitpid(p->process, &status, 0);
        if (outcomes[i].ended && !message_code(&p->message, p->cut)) {
            upload_at(p->number)->fate = MAYBE_KEPT;
            life.ended++;
        }
        check_client(p, status, &outcomes[i]);
        counts[p->way]++;
        if (p->way == ENDED && message_code(&p->message, p->cut)) places[message_place(&p->message, p->cut)]++;
        *acknowledged += outcomes[i].status == 200;
        life.answered += outcomes[i].status == 200;
    }
    wait_for_gateway();
    settle("after clients died");
    for (size_t i = 0; i < count; i++) message_free(&plans[i].message);
}

static void part_dying_clients(size_t kills) {
    size_t counts[WAYS] = {0}, places[3] = {0}, acknowledged = 0;
    volatile outcome *outcomes = mmap(NULL, CLIENTS_AT_ONCE * sizeof *outcomes, PROT_READ | PROT_WRITE, MAP_SHARED | MAP_ANONYMOUS, -1, 0);
    if (outcomes == MAP_FAILED) fail("no memory to share");
    while (counts[KILLED_AT_BYTE] + counts[KILLED_AT_TIME] + counts[DROPPED] < kills) some_clients(outcomes, counts, places, &acknowledged);
    printf("3. clients that die: %zu killed at a byte, %zu at a moment, %zu dropped; %zu reset; %zu ended, of them too early %zu between frames, %zu in a "
           "frame's header, %zu in its payload; %zu answered 200\n",
           counts[KILLED_AT_BYTE], counts[KILLED_AT_TIME], counts[DROPPED], counts[RESET], counts[ENDED], places[AT_BOUNDARY], places[IN_FRAME_HEADER],
           places[IN_PAYLOAD], acknowledged);
}

/* ---- part 4: a gateway that dies */

/* Until something was done to a settings file that many times, or a time is over. */
static void wait_for_changes(int watch, size_t changes) {
    _Alignas(struct inotify_event) char events[4096];
    struct pollfd in = {.fd = watch, .events = POLLIN};
    while (changes && poll(&in, 1, 2000) > 0) {
        ssize_t count = read(watch, events, sizeof events);
        for (char *at = events; changes && at < events + count;) {
            struct inotify_event *e = (struct inotify_event *)at;
            changes -= e->len && !strncmp(e->name, "settings", 8);
            at += sizeof *e + e->len;
        }
    }
}

/* A process of its own: kills the gateway at any moment, or just when it writes settings. */
__attribute__((noreturn)) static void be_killer(int watch, bool at_change, size_t changes, useconds_t wait) {
    if (at_change) wait_for_changes(watch, changes);
    usleep(wait);
    kill(serving_process(), SIGKILL);
    _exit(0);
}

static pid_t start_killer(void) {
    bool at_change = below(&the_dice, 3);
    size_t changes = between(&the_dice, 1, 30);
    useconds_t wait = (useconds_t)below(&the_dice, !at_change ? 300000 : below(&the_dice, 2) ? 3000 : 1);
    int watch = inotify_init1(IN_CLOEXEC);
    if (watch < 0 || inotify_add_watch(watch, serving_folder(), IN_CREATE | IN_MODIFY | IN_CLOSE_WRITE | IN_MOVED_TO) < 0) fail("no watch on the folder");
    pid_t killer = fork_child();
    if (!killer) be_killer(watch, at_change, changes, wait);
    close(watch);
    return killer;
}

static bool all_answered_or_gone(void *argument) { return all_answered(argument) || serving_has_ended(); }

/* False when the gateway is gone. What was acknowledged is noted in any case. */
static bool some_uploads(client *c, size_t *sent) {
    request requests[REQUESTS];
    batch b = {requests, below(&the_dice, 2) ? 1 : between(&the_dice, 2, REQUESTS)};
    if (!client_run(c, all_granted, c, LIMIT)) return false;
    size_t largest = below(&the_dice, 2) ? 3000 : b.count == 1 ? 1000000 : 100000;
    for (size_t i = 0; i < b.count; i++) requests[i] = begin_as(c, PUT_SETTINGS, between(&the_dice, 0, largest));
    if (fill_in_turn(c, &b, largest / 2)) {
        for (size_t i = 0; i < b.count; i++) push_end(&requests[i]);
        client_run(c, all_answered_or_gone, &b, LIMIT);
    }
    bool all = all_answered(&b);
    for (size_t i = 0; i < b.count; i++)
        if (is_answered(requests[i].stream)) hear(&requests[i]);
    forget(&b);
    *sent += b.count;
    if (all) settle("after PUTs");
    return all;
}

static void part_dying_gateway(size_t crashes) {
    size_t sent = 0, restored = 0;
    for (size_t i = 0; i < crashes; i++) {
        serving_start();
        settle("after a start");
        wait_for_gateway();
        client *c = connected();
        pid_t killer = start_killer();
        while (some_uploads(c, &sent)) {}
        if (waitpid(killer, NULL, 0) != killer) fail("the killer is lost");
        serving_reap_killed();
        size_t before = in_force;
        settle("after the gateway was killed");
        restored += in_force == before;
        client_drop(c);
    }
    printf("4. a gateway that dies: killed %zu times with PUTs under way, of %zu PUTs; in force was then a whole one, the old one %zu times\n", crashes, sent, restored);
}

/* ---- part 5: the end of a life */

static void begin_life(size_t *memory) {
    memset(&life, 0, sizeof life);
    serving_start();
    client *c = connected();
    ask(c, PUT_SETTINGS, 1000);
    client_close(c, H3_NO_ERROR);
    *memory = serving_memory();
    some_crowds();
}

static void end_life(size_t first, const char *of) {
    size_t last;
    told t = serving_stop(&last);
    if (t.connections < life.connected) fail("%zu connections were over, of %zu", t.connections, life.connected);
    if (t.whole < life.answered || t.whole > life.ended) fail("%" PRIu64 " requests were whole; answered were %" PRIu64 " of %" PRIu64, t.whole, life.answered, life.ended);
    if (last > first + growth) fail("the gateway's memory grew from %zu KiB to %zu KiB", first, last);
    printf("5. the end %s: %zu connections over, %" PRIu64 " requests whole, %" PRIu64 " refused, no request record taken; memory %zu KiB, then %zu KiB; stopped with status 0\n", of,
           t.connections, t.whole, t.refused, first, last);
}

int main(int count, char **words) {
    if (count != 6) {
        fputs("usage: soak GATEWAY FOLDER SEED SIZE GROWTH\n", stderr);
        return 2;
    }
    uint64_t seed = strtoull(words[3], NULL, 10);
    size_t size = strtoul(words[4], NULL, 10), memory;
    setvbuf(stdout, NULL, _IOLBF, 0);
    growth = strtoul(words[5], NULL, 10);
    the_dice.state = seed;
    uploads_begin(seed);
    serving_begin(words[1], words[2]);

    begin_life(&memory);
    part_rounds(20 * size);
    part_sequence(1000 * size, 60 * size);
    part_dying_clients(60 * size);
    end_life(memory, "of parts 1 to 3");
    part_dying_gateway(25 * size);
    begin_life(&memory);
    end_life(memory, "of part 4");
    return 0;
}
