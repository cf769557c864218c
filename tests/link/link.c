/* The library, by its header alone.
 *   link worked              requests, refusals and writes worked by hand
 *   link random SEED CALLS   so many calls of random schedules (played.h), each of them held (held.h)
 *   link stack CALLS         how much stack each kind of call uses, over so many of them
 *   link play FILE..         stored schedules
 *   link trespass PLACE      a feed that is lent a byte too many, in the heap or at the end of a page: this has to be seen
 * One line tells what held; the status is 1, behind a line that says what did not, if something did not. */
#include "played.h"
#define MARKED (1u << 16)
#include "../stack.h"

static int failures;

static void check(int holds, const char *what) {
    if (holds) return;
    printf("FAILED: %s\n", what);
    failures++;
}

/* ---- worked by hand */

static eistulko_connection connection;
static eistulko_record row[EISTULKO_RECORDS + 1]; /* one more, for a row that is too long */
static uint64_t worked_numbers[0x10f];

static const uint8_t put_request[] = "\x01\x05qpack\x00\x03tea\x00\x03pot";
enum { PUT_BYTES = sizeof put_request - 1, PUT_HALF = PUT_BYTES - 5, PUT_INSIDE = PUT_BYTES - 1 };

static uint64_t came(uint64_t number) { return worked_numbers[number]++, number; }

static void begin(void) { check(eistulko_start(&connection, row, EISTULKO_RECORDS) == 0, "start"); }

static uint64_t opened(uint64_t id) { return came(eistulko_open(&connection, row, EISTULKO_RECORDS, id).number); }

static eistulko_report feed(uint64_t id, const void *piece, size_t bytes) {
    return eistulko_feed(&connection, row, EISTULKO_RECORDS, id, piece, bytes, UINT64_MAX);
}

static uint64_t given(uint64_t id, const text *block) {
    return came(eistulko_give(&connection, row, EISTULKO_RECORDS, id, block->bytes, block->count).number);
}

static uint64_t ended(uint64_t id) { return came(eistulko_end(&connection, row, EISTULKO_RECORDS, id).number); }

/* Feeds all of it, offering again what is left, and gives the block where a section is due: the first number that refuses. */
static uint64_t fed(uint64_t id, const uint8_t *bytes, size_t count, const text *block, text *content) {
    while (count) {
        eistulko_report r = feed(id, bytes, count);
        if (r.number) return came(r.number);
        if (r.event == EISTULKO_CONTENT) add(content, bytes + r.start, r.len);
        bytes += r.used, count -= r.used;
        uint64_t number = r.event == EISTULKO_SECTION_END ? given(id, block) : 0;
        if (number) return number;
    }
    return 0;
}

static text block_of(const char *method, const char *length) {
    static text t;
    t.count = 0;
    add_sound(&t, method);
    if (length) add_line(&t, "content-length", length);
    return t;
}

/* An upload where a length is stated. */
static text sound_block(const char *length) { return block_of(length ? "PUT" : "GET", length); }

static void sizes(void) {
    check(eistulko_connection_size() == sizeof(eistulko_connection), "the connection's size");
    check(eistulko_record_size() == sizeof(eistulko_record), "a record's size");
    check(eistulko_report_size() == sizeof(eistulko_report), "a report's size");
    check(eistulko_written_size() == sizeof(eistulko_written), "a written's size");
}

static void is_whole(const text *content) {
    eistulko_report r = eistulko_end(&connection, row, EISTULKO_RECORDS, 0);
    check(r.number == EISTULKO_ACCEPTED && r.event == EISTULKO_WHOLE, "the request is whole");
    check(content->count == 6 && equal(content->bytes, "teapot", 6), "the content");
    check(is_free(row), "the record is free");
}

/* Cut in two at every byte, and into single bytes. */
static void whole_request(void) {
    static text content, block;
    block = sound_block("6");
    for (size_t cut = 0; cut <= PUT_BYTES; cut++) {
        content.count = 0;
        begin();
        check(opened(0) == 0 && !fed(0, put_request, cut, &block, &content), "the first part");
        check(!fed(0, put_request + cut, PUT_BYTES - cut, &block, &content), "the second part");
        is_whole(&content);
    }
    content.count = 0;
    begin();
    check(opened(0) == 0, "opened");
    for (size_t i = 0; i < PUT_BYTES; i++) check(!fed(0, put_request + i, 1, &block, &content), "a byte");
    is_whole(&content);
}

static void cut_request(size_t bytes, uint64_t number) {
    static text content, block;
    block = sound_block("6"), content.count = 0;
    begin();
    check(opened(0) == 0 && !fed(0, put_request, bytes, &block, &content), "the bytes before the cut");
    check(ended(0) == number, "a cut upload is refused at its end");
    check(eistulko_is_connection_fault(number) ? connection.code == number : connection.code == 0 && is_free(row), "what the refusal leaves");
    check(ended(0) == (connection.code ? number : EISTULKO_NOT_OPEN), "and it is not open behind it");
}

static void await_section(void) { check(feed(0, put_request, 7).event == EISTULKO_SECTION_END, "a section is due"); }

static void await_header(void) {
    begin();
    check(opened(0) == 0, "opened");
    await_section();
}

/* What the section that is due is answered with; a refusal frees the record alone, and the stream is not open behind it. */
static uint64_t comes_to(const text *block) {
    uint64_t number = given(0, block);
    check(connection.code == 0 && (number == 0) == !is_free(row), "what a section leaves");
    check(ended(0) == (number ? EISTULKO_NOT_OPEN : 0), "the end of what was refused, or of a whole request");
    return number;
}

static uint64_t header_comes_to(text block) {
    await_header();
    return comes_to(&block);
}

static uint64_t trailers_come_to(const text *block) {
    static text header;
    header = sound_block(0);
    await_header();
    check(given(0, &header) == 0, "a sound header section");
    await_section();
    return comes_to(block);
}

/* PUT, POST and PATCH, to the byte, must state a length; it is the last that is looked at. */
static void uploads(void) {
    static const char *const all[] = {"PUT", "POST", "PATCH"}, *const others[] = {"put", "PUTX", "PATC", "POS", "DELETE", "GET"};
    for (size_t i = 0; i < COUNT(all); i++) {
        check(header_comes_to(block_of(all[i], 0)) == EISTULKO_REQUEST_REJECTED, "an upload without a length");
        check(header_comes_to(block_of(all[i], "0")) == 0, "a length of 0 is stated");
        check(header_comes_to(block_of(all[i], "1048577")) == EISTULKO_REQUEST_REJECTED, "a length above the limit");
        text bad = block_of(all[i], 0);
        add_line(&bad, "host", "a@h");
        check(header_comes_to(bad) == EISTULKO_MESSAGE_ERROR, "what is malformed comes first");
    }
    for (size_t i = 0; i < COUNT(others); i++) check(header_comes_to(block_of(others[i], 0)) == 0, "another method needs no length");
}

/* A section's size is its name and value bytes and 32 for each line: 16,384 is accepted, more is malformed, whatever else it is. */
static void section_sizes(void) {
    static const size_t lines[] = {1, 2, 100, 491};
    enum { SOUND_SIZE = 39 + 4 * LINE_SIZE }; /* of GET and PUT */
    static text block;
    for (size_t i = 0; i < COUNT(lines); i++) {
        for (size_t more = 0; more < 2; more++) {
            uint64_t number = more ? EISTULKO_MESSAGE_ERROR : 0;
            block = block_of("GET", 0);
            add_lines(&block, SECTION_LIMIT - SOUND_SIZE + more, lines[i]);
            check(header_comes_to(block) == number, "the size of a header section");
            block.count = 0;
            add_lines(&block, SECTION_LIMIT + more, lines[i]);
            check(trailers_come_to(&block) == number, "the size of trailers");
            block = block_of("PUT", 0);
            add_lines(&block, SECTION_LIMIT - SOUND_SIZE + more, lines[i]);
            check(header_comes_to(block) == (more ? EISTULKO_MESSAGE_ERROR : EISTULKO_REQUEST_REJECTED), "the size comes first");
        }
    }
    block.count = 0;
    check(trailers_come_to(&block) == 0, "no line has no size");
    for (size_t i = 0; i < 10000; i++) add_line(&block, "", "");
    check(trailers_come_to(&block) == EISTULKO_MESSAGE_ERROR, "lines without a byte");
}

/* Each of 1 to 9, by a call that has to give it. */
static void house_numbers(void) {
    static const text unreadable = {.bytes = {5, 0}, .count = 2};
    static text block;
    uint8_t room[10];
    block = sound_block(0);
    begin();
    check(came(feed(0, "", 0).number) == EISTULKO_NOT_OPEN, "1");
    check(opened(4) == EISTULKO_NOT_NEXT, "2");
    for (uint64_t id = 0; id < 4 * EISTULKO_RECORDS; id += 4) check(opened(id) == 0, "opened");
    check(opened(4 * EISTULKO_RECORDS) == EISTULKO_NO_RECORD, "3");
    check(given(0, &block) == EISTULKO_NO_SECTION, "5");
    check(feed(0, put_request, 7).event == EISTULKO_SECTION_END, "a section is due");
    check(came(feed(0, "", 0).number) == EISTULKO_SECTION_DUE && ended(0) == EISTULKO_SECTION_DUE, "4");
    check(given(0, &unreadable) == EISTULKO_UNREADABLE && given(0, &block) == 0, "6, and the section is still due");
    check(came(eistulko_goaway(&connection, 4, room, 2).number) == EISTULKO_ROOM_SHORT, "7");
    check(came(eistulko_goaway(&connection, 3, room, sizeof room).number) == EISTULKO_BAD_VALUE, "8");
    check(came(eistulko_reset(&connection, row, EISTULKO_RECORDS - 1, 0).number) == EISTULKO_OTHER_ROW, "9");
    check(came(eistulko_start(&connection, row, EISTULKO_RECORDS + 1)) == EISTULKO_OTHER_ROW, "9 of a start");
}

/* The bytes of a fresh stream that bring a code, behind a section with Content-Length 3 where there is one. */
static const struct {
    uint64_t id, code;
    token bytes;
} faults[] = {
    {2, 0x0103, FRAME("\x01")},
    {0, 0x0105, FRAME("\x00\x00")},
    {2, 0x0105, FRAME("\x00\x04\x00\x04\x00")},
    {2, 0x0106, FRAME("\x00\x04\x01\x06")},
    {0, 0x0107, FRAME("\x01\x80\x00\x40\x01")},
    {2, 0x0107, FRAME("\x00\x04\x41\x01")},
    {2, 0x0108, FRAME("\x00\x04\x00\x03\x01\x00")},
    {2, 0x0109, FRAME("\x00\x04\x02\x02\x00")},
    {2, 0x010a, FRAME("\x00\x07\x01")},
    {0, 0x010e, FRAME("\x01\x00\x00\x04")},
};

static void codes(void) {
    static text block, content;
    block = sound_block("3");
    for (size_t i = 0; i < COUNT(faults); i++) {
        begin();
        check(opened(faults[i].id) == 0, "opened");
        check(fed(faults[i].id, faults[i].bytes.bytes, faults[i].bytes.count, &block, &content) == faults[i].code, "the code of a worked fault");
        check(connection.code == (eistulko_is_connection_fault(faults[i].code) ? faults[i].code : 0), "the code is kept");
    }
    block = sound_block(0);
    begin();
    check(opened(0) == 0 && fed(0, (const uint8_t *)"\x01\x00\x00\x80\x10\x00\x01", 7, &block, &content) == EISTULKO_REQUEST_CANCELLED, "0x010c");
    check(opened(4) == 0 && ended(4) == EISTULKO_REQUEST_INCOMPLETE, "0x010d");
    check(opened(2) == 0 && feed(2, "\x00", 1).number == 0 && ended(2) == EISTULKO_CLOSED_CRITICAL_STREAM, "0x0104");
    check(opened(8) == EISTULKO_CLOSED_CRITICAL_STREAM, "the code of a dead connection");
}

/* Our GOAWAY bars what comes and lets go on what is open; the ID it bars is spent. */
static void our_goaway(void) {
    static text content, block;
    uint8_t room[10] = {0};
    block = sound_block("6"), content.count = 0;
    begin();
    check(opened(0) == 0, "opened");
    eistulko_written w = eistulko_goaway(&connection, connection.requests, room, sizeof room);
    check(w.number == 0 && w.count == 3 && equal(room, "\x07\x01\x04\x00", 4), "our GOAWAY's bytes");
    check(connection.sent && connection.ours == 4, "our GOAWAY is kept");
    check(opened(4) == EISTULKO_REQUEST_REJECTED && opened(4) == EISTULKO_NOT_NEXT && opened(8) == EISTULKO_REQUEST_REJECTED, "barred");
    check(opened(2) == 0, "a one-way stream is not barred");
    check(eistulko_goaway(&connection, 8, room, sizeof room).number == EISTULKO_BAD_VALUE, "a higher GOAWAY");
    check(!fed(0, put_request, PUT_BYTES, &block, &content), "an open request goes on");
    is_whole(&content);
}

static void wrote(eistulko_written w, uint64_t number, const uint8_t *room, const char *bytes, size_t count) {
    check(w.number == number && w.count == count && equal(room, bytes, count) && room[count] == 0xaa, "a write");
}

static void writes(void) {
    static const char header[] = "\x00\x80\x10\x00\x00", frame[] = "\x07\x04\x80\x00\x40\x00", opening[] = "\x00\x04\x09\x01\x00\x06\x80\x00\x40\x00\x07\x00";
    uint8_t room[20];
    memset(room, 0xaa, sizeof room);
    wrote(eistulko_write_header(LARGEST + 1, 0, room, sizeof room), EISTULKO_BAD_VALUE, room, "", 0);
    wrote(eistulko_write_header(0, 1048576, room, 4), EISTULKO_ROOM_SHORT, room, "", 0);
    wrote(eistulko_write_integer_frame(7, LARGEST + 1, room, 0), EISTULKO_BAD_VALUE, room, "", 0);
    wrote(eistulko_write_integer_frame(7, 16384, room, 5), EISTULKO_ROOM_SHORT, room, "", 0);
    wrote(eistulko_write_opening(room, 11), EISTULKO_ROOM_SHORT, room, "", 0);
    wrote(eistulko_write_header(0, 1048576, room, 5), 0, room, header, 5);
    wrote(eistulko_write_integer_frame(7, 16384, room, 6), 0, room, frame, 6);
    wrote(eistulko_write_opening(room, sizeof room), 0, room, opening, 12);
}

static void worked(void) {
    unsigned distinct = 0;
    sizes();
    whole_request();
    cut_request(PUT_HALF, EISTULKO_MESSAGE_ERROR);
    cut_request(PUT_INSIDE, EISTULKO_FRAME_ERROR);
    uploads();
    section_sizes();
    house_numbers();
    codes();
    our_goaway();
    writes();
    for (size_t i = 1; i < COUNT(worked_numbers); i++) distinct += worked_numbers[i] > 0;
    check(distinct == 21, "every number came");
    if (!failures) printf("worked: sizes, a request cut at every byte, cut uploads and those without a length, sections as large as may be, all %u numbers, our GOAWAY, the writes\n", distinct);
}

/* ---- schedules */

static play current;

/* A schedule that does not hold is printed, to be kept as a file. */
static void play_one(const uint8_t *bytes, size_t count) {
    const char *rule = played(&current, bytes, count);
    if (!rule) return;
    printf("FAILED: %s, of %s with number 0x%llx\nschedule:", rule, kind_names[current.kind], (unsigned long long)current.number);
    for (size_t i = 0; i < count; i++) printf(" %02x", bytes[i]);
    printf("\n");
    failures++;
}

/* Random schedules until so many calls were made. */
static void play_random(uint64_t seed, uint64_t calls) {
    static uint8_t bytes[2048];
    uint64_t state = 2 * seed + 1;
    while (current.calls < calls && !failures) {
        size_t length = 1 + noise(&state) % sizeof bytes;
        fill_with_noise(bytes, length, noise(&state));
        play_one(bytes, length);
    }
}

static void came_from_to(const char *what, const uint64_t *tally, size_t from, size_t to) {
    for (size_t i = from; i <= to; i++) {
        if (tally[i]) continue;
        printf("FAILED: %s 0x%zx never came\n", what, i);
        failures++;
    }
}

static void all_came(void) {
    came_from_to("number", current.numbers, 0, 9);
    came_from_to("number", current.numbers, 0x0103, 0x010e);
    came_from_to("event", current.events, 0, 3);
    came_from_to("event", current.events, 7, 12);
    came_from_to("kind", current.kinds, 0, KINDS - 1);
    if (!failures) printf("random memory: %llu calls, each made twice; every number and event came\n", (unsigned long long)current.calls);
}

static void play_file(const char *path) {
    static uint8_t bytes[1u << 20];
    int file = open(path, READ_ONLY);
    long count = file < 0 ? -1 : read(file, bytes, sizeof bytes);
    check(count >= 0 && count < (long)sizeof bytes, path);
    if (count >= 0) play_one(bytes, (size_t)count);
    if (file >= 0) close(file);
}

/* ---- the stack */

#define STACK_LIMIT (16u << 10)
/* The pairs of SETTINGS are walked by recursion, a frame of stack for each: 105 different ones fit in the 256 bytes. */
#define SETTINGS_LIMIT (24u << 10)

static const call *measured_call;
static memory *measured_memory;
static uint8_t *measured_bytes;
static answer measured_answer;
static unsigned long deepest[KINDS];

static void measured(void) { measured_answer = invoke(measured_call, measured_memory, measured_bytes); }

static answer measure(const call *c, memory *m, uint8_t *bytes) {
    measured_call = c, measured_memory = m, measured_bytes = bytes;
    unsigned long used = used_by(measured);
    if (used > deepest[c->kind]) deepest[c->kind] = used;
    return measured_answer;
}

static void deep(void) {
    volatile uint8_t much[STACK_LIMIT + 1];
    for (size_t i = 0; i < sizeof much; i++) much[i] = 0;
}

static memory alone;

/* A fresh connection whose first record this is. */
static void stands(eistulko_record first) {
    eistulko_start(&alone.connection, alone.row, EISTULKO_RECORDS);
    alone.row[0] = first;
}

/* What a call on that record's stream uses, which is answered with the number. */
static unsigned long stack_of(kind k, const void *bytes, size_t count, uint64_t number) {
    static uint8_t piece[1u << 20];
    unsigned long before = deepest[k], used;
    memcpy(piece, bytes, count);
    deepest[k] = 0;
    answer a = measure(&(call){k, EISTULKO_RECORDS, alone.row[0].id, UINT64_MAX, piece, count, 0}, &alone, piece);
    check(a.report.number == number && (k == GIVE || a.report.used == count), "the answer of a long call, and all of it consumed");
    used = deepest[k], deepest[k] = before;
    return used;
}

/* So many empty frames in one piece, for a request that stands behind its header section. */
static unsigned long stack_of_frames(uint8_t type, size_t bytes) {
    static uint8_t piece[1u << 20];
    for (size_t i = 0; i < bytes; i++) piece[i] = i % 2 ? 0 : type;
    stands((eistulko_record){.kind = 1, .phase = 1});
    return stack_of(FEED, piece, bytes, 0);
}

/* A header section of so many lines beside those it needs. */
static unsigned long stack_of_lines(size_t lines, uint64_t number) {
    static text block;
    block.count = 0;
    add_sound(&block, "GET");
    for (size_t i = 0; i < lines; i++) add_line(&block, "n", "");
    stands((eistulko_record){.kind = 1, .mode = 6});
    return stack_of(GIVE, block.bytes, block.count, number);
}

/* SETTINGS with so many identifiers, each another and none that is forbidden, in one piece or with its last byte alone. */
static unsigned long stack_of_settings(unsigned identifiers, int whole) {
    uint8_t stream[4 + 256], *at = stream + 4;
    for (unsigned i = 0; i < identifiers; i++) at += put_integer(at, i < 2 ? i : i + 4), *at++ = 0;
    memcpy(stream, "\x00\x04\x40", 3);
    stream[3] = (uint8_t)(at - stream - 4);
    stands((eistulko_record){.id = 2, .kind = 2});
    if (whole) return stack_of(FEED, stream, (size_t)(at - stream), 0);
    stack_of(FEED, stream, (size_t)(at - 1 - stream), 0);
    return stack_of(FEED, at - 1, 1, 0);
}

static void no_more(const char *what, unsigned long many, unsigned long one) {
    printf("%s %lu, one %lu; ", what, many, one);
    check(many <= one && many <= STACK_LIMIT, "a long call uses no more stack than a short one");
}

static void most_settings(void) {
    unsigned long whole = stack_of_settings(105, 1), cut = stack_of_settings(105, 0);
    printf("105 settings %lu, cut %lu, one %lu; ", whole, cut, stack_of_settings(1, 1));
    check(whole <= SETTINGS_LIMIT && cut <= SETTINGS_LIMIT, "the longest SETTINGS uses at most 24 KiB");
}

static void stack(uint64_t calls) {
    unsigned long largest = 0;
    printf("stack bytes: ");
    no_more("2^19 empty unknown frames", stack_of_frames(0x21, 1u << 20), stack_of_frames(0x21, 2));
    no_more("2^19 empty DATA", stack_of_frames(0x00, 1u << 20), stack_of_frames(0x00, 2));
    no_more("491 field lines", stack_of_lines(491, 0), stack_of_lines(1, 0));
    no_more("9,000, which are refused", stack_of_lines(9000, EISTULKO_MESSAGE_ERROR), stack_of_lines(1, 0));
    most_settings();
    current.by = measure;
    play_random(9114, calls);
    printf("most in %llu random calls:", (unsigned long long)current.calls);
    for (kind k = 0; k < KINDS; k++) {
        printf(" %s %lu", kind_names[k], deepest[k]);
        if (deepest[k] > largest) largest = deepest[k];
    }
    printf("\n");
    check(largest && largest <= STACK_LIMIT, "a call uses at most 16 KiB");
    check(used_by(deep) > STACK_LIMIT, "the measure sees a use of more");
}

/* ---- a byte too many */

static void trespass(int heap) {
    make_pages();
    begin();
    check(opened(2) == 0, "opened");
    uint8_t *piece = heap ? malloc(3) : page_end - 3;
    memcpy(piece, "\x00\x04\x08", 3);
    feed(2, piece, 4);
    printf("a byte too many was read unseen\n");
}

/* ---- */

static uint64_t number_in(const char *digits) {
    uint64_t n = 0;
    while (*digits) n = n * 10 + (uint64_t)(*digits++ - '0');
    return n;
}

int main(int words, char **word) {
    current.by = invoke;
    if (words == 2 && !strcmp(word[1], "worked")) worked();
    else if (words == 4 && !strcmp(word[1], "random")) play_random(number_in(word[2]), number_in(word[3])), all_came();
    else if (words == 3 && !strcmp(word[1], "stack")) stack(number_in(word[2]));
    else if (words > 1 && !strcmp(word[1], "play")) {
        for (int i = 2; i < words; i++) play_file(word[i]);
        if (!failures) printf("stored schedules: %d\n", words - 2);
    } else if (words == 3 && !strcmp(word[1], "trespass")) trespass(!strcmp(word[2], "heap"));
    else check(0, "link worked | random SEED CALLS | stack CALLS | play FILE.. | trespass heap or page");
    return failures != 0;
}
