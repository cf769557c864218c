/* Eistulko: a proved HTTP/3 engine for a server above a QUIC stack. This header is its reference manual.
 *
 * The engine reads what a client sends on its streams: which bytes are content, which are a header section for the QPACK decoder, when a
 * request is whole, and which error code a fault has. "Document 01" is the paper that condenses RFC 9114 to the rules it keeps; every number
 * below is that paper's, and docs/TRACE.md leads from each of its rules to the definition. docs/HOST.md leads a host through the events of a QUIC
 * stack, one by one.
 *
 * WHAT IS PROMISED. Each call below meets a contract that is proved of its code: it returns, for every content of the memory that it is
 * lent and every number; it reads and writes no other memory; and for each input there is one answer and one content of the lent memory
 * behind it. Nobody has to check anything first but the pointers. The contracts are in crates/calls/specs/Lent.antt and Writes.antt. The numbers
 * and events listed with each call are those of a connection and a row that had one start and that only these calls touched since; on
 * other memory a call still returns, keeps to that memory and has one answer.
 *
 * MEMORY. All of it is the host's. The engine has no heap, no global and no state of its own, keeps no pointer past a call, and calls nobody
 * back. A host keeps, for each connection, one `eistulko_connection` and one row of 24 `eistulko_record`; it hands both to every call and
 * writes to neither. Any content may be in them before `eistulko_start`. Fields said to be readable below may be read between calls.
 *
 *   - Pointers are not null and aligned as their type asks, also where the count beside them is 0.
 *   - The connection, the row, and the piece, block or room of one call do not overlap.
 *   - A count is of elements: records for a row, bytes for a piece, a block or a room; what it covers is the host's to lend.
 *   - Two threads do not use one connection at once. Two connections have nothing in common.
 *   - The stack is the caller's too: measured and not proved (tests/link), a call takes up to 6 KB of it, and up to 21 KB for the SETTINGS with
 *     the most pairs, whatever the piece's length.
 *
 * THE HOST'S DUTIES. The engine cannot see them kept, and every promise about requests leans on them.
 *
 *   1. Open streams in order: 0, 4, 8.. for requests, 2, 6, 10.. for one-way streams. QUIC opens every lower stream of a kind with a higher
 *      one, so when bytes of stream 8 come first, open 0 and 4 before 8. A client never has more streams open than the row has records if
 *      the host grants it 24 in all, and a new one only when one was freed.
 *   2. Feed each stream's bytes in the order of the stream, each once, and offer again what a feed did not consume.
 *   3. When a section is due (event EISTULKO_SECTION_END), decode it and give it before anything else on that stream.
 *   4. END A STREAM ONLY AT ITS FIN, AND WHEN EVERY BYTE WAS CONSUMED. A lost link, an idle timeout, a closed connection or a stream that
 *      the stack gave up is a reset, never an end. Half an upload is kept out by this and by the stated Content-Length, and by nothing else.
 *      PUT, POST and PATCH must state one; content under another method may come without, and nothing tells its half from its whole.
 *   5. Act on a request when it is whole (event EISTULKO_WHOLE) and not before.
 *   6. After a stream fault, reset the stream and ask the peer to stop sending, both with the code; what still comes on it is dropped without
 *      a call. After a connection fault, close the connection with the code; it is kept in `code`.
 */
#ifndef EISTULKO_H
#define EISTULKO_H

#include <stddef.h>
#include <stdint.h>

#ifdef __cplusplus
extern "C" {
#define EISTULKO_STATIC_ASSERT static_assert
#else
#define EISTULKO_STATIC_ASSERT _Static_assert
#endif

/* ---- numbers: what a call answers, and what it leaves ----
 *
 * 0 is accepted. Every other number is a refusal: it hands over no part of the piece and gives no event.
 * The order, where several apply: 9; the code kept; 1 or 2; a barred ID before 3; 4 or 5; 6; protocol faults.
 * For our GOAWAY: the code kept, 8, 7. For the other writes: 8, 7. */
enum {
    EISTULKO_ACCEPTED = 0,
    /* Nothing is altered by any of these. */
    EISTULKO_NOT_OPEN = 1,      /* the stream is not open: never opened, or ended, reset or refused */
    EISTULKO_NOT_NEXT = 2,      /* the ID is not the next of its kind, or above 2^62-1 */
    EISTULKO_NO_RECORD = 3,     /* no record is free; the ID is unspent: open it again when one is */
    EISTULKO_SECTION_DUE = 4,   /* a feed or an end while a section is due: give it first */
    EISTULKO_NO_SECTION = 5,    /* a section was given and none is due */
    EISTULKO_UNREADABLE = 6,    /* the section block is not one */
    EISTULKO_ROOM_SHORT = 7,    /* the room of a write is too short */
    EISTULKO_BAD_VALUE = 8,     /* a value above 2^62-1 to write, or an ID that our GOAWAY cannot have */
    EISTULKO_OTHER_ROW = 9,     /* the row has other than 24 records */
    /* Connection faults: the code is kept in the connection's record and all else stays as it was. Every later call answers the code kept, but
     * start and the writes other than our GOAWAY; only 9 comes before it. Close the connection with it. */
    EISTULKO_STREAM_CREATION_ERROR = 0x0103,  /* a second control or QPACK stream of a type, or a push stream from a client */
    EISTULKO_CLOSED_CRITICAL_STREAM = 0x0104, /* the control stream or a QPACK stream was ended or reset */
    EISTULKO_FRAME_UNEXPECTED = 0x0105,       /* a frame where it may not be */
    EISTULKO_FRAME_ERROR = 0x0106,            /* a frame of a wrong length, a cut SETTINGS pair, or a request ended inside a frame */
    EISTULKO_EXCESSIVE_LOAD = 0x0107,         /* HEADERS above 16,384 bytes, SETTINGS above 256 */
    EISTULKO_ID_ERROR = 0x0108,               /* a GOAWAY above an earlier one, a MAX_PUSH_ID below one, or a CANCEL_PUSH: we promise none */
    EISTULKO_SETTINGS_ERROR = 0x0109,         /* a setting of HTTP/2, or one that comes twice */
    EISTULKO_MISSING_SETTINGS = 0x010a,       /* the control stream begins with another frame than SETTINGS */
    /* Stream faults: the stream's record is freed (an ID that our GOAWAY bars is spent), and all else stays. Reset the stream with the code
     * and ask the peer to stop sending with it. */
    EISTULKO_REQUEST_REJECTED = 0x010b,   /* barred by our GOAWAY, CONNECT, another scheme, a Content-Length above 1,048,576, or a PUT, POST
                                             or PATCH without one */
    EISTULKO_REQUEST_CANCELLED = 0x010c,  /* content above 1,048,576 bytes without a Content-Length */
    EISTULKO_REQUEST_INCOMPLETE = 0x010d, /* ended without a header section */
    EISTULKO_MESSAGE_ERROR = 0x010e       /* a malformed section, or content that is not as long as stated */
};

/* Whether a number closes the connection, and whether it refuses one stream. */
static inline int eistulko_is_connection_fault(uint64_t number) {
    switch (number) {
    case EISTULKO_STREAM_CREATION_ERROR:
    case EISTULKO_CLOSED_CRITICAL_STREAM:
    case EISTULKO_FRAME_UNEXPECTED:
    case EISTULKO_FRAME_ERROR:
    case EISTULKO_EXCESSIVE_LOAD:
    case EISTULKO_ID_ERROR:
    case EISTULKO_SETTINGS_ERROR:
    case EISTULKO_MISSING_SETTINGS:
        return 1;
    default:
        return 0;
    }
}
static inline int eistulko_is_stream_fault(uint64_t number) {
    switch (number) {
    case EISTULKO_REQUEST_REJECTED:
    case EISTULKO_REQUEST_CANCELLED:
    case EISTULKO_REQUEST_INCOMPLETE:
    case EISTULKO_MESSAGE_ERROR:
        return 1;
    default:
        return 0;
    }
}

/* ---- events: what an accepted call reports, at most one a call ---- */
enum {
    EISTULKO_NOTHING = 0,     /* always of an accepted open or give */
    EISTULKO_CONTENT = 1,     /* a part of the piece is content of the request */
    EISTULKO_SECTION = 2,     /* a part of the piece is section bytes, with more to come: keep them for the decoder */
    EISTULKO_SECTION_END = 3, /* the last of them, or all; the part may be empty. The section is now due: decode and give it */
    EISTULKO_QPACK = 7,       /* a part of the piece belongs to the client's QPACK stream of type `value`: 2 its encoder's, for our decoder;
                                 3 its decoder's, for our encoder */
    EISTULKO_SETTINGS = 8,    /* the client's SETTINGS came: see `limited`, `size`, `capacity`, `blocked` */
    EISTULKO_GOAWAY = 9,      /* the client's GOAWAY came; `value` is its push ID */
    EISTULKO_MAX_PUSH_ID = 10,/* the client's MAX_PUSH_ID came; `value` is it */
    EISTULKO_WHOLE = 11,      /* an end: the request is whole */
    EISTULKO_FREED = 12       /* an end or a reset: the stream is done, and is not a whole request */
};

/* ---- the host's memory ---- */

#define EISTULKO_RECORDS 24 /* records in a row; a row of any other length is answered with 9 */

/* One connection: 400 bytes. Readable where a comment says what it means; the rest is the engine's own. */
typedef struct {
    uint64_t code;     /* of the connection fault; 0 while there was none */
    uint64_t requests; /* the lowest request ID not opened yet; a barred one that was refused counts as opened */
    uint64_t oneways;  /* the lowest one-way ID not opened yet */
    uint64_t sent;     /* 0: we sent no GOAWAY */
    uint64_t ours;     /* the ID of our last one */
    uint64_t control;  /* 0: the client's control stream has not come. This and the like are 0 or 1 */
    uint64_t encoder;  /* 0: nor its QPACK encoder stream */
    uint64_t decoder;  /* 0: nor its QPACK decoder stream */
    uint64_t set;      /* 0: its SETTINGS have not come; the next four are 0 until then */
    uint64_t limited;  /* 0: it states no section size */
    uint64_t size;     /* the largest section that it accepts, where limited is not 0 */
    uint64_t capacity; /* its QPACK table capacity */
    uint64_t blocked;  /* how many of its streams QPACK may block */
    uint64_t goaways;  /* 0: no GOAWAY of the client has come */
    uint64_t theirs;   /* the push ID of the last one */
    uint64_t pushes;   /* 0: no MAX_PUSH_ID has come */
    uint64_t push;     /* the last one */
    uint64_t held;     /* bytes kept of a control frame that is not complete.. */
    uint8_t bytes[256];/* ..and the bytes */
} eistulko_connection;

/* One stream: 48 bytes. kind 0 is a free record, 1 a request, 2 a one-way stream before its type, 3 control, 4 QPACK encoder, 5 QPACK decoder,
 * 6 one of another type; id is its ID. The rest is the engine's own. */
typedef struct {
    uint64_t id;
    uint64_t acc, ftype, stated, sum;
    uint8_t kind, mode, due, phase, has, owner;
    uint16_t room;
} eistulko_record;

/* What a call answers: 56 bytes. A field that the event does not speak of is 0. */
typedef struct {
    uint64_t number; /* 0, or why the call was refused */
    uint64_t event;  /* what an accepted call reports */
    uint64_t start;  /* the event's part of the piece: where it begins.. */
    uint64_t len;    /* ..and how long it is; it ends where the consumed bytes do */
    uint64_t used;   /* of a feed: bytes of the piece consumed; with a fault, up to and including the byte that brought it; 0 with
                        numbers 1 to 9 and with the code kept */
    uint64_t heads;  /* of a feed: frame headers finished in this piece, a faulty one counted; 0 where used is 0 by its number */
    uint64_t value;  /* the QPACK stream's type, or the push ID */
} eistulko_report;

/* What a write answers: 16 bytes. */
typedef struct {
    uint64_t number; /* 0, or why nothing was written */
    uint64_t count;  /* bytes written from the room's beginning, 0 on a refusal; those behind stay as they were */
} eistulko_written;

/* Held by proof in crates/calls/proofs/Sizes.antt, here for the host's compiler, and by the size functions below at run time. */
EISTULKO_STATIC_ASSERT(sizeof(eistulko_connection) == 400, "eistulko_connection");
EISTULKO_STATIC_ASSERT(sizeof(eistulko_record) == 48, "eistulko_record");
EISTULKO_STATIC_ASSERT(sizeof(eistulko_report) == 56, "eistulko_report");
EISTULKO_STATIC_ASSERT(sizeof(eistulko_written) == 16, "eistulko_written");
EISTULKO_STATIC_ASSERT(offsetof(eistulko_connection, bytes) == 144 && offsetof(eistulko_record, kind) == 40, "places");
EISTULKO_STATIC_ASSERT(sizeof(void *) == 8 && sizeof(size_t) == 8, "64-bit");

/* ---- calls ---- */

/* A fresh connection: the record is made anew and every record of the row freed, whatever was in them. Answers 0, or 9 with nothing altered. */
uint64_t eistulko_start(eistulko_connection *connection, eistulko_record *row, size_t records);

/* A stream is opened. Accepted exactly if the connection is alive, the ID is the next of its kind and below 2^62, no GOAWAY of ours bars it,
 * and a record is free. Refused with 9, the code kept, 2, 0x010b, 3. After 0x010b the ID is spent and the next one is due. */
eistulko_report eistulko_open(eistulko_connection *connection, eistulko_record *row, size_t records, uint64_t id);

/* A piece of a stream's bytes, from the first one not consumed yet. It stops at the first event, at the end of the piece, or before a byte of a
 * frame header once `allow` of them were finished in it. Payload and stream-type bytes are free of that; allow 0 before a header consumes
 * nothing, while with allow at least 1 and a piece that is not empty an accepted feed consumes a byte or more. Offer the rest again. The
 * allowance bounds the frames of a call, since a piece may hold very many empty ones; a host whose packets bound its pieces passes
 * UINT64_MAX. Cutting the stream elsewhere, or another allowance, alters no verdict and no content. An empty piece is accepted with nothing.
 * Events: 0 to 3 on a request stream; 0, 7 to 10 on a one-way stream. Refused with 9, the code kept, 1, 4, 0x0103, 0x0105 to 0x010a, 0x010c,
 * 0x010e. */
eistulko_report eistulko_feed(eistulko_connection *connection, eistulko_record *row, size_t records, uint64_t id, const uint8_t *piece,
                              size_t bytes, uint64_t allow);

/* The section that is due, decoded, as a section block: for each field line, in order, a two-byte count of what follows it, the two bytes
 * 01 00, a two-byte name length, the name, the value; numbers little-endian. `:method` `GET` is
 * 0e 00 01 00 07 00 3a 6d 65 74 68 6f 64 47 45 54. A section without a line is the empty block.
 * A section's size is its name and value bytes together and 32 for each line (RFC 9114, 4.2.2). Above 16,384 it is 0x010e, and that is judged
 * first: a host may stop at the line that goes beyond, and give what it has. The block of a section that is not above it has at most 16,384
 * bytes. Two bytes are enough for each length, as the HEADERS payload has at most 16,384 bytes and QPACK's codes at least 5 bits.
 * Refused with 9, the code kept, 1, 5 (also on a one-way stream), 6, 0x010b, 0x010e. After 6 the section is still due. */
eistulko_report eistulko_give(eistulko_connection *connection, eistulko_record *row, size_t records, uint64_t id, const uint8_t *block,
                              size_t bytes);

/* The stream's FIN was read and every byte consumed. Accepted with EISTULKO_WHOLE for a request that is one, with EISTULKO_FREED for a one-way
 * stream of an unknown type or none; the record is free. Refused with 9, the code kept, 1, 4, 0x0104, 0x0106, 0x010d, 0x010e. */
eistulko_report eistulko_end(eistulko_connection *connection, eistulko_record *row, size_t records, uint64_t id);

/* The peer reset the stream, or the link, the connection, the stack or the host itself gave it up. Accepted with EISTULKO_FREED, whatever was due;
 * the record is free. Refused with 9, the code kept, 1 if it was over before, and 0x0104 for the control stream and the QPACK streams. */
eistulko_report eistulko_reset(eistulko_connection *connection, eistulko_record *row, size_t records, uint64_t id);

/* ---- writes: into the room, for the host to send. On a refusal room and records are untouched ---- */

/* Our GOAWAY, for our control stream, behind its opening: requests from `id` upward will be refused with 0x010b, those open go on. A multiple of 4
 * below 2^62, no higher than one sent before. The first is best sent with `requests` of the connection, which lets in no new one. A lower ID
 * tells the client that open requests from it upward are not processed, and it may send them again elsewhere: then give these up, and do not act
 * on them. 10 bytes of room are always enough. */
eistulko_written eistulko_goaway(eistulko_connection *connection, uint64_t id, uint8_t *room, size_t bytes);

/* A frame header, for a frame whose payload of `length` bytes the host sends behind it. 16 bytes of room are always enough. */
eistulko_written eistulko_write_header(uint64_t type, uint64_t length, uint8_t *room, size_t bytes);

/* A whole frame whose payload is one integer. 17 bytes of room are always enough. */
eistulko_written eistulko_write_integer_frame(uint64_t type, uint64_t value, uint8_t *room, size_t bytes);

/* The opening of our control stream: 00 04 09 01 00 06 80 00 40 00 07 00, which is its type and SETTINGS with no QPACK table and a section
 * size of 16,384, as `eistulko_give` measures it. 12 bytes of room. */
eistulko_written eistulko_write_opening(uint8_t *room, size_t bytes);

/* ---- sizes, as proved: compare once at start with sizeof, where the header and the library may be of different versions ---- */
size_t eistulko_connection_size(void);
size_t eistulko_record_size(void);
size_t eistulko_report_size(void);
size_t eistulko_written_size(void);

#ifdef __cplusplus
}
#endif
#endif
