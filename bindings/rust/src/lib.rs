//! A safe face of Eistulko, a proved HTTP/3 engine for a server above a QUIC stack.
//!
//! The engine reads what a client sends on its streams: which bytes are content, which are a header section
//! for the QPACK decoder, when a request is whole, and which error code a fault has. "Document 01" is the
//! paper that condenses RFC 9114 to the rules it keeps; `include/eistulko.h` is the manual of the calls
//! below.
//!
//! A [`Connection`] owns all that the engine keeps of a client. It is made by [`Connection::new`] and altered
//! by its calls alone, so what is proved of a connection and a row that had the same start holds of each one.
//!
//! # A PUT, read to whole
//!
//! ```
//! use eistulko::{Block, Connection, Ended, Event, StreamId, NO_BOUND};
//!
//! /// Stands for the QPACK decoder.
//! fn decode(_section: &[u8]) -> Result<Block, eistulko::TooLong> {
//!     let mut block = Block::new();
//!     block.line(":method", "PUT")?.line(":scheme", "https")?.line(":authority", "gateway")?;
//!     block.line(":path", "/batch/7")?.line("content-length", "6")?;
//!     Ok(block)
//! }
//!
//! let mut connection = Connection::new();
//! let put = StreamId(0);
//! connection.open(put)?;
//!
//! let (mut section, mut content) = (Vec::new(), Vec::new());
//! for mut piece in [&b"\x01\x02\xd1"[..], b"\xd7\x00\x06le", b"aves"] {
//!     while !piece.is_empty() {
//!         let fed = connection.feed(put, piece, NO_BOUND)?;
//!         match fed.event {
//!             Some(Event::Content(part)) => content.extend_from_slice(part),
//!             Some(Event::Section { part, last }) => {
//!                 section.extend_from_slice(part);
//!                 if last {
//!                     connection.give(put, &decode(&section)?)?;
//!                     section.clear();
//!                 }
//!             }
//!             _ => {} // the rest comes on one-way streams
//!         }
//!         piece = &piece[fed.used..];
//!     }
//! }
//!
//! // The stack read the stream's FIN, and every byte was consumed.
//! assert_eq!(connection.end(put)?, Ended::Whole);
//! assert_eq!(content, b"leaves");
//! # Ok::<(), Box<dyn std::error::Error>>(())
//! ```
//!
//! # The host's duties
//!
//! The engine cannot see them kept, and every promise about requests leans on them.
//!
//! 1. Open streams in order: 0, 4, 8.. for requests, 2, 6, 10.. for one-way streams. When bytes of stream 8
//!    come first, open 0 and 4 before it. Grant the client [`RECORDS`] streams in all, and a new one only
//!    when one was freed.
//! 2. Feed each stream's bytes in the order of the stream, each once, and offer again what a feed did not
//!    consume.
//! 3. When a section is due, decode it and give it before anything else on that stream.
//! 4. **End a stream only at its FIN, and when every byte was consumed. A lost link, an idle timeout, a
//!    closed connection or a stream that the stack gave up is a [reset](Connection::reset), never an
//!    [end](Connection::end).** Half an upload is kept out by this and by the stated Content-Length, and by
//!    nothing else. PUT, POST and PATCH must state one; content under another method may come without, and
//!    nothing tells its half from its whole.
//! 5. Act on a request when it is [`Ended::Whole`] and not before.
//! 6. After a [stream fault](Refused::is_stream_fault), reset the stream and ask the peer to stop sending,
//!    both with its [number](Refused::number); what still comes on it is dropped without a call. After a
//!    [connection fault](Refused::is_connection_fault), close the connection with it; [`Connection::code`]
//!    keeps it.

#![deny(missing_docs, unsafe_code, unsafe_op_in_unsafe_fn)]

mod block;
mod connection;
#[allow(unsafe_code)]
mod raw;
mod refused;
mod write;

pub use block::{Block, TooLong};
pub use connection::{Connection, Ended, Event, Fed, FeedRefused, Qpack, Settings, GOAWAY_ROOM, NO_BOUND};
pub use raw::RECORDS;
pub use refused::Refused;
pub use write::{
    write_header, write_integer_frame, write_opening, HEADER_ROOM, INTEGER_FRAME_ROOM, OPENING_ROOM,
};

/// The ID of a client's stream.
#[derive(Clone, Copy, Debug, PartialEq, Eq, PartialOrd, Ord, Hash)]
pub struct StreamId(pub u64);

/// The ID of a push. Never a [`StreamId`], though a GOAWAY holds either: a stream's from us, a push's from a
/// client.
#[derive(Clone, Copy, Debug, PartialEq, Eq, PartialOrd, Ord, Hash)]
pub struct PushId(pub u64);
