//! Streams, and a host that reads them.

// Each test file uses a part of this.
#![allow(dead_code)]

use std::collections::VecDeque;

use eistulko::{Block, Connection, Ended, Event, Qpack, Refused, StreamId, NO_BOUND};

/// The bytes of hexadecimal digits, spaces apart.
pub fn hex(text: &str) -> Vec<u8> {
    text.split(' ')
        .filter(|word| !word.is_empty())
        .map(|word| u8::from_str_radix(word, 16).unwrap_or_else(|_| panic!("{word} in {text}")))
        .collect()
}

pub fn block(lines: &[(&str, &str)]) -> Block {
    let mut block = Block::new();
    for (name, value) in lines {
        block.line(name, value).unwrap();
    }
    block
}

const GET: [(&str, &str); 4] =
    [(":method", "GET"), (":scheme", "https"), (":authority", "gateway"), (":path", "/batch/7")];

/// The header section of a GET, with that line for its own of the name.
pub fn get_but(name: &str, value: &str) -> Block {
    block(&GET.map(|line| if line.0 == name { (name, value) } else { line }))
}

pub fn get() -> Block {
    block(&GET)
}

pub fn put(content_length: usize) -> Block {
    let mut block = get_but(":method", "PUT");
    block.line("content-length", content_length.to_string()).unwrap();
    block
}

/// A sound header section: a PUT must state a length.
pub fn sound(content_length: Option<usize>) -> Block {
    content_length.map_or_else(get, put)
}

/// What a stream has told so far, and the sections to give when they are due.
#[derive(Clone, Debug, Default, PartialEq)]
pub struct Stream {
    pub id: u64,
    blocks: VecDeque<Block>,
    pub section: Vec<u8>,
    pub content: Vec<u8>,
    pub encoder: Vec<u8>,
    pub decoder: Vec<u8>,
    pub heads: u64,
    /// The events without a part.
    pub events: Vec<Event<'static>>,
}

impl Stream {
    /// Opens it.
    #[track_caller]
    pub fn new(connection: &mut Connection, id: u64, blocks: &[Block]) -> Stream {
        assert_eq!(connection.open(StreamId(id)), Ok(()), "{id}");
        Stream { id, blocks: blocks.iter().cloned().collect(), ..Stream::default() }
    }

    pub fn id(&self) -> StreamId {
        StreamId(self.id)
    }

    /// Feeds all of a piece, each time with the next allowance.
    pub fn feed(
        &mut self,
        connection: &mut Connection,
        mut piece: &[u8],
        mut allow: impl FnMut() -> u64,
    ) -> Result<(), Refused> {
        while !piece.is_empty() {
            let allow = allow();
            let fed = connection.feed(self.id(), piece, allow)?;
            assert!(fed.used > 0 && fed.heads <= allow);
            self.heads += fed.heads;
            match fed.event {
                None => assert!(fed.used == piece.len() || fed.heads == allow),
                Some(Event::Content(part)) => self.content.extend(part),
                Some(Event::Section { part, last }) => {
                    self.section.extend(part);
                    if last {
                        connection.give(self.id(), &self.blocks.pop_front().expect("a section more"))?;
                    }
                }
                Some(Event::Qpack { part, kind: Qpack::Encoder }) => self.encoder.extend(part),
                Some(Event::Qpack { part, kind: Qpack::Decoder }) => self.decoder.extend(part),
                Some(Event::Settings) => self.events.push(Event::Settings),
                Some(Event::Goaway(id)) => self.events.push(Event::Goaway(id)),
                Some(Event::MaxPushId(id)) => self.events.push(Event::MaxPushId(id)),
            }
            piece = &piece[fed.used..];
        }
        Ok(())
    }
}

/// What a fresh connection's first request comes to when it is fed in these pieces and ended.
pub fn request<'a>(
    pieces: impl IntoIterator<Item = &'a [u8]>,
    blocks: &[Block],
    mut allow: impl FnMut() -> u64,
) -> (Stream, Result<Ended, Refused>) {
    let mut connection = Connection::new();
    let mut stream = Stream::new(&mut connection, 0, blocks);
    let fed = pieces.into_iter().try_for_each(|piece| stream.feed(&mut connection, piece, &mut allow));
    let verdict = fed.and_then(|()| connection.end(stream.id()));
    (stream, verdict)
}

/// What a fresh connection's first one-way stream comes to when it is fed in these pieces.
pub fn one_way<'a>(
    pieces: impl IntoIterator<Item = &'a [u8]>,
    mut allow: impl FnMut() -> u64,
) -> (Stream, Result<Connection, Refused>) {
    let mut connection = Connection::new();
    let mut stream = Stream::new(&mut connection, 2, &[]);
    let fed = pieces.into_iter().try_for_each(|piece| stream.feed(&mut connection, piece, &mut allow));
    (stream, fed.map(|()| connection))
}

/// No bound on the frame headers of a feed.
pub fn unbound() -> u64 {
    NO_BOUND
}

/// A small seeded source of numbers (splitmix64), so that every run can be repeated.
pub struct Random(pub u64);

impl Random {
    pub fn below(&mut self, bound: usize) -> usize {
        self.0 = self.0.wrapping_add(0x9e37_79b9_7f4a_7c15);
        let mut mixed = self.0;
        mixed = (mixed ^ mixed >> 30).wrapping_mul(0xbf58_476d_1ce4_e5b9);
        mixed = (mixed ^ mixed >> 27).wrapping_mul(0x94d0_49bb_1331_11eb);
        ((mixed ^ mixed >> 31) % bound as u64) as usize
    }

    /// Cuts bytes into pieces of 1 to `longest`.
    pub fn cut<'a>(&mut self, mut bytes: &'a [u8], longest: usize) -> Vec<&'a [u8]> {
        let mut pieces = Vec::new();
        while !bytes.is_empty() {
            let (piece, rest) = bytes.split_at((1 + self.below(longest)).min(bytes.len()));
            pieces.push(piece);
            bytes = rest;
        }
        pieces
    }
}
