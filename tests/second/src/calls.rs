//! "Calls and the host's memory", and the order of the numbers.

use crate::control_stream::{self, Said};
use crate::integers::HIGHEST;
use crate::numbers::{
    is_connection_fault, ACCEPTED, BAD_VALUE, CLOSED_CRITICAL_STREAM, NOT_NEXT, NOT_OPEN, NO_FREE_RECORD,
    NO_SECTION_DUE, REQUEST_REJECTED, ROW_LENGTH, SECTION_DUE, UNREADABLE,
};
use crate::one_way::{self, Kind};
use crate::reading::{stretch, Item, Reading, Stand, What};
use crate::request_stream;
use crate::sections::{judge_block, Part};
use crate::settings::Settings;
use crate::writer;

pub const RECORDS: usize = 24;

/// A stream's record: every byte its feeds consumed and every section taken; the rest is read from these.
#[derive(Clone, Debug, PartialEq, Eq)]
pub struct Stream {
    pub id: u64,
    pub bytes: Vec<u8>,
    /// The stated Content-Length, or none, of each section taken.
    pub sections: Vec<Option<u64>>,
}

impl Stream {
    pub fn is_request(&self) -> bool {
        self.id.is_multiple_of(4)
    }

    pub fn is_due(&self) -> bool {
        self.is_request() && request_stream::read(&self.bytes, &self.sections).stand == Stand::Due
    }

    /// The kind of a one-way stream.
    pub fn kind(&self) -> Option<Kind> {
        (!self.is_request()).then(|| Kind::of(&self.bytes))
    }

    fn read(&self, others: &[Kind]) -> Reading {
        if self.is_request() {
            request_stream::read(&self.bytes, &self.sections)
        } else {
            one_way::read(&self.bytes, others)
        }
    }
}

/// The host's row; a free record holds nothing.
pub type Row = [Option<Stream>];

pub fn empty_row(length: usize) -> Vec<Option<Stream>> {
    vec![None; length]
}

#[derive(Clone, Debug, PartialEq, Eq)]
pub struct Connection {
    pub fault: Option<u16>,
    pub next_request: u64,
    pub next_one_way: u64,
    pub our_goaway: Option<u64>,
}

impl Connection {
    pub fn fresh() -> Connection {
        Connection { fault: None, next_request: 0, next_one_way: 2, our_goaway: None }
    }
}

/// What a call gave beside its number; places count from the piece's first byte.
#[derive(Clone, Debug, PartialEq, Eq)]
pub enum Gave {
    Nothing,
    Section { start: usize, length: usize, last: bool },
    Content { start: usize, length: usize },
    Qpack { kind: u64, start: usize, length: usize },
    Settings(Settings),
    Goaway(u64),
    MaxPush(u64),
    Whole,
    Freed,
}

#[derive(Clone, Debug, PartialEq, Eq)]
pub struct Answer {
    pub number: u16,
    pub consumed: usize,
    pub headers: u64,
    pub gave: Gave,
}

impl Answer {
    pub fn refused(number: u16) -> Answer {
        Answer { number, consumed: 0, headers: 0, gave: Gave::Nothing }
    }

    fn of(result: Result<Gave, u16>) -> Answer {
        match result {
            Ok(gave) => Answer { number: ACCEPTED, consumed: 0, headers: 0, gave },
            Err(number) => Answer::refused(number),
        }
    }
}

pub fn start(connection: &mut Connection, row: &mut Row) -> Answer {
    if row.len() != RECORDS {
        return Answer::refused(ROW_LENGTH);
    }
    *connection = Connection::fresh();
    row.fill(None);
    Answer::of(Ok(Gave::Nothing))
}

pub fn open(connection: &mut Connection, row: &mut Row, id: u64) -> Answer {
    Answer::of(try_open(connection, row, id))
}

fn try_open(connection: &mut Connection, row: &mut Row, id: u64) -> Result<Gave, u16> {
    admit(connection, row)?;
    let next = match id % 4 {
        0 => &mut connection.next_request,
        2 => &mut connection.next_one_way,
        _ => return Err(NOT_NEXT),
    };
    if id != *next || id > HIGHEST {
        return Err(NOT_NEXT);
    }
    let barred = id.is_multiple_of(4) && connection.our_goaway.is_some_and(|limit| id >= limit);
    if barred {
        *next += 4;
        return Err(REQUEST_REJECTED);
    }
    let free = row.iter_mut().find(|record| record.is_none()).ok_or(NO_FREE_RECORD)?;
    *next += 4;
    *free = Some(Stream { id, bytes: Vec::new(), sections: Vec::new() });
    Ok(Gave::Nothing)
}

pub fn feed(connection: &mut Connection, row: &mut Row, id: u64, allowance: u64, piece: &[u8]) -> Answer {
    let index = match find(connection, row, id) {
        Ok(index) => index,
        Err(number) => return Answer::refused(number),
    };
    let others = other_kinds(row, index);
    let Some(stream) = &mut row[index] else { unreachable!("a found record is not free") };
    if stream.is_due() {
        return Answer::refused(SECTION_DUE);
    }
    let kept = stream.bytes.len();
    stream.bytes.extend(piece);
    let stretch = stretch(&stream.read(&others), kept, stream.bytes.len(), allowance);
    let (number, gave) = match stretch.stop {
        None => (ACCEPTED, Gave::Nothing),
        Some(item) => match event(&item, kept) {
            Ok(gave) => (ACCEPTED, gave),
            Err(code) => (code, Gave::Nothing),
        },
    };
    // A fault leaves no trace of the piece.
    stream.bytes.truncate(if number == ACCEPTED { stretch.end } else { kept });
    if number != ACCEPTED {
        settle_fault(connection, row, index, number);
    }
    Answer { number, consumed: stretch.end - kept, headers: stretch.headers, gave }
}

/// The event an item gives to the feed that began at `kept`, or its fault.
fn event(item: &Item, kept: usize) -> Result<Gave, u16> {
    let from = item.start.max(kept);
    let (start, length) = (from - kept, item.end - from);
    Ok(match item.what {
        What::Section { last } => Gave::Section { start, length, last },
        What::Content => Gave::Content { start, length },
        What::Qpack { kind } => Gave::Qpack { kind, start, length },
        What::Settings(settings) => Gave::Settings(settings),
        What::Goaway(id) => Gave::Goaway(id),
        What::MaxPush(id) => Gave::MaxPush(id),
        What::Fault(code) => return Err(code),
        What::Header { .. } | What::CutHeader => Gave::Nothing,
    })
}

pub fn section(connection: &mut Connection, row: &mut Row, id: u64, block: &[u8]) -> Answer {
    let index = match find(connection, row, id) {
        Ok(index) => index,
        Err(number) => return Answer::refused(number),
    };
    let Some(stream) = &mut row[index] else { unreachable!("a found record is not free") };
    if !stream.is_due() {
        return Answer::refused(NO_SECTION_DUE);
    }
    let part = if stream.sections.is_empty() { Part::HeaderSection } else { Part::Trailers };
    match judge_block(part, block) {
        Ok(content_length) => {
            stream.sections.push(content_length);
            Answer::of(Ok(Gave::Nothing))
        }
        Err(UNREADABLE) => Answer::refused(UNREADABLE),
        Err(code) => {
            settle_fault(connection, row, index, code);
            Answer::refused(code)
        }
    }
}

pub fn end(connection: &mut Connection, row: &mut Row, id: u64) -> Answer {
    let index = match find(connection, row, id) {
        Ok(index) => index,
        Err(number) => return Answer::refused(number),
    };
    let Some(stream) = &row[index] else { unreachable!("a found record is not free") };
    if stream.is_due() {
        return Answer::refused(SECTION_DUE);
    }
    let verdict = match stream.kind() {
        None => {
            let content_length = stream.sections.first().copied().flatten();
            request_stream::end(&stream.read(&[]), content_length).map(|()| Gave::Whole)
        }
        Some(kind) if kind.is_critical() => Err(CLOSED_CRITICAL_STREAM),
        Some(_) => Ok(Gave::Freed),
    };
    match verdict {
        Ok(_) => row[index] = None,
        Err(code) => settle_fault(connection, row, index, code),
    }
    Answer::of(verdict)
}

pub fn reset(connection: &mut Connection, row: &mut Row, id: u64) -> Answer {
    let index = match find(connection, row, id) {
        Ok(index) => index,
        Err(number) => return Answer::refused(number),
    };
    let Some(stream) = &row[index] else { unreachable!("a found record is not free") };
    if stream.kind().is_some_and(Kind::is_critical) {
        settle_fault(connection, row, index, CLOSED_CRITICAL_STREAM);
        return Answer::refused(CLOSED_CRITICAL_STREAM);
    }
    row[index] = None;
    Answer::of(Ok(Gave::Freed))
}

/// Our GOAWAY is lent no row, so it never gives 9.
pub fn goaway(connection: &mut Connection, id: u64, buffer: &mut [u8]) -> Result<usize, u16> {
    if let Some(code) = connection.fault {
        return Err(code);
    }
    let lower = connection.our_goaway.is_none_or(|earlier| id <= earlier);
    if !id.is_multiple_of(4) || id > HIGHEST || !lower {
        return Err(BAD_VALUE);
    }
    let written = writer::goaway(id, buffer)?;
    connection.our_goaway = Some(id);
    Ok(written)
}

/// The row's length, then a dead connection.
fn admit(connection: &Connection, row: &Row) -> Result<(), u16> {
    if row.len() != RECORDS {
        return Err(ROW_LENGTH);
    }
    connection.fault.map_or(Ok(()), Err)
}

fn find(connection: &Connection, row: &Row, id: u64) -> Result<usize, u16> {
    admit(connection, row)?;
    row.iter().position(|record| record.as_ref().is_some_and(|stream| stream.id == id)).ok_or(NOT_OPEN)
}

fn other_kinds(row: &Row, index: usize) -> Vec<Kind> {
    let others = row.iter().enumerate().filter(|(place, _)| *place != index);
    others.filter_map(|(_, record)| record.as_ref()?.kind()).collect()
}

/// A connection fault is kept and nothing else altered; a stream fault frees the record.
fn settle_fault(connection: &mut Connection, row: &mut Row, index: usize, code: u16) {
    if is_connection_fault(code) {
        connection.fault = Some(code);
    } else {
        row[index] = None;
    }
}

/// What the client said so far; its control stream's record never goes, as ending one is fatal.
pub fn said(row: &Row) -> Said {
    let mut streams = row.iter().flatten();
    match streams.find(|stream| stream.kind() == Some(Kind::Control)) {
        Some(stream) => control_stream::said(&stream.read(&[])),
        None => Said::default(),
    }
}
