//! The library's calls as `include/eistulko.h` declares them, each behind a safe function. All unsafe code is
//! here.

use std::mem::{align_of, offset_of, size_of, zeroed};

/// Stream records in a row, and so the most streams that a connection has open at once.
pub const RECORDS: usize = 24;

/// What each field means stands in the header.
#[derive(Clone, Debug, PartialEq, Eq)]
#[repr(C)]
pub struct Connection {
    pub code: u64,
    pub requests: u64,
    pub oneways: u64,
    pub sent: u64,
    pub ours: u64,
    pub control: u64,
    pub encoder: u64,
    pub decoder: u64,
    pub set: u64,
    pub limited: u64,
    pub size: u64,
    pub capacity: u64,
    pub blocked: u64,
    pub goaways: u64,
    pub theirs: u64,
    pub pushes: u64,
    pub push: u64,
    held: u64,
    bytes: [u8; 256],
}

/// Kind 0 is a free record, 1 a request, more a one-way stream.
#[derive(Clone, Debug, PartialEq, Eq)]
#[repr(C)]
pub struct Record {
    pub id: u64,
    acc: u64,
    ftype: u64,
    stated: u64,
    sum: u64,
    pub kind: u8,
    mode: u8,
    due: u8,
    phase: u8,
    has: u8,
    owner: u8,
    room: u16,
}

#[derive(Debug, PartialEq, Eq)]
#[repr(C)]
pub struct Report {
    pub number: u64,
    pub event: u64,
    pub start: u64,
    pub len: u64,
    pub used: u64,
    pub heads: u64,
    pub value: u64,
}

#[derive(Debug, PartialEq, Eq)]
#[repr(C)]
pub struct Written {
    pub number: u64,
    pub count: u64,
}

macro_rules! layout {
    ($of:ident of $size:literal: $($field:ident $place:literal),*) => {
        const _: () = assert!(size_of::<$of>() == $size && align_of::<$of>() == 8);
        const _: () = assert!($(offset_of!($of, $field) == $place)&&*);
    };
}

layout!(Connection of 400: code 0, requests 8, oneways 16, sent 24, ours 32, control 40, encoder 48,
    decoder 56, set 64, limited 72, size 80, capacity 88, blocked 96, goaways 104, theirs 112, pushes 120,
    push 128, held 136, bytes 144);
layout!(Record of 48: id 0, acc 8, ftype 16, stated 24, sum 32, kind 40, mode 41, due 42, phase 43, has 44,
    owner 45, room 46);
layout!(Report of 56: number 0, event 8, start 16, len 24, used 32, heads 40, value 48);
layout!(Written of 16: number 0, count 8);
const _: () = assert!(size_of::<usize>() == 8);

extern "C" {
    fn eistulko_start(connection: *mut Connection, row: *mut Record, records: usize) -> u64;
    fn eistulko_open(connection: *mut Connection, row: *mut Record, records: usize, id: u64) -> Report;
    fn eistulko_feed(
        connection: *mut Connection,
        row: *mut Record,
        records: usize,
        id: u64,
        piece: *const u8,
        bytes: usize,
        allow: u64,
    ) -> Report;
    fn eistulko_give(
        connection: *mut Connection,
        row: *mut Record,
        records: usize,
        id: u64,
        block: *const u8,
        bytes: usize,
    ) -> Report;
    fn eistulko_end(connection: *mut Connection, row: *mut Record, records: usize, id: u64) -> Report;
    fn eistulko_reset(connection: *mut Connection, row: *mut Record, records: usize, id: u64) -> Report;
    fn eistulko_goaway(connection: *mut Connection, id: u64, room: *mut u8, bytes: usize) -> Written;
    fn eistulko_write_header(kind: u64, length: u64, room: *mut u8, bytes: usize) -> Written;
    fn eistulko_write_integer_frame(kind: u64, value: u64, room: *mut u8, bytes: usize) -> Written;
    fn eistulko_write_opening(room: *mut u8, bytes: usize) -> Written;
}

/// Any content will do before a start; this one is zeros.
pub fn blank() -> (Connection, [Record; RECORDS]) {
    // SAFETY: both are integers alone.
    unsafe { zeroed() }
}

pub fn start(connection: &mut Connection, row: &mut [Record]) -> u64 {
    // SAFETY: a reference's pointer, and a slice's with its count; two &mut are disjoint.
    unsafe { eistulko_start(connection, row.as_mut_ptr(), row.len()) }
}

pub fn open(connection: &mut Connection, row: &mut [Record], id: u64) -> Report {
    // SAFETY: a reference's pointer, and a slice's with its count; two &mut are disjoint.
    unsafe { eistulko_open(connection, row.as_mut_ptr(), row.len(), id) }
}

pub fn feed(connection: &mut Connection, row: &mut [Record], id: u64, piece: &[u8], allow: u64) -> Report {
    let (bytes, records) = (piece.len(), row.len());
    // SAFETY: a reference's pointer, and two slices' with their counts; a &mut is disjoint from all else.
    unsafe { eistulko_feed(connection, row.as_mut_ptr(), records, id, piece.as_ptr(), bytes, allow) }
}

pub fn give(connection: &mut Connection, row: &mut [Record], id: u64, block: &[u8]) -> Report {
    let (bytes, records) = (block.len(), row.len());
    // SAFETY: a reference's pointer, and two slices' with their counts; a &mut is disjoint from all else.
    unsafe { eistulko_give(connection, row.as_mut_ptr(), records, id, block.as_ptr(), bytes) }
}

pub fn end(connection: &mut Connection, row: &mut [Record], id: u64) -> Report {
    // SAFETY: a reference's pointer, and a slice's with its count; two &mut are disjoint.
    unsafe { eistulko_end(connection, row.as_mut_ptr(), row.len(), id) }
}

pub fn reset(connection: &mut Connection, row: &mut [Record], id: u64) -> Report {
    // SAFETY: a reference's pointer, and a slice's with its count; two &mut are disjoint.
    unsafe { eistulko_reset(connection, row.as_mut_ptr(), row.len(), id) }
}

pub fn goaway(connection: &mut Connection, id: u64, room: &mut [u8]) -> Written {
    // SAFETY: a reference's pointer, and a slice's with its count; two &mut are disjoint.
    unsafe { eistulko_goaway(connection, id, room.as_mut_ptr(), room.len()) }
}

pub fn write_header(kind: u64, length: u64, room: &mut [u8]) -> Written {
    // SAFETY: a slice's pointer with its count.
    unsafe { eistulko_write_header(kind, length, room.as_mut_ptr(), room.len()) }
}

pub fn write_integer_frame(kind: u64, value: u64, room: &mut [u8]) -> Written {
    // SAFETY: a slice's pointer with its count.
    unsafe { eistulko_write_integer_frame(kind, value, room.as_mut_ptr(), room.len()) }
}

pub fn write_opening(room: &mut [u8]) -> Written {
    // SAFETY: a slice's pointer with its count.
    unsafe { eistulko_write_opening(room.as_mut_ptr(), room.len()) }
}

#[cfg(test)]
mod tests {
    use super::*;

    extern "C" {
        fn eistulko_connection_size() -> usize;
        fn eistulko_record_size() -> usize;
        fn eistulko_report_size() -> usize;
        fn eistulko_written_size() -> usize;
    }

    #[test]
    fn the_library_has_these_sizes() {
        // SAFETY: they take nothing.
        let sizes = unsafe {
            [
                eistulko_connection_size(),
                eistulko_record_size(),
                eistulko_report_size(),
                eistulko_written_size(),
            ]
        };
        let here = [size_of::<Connection>(), size_of::<Record>(), size_of::<Report>(), size_of::<Written>()];
        assert_eq!(sizes, here);
    }

    fn filled() -> (Connection, [Record; RECORDS]) {
        let (mut connection, mut row) = blank();
        connection.code = 77;
        connection.bytes = [0xaa; 256];
        row.iter_mut().for_each(|record| (record.id, record.kind, record.room) = (u64::MAX, 0xaa, 0xaaaa));
        (connection, row)
    }

    /// Out of reach of a host, whose rows have 24 records.
    #[test]
    fn a_row_of_another_length_is_9_before_all_else() {
        let room = &mut [0; 8][..];
        for records in (0..=48).filter(|records| *records != RECORDS) {
            let (mut connection, row) = filled();
            let mut row: Vec<Record> = row.into_iter().cycle().take(records).collect();
            let before = (connection.clone(), row.clone());
            let nine = Report { number: 9, event: 0, start: 0, len: 0, used: 0, heads: 0, value: 0 };
            assert_eq!(start(&mut connection, &mut row), 9);
            assert_eq!(open(&mut connection, &mut row, 0), nine);
            assert_eq!(feed(&mut connection, &mut row, 0, room, 1), nine);
            assert_eq!(give(&mut connection, &mut row, 0, room), nine);
            assert_eq!(end(&mut connection, &mut row, 0), nine);
            assert_eq!(reset(&mut connection, &mut row, 0), nine);
            assert_eq!((connection, row), before);
        }
    }

    #[test]
    fn any_content_may_be_there_before_a_start() {
        let started = |(mut connection, mut row): (Connection, [Record; RECORDS])| {
            assert_eq!(start(&mut connection, &mut row), 0);
            (connection, row)
        };
        assert_eq!(started(filled()), started(blank()));
    }
}
