//! "The writer": a frame header, an integer frame, our GOAWAY, our control opening, a bare integer.

use crate::integers;
use crate::numbers::{BAD_VALUE, BUFFER_SHORT};

const GOAWAY: u64 = 7;

const CONTROL_OPENING: [u8; 12] = [0x00, 0x04, 0x09, 0x01, 0x00, 0x06, 0x80, 0x00, 0x40, 0x00, 0x07, 0x00];

pub fn frame_header(kind: u64, length: u64, buffer: &mut [u8]) -> Result<usize, u16> {
    put(header_bytes(kind, length), buffer)
}

pub fn integer_frame(kind: u64, value: u64, buffer: &mut [u8]) -> Result<usize, u16> {
    put(integer_frame_bytes(kind, value), buffer)
}

pub fn goaway(id: u64, buffer: &mut [u8]) -> Result<usize, u16> {
    integer_frame(GOAWAY, id, buffer)
}

pub fn integer(value: u64, buffer: &mut [u8]) -> Result<usize, u16> {
    put(integers::write(value), buffer)
}

pub fn control_opening(buffer: &mut [u8]) -> Result<usize, u16> {
    put(Some(CONTROL_OPENING.to_vec()), buffer)
}

fn header_bytes(kind: u64, length: u64) -> Option<Vec<u8>> {
    Some([integers::write(kind)?, integers::write(length)?].concat())
}

fn integer_frame_bytes(kind: u64, value: u64) -> Option<Vec<u8>> {
    let payload = integers::write(value)?;
    let header = header_bytes(kind, payload.len() as u64)?;
    Some([header, payload].concat())
}

/// The bad value comes before the short buffer; bytes beyond the written ones stay.
fn put(bytes: Option<Vec<u8>>, buffer: &mut [u8]) -> Result<usize, u16> {
    let bytes = bytes.ok_or(BAD_VALUE)?;
    let room = buffer.get_mut(..bytes.len()).ok_or(BUFFER_SHORT)?;
    room.copy_from_slice(&bytes);
    Ok(bytes.len())
}
