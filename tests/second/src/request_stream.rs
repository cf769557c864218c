//! A request stream, read whole from its first byte.

use crate::numbers::{
    EXCESSIVE_LOAD, FRAME_ERROR, FRAME_UNEXPECTED, MESSAGE_ERROR, REQUEST_CANCELLED, REQUEST_INCOMPLETE,
};
use crate::reading::{Frame, Reading, Stand, Use, What};
use crate::sections::CONTENT_LIMIT;

pub const HEADERS_LIMIT: u64 = 16_384;

/// `sections` holds a stated Content-Length, or none, for each section taken so far, trailers included.
pub fn read(bytes: &[u8], sections: &[Option<u64>]) -> Reading {
    let content_length = sections.first().copied().flatten();
    let mut reading = Reading::empty();
    let mut sections_begun = 0;
    let mut sum = 0;
    let mut place = 0;
    while place < bytes.len() {
        let Some(frame) = Frame::at(bytes, place) else {
            reading.push(place, bytes.len(), What::CutHeader);
            reading.stand = Stand::Inside;
            return reading;
        };
        let judged = judge_header(&frame, sections_begun, sum, content_length);
        reading.items.push(frame.item(judged.ok()));
        let usage = match judged {
            Ok(usage) => usage,
            Err(code) => {
                reading.refuse(frame.body, code);
                return reading;
            }
        };
        let end = frame.end(bytes);
        let reached = end.unwrap_or(bytes.len());
        match usage {
            Use::HeaderSection | Use::Trailers => {
                sections_begun += 1;
                // Only an empty payload gives an empty part.
                if reached > frame.body || frame.length == 0 {
                    reading.push(frame.body, reached, What::Section { last: end.is_some() });
                }
            }
            Use::Content => {
                sum += frame.length;
                if reached > frame.body {
                    reading.push(frame.body, reached, What::Content);
                }
            }
            _ => {}
        }
        let Some(end) = end else {
            reading.stand = Stand::Inside;
            return reading;
        };
        // What comes behind a section is read only once its block was taken.
        if sections_begun > sections.len() {
            reading.stand = Stand::Due;
            return reading;
        }
        place = end;
    }
    reading
}

/// Type and position first, then length.
fn judge_header(
    frame: &Frame,
    sections_begun: usize,
    sum: u64,
    content_length: Option<u64>,
) -> Result<Use, u16> {
    match (frame.kind, sections_begun) {
        (0, 1) => match content_length {
            Some(stated) if sum + frame.length > stated => Err(MESSAGE_ERROR),
            None if sum + frame.length > CONTENT_LIMIT => Err(REQUEST_CANCELLED),
            _ => Ok(Use::Content),
        },
        (1, 0 | 1) if frame.length > HEADERS_LIMIT => Err(EXCESSIVE_LOAD),
        (1, 0) => Ok(Use::HeaderSection),
        (1, 1) => Ok(Use::Trailers),
        (0..=9 | 13, _) => Err(FRAME_UNEXPECTED),
        _ => Ok(Use::Skipped),
    }
}

/// The end of a request whose bytes are `reading` and whose sections are all taken.
pub fn end(reading: &Reading, content_length: Option<u64>) -> Result<(), u16> {
    let lengths = |wanted: Use| {
        reading.items.iter().filter_map(move |item| match item.what {
            What::Header { length, usage: Some(usage), .. } if usage == wanted => Some(length),
            _ => None,
        })
    };
    if reading.stand == Stand::Inside {
        return Err(FRAME_ERROR);
    }
    if lengths(Use::HeaderSection).count() == 0 {
        return Err(REQUEST_INCOMPLETE);
    }
    let sum: u64 = lengths(Use::Content).sum();
    match content_length {
        Some(stated) if stated != sum => Err(MESSAGE_ERROR),
        _ => Ok(()),
    }
}
