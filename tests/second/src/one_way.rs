//! One-way streams: a type, then what the type makes of the rest.

use crate::control_stream;
use crate::integers;
use crate::numbers::STREAM_CREATION_ERROR;
use crate::reading::{Reading, What};

#[derive(Clone, Copy, Debug, PartialEq, Eq)]
pub enum Kind {
    Untyped,
    Control,
    Encoder,
    Decoder,
    Skipped,
}

impl Kind {
    /// The kind a stream's first bytes give it.
    pub fn of(bytes: &[u8]) -> Kind {
        match integers::read(bytes, 0) {
            None => Kind::Untyped,
            Some((0, _)) => Kind::Control,
            Some((2, _)) => Kind::Encoder,
            Some((3, _)) => Kind::Decoder,
            Some(_) => Kind::Skipped,
        }
    }

    /// Control and QPACK streams come once and must not end.
    pub fn is_critical(self) -> bool {
        matches!(self, Kind::Control | Kind::Encoder | Kind::Decoder)
    }
}

/// `others` are the kinds of the connection's other one-way streams.
pub fn read(bytes: &[u8], others: &[Kind]) -> Reading {
    let mut reading = Reading::empty();
    let Some((number, size)) = integers::read(bytes, 0) else {
        return reading;
    };
    let kind = Kind::of(bytes);
    if number == 1 || kind.is_critical() && others.contains(&kind) {
        reading.refuse(size, STREAM_CREATION_ERROR);
        return reading;
    }
    match kind {
        Kind::Control => return control_stream::read(bytes, size),
        Kind::Encoder | Kind::Decoder if bytes.len() > size => {
            reading.push(size, bytes.len(), What::Qpack { kind: number });
        }
        _ => {}
    }
    reading
}
