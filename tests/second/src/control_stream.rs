//! The control stream, read whole from behind its type.

use crate::integers;
use crate::numbers::{EXCESSIVE_LOAD, FRAME_ERROR, FRAME_UNEXPECTED, ID_ERROR, MISSING_SETTINGS};
use crate::reading::{Frame, Reading, Stand, Use, What};
use crate::settings::{self, Settings};

pub const SETTINGS_LIMIT: u64 = 256;

const CANCEL_PUSH: u64 = 3;
const SETTINGS: u64 = 4;
const GOAWAY: u64 = 7;
const MAX_PUSH_ID: u64 = 13;

/// What the client said on its control stream.
#[derive(Clone, Copy, Debug, Default, PartialEq, Eq)]
pub struct Said {
    pub settings: Option<Settings>,
    pub goaway: Option<u64>,
    pub max_push: Option<u64>,
}

/// `start` is where the stream's type ends.
pub fn read(bytes: &[u8], start: usize) -> Reading {
    let mut reading = Reading::empty();
    let mut said = Said::default();
    let mut place = start;
    while place < bytes.len() {
        let Some(frame) = Frame::at(bytes, place) else {
            reading.push(place, bytes.len(), What::CutHeader);
            reading.stand = Stand::Inside;
            return reading;
        };
        let judged = judge_header(&frame, said.settings.is_some());
        reading.items.push(frame.item(judged.ok()));
        let usage = match judged {
            Ok(usage) => usage,
            Err(code) => {
                reading.refuse(frame.body, code);
                return reading;
            }
        };
        let Some(end) = frame.end(bytes) else {
            reading.stand = Stand::Inside;
            return reading;
        };
        if usage == Use::Control {
            match judge_payload(frame.kind, &bytes[frame.body..end], &mut said) {
                Ok(what) => reading.push(frame.body, end, what),
                Err(code) => {
                    reading.refuse(end, code);
                    return reading;
                }
            }
        }
        place = end;
    }
    reading
}

/// A first frame other than SETTINGS before all else; then type and position, then length.
fn judge_header(frame: &Frame, settings_seen: bool) -> Result<Use, u16> {
    match frame.kind {
        SETTINGS if settings_seen => Err(FRAME_UNEXPECTED),
        SETTINGS if frame.length > SETTINGS_LIMIT => Err(EXCESSIVE_LOAD),
        SETTINGS => Ok(Use::Control),
        _ if !settings_seen => Err(MISSING_SETTINGS),
        CANCEL_PUSH | GOAWAY | MAX_PUSH_ID if (1..=8).contains(&frame.length) => Ok(Use::Control),
        CANCEL_PUSH | GOAWAY | MAX_PUSH_ID => Err(FRAME_ERROR),
        0 | 1 | 2 | 5 | 6 | 8 | 9 => Err(FRAME_UNEXPECTED),
        _ => Ok(Use::Skipped),
    }
}

fn judge_payload(kind: u64, payload: &[u8], said: &mut Said) -> Result<What, u16> {
    if kind == SETTINGS {
        let settings = settings::judge(payload)?;
        said.settings = Some(settings);
        return Ok(What::Settings(settings));
    }
    let id = match integers::read(payload, 0) {
        Some((id, size)) if size == payload.len() => id,
        _ => return Err(FRAME_ERROR),
    };
    match kind {
        GOAWAY if said.goaway.is_none_or(|earlier| id <= earlier) => {
            said.goaway = Some(id);
            Ok(What::Goaway(id))
        }
        MAX_PUSH_ID if said.max_push.is_none_or(|earlier| id >= earlier) => {
            said.max_push = Some(id);
            Ok(What::MaxPush(id))
        }
        // CANCEL_PUSH among them: we promise no push.
        _ => Err(ID_ERROR),
    }
}

/// What a control stream's accepted bytes have said.
pub fn said(reading: &Reading) -> Said {
    let mut said = Said::default();
    for item in &reading.items {
        match item.what {
            What::Settings(settings) => said.settings = Some(settings),
            What::Goaway(id) => said.goaway = Some(id),
            What::MaxPush(id) => said.max_push = Some(id),
            _ => {}
        }
    }
    said
}
