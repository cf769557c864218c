//! The reading of a stream: what all its bytes say, in their order. A feed is a stretch of it.

use crate::integers;
use crate::settings::Settings;

/// What a frame is used for; the words are the lister's.
#[derive(Clone, Copy, Debug, PartialEq, Eq)]
pub enum Use {
    HeaderSection,
    Content,
    Trailers,
    Skipped,
    /// SETTINGS, CANCEL_PUSH, GOAWAY and MAX_PUSH_ID; only on the control stream.
    Control,
}

#[derive(Clone, Copy, Debug, PartialEq, Eq)]
pub enum What {
    /// A finished frame header; without a use if it was refused.
    Header {
        kind: u64,
        length: u64,
        usage: Option<Use>,
    },
    /// A frame header whose last byte has not come.
    CutHeader,
    Section {
        last: bool,
    },
    Content,
    Qpack {
        kind: u64,
    },
    Settings(Settings),
    Goaway(u64),
    MaxPush(u64),
    Fault(u16),
}

/// Something the bytes from `start` to before `end` say; `end` holds the byte that brought it.
#[derive(Clone, Copy, Debug, PartialEq, Eq)]
pub struct Item {
    pub start: usize,
    pub end: usize,
    pub what: What,
}

/// Where the bytes leave the stream.
#[derive(Clone, Copy, Debug, PartialEq, Eq)]
pub enum Stand {
    /// Outside every frame.
    Between,
    /// Inside a frame, its header included.
    Inside,
    /// Behind the last section byte, waiting for the block.
    Due,
    Refused,
}

#[derive(Clone, Debug, PartialEq, Eq)]
pub struct Reading {
    pub items: Vec<Item>,
    pub stand: Stand,
}

impl Reading {
    pub fn empty() -> Reading {
        Reading { items: Vec::new(), stand: Stand::Between }
    }

    pub fn push(&mut self, start: usize, end: usize, what: What) {
        self.items.push(Item { start, end, what });
    }

    pub fn refuse(&mut self, end: usize, code: u16) {
        self.push(end, end, What::Fault(code));
        self.stand = Stand::Refused;
    }

    /// The code the bytes are refused with, and the count of bytes up to the deciding one.
    pub fn fault(&self) -> Option<(usize, u16)> {
        self.items.iter().find_map(|item| match item.what {
            What::Fault(code) => Some((item.end, code)),
            _ => None,
        })
    }
}

/// A frame whose header is finished.
#[derive(Clone, Copy, Debug, PartialEq, Eq)]
pub struct Frame {
    pub kind: u64,
    pub length: u64,
    pub start: usize,
    /// Where the payload begins.
    pub body: usize,
}

impl Frame {
    /// The frame whose header begins at `start`; nothing while the header is cut.
    pub fn at(bytes: &[u8], start: usize) -> Option<Frame> {
        let (kind, kind_size) = integers::read(bytes, start)?;
        let (length, length_size) = integers::read(bytes, start + kind_size)?;
        let body = start + kind_size + length_size;
        Some(Frame { kind, length, start, body })
    }

    /// Where the next header begins, if `bytes` reach that far.
    pub fn end(&self, bytes: &[u8]) -> Option<usize> {
        let end = usize::try_from(self.body as u64 + self.length).ok()?;
        (end <= bytes.len()).then_some(end)
    }

    pub fn item(&self, usage: Option<Use>) -> Item {
        let what = What::Header { kind: self.kind, length: self.length, usage };
        Item { start: self.start, end: self.body, what }
    }
}

/// What a feed makes of a reading.
#[derive(Clone, Copy, Debug, PartialEq, Eq)]
pub struct Stretch {
    /// How far the stream was read, in stream bytes.
    pub end: usize,
    /// Frame headers finished.
    pub headers: u64,
    /// The event or fault it stopped at.
    pub stop: Option<Item>,
}

/// Reads on from `kept` to the first event, fault, or header byte past the allowance, else to `whole`.
pub fn stretch(reading: &Reading, kept: usize, whole: usize, allowance: u64) -> Stretch {
    let mut headers = 0;
    for item in reading.items.iter().filter(|item| item.end > kept) {
        let header = matches!(item.what, What::Header { .. } | What::CutHeader);
        if !header {
            return Stretch { end: item.end, headers, stop: Some(*item) };
        }
        if headers == allowance {
            return Stretch { end: item.start.max(kept), headers, stop: None };
        }
        if item.what != What::CutHeader {
            headers += 1;
        }
    }
    Stretch { end: whole, headers, stop: None }
}
