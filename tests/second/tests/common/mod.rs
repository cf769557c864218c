//! A replay session that is told each call and the answer it must give.

// Each test file uses a part of this.
#![allow(dead_code)]

use second::block;
use second::hex;
use second::replay::{Call, Pair};

pub struct Session(Pair);

impl Session {
    pub fn new() -> Session {
        Session(Pair::started())
    }

    #[track_caller]
    pub fn says(&mut self, line: &str, answer: &str) {
        let call = Call::parse(line).unwrap_or_else(|| panic!("no call: {line}"));
        assert_eq!(call.line(), line);
        assert_eq!(self.0.play(&call), answer, "{line}");
    }

    #[track_caller]
    pub fn accepts(&mut self, line: &str) {
        self.says(line, "0 0 0 -");
    }

    /// The state without its leading zeros and the word.
    #[track_caller]
    pub fn state(&mut self, state: &str) {
        self.says("D", &format!("0 0 0 state {state}"));
    }

    /// Opens request 0 and brings it behind a sound header section.
    #[track_caller]
    pub fn request(&mut self, content_length: Option<&str>) {
        self.accepts("O 0");
        self.says("F 0 1 010100", "0 3 1 section 2 1 1");
        self.accepts(&format!("H 0 {}", header_section(content_length)));
    }

    /// Opens one-way stream 2 and feeds it a control type and empty SETTINGS.
    #[track_caller]
    pub fn control(&mut self) {
        self.accepts("O 2");
        self.says("F 2 1 000400", "0 3 1 settings - 0 0");
    }
}

/// A block in hexadecimal.
pub fn block(lines: &[(&str, &str)]) -> String {
    let records: Vec<u8> =
        lines.iter().flat_map(|(name, value)| block::record(name.as_bytes(), value.as_bytes())).collect();
    hex::show(&records)
}

pub const GET: [(&str, &str); 4] =
    [(":method", "GET"), (":scheme", "https"), (":authority", "a"), (":path", "/")];

pub fn header_section(content_length: Option<&str>) -> String {
    let mut lines = GET.to_vec();
    lines.extend(content_length.map(|length| ("content-length", length)));
    block(&lines)
}

/// A block whose one record is cut.
pub const UNREADABLE: &str = "0400";

/// A block that is malformed as a header section and as trailers.
pub fn malformed() -> String {
    block(&[("connection", "close")])
}
