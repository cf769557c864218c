//! The calls driven by a script, one answer a line.

use crate::calls::{self, Answer, Connection, Gave, Stream, RECORDS};
use crate::hex;
use crate::integers;
use crate::one_way::Kind;
use crate::settings::Settings;
use crate::writer;

pub const INPUT_LIMIT: usize = 1 << 20;
pub const ROOM_LIMIT: u64 = 64;
pub const LENT_LIMIT: u64 = 32;

/// What a buffer holds before a write, so that an untouched byte can be seen.
const FILL: u8 = 0xaa;

#[derive(Clone, Debug, PartialEq, Eq)]
pub enum Call {
    Start,
    Open {
        id: u64,
    },
    Feed {
        id: u64,
        allowance: u64,
        piece: Vec<u8>,
    },
    Section {
        id: u64,
        block: Vec<u8>,
    },
    End {
        id: u64,
    },
    Reset {
        id: u64,
    },
    Goaway {
        id: u64,
        room: u64,
    },
    FrameHeader {
        kind: u64,
        length: u64,
        room: u64,
    },
    IntegerFrame {
        kind: u64,
        value: u64,
        room: u64,
    },
    Integer {
        value: u64,
        room: u64,
    },
    ControlOpening {
        room: u64,
    },
    Read {
        bytes: Vec<u8>,
    },
    /// The call is lent a row of so many free records in place of the kept one.
    Lent {
        records: u64,
        call: Box<Call>,
    },
    Show,
}

impl Call {
    /// The call a line holds, if it holds one.
    pub fn parse(line: &str) -> Option<Call> {
        let (letter, rest) = match line.split_once(' ') {
            Some((letter, rest)) => (letter, Some(rest)),
            None => (line, None),
        };
        if letter == "L" {
            return Call::parse_lent(rest?);
        }
        let words: Vec<&str> = rest.map_or(Vec::new(), |rest| rest.split(' ').collect());
        Some(match (letter, words.as_slice()) {
            ("S", []) => Call::Start,
            ("O", [id]) => Call::Open { id: number(id)? },
            ("F", [id, allowance, piece]) => {
                Call::Feed { id: number(id)?, allowance: number(allowance)?, piece: hex::parse(piece)? }
            }
            ("H", [id, block]) => Call::Section { id: number(id)?, block: hex::parse(block)? },
            ("E", [id]) => Call::End { id: number(id)? },
            ("R", [id]) => Call::Reset { id: number(id)? },
            ("G", [id, space]) => Call::Goaway { id: number(id)?, room: room(space)? },
            ("W", [kind, length, space]) => {
                Call::FrameHeader { kind: number(kind)?, length: number(length)?, room: room(space)? }
            }
            ("I", [kind, value, space]) => {
                Call::IntegerFrame { kind: number(kind)?, value: number(value)?, room: room(space)? }
            }
            ("N", [value, space]) => Call::Integer { value: number(value)?, room: room(space)? },
            ("C", [space]) => Call::ControlOpening { room: room(space)? },
            ("V", [bytes]) => Call::Read { bytes: hex::parse(bytes)? },
            ("D", []) => Call::Show,
            _ => return None,
        })
    }

    fn parse_lent(rest: &str) -> Option<Call> {
        let (records, call) = rest.split_once(' ')?;
        let records =
            number(records).filter(|records| *records <= LENT_LIMIT && *records != RECORDS as u64)?;
        let call = Call::parse(call)?;
        call.is_lent_the_row().then(|| Call::Lent { records, call: Box::new(call) })
    }

    fn is_lent_the_row(&self) -> bool {
        matches!(
            self,
            Call::Start
                | Call::Open { .. }
                | Call::Feed { .. }
                | Call::Section { .. }
                | Call::End { .. }
                | Call::Reset { .. }
        )
    }

    /// The line that `parse` reads back, without its line feed.
    pub fn line(&self) -> String {
        match self {
            Call::Start => "S".to_string(),
            Call::Open { id } => format!("O {id}"),
            Call::Feed { id, allowance, piece } => format!("F {id} {allowance} {}", hex::show(piece)),
            Call::Section { id, block } => format!("H {id} {}", hex::show(block)),
            Call::End { id } => format!("E {id}"),
            Call::Reset { id } => format!("R {id}"),
            Call::Goaway { id, room } => format!("G {id} {room}"),
            Call::FrameHeader { kind, length, room } => format!("W {kind} {length} {room}"),
            Call::IntegerFrame { kind, value, room } => format!("I {kind} {value} {room}"),
            Call::Integer { value, room } => format!("N {value} {room}"),
            Call::ControlOpening { room } => format!("C {room}"),
            Call::Read { bytes } => format!("V {}", hex::show(bytes)),
            Call::Lent { records, call } => format!("L {records} {}", call.line()),
            Call::Show => "D".to_string(),
        }
    }
}

/// Decimal up to 2^64-1, without leading zeros.
fn number(word: &str) -> Option<u64> {
    let digits = word.bytes().all(|byte| byte.is_ascii_digit());
    let leading_zero = word.len() > 1 && word.starts_with('0');
    if !digits || leading_zero {
        return None;
    }
    word.parse().ok()
}

fn room(word: &str) -> Option<u64> {
    number(word).filter(|room| *room <= ROOM_LIMIT)
}

/// A connection record and a row that had the same start.
pub struct Pair {
    pub connection: Connection,
    pub row: Vec<Option<Stream>>,
}

impl Pair {
    pub fn started() -> Pair {
        Pair { connection: Connection::fresh(), row: calls::empty_row(RECORDS) }
    }

    pub fn stream(&self, id: u64) -> Option<&Stream> {
        self.row.iter().flatten().find(|stream| stream.id == id)
    }

    /// The answer to one of the calls that are lent the row; nothing for the others.
    pub fn call(&mut self, call: &Call) -> Option<Answer> {
        match call {
            Call::Lent { records, call } => {
                let mut lent = calls::empty_row(*records as usize);
                call_with(&mut self.connection, &mut lent, call)
            }
            call => call_with(&mut self.connection, &mut self.row, call),
        }
    }

    /// The line a call prints, without its line feed.
    pub fn play(&mut self, call: &Call) -> String {
        if let Some(answer) = self.call(call) {
            return show_answer(&answer);
        }
        match call {
            Call::Goaway { id, room } => {
                write_into(*room, |buffer| calls::goaway(&mut self.connection, *id, buffer))
            }
            Call::FrameHeader { kind, length, room } => {
                write_into(*room, |buffer| writer::frame_header(*kind, *length, buffer))
            }
            Call::IntegerFrame { kind, value, room } => {
                write_into(*room, |buffer| writer::integer_frame(*kind, *value, buffer))
            }
            Call::Integer { value, room } => write_into(*room, |buffer| writer::integer(*value, buffer)),
            Call::ControlOpening { room } => write_into(*room, writer::control_opening),
            Call::Read { bytes } => match integers::read(bytes, 0) {
                Some((value, size)) => format!("0 0 0 value {value} {size}"),
                None => "0 0 0 cut".to_string(),
            },
            _ => format!("0 0 0 {}", self.show()),
        }
    }

    fn show(&self) -> String {
        let Connection { fault, next_request, next_one_way, our_goaway } = &self.connection;
        let said = calls::said(&self.row);
        let mut text = format!(
            "state {} {next_request} {next_one_way} {} {} {} {}",
            fault.unwrap_or(0),
            or_dash(*our_goaway),
            or_dash(said.goaway),
            or_dash(said.max_push),
            show_settings(&said.settings.unwrap_or_default()),
        );
        for (index, record) in self.row.iter().enumerate() {
            if let Some(stream) = record {
                let due = if stream.is_due() { "+" } else { "" };
                text += &format!(" {index}:{}:{}{due}", stream.id, kind_word(stream.kind()));
            }
        }
        text
    }
}

fn call_with(connection: &mut Connection, row: &mut calls::Row, call: &Call) -> Option<Answer> {
    Some(match call {
        Call::Start => calls::start(connection, row),
        Call::Open { id } => calls::open(connection, row, *id),
        Call::Feed { id, allowance, piece } => calls::feed(connection, row, *id, *allowance, piece),
        Call::Section { id, block } => calls::section(connection, row, *id, block),
        Call::End { id } => calls::end(connection, row, *id),
        Call::Reset { id } => calls::reset(connection, row, *id),
        _ => return None,
    })
}

fn write_into(room: u64, write: impl FnOnce(&mut [u8]) -> Result<usize, u16>) -> String {
    let mut buffer = vec![FILL; room as usize];
    let (number, count) = match write(&mut buffer) {
        Ok(count) => (0, count),
        Err(number) => (number, 0),
    };
    format!("{number} 0 0 written {count} {}", hex::show(&buffer))
}

fn show_answer(answer: &Answer) -> String {
    let Answer { number, consumed, headers, gave } = answer;
    let gave = match gave {
        Gave::Nothing => "-".to_string(),
        Gave::Section { start, length, last } => format!("section {start} {length} {}", u8::from(*last)),
        Gave::Content { start, length } => format!("content {start} {length}"),
        Gave::Qpack { kind, start, length } => format!("qpack {kind} {start} {length}"),
        Gave::Settings(settings) => format!("settings {}", show_settings(settings)),
        Gave::Goaway(id) => format!("goaway {id}"),
        Gave::MaxPush(id) => format!("maxpush {id}"),
        Gave::Whole => "whole".to_string(),
        Gave::Freed => "freed".to_string(),
    };
    format!("{number} {consumed} {headers} {gave}")
}

pub fn show_settings(settings: &Settings) -> String {
    let Settings { section_size, table_capacity, blocked_streams } = settings;
    format!("{} {table_capacity} {blocked_streams}", or_dash(*section_size))
}

fn or_dash(value: Option<u64>) -> String {
    value.map_or("-".to_string(), |value| value.to_string())
}

fn kind_word(kind: Option<Kind>) -> &'static str {
    match kind {
        None => "request",
        Some(Kind::Untyped) => "untyped",
        Some(Kind::Control) => "control",
        Some(Kind::Encoder) => "encoder",
        Some(Kind::Decoder) => "decoder",
        Some(Kind::Skipped) => "skipped",
    }
}

/// The whole output for the whole script.
pub fn run(script: &[u8]) -> String {
    if script.len() > INPUT_LIMIT {
        return "too long\n".to_string();
    }
    let mut output = String::new();
    let mut pair = Pair::started();
    for line in lines(script) {
        let call = std::str::from_utf8(line).ok().and_then(Call::parse);
        let Some(call) = call else {
            return output + "bad line\n";
        };
        output += &pair.play(&call);
        output.push('\n');
    }
    output
}

/// Lines end in a line feed, which the last may lack.
fn lines(script: &[u8]) -> impl Iterator<Item = &[u8]> {
    script.split_inclusive(|byte| *byte == b'\n').map(|line| line.strip_suffix(b"\n").unwrap_or(line))
}
