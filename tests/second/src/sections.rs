//! "Requests": a header section and trailers judged.

use crate::block::{self, Line};
use crate::classes::{is_blank, is_digit, is_name, is_token, is_value};
use crate::integers::HIGHEST;
use crate::numbers::{MESSAGE_ERROR, REQUEST_REJECTED, UNREADABLE};

pub const SECTION_LIMIT: usize = 16_384;
/// Document 02, Q-2 (RFC 9114, section 4.2.2): what each field line adds to its name and value bytes.
pub const LINE_SIZE: usize = 32;
pub const CONTENT_LIMIT: u64 = 1_048_576;

const PSEUDO: [&[u8]; 4] = [b":method", b":scheme", b":authority", b":path"];

const FORBIDDEN: [&[u8]; 5] =
    [b"connection", b"keep-alive", b"proxy-connection", b"transfer-encoding", b"upgrade"];

/// Document 02, Q-1: these must state a length.
const UPLOADS: [&[u8]; 3] = [b"PUT", b"POST", b"PATCH"];

#[derive(Clone, Copy, Debug, PartialEq, Eq)]
pub enum Part {
    HeaderSection,
    Trailers,
}

/// The stated Content-Length of an accepted block (trailers state none), or the number that refuses it.
pub fn judge_block(part: Part, block: &[u8]) -> Result<Option<u64>, u16> {
    let lines = block::lines(block).ok_or(UNREADABLE)?;
    match part {
        Part::HeaderSection => judge_header_section(&lines),
        Part::Trailers => judge_trailers(&lines).map(|()| None),
    }
}

pub fn judge_header_section(lines: &[Line]) -> Result<Option<u64>, u16> {
    if size(lines) > SECTION_LIMIT || breaks_a_rule(lines) {
        return Err(MESSAGE_ERROR);
    }
    let method = first(lines, b":method").ok_or(MESSAGE_ERROR)?;
    if method == b"CONNECT" {
        return Err(REQUEST_REJECTED);
    }
    let scheme = first(lines, b":scheme").ok_or(MESSAGE_ERROR)?;
    let path = first(lines, b":path").ok_or(MESSAGE_ERROR)?;
    if scheme != b"http" && scheme != b"https" {
        return Err(REQUEST_REJECTED);
    }
    if !(path.starts_with(b"/") || path == b"*" && method == b"OPTIONS") {
        return Err(MESSAGE_ERROR);
    }
    if !names_its_origin(lines) {
        return Err(MESSAGE_ERROR);
    }
    let content_length = first(lines, b"content-length").and_then(content_length);
    if content_length.is_some_and(|stated| stated > CONTENT_LIMIT) {
        return Err(REQUEST_REJECTED);
    }
    if content_length.is_none() && UPLOADS.contains(&method) {
        return Err(REQUEST_REJECTED);
    }
    Ok(content_length)
}

pub fn judge_trailers(lines: &[Line]) -> Result<(), u16> {
    let misplaced = lines.iter().any(|line| is_pseudo(line) || line.name == b"content-length");
    if size(lines) > SECTION_LIMIT || breaks_a_rule(lines) || misplaced {
        return Err(MESSAGE_ERROR);
    }
    Ok(())
}

fn size(lines: &[Line]) -> usize {
    lines.iter().map(|line| line.name.len() + line.value.len() + LINE_SIZE).sum()
}

/// The malformed list, as far as header sections and trailers share it.
fn breaks_a_rule(lines: &[Line]) -> bool {
    let repeated = |name: &[u8]| all(lines, name).count() > 1;
    !lines.iter().all(|line| name_is_sound(line) && value_is_sound(line.value))
        || PSEUDO.into_iter().any(repeated)
        || pseudo_after_plain(lines)
        || lines.iter().any(|line| FORBIDDEN.contains(&line.name))
        || all(lines, b"te").any(|value| value != b"trailers")
        || all(lines, b":method").any(|value| value.is_empty() || !value.iter().all(|byte| is_token(*byte)))
        || repeated(b"content-length")
        || all(lines, b"content-length").any(|value| content_length(value).is_none())
        || repeated(b"host")
}

fn is_pseudo(line: &Line) -> bool {
    line.name.starts_with(b":")
}

fn name_is_sound(line: &Line) -> bool {
    if is_pseudo(line) {
        PSEUDO.contains(&line.name)
    } else {
        !line.name.is_empty() && line.name.iter().all(|byte| is_name(*byte))
    }
}

fn value_is_sound(value: &[u8]) -> bool {
    let blank = |edge: Option<&u8>| edge.is_some_and(|byte| is_blank(*byte));
    value.iter().all(|byte| is_value(*byte)) && !blank(value.first()) && !blank(value.last())
}

fn pseudo_after_plain(lines: &[Line]) -> bool {
    lines.iter().skip_while(|line| is_pseudo(line)).any(is_pseudo)
}

/// By value, so any number of leading zeros passes.
fn content_length(value: &[u8]) -> Option<u64> {
    if value.is_empty() || !value.iter().all(|byte| is_digit(*byte)) {
        return None;
    }
    let zeros = value.iter().take_while(|byte| **byte == b'0').count();
    let digits = &value[zeros..];
    // 2^62-1 has 19 digits, and 19 nines fit 64 bits.
    if digits.len() > 19 {
        return None;
    }
    let number = digits.iter().fold(0u64, |number, digit| number * 10 + u64::from(digit - b'0'));
    (number <= HIGHEST).then_some(number)
}

/// `:authority` or `host` is there, neither is empty, they agree, and `:authority` holds no `@`.
fn names_its_origin(lines: &[Line]) -> bool {
    let authority = first(lines, b":authority");
    let host = first(lines, b"host");
    let agree = match (authority, host) {
        (None, None) => false,
        (Some(authority), Some(host)) => authority == host,
        _ => true,
    };
    agree
        && authority.is_none_or(|value| !value.is_empty() && !value.contains(&b'@'))
        && host.is_none_or(|value| !value.is_empty())
}

fn all<'a>(lines: &'a [Line], name: &'a [u8]) -> impl Iterator<Item = &'a [u8]> {
    lines.iter().filter(move |line| line.name == name).map(|line| line.value)
}

fn first<'a>(lines: &'a [Line], name: &'a [u8]) -> Option<&'a [u8]> {
    all(lines, name).next()
}
