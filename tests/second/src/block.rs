//! "Section block (house)": the records a QPACK decoder hands over.

const FIELD_LINE: u16 = 1;

#[derive(Clone, Copy, Debug, PartialEq, Eq)]
pub struct Line<'a> {
    pub name: &'a [u8],
    pub value: &'a [u8],
}

/// The field lines of a block; nothing if the block is unreadable.
pub fn lines(block: &[u8]) -> Option<Vec<Line<'_>>> {
    let mut found = Vec::new();
    let mut rest = block;
    while !rest.is_empty() {
        let length = usize::from(number(rest, 0)?);
        let record = rest.get(2..2 + length)?;
        found.push(line(record)?);
        rest = &rest[2 + length..];
    }
    Some(found)
}

/// A record without its length; one below 4 bytes has no room for kind and name length.
fn line(record: &[u8]) -> Option<Line<'_>> {
    let kind = number(record, 0)?;
    let name_length = usize::from(number(record, 2)?);
    let text = &record[4..];
    if kind != FIELD_LINE || name_length > text.len() {
        return None;
    }
    let (name, value) = text.split_at(name_length);
    Some(Line { name, value })
}

fn number(bytes: &[u8], place: usize) -> Option<u16> {
    let pair = bytes.get(place..place + 2)?;
    Some(u16::from_le_bytes([pair[0], pair[1]]))
}

/// A record as a decoder writes it.
pub fn record(name: &[u8], value: &[u8]) -> Vec<u8> {
    let length = 4 + name.len() + value.len();
    let mut bytes = Vec::with_capacity(2 + length);
    for number in [length, usize::from(FIELD_LINE), name.len()] {
        let number = u16::try_from(number).expect("a record holds at most 65,535 bytes");
        bytes.extend(number.to_le_bytes());
    }
    bytes.extend(name);
    bytes.extend(value);
    bytes
}
