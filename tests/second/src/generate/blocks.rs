//! Section blocks: mostly plausible, with a flaw or two in the lines or in the records.

use super::random::Random;
use crate::block;
use crate::sections::{Part, LINE_SIZE, SECTION_LIMIT};

/// Field lines, name and value.
pub type Lines = Vec<(Vec<u8>, Vec<u8>)>;

const PSEUDO: [&str; 4] = [":method", ":scheme", ":authority", ":path"];

const FORBIDDEN: [&str; 5] = ["connection", "keep-alive", "proxy-connection", "transfer-encoding", "upgrade"];

/// Methods that must state a length, and some of those that need not, next to them among others.
const UPLOADS: [&str; 3] = ["PUT", "POST", "PATCH"];
const OTHERS: [&str; 10] = [
    "GET",
    "HEAD",
    "DELETE",
    "OPTIONS",
    "put",
    "PUTX",
    "PATC",
    "connect",
    "M-SEARCH",
    "!#$%&'*+-.^_`|~09azAZ",
];

const CONTENT_LENGTHS: [&str; 28] = [
    "",
    "0",
    "00",
    "7",
    "007",
    "+1",
    "-1",
    "1 ",
    " 1",
    "1,1",
    "1, 1",
    "0x10",
    "1.0",
    "1a",
    "\u{661}",
    "1048575",
    "1048576",
    "1048577",
    "0001048576",
    "0001048577",
    "4611686018427387902",
    "4611686018427387903",
    "4611686018427387904",
    "9999999999999999999",
    "18446744073709551615",
    "18446744073709551616",
    "0000000000000000000000000000000000000003",
    "9000000000000000000000000000000000000003",
];

fn line(name: &str, value: &str) -> (Vec<u8>, Vec<u8>) {
    (name.as_bytes().to_vec(), value.as_bytes().to_vec())
}

pub fn bytes(lines: &Lines) -> Vec<u8> {
    lines.iter().flat_map(|(name, value)| block::record(name, value)).collect()
}

/// A header section that is accepted, stating `content_length` if there is one.
pub fn sound_header_section(random: &mut Random, content_length: Option<u64>) -> Lines {
    let upload = content_length.is_some() && random.one_in(2);
    let method = if upload { random.pick(&UPLOADS) } else { random.pick(&OTHERS) };
    let path = if method == "OPTIONS" {
        random.pick(&["*", "/", "/x"])
    } else {
        random.pick(&["/", "/index.html?q=1", "/ x", "//", "/#a", "/\u{e9}"])
    };
    let origin = random.pick(&["example.org", "localhost:44330", "a", "[::1]", "x\u{ff}"]);
    let mut lines =
        vec![line(":method", method), line(":scheme", random.pick(&["http", "https"])), line(":path", path)];
    let mut plain = Vec::new();
    match random.below(4) {
        0 => plain.push(line("host", origin)),
        1 => {
            lines.push(line(":authority", origin));
            plain.push(line("host", origin));
        }
        _ => lines.push(line(":authority", origin)),
    }
    shuffle(random, &mut lines);
    if let Some(length) = content_length {
        let zeros = if random.one_in(6) { random.index(30) } else { 0 };
        plain.push(line("content-length", &("0".repeat(zeros) + &length.to_string())));
    }
    plain.extend(some_fields(random));
    shuffle(random, &mut plain);
    lines.extend(plain);
    lines
}

pub fn sound_trailers(random: &mut Random) -> Lines {
    let mut lines = some_fields(random);
    if random.one_in(8) {
        lines.push(line("host", random.pick(&["", "a", "a@b"])));
    }
    lines
}

/// Plain fields that no rule refuses, of any byte a name or value may hold.
fn some_fields(random: &mut Random) -> Lines {
    let mut lines = Vec::new();
    for _ in 0..random.below(4) {
        lines.push(match random.below(8) {
            0 => line("te", "trailers"),
            1 => line("cookie", "a=b; c=d"),
            2 => line("accept", "*/*"),
            3 => line("x", ""),
            4 => line("content-type", "text/plain; charset=\"utf-8\""),
            5 => line("!#$%&'*+-.^_`|~09az", "a\tb c"),
            6 => (vec![random.pick(b"!#$%&'*+-.^_`|~059akz")], vec![random.pick(&[0x21, 0x7e, 0x80, 0xff])]),
            _ => line("content-lengths", "x"),
        });
    }
    lines
}

fn shuffle(random: &mut Random, lines: &mut Lines) {
    for place in (1..lines.len()).rev() {
        lines.swap(place, random.index(place + 1));
    }
}

/// Sets the value of the first line of that name, or puts such a line at the end.
fn set(lines: &mut Lines, name: &str, value: &[u8]) {
    match lines.iter_mut().find(|line| line.0 == name.as_bytes()) {
        Some(line) => line.1 = value.to_vec(),
        None => lines.push((name.as_bytes().to_vec(), value.to_vec())),
    }
}

fn set_present(lines: &mut Lines, name: &str, value: &str) {
    if lines.iter().any(|line| line.0 == name.as_bytes()) {
        set(lines, name, value.as_bytes());
    }
}

fn remove(lines: &mut Lines, name: &str) {
    lines.retain(|line| line.0 != name.as_bytes());
}

/// One flaw, or one thing that only looks like a flaw, in the lines.
pub fn flaw_lines(random: &mut Random, lines: &mut Lines) {
    if lines.is_empty() {
        lines.push(line("x", "y"));
    }
    let place = random.index(lines.len());
    let end = lines.len() + 1;
    match random.below(24) {
        0 => drop(lines.remove(place)),
        1 => lines.insert(random.index(end), lines[place].clone()),
        2 => lines.swap(place, random.index(end - 1)),
        3 => {
            let moved = lines.remove(place);
            lines.push(moved);
        }
        4 => change_byte(random, &mut lines[place].0),
        5 => change_byte(random, &mut lines[place].1),
        6 => {
            let blank = random.pick(b" \t");
            let value = &mut lines[place].1;
            let at = random.pick(&[0, value.len(), value.len() / 2]);
            value.insert(at, blank);
        }
        7 => {
            let name = &mut lines[place].0;
            let at = random.index(name.len().max(1));
            if let Some(byte) = name.get_mut(at) {
                byte.make_ascii_uppercase();
            }
        }
        8 => lines[place].0.clear(),
        9 => lines[place].1.clear(),
        10 => {
            let name = random.pick(&FORBIDDEN);
            let near = random.pick(&["", "", "", "s", "-x"]);
            lines.insert(
                random.index(end),
                line(&(name.to_string() + near), random.pick(&["close", "", "x"])),
            );
        }
        11 => {
            let value = random.pick(&[
                "trailers",
                "Trailers",
                "trailers, gzip",
                "gzip",
                "",
                "trailer",
                "trailers;q=1",
            ]);
            lines.push(line("te", value));
        }
        12 => {
            let method = match random.below(3) {
                0 => random.pick(&UPLOADS),
                1 => random.pick(&OTHERS),
                _ => random.pick(&["", "CONNECT", "Connect", "G T", "GET/", "G(T", "G\u{e9}T"]),
            };
            set(lines, ":method", method.as_bytes());
        }
        13 | 14 => set(lines, "content-length", random.pick(&CONTENT_LENGTHS).as_bytes()),
        15 => {
            let value = random.pick(&CONTENT_LENGTHS);
            lines.push(line("content-length", value));
        }
        16 => {
            let authority = lines.iter().find(|line| line.0 == b":authority");
            let near = authority.map_or(b"a".to_vec(), |line| line.1.to_ascii_uppercase());
            let host = match random.below(3) {
                0 => near,
                _ => random.pick(&["", "a", "a@b", "example.org"]).as_bytes().to_vec(),
            };
            lines.push((b"host".to_vec(), host));
        }
        17 => {
            let name = random.pick(&[
                ":protocol",
                ":status",
                ":",
                ":Method",
                ":method ",
                ":paths",
                ":pat",
                "::path",
            ]);
            lines.insert(random.index(end), line(name, "x"));
        }
        18 => {
            let scheme = random.pick(&["", "HTTP", "Https", "ftp", "httpss", "htt", "http:", "https"]);
            set(lines, ":scheme", scheme.as_bytes());
        }
        19 => {
            let path = random.pick(&["", "*", "*x", "x", "x/", "?", "**", "http://a/", "/*"]);
            set(lines, ":path", path.as_bytes());
        }
        20 => {
            let origin = random.pick(&["", "a@b", "@", "A", "a", "user:pass@example.org", "example.org."]);
            set(lines, random.pick(&[":authority", "host"]), origin.as_bytes());
        }
        21 => {
            remove(lines, ":authority");
            if random.one_in(2) {
                remove(lines, "host");
            }
        }
        22 => lines.insert(
            random.index(end),
            line(random.pick(&PSEUDO), random.pick(&["", "/", "http", "GET", "a"])),
        ),
        _ => remove(lines, random.pick(&PSEUDO)),
    }
}

/// Bytes beside the bounds of the classes.
const BOUNDS: &[u8] = b"\x00\x08\x09\x0a\x0d\x1f\x20!\"/0:9;@AZ[`a{z|}~\x7f\x80\xff";

fn change_byte(random: &mut Random, bytes: &mut Vec<u8>) {
    let byte = if random.one_in(2) { random.byte() } else { random.pick(BOUNDS) };
    match bytes.len() {
        0 => bytes.push(byte),
        length => bytes[random.index(length)] = byte,
    }
}

/// Two flaws of a header section that its order tells apart; pseudo-fields stay in front.
pub fn flaw_order(random: &mut Random, lines: &mut Lines) {
    for _ in 0..2 {
        match random.below(9) {
            0 => set(lines, ":method", b"CONNECT"),
            1 => remove(lines, random.pick(&[":scheme", ":path"])),
            2 => set_present(lines, ":scheme", random.pick(&["ftp", "HTTP", ""])),
            3 => set_present(lines, ":path", random.pick(&["", "x", "*", "*x"])),
            4 => set_present(lines, ":authority", random.pick(&["", "a@b", "A"])),
            5 => set(lines, "content-length", random.pick(&["1048577", "4611686018427387903"]).as_bytes()),
            6 => remove(lines, "content-length"),
            7 => set(lines, ":method", random.pick(&UPLOADS).as_bytes()),
            _ => set(lines, ":method", b"OPTIONS"),
        }
    }
}

pub fn size(lines: &Lines) -> usize {
    lines.iter().map(|(name, value)| name.len() + value.len() + LINE_SIZE).sum()
}

/// Brings the size to 16,384 or a little beyond, in one long value, one long name, a few lines or many short ones.
pub fn to_size_limit(random: &mut Random, lines: &mut Lines) {
    let target = random.pick(&[SECTION_LIMIT, SECTION_LIMIT, SECTION_LIMIT + 1, SECTION_LIMIT + 40]);
    let mut missing = target.saturating_sub(size(lines));
    let manner = random.below(4);
    while missing > LINE_SIZE {
        let most = missing - LINE_SIZE;
        let wanted = match manner {
            0 | 1 => most,
            2 => 4096,
            _ => random.between(1, 8) as usize,
        };
        // A rest that is too short for a line more goes into this one.
        let length = if wanted + LINE_SIZE < most { wanted } else { most };
        lines.push(match manner {
            1 => (vec![b'n'; length], Vec::new()),
            _ => (b"z".to_vec(), vec![random.pick(b"w\x80"); length - 1]),
        });
        missing = most - length;
    }
}

/// A record flaw of one of the kinds that make a block unreadable, or nearly.
pub fn flaw_records(random: &mut Random, block: &mut Vec<u8>) {
    let starts = record_starts(block);
    if starts.is_empty() {
        let length = random.between(1, 7) as usize;
        *block = random.bytes(length);
        return;
    }
    let start = random.pick(&starts);
    let length = u16::from_le_bytes([block[start], block[start + 1]]);
    let mut put = |place: usize, number: u16| {
        block[start + place..start + place + 2].copy_from_slice(&number.to_le_bytes())
    };
    match random.below(9) {
        0 => put(2, random.pick(&[0, 2, 0x0100, 0x0101, 0xffff])),
        1 => put(0, random.below(4) as u16),
        2 => put(4, length - 4 + random.between(1, 3) as u16),
        // The name may fill the record.
        3 => put(4, length - 4),
        4 => put(4, 0xffff),
        5 => put(0, random.pick(&[length + 1, length - 1, 0xffff])),
        6 => {
            let cut = random.between(1, u64::from(length) + 1) as usize;
            block.truncate(block.len().saturating_sub(cut));
        }
        7 => {
            let stray = random.between(1, 6) as usize;
            block.extend(random.bytes(stray));
        }
        _ => {
            let place = random.index(block.len());
            block[place] ^= 1 << random.below(8);
        }
    }
}

fn record_starts(block: &[u8]) -> Vec<usize> {
    let mut starts = Vec::new();
    let mut place = 0;
    while place + 6 <= block.len() {
        starts.push(place);
        place += 2 + usize::from(u16::from_le_bytes([block[place], block[place + 1]]));
    }
    starts
}

/// A block for one of the two parts, sound or not.
pub fn any(random: &mut Random) -> (Part, Vec<u8>) {
    let part = if random.one_in(3) { Part::Trailers } else { Part::HeaderSection };
    (part, any_for(random, part))
}

fn any_for(random: &mut Random, part: Part) -> Vec<u8> {
    let content_length = random.one_in(3).then(|| random.pick(&[0, 3, 1_048_576, 1_048_577]));
    let mut lines = match part {
        Part::Trailers if random.percent(85) => sound_trailers(random),
        _ => sound_header_section(random, content_length),
    };
    let limit = random.one_in(60);
    if limit {
        to_size_limit(random, &mut lines);
    }
    match random.below(8) {
        0 => {}
        1 if part == Part::HeaderSection => flaw_order(random, &mut lines),
        2 => {
            flaw_lines(random, &mut lines);
            flaw_lines(random, &mut lines);
        }
        _ if limit => {}
        _ => flaw_lines(random, &mut lines),
    }
    let mut block = bytes(&lines);
    if random.one_in(7) {
        flaw_records(random, &mut block);
    }
    if random.one_in(100) {
        block.clear();
    }
    block
}
