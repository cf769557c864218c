//! The captured streams, read as `DECODED.txt` says, whole and under random cuttings.

use std::collections::BTreeMap;
use std::fs;
use std::path::PathBuf;

use second::block;
use second::calls::{self, Answer, Connection, Gave, RECORDS};
use second::control_stream;
use second::generate::random::Random;
use second::hex;
use second::integers;
use second::lister;
use second::reading::{Reading, Use, What};
use second::request_stream;
use second::settings::Settings;

fn directory() -> PathBuf {
    PathBuf::from(env!("CARGO_MANIFEST_DIR")).join("../captures")
}

fn file(name: &str) -> Vec<u8> {
    fs::read(directory().join(name)).unwrap_or_else(|error| panic!("{name}: {error}"))
}

fn decoded() -> Vec<String> {
    String::from_utf8(file("DECODED.txt")).unwrap().lines().map(str::to_string).collect()
}

/// The connections by name, each with its streams by ID.
fn connections() -> BTreeMap<String, BTreeMap<u64, String>> {
    let mut connections: BTreeMap<String, BTreeMap<u64, String>> = BTreeMap::new();
    for line in decoded() {
        let name = line.split(' ').next().unwrap();
        let (connection, stream) = name.strip_suffix(".bin").unwrap().rsplit_once("-s").unwrap();
        connections
            .entry(connection.to_string())
            .or_default()
            .insert(stream.parse().unwrap(), name.to_string());
    }
    connections
}

/// The captured header section of a request, as the block a QPACK decoder would give.
fn header_block(name: &str) -> Vec<u8> {
    let text = String::from_utf8(file(&name.replace(".bin", ".headers.json"))).unwrap();
    let strings = json_strings(&text);
    strings.chunks(2).flat_map(|line| block::record(line[0].as_bytes(), line[1].as_bytes())).collect()
}

/// The strings of a JSON text whose only escape is a quotation mark's.
fn json_strings(text: &str) -> Vec<String> {
    let text = text.replace("\\\"", "\u{0}");
    assert!(!text.contains('\\'));
    text.split('"').skip(1).step_by(2).map(|string| string.replace('\u{0}', "\"")).collect()
}

/// A stream's reading in the words of `DECODED.txt`.
fn describe(name: &str, id: u64, bytes: &[u8]) -> String {
    let what = match (id % 4, integers::read(bytes, 0)) {
        (0, _) => describe_frames(&request_stream::read(bytes, &[None, None]), bytes),
        (_, Some((0, size))) => {
            format!("stream-type 0x0; {}", describe_frames(&control_stream::read(bytes, size), bytes))
        }
        (_, Some((kind, size))) => {
            let rest: String = bytes[size..].iter().map(|byte| format!("{byte:02x}")).collect();
            format!("stream-type {kind:#x} rest {rest}")
        }
        _ => panic!("{name} has no type"),
    };
    format!("{name} {} {what}", bytes.len())
}

fn describe_frames(reading: &Reading, bytes: &[u8]) -> String {
    let mut parts = Vec::new();
    let mut content = Vec::new();
    for item in &reading.items {
        let What::Header { kind, length, usage } = item.what else { continue };
        let payload = &bytes[item.end..item.end + length as usize];
        match usage.expect("no capture is refused") {
            Use::HeaderSection | Use::Trailers => {
                parts.push(format!("HEADERS[{length}] {}", beginning(payload)));
            }
            Use::Content => content.push(length),
            Use::Control if kind == 4 => parts.push(format!("SETTINGS{{{}}}", pairs(payload))),
            _ => parts.push(format!("{}[{length}] {}", type_name(kind), beginning(payload))),
        }
    }
    if !content.is_empty() {
        parts.push(format!("DATA x{} sizes=[{}]", content.len(), sizes(&content)));
    }
    parts.join("; ")
}

fn beginning(payload: &[u8]) -> String {
    payload.iter().take(12).map(|byte| format!("{byte:02x}")).collect()
}

fn type_name(kind: u64) -> String {
    match kind {
        7 => "GOAWAY".to_string(),
        13 => "MAX_PUSH_ID".to_string(),
        0xf0700 => "PRIORITY_UPDATE".to_string(),
        _ if kind % 0x1f == 0x21 % 0x1f => format!("{kind:#x} GREASE"),
        _ => format!("{kind:#x}"),
    }
}

fn pairs(payload: &[u8]) -> String {
    let mut numbers = Vec::new();
    let mut place = 0;
    while let Some((number, size)) = integers::read(payload, place) {
        numbers.push(number);
        place += size;
    }
    let pairs: Vec<String> = numbers.chunks(2).map(|pair| format!("{:#x}={:#x}", pair[0], pair[1])).collect();
    pairs.join(",")
}

fn sizes(content: &[u64]) -> String {
    let words: Vec<String> = content.iter().map(u64::to_string).collect();
    if words.len() <= 7 {
        return words.join(", ");
    }
    format!("{}, '...', {}", words[..6].join(", "), words[words.len() - 1])
}

#[test]
fn every_stream_reads_as_decoded() {
    let mut described = Vec::new();
    for streams in connections().into_values() {
        for (id, name) in streams {
            described.push(describe(&name, id, &file(&name)));
        }
    }
    let mut decoded = decoded();
    decoded.sort();
    described.sort();
    assert_eq!(described.len(), 23);
    assert_eq!(described, decoded);
}

#[test]
fn short_requests_in_the_listers_words() {
    for (name, lines) in [
        ("aioquic-c0-s0.bin", "0 1 32 header section\nend 34 whole\n"),
        ("chromium-c0-s0.bin", "0 1 429 header section\nend 432 whole\n"),
        ("curl-c2-s0.bin", "0 1 39 header section\n41 0 7 content\nend 50 whole\n"),
        ("curl-c1-s0.bin", ""),
    ] {
        let expected = match lines {
            "" => "too long\n".to_string(),
            lines => format!("offset type length use\n{lines}"),
        };
        assert_eq!(lister::list(&file(name)), expected);
    }
}

/// What the feeds of a stream gave in all.
#[derive(Default)]
struct Gathered {
    rest: Vec<u8>,
    section: Vec<u8>,
    content: Vec<u8>,
    qpack: Vec<u8>,
    settings: Option<Settings>,
    max_push: Option<u64>,
    headers: u64,
}

impl Gathered {
    fn take(&mut self, piece: &[u8], answer: &Answer) {
        assert_eq!(answer.number, 0);
        self.headers += answer.headers;
        match answer.gave {
            Gave::Section { start, length, .. } => self.section.extend(&piece[start..start + length]),
            Gave::Content { start, length } => self.content.extend(&piece[start..start + length]),
            Gave::Qpack { start, length, .. } => self.qpack.extend(&piece[start..start + length]),
            Gave::Settings(settings) => assert_eq!(self.settings.replace(settings), None),
            Gave::MaxPush(id) => assert_eq!(self.max_push.replace(id), None),
            _ => assert_eq!(answer.gave, Gave::Nothing),
        }
        self.rest.drain(..answer.consumed);
    }
}

/// Feeds all streams of a connection in turn, a random piece at a time.
fn feed_all(streams: &BTreeMap<u64, String>, random: &mut Random) -> BTreeMap<u64, Gathered> {
    let mut connection = Connection::fresh();
    let mut row = calls::empty_row(RECORDS);
    // IDs without a capture are opened too, as each must come in its turn.
    let highest = *streams.keys().max().unwrap();
    for id in (0..=highest).step_by(2) {
        assert_eq!(calls::open(&mut connection, &mut row, id).number, 0, "{id}");
    }
    let mut gathered: BTreeMap<u64, Gathered> = streams
        .iter()
        .map(|(id, name)| (*id, Gathered { rest: file(name), ..Gathered::default() }))
        .collect();
    let longest = random.pick(&[1, 7, 100, 5_000, 300_000]);
    loop {
        let open: Vec<u64> =
            gathered.iter().filter(|(_, stream)| !stream.rest.is_empty()).map(|(id, _)| *id).collect();
        if open.is_empty() {
            break;
        }
        let id = random.pick(&open);
        let stream = gathered.get_mut(&id).unwrap();
        let mut length = random.index(longest) + 1;
        // A long content in single bytes would only take long.
        if stream.rest.len() > 2_000 {
            length *= 50;
        }
        let piece = stream.rest[..length.min(stream.rest.len())].to_vec();
        let answer = calls::feed(&mut connection, &mut row, id, random.below(4), &piece);
        stream.take(&piece, &answer);
        if let Gave::Section { last: true, .. } = answer.gave {
            let answer = calls::section(&mut connection, &mut row, id, &header_block(&streams[&id]));
            assert_eq!(answer.number, 0, "{}", streams[&id]);
        }
    }
    for id in streams.keys().filter(|id| **id % 4 == 0) {
        assert_eq!(calls::end(&mut connection, &mut row, *id).gave, Gave::Whole, "{}", streams[id]);
    }
    gathered
}

/// The payload bytes of one use, straight from the whole stream.
fn payloads(bytes: &[u8], wanted: Use) -> Vec<u8> {
    let reading = request_stream::read(bytes, &[None, None]);
    let mut found = Vec::new();
    for item in &reading.items {
        match item.what {
            What::Header { length, usage, .. } if usage == Some(wanted) => {
                found.extend(&bytes[item.end..item.end + length as usize]);
            }
            _ => {}
        }
    }
    found
}

#[test]
fn every_connection_under_random_cuttings() {
    for (name, streams) in connections() {
        for seed in 0..12 {
            let gathered = feed_all(&streams, &mut Random::new(seed));
            for (id, stream) in &gathered {
                let bytes = file(&streams[id]);
                if id % 4 == 0 {
                    assert_eq!(stream.section, payloads(&bytes, Use::HeaderSection), "{name} {id}");
                    assert_eq!(stream.content, payloads(&bytes, Use::Content), "{name} {id}");
                }
            }
            check_one_way(&name, &gathered);
        }
    }
}

fn check_one_way(name: &str, gathered: &BTreeMap<u64, Gathered>) {
    let settings = |section_size, table_capacity, blocked_streams| {
        Some(Settings { section_size, table_capacity, blocked_streams })
    };
    let (expected, max_push, headers, encoder) = match name {
        "aioquic-c0" => (settings(None, 0x1000, 0x10), Some(8), 2, ""),
        "chromium-c0" => (settings(Some(0x40000), 0x10000, 0x64), None, 5, "20"),
        _ => (settings(Some(integers::HIGHEST), 0, 0), None, 1, ""),
    };
    let control = &gathered[&2];
    assert_eq!((control.settings, control.max_push, control.headers), (expected, max_push, headers));
    let qpack: Vec<u8> = gathered.values().flat_map(|stream| stream.qpack.clone()).collect();
    let encoder = if encoder.is_empty() { Vec::new() } else { hex::parse(encoder).unwrap() };
    assert_eq!(qpack, encoder);
}

#[test]
fn captured_header_sections_are_sound() {
    let mut lengths = Vec::new();
    for streams in connections().into_values() {
        for (_, name) in streams.iter().filter(|(id, _)| **id % 4 == 0) {
            let judged =
                second::sections::judge_block(second::sections::Part::HeaderSection, &header_block(name));
            lengths.push((name.clone(), judged.unwrap_or_else(|code| panic!("{name}: {code}"))));
        }
    }
    let stated: Vec<u64> = lengths.iter().filter_map(|(_, length)| *length).collect();
    assert_eq!(lengths.len(), 9);
    assert_eq!(stated, [200_000, 200_000, 200_000, 7]);
}
