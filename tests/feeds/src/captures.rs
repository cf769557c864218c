//! The streams of `tests/captures`: their bytes, a request's section as a block, and what `DECODED.txt` says of them.

use std::collections::BTreeMap;
use std::fs;
use std::path::PathBuf;
use std::rc::Rc;

use second::{block, hex, integers};

use crate::driver::{Answer, Call, NONE};
use crate::play::{Play, CONTENT, SECTION_LAST};

pub struct Request {
    pub name: String,
    pub stream: Rc<[u8]>,
    pub block: Vec<u8>,
    /// What `DECODED.txt` says behind the name.
    pub decoded: String,
}

/// The one-way streams of a connection, in the order of their IDs, one that was not captured being empty.
#[derive(Default)]
pub struct Ways {
    pub streams: Vec<Vec<u8>>,
    pub decoded: Decoded,
}

/// What `DECODED.txt` says of a connection's one-way streams, as far as the engine tells it.
#[derive(Debug, Default, PartialEq, Eq)]
pub struct Decoded {
    /// The frames of the control stream.
    pub headers: u64,
    /// What was said, as the driver answers it.
    pub said: Answer,
    pub encoder: Vec<u8>,
    pub decoder: Vec<u8>,
}

/// Each line of `DECODED.txt`: connection, stream ID, and what it says behind the name.
fn lines() -> Result<Vec<(String, u64, String)>, String> {
    let line = |line: &str| {
        let (name, decoded) = line.split_once(' ')?;
        let (connection, id) = name.strip_suffix(".bin")?.rsplit_once("-s")?;
        Some((connection.to_string(), id.parse().ok()?, decoded.to_string()))
    };
    let decoded = text("DECODED.txt")?;
    decoded.lines().map(|words| line(words).ok_or(format!("{words}: no capture"))).collect()
}

pub fn requests() -> Result<Vec<Request>, String> {
    let mut requests = Vec::new();
    for (connection, id, decoded) in lines()?.into_iter().filter(|(_, id, _)| id % 4 == 0) {
        let name = format!("{connection}-s{id}");
        let fields = json_strings(&text(&format!("{name}.headers.json"))?)?;
        let record = |line: &[String]| block::record(line[0].as_bytes(), line[1].as_bytes());
        let block = fields.chunks(2).flat_map(record).collect();
        let stream = file(&format!("{name}.bin"))?.into();
        requests.push(Request { name, stream, block, decoded });
    }
    Ok(requests)
}

pub fn ways() -> Result<BTreeMap<String, Ways>, String> {
    let mut connections: BTreeMap<String, Ways> = BTreeMap::new();
    for (connection, id, decoded) in lines()?.into_iter().filter(|(_, id, _)| id % 4 == 2) {
        let stream = file(&format!("{connection}-s{id}.bin"))?;
        let ways = connections.entry(connection).or_default();
        let place = (id / 4) as usize;
        ways.streams.resize(ways.streams.len().max(place + 1), Vec::new());
        ways.streams[place] = stream;
        ways.decoded.add(&decoded).ok_or(format!("not understood: {decoded}"))?;
    }
    Ok(connections)
}

impl Decoded {
    /// A line behind its name: the size, the stream's type, and the rest or the frames.
    fn add(&mut self, line: &str) -> Option<()> {
        let (_, line) = line.split_once(" stream-type 0x")?;
        let mut parts = line.split("; ");
        let (kind, rest) = match parts.next()?.split_once(" rest ") {
            Some((kind, rest)) => (kind, if rest.is_empty() { Vec::new() } else { hex::parse(rest)? }),
            None => ("0", Vec::new()),
        };
        match kind {
            "2" => self.encoder = rest,
            "3" => self.decoder = rest,
            _ => self.said = [0, NONE, 0, 0, NONE, NONE],
        }
        for frame in parts {
            self.headers += 1;
            if let Some(pairs) = frame.strip_prefix("SETTINGS{") {
                self.said[0] = 1;
                for pair in pairs.strip_suffix('}')?.split(',') {
                    let (identifier, value) = pair.split_once('=')?;
                    let value = u64::from_str_radix(value.strip_prefix("0x")?, 16).ok()?;
                    match identifier {
                        "0x6" => self.said[1] = value,
                        "0x1" => self.said[2] = value,
                        "0x7" => self.said[3] = value,
                        _ => {}
                    }
                }
            } else if let Some(frame) = frame.strip_prefix("MAX_PUSH_ID[") {
                let (_, payload) = frame.split_once(' ')?;
                self.said[5] = integers::read(&hex::parse(payload)?, 0)?.0;
            }
        }
        Some(())
    }

    /// The same of the engine's answers.
    pub fn of(play: &Play, engine: &[Answer]) -> Decoded {
        let mut decoded = Decoded::default();
        for (call, answer) in play.notes.calls.iter().zip(engine) {
            match call {
                Call::Said => decoded.said = *answer,
                _ => decoded.headers += answer[5],
            }
        }
        decoded.encoder.clone_from(&play.named.encoder);
        decoded.decoder.clone_from(&play.named.decoder);
        decoded
    }
}

fn file(name: &str) -> Result<Vec<u8>, String> {
    let path = PathBuf::from(env!("CARGO_MANIFEST_DIR")).join("../captures").join(name);
    fs::read(path).map_err(|error| format!("{name}: {error}"))
}

fn text(name: &str) -> Result<String, String> {
    String::from_utf8(file(name)?).map_err(|error| format!("{name}: {error}"))
}

/// The strings of a JSON text whose only escape is a quotation mark's.
fn json_strings(text: &str) -> Result<Vec<String>, String> {
    let text = text.replace("\\\"", "\u{0}");
    if text.contains('\\') {
        return Err("an escape that is not known".to_string());
    }
    Ok(text.split('"').skip(1).step_by(2).map(|string| string.replace('\u{0}', "\"")).collect())
}

/// The engine's answers to a play of a whole request in one piece, in the words of `DECODED.txt`.
pub fn describe(play: &Play, engine: &[Answer]) -> String {
    let mut parts = Vec::new();
    let mut content = Vec::new();
    for (call, [_, event, start, length, ..]) in play.notes.calls.iter().zip(engine) {
        let Call::Feed { from, .. } = call else { continue };
        let payload = play.bytes.iter().skip(from + *start as usize).take(*length as usize);
        match *event {
            SECTION_LAST => {
                let beginning: String = payload.take(12).map(|byte| format!("{byte:02x}")).collect();
                parts.push(format!("HEADERS[{length}] {beginning}"));
            }
            CONTENT => content.push(length.to_string()),
            _ => {}
        }
    }
    if let [.., last] = &content[..] {
        let sizes = match content.len() {
            0..=7 => content.join(", "),
            _ => format!("{}, '...', {last}", content[..6].join(", ")),
        };
        parts.push(format!("DATA x{} sizes=[{sizes}]", content.len()));
    }
    format!("{} {}", play.bytes.len(), parts.join("; "))
}
