//! The published captures: what curl, Chromium and aioquic sent, a connection at a time.

mod common;

use std::collections::BTreeMap;
use std::fs;
use std::path::PathBuf;

use common::{Random, Stream};
use eistulko::{Block, Connection, Ended, Event, PushId, Qpack, Settings, StreamId};

fn directory() -> PathBuf {
    PathBuf::from(env!("CARGO_MANIFEST_DIR")).join("../../tests/captures")
}

fn file(name: &str) -> Vec<u8> {
    fs::read(directory().join(name)).unwrap_or_else(|error| panic!("{name}: {error}"))
}

/// The streams of each connection, by their IDs.
fn connections() -> BTreeMap<String, BTreeMap<u64, Vec<u8>>> {
    let mut connections: BTreeMap<String, BTreeMap<u64, Vec<u8>>> = BTreeMap::new();
    for entry in fs::read_dir(directory()).unwrap() {
        let name = entry.unwrap().file_name().into_string().unwrap();
        if let Some(stream) = name.strip_suffix(".bin") {
            let (connection, id) = stream.rsplit_once("-s").unwrap();
            connections.entry(connection.into()).or_default().insert(id.parse().unwrap(), file(&name));
        }
    }
    connections
}

/// The captured header section of a request, and the Content-Length in it.
fn section(connection: &str, id: u64) -> (Block, Option<usize>) {
    let text = String::from_utf8(file(&format!("{connection}-s{id}.headers.json"))).unwrap();
    // Its only escape is a quotation mark's.
    let text = text.replace("\\\"", "\0");
    let strings: Vec<String> =
        text.split('"').skip(1).step_by(2).map(|string| string.replace('\0', "\"")).collect();
    let (mut block, mut length) = (Block::new(), None);
    for line in strings.chunks(2) {
        block.line(&line[0], &line[1]).unwrap();
        if line[0] == "content-length" {
            length = line[1].parse().ok();
        }
    }
    (block, length)
}

/// Feeds all streams in turn, a random piece at a time, and ends the requests.
fn play(name: &str, streams: &BTreeMap<u64, Vec<u8>>, longest: usize) -> (Connection, BTreeMap<u64, Stream>) {
    let random = &mut Random(longest as u64);
    let mut connection = Connection::new();
    let mut open = BTreeMap::new();
    // IDs without a capture are opened too, as each must come in its turn.
    for id in (0..=*streams.keys().max().unwrap()).step_by(2) {
        let blocks = match streams.get(&id) {
            Some(_) if id % 4 == 0 => vec![section(name, id).0],
            _ => vec![],
        };
        open.insert(id, Stream::new(&mut connection, id, &blocks));
    }
    let mut pieces: Vec<_> =
        streams.iter().map(|(id, bytes)| (*id, random.cut(bytes, longest).into_iter())).collect();
    while !pieces.is_empty() {
        let place = random.below(pieces.len());
        let (id, rest) = &mut pieces[place];
        match rest.next() {
            Some(piece) => {
                let fed =
                    open.get_mut(id).unwrap().feed(&mut connection, piece, || 1 + random.below(4) as u64);
                assert_eq!(fed, Ok(()), "{name} {id}");
            }
            None => drop(pieces.swap_remove(place)),
        }
    }
    for id in streams.keys().filter(|id| **id % 4 == 0) {
        assert_eq!(connection.end(StreamId(*id)), Ok(Ended::Whole), "{name} {id}");
    }
    (connection, open)
}

#[test]
fn every_connection_under_random_cuttings() {
    let mut stated = Vec::new();
    for (name, streams) in connections() {
        let (_, uncut) = play(&name, &streams, usize::MAX);
        for longest in [1, 7, 100, 5_000] {
            let (connection, read) = play(&name, &streams, longest);
            assert_eq!(read, uncut, "{name}");
            check_settings(&name, &connection, &read[&2]);
        }
        for id in streams.keys().filter(|id| **id % 4 == 0) {
            let length = section(&name, *id).1;
            assert_eq!(uncut[id].content.len(), length.unwrap_or(0), "{name} {id}");
            stated.extend(length);
        }
        let encoder = uncut.values().flat_map(|stream| stream.encoder.clone()).collect::<Vec<u8>>();
        assert_eq!(encoder, if name == "chromium-c0" { vec![0x20] } else { vec![] }, "{name}");
    }
    assert_eq!(stated, [200_000, 200_000, 200_000, 7]);
}

fn check_settings(name: &str, connection: &Connection, control: &Stream) {
    let (section_size, capacity, blocked, max_push_id) = match name {
        "aioquic-c0" => (None, 0x1000, 0x10, Some(PushId(8))),
        "chromium-c0" => (Some(0x40000), 0x10000, 0x64, None),
        _ => (Some((1 << 62) - 1), 0, 0, None),
    };
    assert_eq!(connection.settings(), Some(Settings { section_size, capacity, blocked }), "{name}");
    assert_eq!(connection.max_push_id(), max_push_id, "{name}");
    let pushes = max_push_id.map(Event::MaxPushId);
    assert!(control.events.iter().copied().eq([Event::Settings].into_iter().chain(pushes)), "{name}");
    assert!(connection.has_control() && connection.has_qpack(Qpack::Encoder), "{name}");
}
