//! A host of a connection's one-way streams over the second program, and streams for it.

use std::rc::Rc;

use second::calls::{self, Connection, Stream, RECORDS};
use second::generate::drafts;
use second::generate::random::Random;
use second::integers;
use second::numbers::ACCEPTED;
use second::one_way;
use second::reading::What;

use crate::driver::{Answer, Call, NONE};
use crate::play::{fed, Manner, Named, Notes, Play, GOAWAY, MAX_PUSH, SETTINGS};
use crate::tally::Tally;

struct Way {
    id: u64,
    /// The stream's bytes among all.
    from: usize,
    end: usize,
    /// Where the next byte to be consumed stands among all.
    place: usize,
}

/// Feeds the streams in a random order, until one is refused or all are consumed.
pub fn play(streams: &[Vec<u8>], manner: &Manner, random: &mut Random, tally: &mut Tally) -> Play {
    let bytes: Rc<[u8]> = streams.concat().into();
    let mut connection = Connection::fresh();
    let mut row = calls::empty_row(RECORDS);
    let mut notes = Notes::default();
    let mut ways = Vec::new();
    for stream in streams {
        let from = ways.last().map_or(0, |way: &Way| way.end);
        let id = connection.next_one_way;
        calls::open(&mut connection, &mut row, id);
        ways.push(Way { id, from, end: from + stream.len(), place: from });
    }
    while connection.fault.is_none() {
        let open: Vec<usize> =
            (0..ways.len()).filter(|index| ways[*index].place < ways[*index].end).collect();
        if open.is_empty() {
            break;
        }
        let index = random.pick(&open);
        let way = &mut ways[index];
        let to = way.from + manner.cut(random, way.place - way.from, way.end - way.from);
        let piece = &bytes[way.place..to];
        // What the allowance alone held back would be so again.
        let held = matches!(notes.calls.last(), Some(Call::FeedWay { allowance: 0, .. }));
        let allowance = manner.allow(random).max(u64::from(held));
        let answer = calls::feed(&mut connection, &mut row, way.id, allowance, piece);
        let numbers = fed(&answer, piece.len(), allowance, tally);
        notes.add(Call::FeedWay { way: index, from: way.place, to, allowance }, numbers);
        if answer.number == ACCEPTED {
            way.place += answer.consumed;
        }
        if [SETTINGS, GOAWAY, MAX_PUSH].contains(&numbers[1]) {
            notes.add(Call::Said, said(&row));
        }
    }
    let mut named = Named::default();
    for way in &ways {
        let consumed = &bytes[way.from..way.place];
        for item in one_way::read(consumed, &[]).items {
            match item.what {
                What::Qpack { kind: 2 } => named.encoder.extend(&consumed[item.start..item.end]),
                What::Qpack { .. } => named.decoder.extend(&consumed[item.start..item.end]),
                _ => {}
            }
        }
    }
    Play { bytes, notes, named }
}

fn said(row: &[Option<Stream>]) -> Answer {
    let said = calls::said(row);
    let settings = said.settings.unwrap_or_default();
    [
        u64::from(said.settings.is_some()),
        settings.section_size.unwrap_or(NONE),
        settings.table_capacity,
        settings.blocked_streams,
        said.goaway.unwrap_or(NONE),
        said.max_push.unwrap_or(NONE),
    ]
}

/// A connection's one-way streams: control and QPACK once each in any order, others, and at times one that must not be.
pub fn any_streams(random: &mut Random) -> Vec<Vec<u8>> {
    let mut types: Vec<u64> = [0, 2, 3].into_iter().filter(|_| random.percent(80)).collect();
    while random.one_in(3) {
        types.push(drafts::any_value(random).max(4));
    }
    if random.one_in(6) {
        types.push(random.pick(&[0, 0, 1, 2, 3]));
    }
    for place in (1..types.len()).rev() {
        types.swap(place, random.index(place + 1));
    }
    types.into_iter().map(|kind| any_stream(random, kind)).collect()
}

fn any_stream(random: &mut Random, kind: u64) -> Vec<u8> {
    let mut stream = drafts::integer(random, kind);
    if kind == 0 {
        stream.extend(any_control(random));
    } else {
        let length = random.pick(&[0, 1, 2, 9, 40]);
        stream.extend(random.bytes(length));
    }
    if random.one_in(12) {
        drafts::damage(random, &mut stream);
    }
    stream
}

/// SETTINGS and what may follow them, the last frame at times refused.
fn any_control(random: &mut Random) -> Vec<u8> {
    let mut frames = match random.below(12) {
        0 => Vec::new(),
        1 | 2 => vec![drafts::broken_settings(random)],
        _ => vec![drafts::sound_settings(random)],
    };
    frames.extend(drafts::sound_control(random, None, None));
    if random.one_in(2) {
        let last = |kind| {
            let frame = frames.iter().rev().find(|frame| frame.kind == kind)?;
            integers::read(&frame.payload, 0).map(|(id, _)| id)
        };
        let (goaway, max_push) = (last(drafts::GOAWAY), last(drafts::MAX_PUSH_ID));
        frames.extend(drafts::broken_control(random, goaway, max_push));
    }
    drafts::frames(random, &frames)
}
