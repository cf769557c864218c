//! A feed against single bytes, and every cutting of a stream against its whole reading.

mod common;

use common::header_section;
use second::calls::{self, Connection, Gave, Stream, RECORDS};
use second::generate::drafts;
use second::generate::random::Random;
use second::generate::streams::Streams;
use second::hex;
use second::lister;
use second::reading::What;
use second::request_stream;

struct Host {
    connection: Connection,
    row: Vec<Option<Stream>>,
}

impl Host {
    fn with_open(id: u64) -> Host {
        let mut host = Host { connection: Connection::fresh(), row: calls::empty_row(RECORDS) };
        assert_eq!(calls::open(&mut host.connection, &mut host.row, id).number, 0);
        host
    }

    fn feed(&mut self, id: u64, allowance: u64, piece: &[u8]) -> calls::Answer {
        calls::feed(&mut self.connection, &mut self.row, id, allowance, piece)
    }

    fn give_sound_section(&mut self, id: u64) {
        let trailers = self.row.iter().flatten().any(|stream| !stream.sections.is_empty());
        let block = if trailers { Vec::new() } else { hex::parse(&header_section(None)).unwrap() };
        assert_eq!(calls::section(&mut self.connection, &mut self.row, id, &block).number, 0);
    }

    fn is_due(&self) -> bool {
        self.row.iter().flatten().any(Stream::is_due)
    }
}

/// Cuts a stream at random, gives sound sections, ends it; the lister's last line for what came of it.
fn verdict_by_calls(stream: &[u8], random: &mut Random) -> (String, u64, Vec<u8>) {
    let mut host = Host::with_open(0);
    let mut place = 0;
    let mut headers = 0;
    let mut content = Vec::new();
    let longest = random.pick(&[1, 3, 20, 70_000]);
    while place < stream.len() || host.is_due() {
        if host.is_due() {
            host.give_sound_section(0);
            continue;
        }
        let end = (place + random.index(longest + 1)).min(stream.len());
        let allowance = random.below(3);
        let answer = host.feed(0, allowance, &stream[place..end]);
        assert!(answer.headers <= allowance);
        headers += answer.headers;
        if answer.number != 0 {
            assert_eq!(answer.gave, Gave::Nothing);
            return (format!("refused {} {}", place + answer.consumed, answer.number), headers - 1, content);
        }
        // The stop rule: an accepted feed with an allowance gets somewhere.
        assert!(allowance == 0 || place == end || answer.consumed > 0);
        if let Gave::Content { start, length } = answer.gave {
            content.extend(&stream[place + start..place + start + length]);
        }
        place += answer.consumed;
    }
    let answer = calls::end(&mut host.connection, &mut host.row, 0);
    let line = match answer.number {
        0 => format!("end {place} whole"),
        number => format!("refused {place} {number}"),
    };
    (line, headers, content)
}

#[test]
fn every_cutting_agrees_with_the_lister() {
    let mut random = Random::new(5);
    for stream in Streams::new(11).filter(|stream| stream.len() < 20_000).take(6_000) {
        let listing = lister::list(&stream);
        let (last, headers, content) = verdict_by_calls(&stream, &mut random);
        assert_eq!(listing.lines().last(), Some(last.as_str()), "{}", hex::show(&stream));
        assert_eq!(listing.lines().count() as u64 - 2, headers, "{}", hex::show(&stream));
        let mut expected = Vec::new();
        for item in request_stream::read(&stream, &[None, None]).items {
            if item.what == What::Content {
                expected.extend(&stream[item.start..item.end]);
            }
        }
        assert_eq!(content, expected);
    }
}

/// The same feed made of single bytes: an event's part grows while its next byte gives the same kind of part.
fn feed_by_bytes(host: &mut Host, id: u64, allowance: u64, piece: &[u8]) -> calls::Answer {
    let mut answer = calls::Answer { number: 0, consumed: 0, headers: 0, gave: Gave::Nothing };
    for (place, byte) in piece.iter().enumerate() {
        let single = host.feed(id, allowance - answer.headers, &[*byte]);
        // A byte read without its event belongs to a next part.
        let grown = match (&answer.gave, &single.gave) {
            (Gave::Nothing, gave) => shifted(gave, place),
            (Gave::Section { start, length, last: false }, Gave::Section { length: more, last, .. }) => {
                Gave::Section { start: *start, length: length + more, last: *last }
            }
            (Gave::Content { start, length }, Gave::Content { .. }) => {
                Gave::Content { start: *start, length: length + 1 }
            }
            (Gave::Qpack { kind, start, length }, Gave::Qpack { .. }) => {
                Gave::Qpack { kind: *kind, start: *start, length: length + 1 }
            }
            _ => return answer,
        };
        if single.number != 0 || single.consumed == 0 {
            answer.number = single.number;
            answer.consumed += single.consumed;
            answer.headers += single.headers;
            return answer;
        }
        answer.consumed += single.consumed;
        answer.headers += single.headers;
        answer.gave = grown;
        let over = matches!(
            answer.gave,
            Gave::Section { last: true, .. } | Gave::Settings(_) | Gave::Goaway(_) | Gave::MaxPush(_)
        );
        if over {
            return answer;
        }
    }
    answer
}

fn shifted(gave: &Gave, place: usize) -> Gave {
    match gave.clone() {
        Gave::Section { start, length, last } => Gave::Section { start: start + place, length, last },
        Gave::Content { start, length } => Gave::Content { start: start + place, length },
        Gave::Qpack { kind, start, length } => Gave::Qpack { kind, start: start + place, length },
        other => other,
    }
}

fn check_feeds(id: u64, stream: &[u8], random: &mut Random) {
    let mut host = Host::with_open(id);
    let mut place = 0;
    for _ in 0..40 {
        if host.is_due() {
            host.give_sound_section(id);
        }
        let end = (place + random.index(30)).min(stream.len());
        let allowance = random.below(4);
        let mut other = Host { connection: host.connection.clone(), row: host.row.clone() };
        let answer = host.feed(id, allowance, &stream[place..end]);
        let by_bytes = feed_by_bytes(&mut other, id, allowance, &stream[place..end]);
        assert_eq!(answer, by_bytes, "{} from {place} to {end}, {allowance}", hex::show(stream));
        if answer.number != 0 {
            assert_eq!(host.connection.fault, other.connection.fault);
            return;
        }
        place += answer.consumed;
        if place == stream.len() {
            return;
        }
    }
}

#[test]
fn a_feed_of_a_request_agrees_with_single_bytes() {
    let mut random = Random::new(6);
    for stream in Streams::new(12).filter(|stream| stream.len() < 1_000).take(10_000) {
        check_feeds(0, &stream, &mut random);
    }
}

#[test]
fn a_feed_of_a_one_way_stream_agrees_with_single_bytes() {
    let mut random = Random::new(7);
    for _ in 0..10_000 {
        let kind = random.pick(&[0, 0, 0, 0, 1, 2, 3, 0x21]);
        let mut stream = drafts::integer(&mut random, kind);
        let mut frames = vec![drafts::sound_settings(&mut random)];
        if random.one_in(4) {
            frames = vec![drafts::broken_settings(&mut random)];
        }
        frames.extend(drafts::sound_control(&mut random, None, None));
        if random.one_in(2) {
            frames.extend(drafts::broken_control(&mut random, None, None));
        }
        stream.extend(drafts::frames(&mut random, &frames));
        if random.one_in(4) {
            drafts::damage(&mut random, &mut stream);
        }
        check_feeds(2, &stream, &mut random);
    }
}
