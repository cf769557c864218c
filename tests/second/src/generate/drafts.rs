//! Frames drafted for request and control streams, sound at first, then broken.

use super::random::Random;
use crate::control_stream::SETTINGS_LIMIT;
use crate::integers::{self, HIGHEST, SIZES};
use crate::request_stream::HEADERS_LIMIT;
use crate::sections::CONTENT_LIMIT;

pub const DATA: u64 = 0;
pub const HEADERS: u64 = 1;
pub const CANCEL_PUSH: u64 = 3;
pub const SETTINGS: u64 = 4;
pub const GOAWAY: u64 = 7;
pub const MAX_PUSH_ID: u64 = 13;

/// Types refused on a request stream wherever they stand.
const FORBIDDEN: [u64; 9] = [2, 3, 4, 5, 6, 7, 8, 9, 13];

/// Values on both sides of each size's bounds.
const BOUNDS: [u64; 8] = [0, 63, 64, 16_383, 16_384, (1 << 30) - 1, 1 << 30, HIGHEST];

/// A frame whose stated length need not be its payload's.
#[derive(Clone, Debug)]
pub struct Draft {
    pub kind: u64,
    pub length: u64,
    pub payload: Vec<u8>,
}

impl Draft {
    pub fn new(kind: u64, payload: Vec<u8>) -> Draft {
        Draft { kind, length: payload.len() as u64, payload }
    }

    fn stating(kind: u64, length: u64, payload: Vec<u8>) -> Draft {
        Draft { kind, length, payload }
    }
}

/// An integer, mostly in the shortest size.
pub fn integer(random: &mut Random, value: u64) -> Vec<u8> {
    let shortest = integers::size(value).expect("a drafted value fits an integer");
    let sizes: Vec<usize> = SIZES.into_iter().filter(|size| *size >= shortest).collect();
    let size = if random.percent(75) { shortest } else { random.pick(&sizes) };
    integers::write_in(value, size)
}

pub fn frames(random: &mut Random, drafts: &[Draft]) -> Vec<u8> {
    let mut bytes = Vec::new();
    for draft in drafts {
        bytes.extend(integer(random, draft.kind));
        bytes.extend(integer(random, draft.length));
        bytes.extend(&draft.payload);
    }
    bytes
}

pub fn any_value(random: &mut Random) -> u64 {
    match random.below(3) {
        0 => random.pick(&BOUNDS),
        1 => random.below(20),
        _ => {
            let bits = random.between(1, 62);
            random.number() >> (64 - bits)
        }
    }
}

pub fn unknown_type(random: &mut Random) -> u64 {
    match random.below(4) {
        0 => random.pick(&[10, 11, 12, 14, 63, 64, 0x0f_0700, HIGHEST]),
        1 => 0x21,
        // The types kept for greasing.
        2 => 0x21 + 0x1f * random.below(1 << 50),
        _ => any_value(random).max(14),
    }
}

fn skipped(random: &mut Random) -> Draft {
    let length = random.pick(&[0, 0, 1, 2, 5, 11]);
    Draft::new(unknown_type(random), random.bytes(length))
}

fn maybe_skipped(random: &mut Random, drafts: &mut Vec<Draft>) {
    while random.one_in(4) {
        drafts.push(skipped(random));
    }
}

fn headers(random: &mut Random) -> Draft {
    let length = random.pick(&[0, 1, 1, 2, 7, 20, 40]);
    Draft::new(HEADERS, random.bytes(length))
}

fn data(random: &mut Random) -> Draft {
    let length = random.pick(&[0, 0, 1, 3, 8, 30, 70]);
    Draft::new(DATA, random.bytes(length))
}

/// Header section, content, perhaps trailers, skipped frames anywhere.
pub fn sound_request(random: &mut Random) -> Vec<Draft> {
    let mut drafts = Vec::new();
    maybe_skipped(random, &mut drafts);
    drafts.push(headers(random));
    maybe_skipped(random, &mut drafts);
    while random.percent(55) {
        drafts.push(data(random));
        maybe_skipped(random, &mut drafts);
    }
    if random.one_in(3) {
        drafts.push(headers(random));
        maybe_skipped(random, &mut drafts);
    }
    drafts
}

pub fn content_sum(drafts: &[Draft]) -> u64 {
    drafts.iter().filter(|draft| draft.kind == DATA).fold(0, |sum, draft| sum.saturating_add(draft.length))
}

fn insert(random: &mut Random, drafts: &mut Vec<Draft>, draft: Draft) {
    let place = random.index(drafts.len() + 1);
    drafts.insert(place, draft);
}

/// Breaks a request in one of the ways the frame table refuses, or brings it to a limit.
pub fn break_request(random: &mut Random, drafts: &mut Vec<Draft>) {
    match random.below(11) {
        0 => {
            let length = random.pick(&[0, 1, 4]);
            let draft = Draft::new(random.pick(&FORBIDDEN), random.bytes(length));
            insert(random, drafts, draft);
        }
        1 => drafts.insert(0, data(random)),
        2 => {
            for _ in 0..random.between(1, 2) {
                drafts.push(headers(random));
            }
        }
        3 => {
            drafts.push(headers(random));
            drafts.push(data(random));
        }
        4 => {
            let length = random.pick(&[HEADERS_LIMIT, HEADERS_LIMIT + 1, 1 << 30, HIGHEST]);
            let draft = Draft::stating(HEADERS, length, random.bytes(3));
            match drafts.iter().position(|draft| draft.kind == HEADERS) {
                Some(place) if random.percent(60) => drafts[place] = draft,
                _ => drafts.push(draft),
            }
        }
        5 => {
            let rest = CONTENT_LIMIT.saturating_sub(content_sum(drafts));
            let length = random.pick(&[rest, rest + 1, rest + 1, CONTENT_LIMIT + 1, HIGHEST]);
            let draft = Draft::stating(DATA, length, random.bytes(2));
            let header_section = drafts.iter().position(|draft| draft.kind == HEADERS);
            drafts.insert(header_section.map_or(0, |place| place + 1), draft);
        }
        6 => {
            let length = random.pick(&[1, 100, 16_385, 1 << 30, HIGHEST]);
            let draft = Draft::stating(unknown_type(random), length, random.bytes(4));
            insert(random, drafts, draft);
        }
        7 => drafts.retain(|draft| draft.kind != HEADERS),
        8 if drafts.len() > 1 => {
            let (first, second) = (random.index(drafts.len()), random.index(drafts.len()));
            drafts.swap(first, second);
        }
        9 if !drafts.is_empty() => {
            let place = random.index(drafts.len());
            drafts[place].length = any_value(random);
        }
        10 if !drafts.is_empty() => {
            let place = random.index(drafts.len());
            drafts[place].kind = random.below(16);
        }
        _ => drafts.clear(),
    }
}

/// Breaks a request in a way that costs the stream alone: too much content, or no header section.
pub fn break_stream(random: &mut Random, drafts: &mut Vec<Draft>) {
    if random.one_in(3) {
        drafts.retain(|draft| draft.kind != HEADERS && draft.kind != DATA);
        return;
    }
    let limit = CONTENT_LIMIT.saturating_sub(content_sum(drafts));
    let length = random.pick(&[limit, limit + 1, limit + 1, HIGHEST]);
    let trailers = drafts.iter().rposition(|draft| draft.kind == HEADERS);
    let first = drafts.iter().position(|draft| draft.kind == HEADERS);
    // Last of the content, so that the sum decides and not the length alone.
    let place = if trailers == first { drafts.len() } else { trailers.unwrap_or(0) };
    drafts.insert(place, Draft::stating(DATA, length, random.bytes(2)));
}

/// Damage that knows nothing of frames.
pub fn damage(random: &mut Random, bytes: &mut Vec<u8>) {
    if bytes.is_empty() {
        bytes.push(random.byte());
        return;
    }
    let place = random.index(bytes.len());
    match random.below(5) {
        0 => bytes.truncate(place),
        1 => bytes[place] ^= 1 << random.below(8),
        2 => bytes[place] = random.byte(),
        3 => bytes.insert(place, random.byte()),
        _ => drop(bytes.remove(place)),
    }
}

/// A sound SETTINGS payload: no identifier twice, none of 2 to 5.
fn settings_pairs(random: &mut Random) -> Vec<(u64, u64)> {
    let mut pairs: Vec<(u64, u64)> = Vec::new();
    for _ in 0..random.below(5) {
        let identifier = match random.below(4) {
            0 => random.pick(&[0, 8, 0x33, 0x21]),
            1 => any_value(random),
            _ => random.pick(&[1, 6, 7]),
        };
        let sound = !(2..=5).contains(&identifier) && pairs.iter().all(|pair| pair.0 != identifier);
        if sound {
            pairs.push((identifier, any_value(random)));
        }
    }
    pairs
}

fn settings_payload(random: &mut Random, pairs: &[(u64, u64)]) -> Vec<u8> {
    let numbers = pairs.iter().flat_map(|pair| [pair.0, pair.1]);
    let written: Vec<Vec<u8>> = numbers.map(|number| integer(random, number)).collect();
    written.concat()
}

pub fn sound_settings(random: &mut Random) -> Draft {
    let pairs = settings_pairs(random);
    Draft::new(SETTINGS, settings_payload(random, &pairs))
}

/// SETTINGS that may be refused: an identifier barred or repeated, a pair cut, a length at the limit.
pub fn broken_settings(random: &mut Random) -> Draft {
    let mut pairs = settings_pairs(random);
    let place = random.index(pairs.len() + 1);
    match random.below(5) {
        0 => pairs.insert(place, (random.between(2, 5), any_value(random))),
        1 => {
            let identifier = pairs.first().map_or(6, |pair| pair.0);
            pairs.insert(0, (identifier, any_value(random)));
            pairs.push((identifier, any_value(random)));
        }
        2 => {
            pairs.insert(place, (random.pick(&[2, 6, 9]), 1));
            let mut payload = settings_payload(random, &pairs);
            payload.pop();
            return Draft::new(SETTINGS, payload);
        }
        3 => {
            let length = random.pick(&[SETTINGS_LIMIT, SETTINGS_LIMIT + 1, SETTINGS_LIMIT + 1, HIGHEST]);
            return Draft::stating(SETTINGS, length, random.bytes(5));
        }
        _ => {
            let length = random.between(1, 4) as usize;
            let payload = (0..length).map(|_| random.below(9) as u8).collect();
            return Draft::new(SETTINGS, payload);
        }
    }
    Draft::new(SETTINGS, settings_payload(random, &pairs))
}

/// Frames for a control stream behind SETTINGS, given what was said on it before.
pub fn sound_control(random: &mut Random, goaway: Option<u64>, max_push: Option<u64>) -> Vec<Draft> {
    let mut drafts = Vec::new();
    let (mut goaway, mut max_push) = (goaway, max_push);
    for _ in 0..random.below(4) {
        match random.below(3) {
            0 => {
                let earlier = goaway.unwrap_or(HIGHEST);
                // Mostly high, so that lower ones can follow.
                let id = if random.one_in(3) {
                    earlier
                } else {
                    earlier - random.below(earlier / 4 + 2).min(earlier)
                };
                goaway = Some(id);
                drafts.push(Draft::new(GOAWAY, integer(random, id)));
            }
            1 => {
                let earlier = max_push.unwrap_or(0);
                let id = (earlier + random.pick(&[0, 1, 60, 20_000])).min(HIGHEST);
                max_push = Some(id);
                drafts.push(Draft::new(MAX_PUSH_ID, integer(random, id)));
            }
            _ => drafts.push(skipped(random)),
        }
    }
    drafts
}

/// Control frames of which the last is refused, or nearly.
pub fn broken_control(random: &mut Random, goaway: Option<u64>, max_push: Option<u64>) -> Vec<Draft> {
    let integer_type = random.pick(&[CANCEL_PUSH, GOAWAY, MAX_PUSH_ID]);
    let value = any_value(random);
    let broken = match random.below(10) {
        0 => Draft::new(CANCEL_PUSH, integer(random, value)),
        1 | 2 => {
            let earlier = goaway.unwrap_or(value);
            let id = (earlier + random.pick(&[0, 1, 1, 90])).min(HIGHEST);
            let two = [earlier, id].map(|id| Draft::new(GOAWAY, integer(random, id)));
            return two.to_vec();
        }
        3 | 4 => {
            let earlier = max_push.unwrap_or(value);
            let id = earlier.saturating_sub(random.pick(&[0, 1, 1, 90]));
            let two = [earlier, id].map(|id| Draft::new(MAX_PUSH_ID, integer(random, id)));
            return two.to_vec();
        }
        5 => {
            let length = random.pick(&[0, 9, 64, HIGHEST]);
            Draft::stating(integer_type, length, random.bytes(2))
        }
        6 => {
            let length = random.between(1, 8) as usize;
            Draft::new(integer_type, random.bytes(length))
        }
        7 if random.one_in(2) => sound_settings(random),
        7 => broken_settings(random),
        8 => {
            let length = random.pick(&[0, 2]);
            let kind = random.pick(&[0, 1, 2, 5, 6, 8, 9]);
            Draft::new(kind, random.bytes(length))
        }
        _ => {
            let mut payload = integer(random, value);
            payload.push(0);
            Draft::new(integer_type, payload)
        }
    };
    vec![broken]
}
