//! Request streams for the lister: sound, broken, damaged, cut, and at the limits.

use super::drafts::{self, Draft, DATA, HEADERS};
use super::random::Random;
use crate::integers;
use crate::lister::INPUT_LIMIT;
use crate::request_stream::HEADERS_LIMIT;
use crate::sections::CONTENT_LIMIT;

/// An endless row of streams.
pub struct Streams {
    random: Random,
    /// Streams made together with the last one.
    waiting: Vec<Vec<u8>>,
}

impl Streams {
    pub fn new(seed: u64) -> Streams {
        Streams { random: Random::new(seed), waiting: Vec::new() }
    }

    fn make(&mut self) -> Vec<u8> {
        match self.random.below(200) {
            0..=39 => self.sound(),
            40..=109 => self.broken(),
            110..=144 => self.damaged(),
            145..=146 => self.cut_everywhere(),
            147..=171 => self.few_letters(),
            172..=190 => self.huge_lengths(),
            191..=193 => self.headers_limit(),
            194..=197 => self.content_limit(),
            198 => self.input_limit(),
            _ => Vec::new(),
        }
    }

    fn sound(&mut self) -> Vec<u8> {
        let frames = drafts::sound_request(&mut self.random);
        drafts::frames(&mut self.random, &frames)
    }

    fn broken(&mut self) -> Vec<u8> {
        let mut frames = drafts::sound_request(&mut self.random);
        for _ in 0..self.random.between(1, 2) {
            drafts::break_request(&mut self.random, &mut frames);
        }
        drafts::frames(&mut self.random, &frames)
    }

    fn damaged(&mut self) -> Vec<u8> {
        let mut bytes = if self.random.one_in(3) { self.broken() } else { self.sound() };
        for _ in 0..self.random.between(1, 3) {
            drafts::damage(&mut self.random, &mut bytes);
        }
        bytes
    }

    /// A stream and then each of its beginnings.
    fn cut_everywhere(&mut self) -> Vec<u8> {
        let mut bytes = if self.random.one_in(3) { self.broken() } else { self.sound() };
        bytes.truncate(80);
        self.waiting = (0..bytes.len()).map(|length| bytes[..length].to_vec()).collect();
        bytes
    }

    /// Short streams of bytes that mean much.
    fn few_letters(&mut self) -> Vec<u8> {
        const LETTERS: [u8; 20] = [
            0x00, 0x00, 0x00, 0x01, 0x01, 0x01, 0x01, 0x02, 0x03, 0x04, 0x05, 0x07, 0x0a, 0x0d, 0x0e, 0x21,
            0x40, 0x80, 0xc0, 0xff,
        ];
        let length = self.random.between(1, 14);
        (0..length).map(|_| self.random.pick(&LETTERS)).collect()
    }

    /// A frame of any stated length somewhere, its payload cut.
    fn huge_lengths(&mut self) -> Vec<u8> {
        let mut frames = drafts::sound_request(&mut self.random);
        let kind = match self.random.below(3) {
            0 => DATA,
            1 => HEADERS,
            _ => drafts::unknown_type(&mut self.random),
        };
        let length = drafts::any_value(&mut self.random);
        let payload = self.random.bytes(3);
        let place = self.random.index(frames.len() + 1);
        frames.insert(place, Draft { kind, length, payload });
        drafts::frames(&mut self.random, &frames)
    }

    /// Whole HEADERS payloads around 16,384 bytes, as header section or trailers.
    fn headers_limit(&mut self) -> Vec<u8> {
        let length = self.random.pick(&[HEADERS_LIMIT - 1, HEADERS_LIMIT, HEADERS_LIMIT, HEADERS_LIMIT + 1]);
        let long = Draft::new(HEADERS, vec![0x61; length as usize]);
        let short = Draft::new(HEADERS, vec![0x62]);
        let mut frames = match self.random.below(3) {
            0 => vec![long],
            1 => vec![short, long],
            _ => vec![short.clone(), short, long],
        };
        if self.random.one_in(2) {
            let payload = self.random.bytes(3);
            frames.push(Draft::new(drafts::unknown_type(&mut self.random), payload));
        }
        drafts::frames(&mut self.random, &frames)
    }

    /// DATA whose sum comes to 1,048,576 or one more at a header, after content that is really there.
    fn content_limit(&mut self) -> Vec<u8> {
        let mut frames = vec![Draft::new(HEADERS, vec![0])];
        for _ in 0..self.random.below(4) {
            let length = self.random.pick(&[0, 1, 5, 300]);
            frames.push(Draft::new(DATA, self.random.bytes(length)));
        }
        let rest = CONTENT_LIMIT - drafts::content_sum(&frames);
        let length = rest + self.random.below(2);
        frames.push(Draft { kind: DATA, length, payload: self.random.bytes(2) });
        drafts::frames(&mut self.random, &frames)
    }

    /// Streams of exactly 65,536 bytes, one byte less or one more.
    fn input_limit(&mut self) -> Vec<u8> {
        let total = self.random.pick(&[INPUT_LIMIT - 1, INPUT_LIMIT, INPUT_LIMIT, INPUT_LIMIT + 1]);
        let mut bytes = vec![0x01, 0x01, 0x00];
        match self.random.below(4) {
            0 => fill_with_frame(&mut bytes, DATA, total),
            1 => fill_with_frame(&mut bytes, 0x21, total),
            2 => {
                while bytes.len() < total {
                    let frame: &[u8] =
                        if bytes.len() + 3 == total { &[0x21, 0x01, 0x00] } else { &[0x21, 0x00] };
                    bytes.extend(frame);
                }
            }
            _ => {
                fill_with_frame(&mut bytes, DATA, total - 2);
                bytes.extend([self.random.pick(&[0x00, 0x01, 0x04, 0x21]), 0x00]);
            }
        }
        bytes
    }
}

/// One frame with a four-byte length that brings the stream to `total` bytes.
fn fill_with_frame(bytes: &mut Vec<u8>, kind: u64, total: usize) {
    let length = total - bytes.len() - 5;
    bytes.extend(integers::write_in(kind, 1));
    bytes.extend(integers::write_in(length as u64, 4));
    bytes.resize(total, 0x61);
}

impl Iterator for Streams {
    type Item = Vec<u8>;

    fn next(&mut self) -> Option<Vec<u8>> {
        Some(match self.waiting.pop() {
            Some(bytes) => bytes,
            None => self.make(),
        })
    }
}
