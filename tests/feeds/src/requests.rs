//! A host of one request over the second program: it cuts the stream, gives blocks, ends, and notes each call with its answer.

use std::rc::Rc;

use second::calls::{self, Connection, Stream, RECORDS};
use second::generate::blocks;
use second::generate::random::Random;
use second::numbers::ACCEPTED;
use second::reading::{Use, What};
use second::request_stream;

use crate::driver::Call;
use crate::play::{alone, fed, Manner, Named, Notes, Play};
use crate::tally::{Came, Tally};

/// The only stream.
const ID: u64 = 0;

/// Draws a block for the section that is due, given how many were taken.
pub type Blocks<'a> = dyn FnMut(&mut Random, usize) -> Vec<u8> + 'a;

struct Host<'a> {
    stream: &'a Rc<[u8]>,
    random: &'a mut Random,
    tally: &'a mut Tally,
    connection: Connection,
    row: Vec<Option<Stream>>,
    place: usize,
    sections: Vec<Option<u64>>,
    notes: Notes,
}

/// Feeds, gives and ends until the stream is ended or refused.
pub fn play(
    stream: &Rc<[u8]>,
    manner: &Manner,
    block: &mut Blocks,
    random: &mut Random,
    tally: &mut Tally,
) -> Play {
    let mut connection = Connection::fresh();
    let mut row = calls::empty_row(RECORDS);
    calls::open(&mut connection, &mut row, ID);
    let (sections, notes) = (Vec::new(), Notes::default());
    let mut host = Host { stream, random, tally, connection, row, place: 0, sections, notes };
    let mut piece_end = 0;
    while host.is_open() {
        if host.random.percent(manner.clumsy) {
            host.out_of_place(block);
        } else if host.is_due() {
            host.give(block);
        } else if host.place < piece_end {
            host.feed_on(manner, piece_end);
        } else if host.place < stream.len() {
            piece_end = manner.cut(host.random, host.place, stream.len());
            host.feed_on(manner, piece_end);
        } else {
            host.end();
        }
    }
    host.over()
}

impl Host<'_> {
    /// A feed that gets on: where the allowance alone holds it back, a second one follows.
    fn feed_on(&mut self, manner: &Manner, end: usize) {
        let place = self.place;
        let allowance = manner.allow(self.random);
        self.feed(end, allowance);
        if self.is_open() && !self.is_due() && allowance == 0 && self.place == place {
            self.feed(end, 1);
        }
    }

    /// A feed or an end where a section is due, a section where none is, an end before the stream's.
    fn out_of_place(&mut self, block: &mut Blocks) {
        match (self.is_due(), self.random.below(4)) {
            (true, 0 | 1) => self.feed(self.stream.len(), u64::MAX),
            (true, _) | (false, 0) => self.end(),
            (false, _) => self.give(block),
        }
    }

    fn is_open(&self) -> bool {
        self.connection.fault.is_none() && self.row[0].is_some()
    }

    fn is_due(&self) -> bool {
        self.row[0].as_ref().is_some_and(Stream::is_due)
    }

    fn feed(&mut self, end: usize, allowance: u64) {
        let piece = &self.stream[self.place..end];
        let answer = calls::feed(&mut self.connection, &mut self.row, ID, allowance, piece);
        let numbers = fed(&answer, piece.len(), allowance, self.tally);
        self.notes.add(Call::Feed { from: self.place, to: end, allowance }, numbers);
        if answer.number == ACCEPTED {
            self.place += answer.consumed;
        }
    }

    fn give(&mut self, block: &mut Blocks) {
        let block = block(self.random, self.sections.len());
        let answer = calls::section(&mut self.connection, &mut self.row, ID, &block);
        if let Some(stream) = &self.row[0] {
            self.sections = stream.sections.clone();
        }
        self.tally.count(Came::Give, u64::from(answer.number));
        self.notes.add(Call::Give(block), alone(answer.number));
    }

    fn end(&mut self) {
        let answer = calls::end(&mut self.connection, &mut self.row, ID);
        self.tally.count(Came::End, u64::from(answer.number));
        self.notes.add(Call::End, alone(answer.number));
    }

    fn over(self) -> Play {
        let consumed = &self.stream[..self.place];
        let mut named = Named::default();
        for item in request_stream::read(consumed, &self.sections).items {
            match item.what {
                What::Content => named.content.extend(&consumed[item.start..item.end]),
                What::Section { .. } => named.sections.extend(&consumed[item.start..item.end]),
                _ => {}
            }
        }
        Play { bytes: Rc::clone(self.stream), notes: self.notes, named }
    }
}

/// The sum of the lengths of a stream's DATA, as far as they are accepted where none is stated.
pub fn content_sum(stream: &[u8]) -> u64 {
    let items = request_stream::read(stream, &[None, None]).items;
    let lengths = items.iter().map(|item| match item.what {
        What::Header { length, usage: Some(Use::Content), .. } => length,
        _ => 0,
    });
    lengths.sum()
}

/// A sound block for the header section, stating that length, or once one was taken for trailers.
pub fn sound_block(random: &mut Random, taken: usize, stated: Option<u64>) -> Vec<u8> {
    blocks::bytes(&sound_lines(random, taken, stated))
}

fn sound_lines(random: &mut Random, taken: usize, stated: Option<u64>) -> blocks::Lines {
    match taken {
        0 => blocks::sound_header_section(random, stated),
        _ => blocks::sound_trailers(random),
    }
}

/// Mostly sound, with the length stated right, wrong or not at all.
pub fn any_block(random: &mut Random, taken: usize, sum: u64) -> Vec<u8> {
    if random.one_in(12) {
        return blocks::any(random).1;
    }
    let stated = any_length(random, sum);
    let mut lines = sound_lines(random, taken, stated);
    if random.one_in(400) {
        blocks::to_size_limit(random, &mut lines);
    }
    if random.one_in(20) {
        blocks::flaw_lines(random, &mut lines);
    }
    let mut block = blocks::bytes(&lines);
    if random.one_in(20) {
        blocks::flaw_records(random, &mut block);
    }
    block
}

fn any_length(random: &mut Random, sum: u64) -> Option<u64> {
    match random.below(8) {
        0..=3 => None,
        4 | 5 => Some(sum),
        6 => Some(random.pick(&[sum + 1, sum.saturating_sub(1), sum / 2])),
        _ => Some(random.pick(&[0, 1, 3, 1_048_576, 1_048_577])),
    }
}
