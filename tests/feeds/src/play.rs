//! A play: calls on the streams of one connection, each with the second program's answer; and the engine's held to it.

use std::rc::Rc;

use second::calls::{self, Gave};
use second::generate::random::Random;
use second::hex;
use second::numbers::ACCEPTED;

use crate::driver::{Answer, Call};
use crate::tally::{Came, Tally};

pub const NOTHING: u64 = 0;
pub const CONTENT: u64 = 1;
pub const SECTION: u64 = 2;
pub const SECTION_LAST: u64 = 3;
pub const ENCODER: u64 = 4;
pub const DECODER: u64 = 5;
pub const SETTINGS: u64 = 6;
pub const GOAWAY: u64 = 7;
pub const MAX_PUSH: u64 = 8;

/// The bytes that parts name, in their order: content, section bytes, and those of the two QPACK streams.
#[derive(Default, PartialEq, Eq)]
pub struct Named {
    pub content: Vec<u8>,
    pub sections: Vec<u8>,
    pub encoder: Vec<u8>,
    pub decoder: Vec<u8>,
}

impl Named {
    fn of(&mut self, event: u64) -> Option<&mut Vec<u8>> {
        match event {
            CONTENT => Some(&mut self.content),
            SECTION | SECTION_LAST => Some(&mut self.sections),
            ENCODER => Some(&mut self.encoder),
            DECODER => Some(&mut self.decoder),
            _ => None,
        }
    }
}

pub struct Play {
    /// All bytes of all streams.
    pub bytes: Rc<[u8]>,
    pub notes: Notes,
    /// What the whole of what was consumed names.
    pub named: Named,
}

/// Calls, and the second program's answers.
#[derive(Default)]
pub struct Notes {
    pub calls: Vec<Call>,
    pub second: Vec<Answer>,
}

impl Notes {
    pub fn add(&mut self, call: Call, answer: Answer) {
        self.calls.push(call);
        self.second.push(answer);
    }
}

/// The answer to a call that gives its number alone.
pub fn alone(number: u16) -> Answer {
    [u64::from(number), 0, 0, 0, 0, 0]
}

/// A feed's answer in numbers, counted.
pub fn fed(answer: &calls::Answer, offered: usize, allowance: u64, tally: &mut Tally) -> Answer {
    let used = answer.consumed as u64;
    let part = |event, start: usize, length: usize| [event, start as u64, length as u64];
    let [event, start, length] = match answer.gave {
        // A refusal names no part; nothing given is an empty part at the end of what was consumed.
        Gave::Nothing if answer.number == ACCEPTED => [NOTHING, used, 0],
        Gave::Nothing => [NOTHING, 0, 0],
        Gave::Content { start, length } => part(CONTENT, start, length),
        Gave::Section { start, length, last: false } => part(SECTION, start, length),
        Gave::Section { start, length, last: true } => part(SECTION_LAST, start, length),
        Gave::Qpack { kind: 2, start, length } => part(ENCODER, start, length),
        Gave::Qpack { start, length, .. } => part(DECODER, start, length),
        Gave::Settings(_) => [SETTINGS, 0, 0],
        Gave::Goaway(id) => [GOAWAY, 0, id],
        Gave::MaxPush(id) => [MAX_PUSH, 0, id],
        Gave::Whole | Gave::Freed => unreachable!("a feed ends no stream"),
    };
    tally.count(Came::Feed, u64::from(answer.number));
    if answer.number == ACCEPTED {
        tally.count(Came::Event, event);
        if event == NOTHING && answer.consumed < offered {
            tally.count(Came::Stop, allowance.min(3));
        }
    }
    [u64::from(answer.number), event, start, length, used, answer.headers]
}

/// Each answer of the engine, and the bytes that its answers name.
pub fn agree(play: &Play, engine: &[Answer]) -> Result<(), String> {
    let calls = &play.notes.calls;
    let mut named = Named::default();
    for ((call, second), engine) in calls.iter().zip(&play.notes.second).zip(engine) {
        if engine != second {
            let bytes = hex::show(&play.bytes[..play.bytes.len().min(2_000)]);
            return Err(format!(
                "{call:?} of {bytes}: the engine says {engine:x?}, the second program {second:x?}; the calls are {calls:?}"
            ));
        }
        if let (Call::Feed { from, .. } | Call::FeedWay { from, .. }, [_, event, start, length, ..]) =
            (call, engine)
        {
            if let Some(bytes) = named.of(*event) {
                let start = from + *start as usize;
                bytes.extend(&play.bytes[start..start + *length as usize]);
            }
        }
    }
    if named != play.named {
        return Err(format!(
            "the parts of {} are not what it names; the calls are {calls:?}",
            hex::show(&play.bytes)
        ));
    }
    Ok(())
}

/// How streams are fed.
pub struct Manner {
    /// The longest piece; 0 for a whole stream at once.
    pub longest: usize,
    /// A fixed first cut.
    pub first: Option<usize>,
    /// The allowance of each feed, or a random one.
    pub allowance: Option<u64>,
    /// Calls that are out of place, in percent.
    pub clumsy: u64,
}

impl Manner {
    /// Each stream whole, every header allowed.
    pub const WHOLE: Manner = Manner { longest: 0, first: None, allowance: Some(u64::MAX), clumsy: 0 };

    pub fn any(random: &mut Random, length: usize) -> Manner {
        let mut longest = random.pick(&[0, 0, 1, 2, 3, 7, 20, 100]);
        let mut allowance = random.pick(&[Some(0), Some(1), Some(2), Some(u64::MAX), None, None]);
        // The second program reads the whole stream again at each call: few calls on a long one.
        if length > 2_000 {
            longest = random.pick(&[0, length / 2, length / 20, length / 60]);
            allowance = random.pick(&[Some(u64::MAX), None]);
        }
        Manner { longest, first: None, allowance, clumsy: random.pick(&[0, 0, 8]) }
    }

    /// For a sound stream of that length, with a cut in its first bytes.
    pub fn of_capture(random: &mut Random, length: usize) -> Manner {
        // A long content in single bytes would only take long.
        let coarse = if length > 2_000 { 50 } else { 1 };
        Manner {
            longest: coarse * random.pick(&[1, 7, 100, 5_000]),
            first: Some(random.index(60.min(length))),
            allowance: random.pick(&[None, Some(0), Some(1), Some(u64::MAX)]),
            clumsy: 0,
        }
    }

    /// Where the piece from `place` ends.
    pub fn cut(&self, random: &mut Random, place: usize, whole: usize) -> usize {
        match self.first {
            Some(first) if place < first => first.min(whole),
            _ if self.longest == 0 => whole,
            _ => (place + random.index(self.longest + 1)).min(whole),
        }
    }

    pub fn allow(&self, random: &mut Random) -> u64 {
        self.allowance.unwrap_or_else(|| match random.below(5) {
            0 => random.below(3),
            1 => random.below(40),
            2 => u64::MAX - random.below(2),
            _ => random.number(),
        })
    }
}
