//! Replay scripts: calls that mostly go deep, found by asking the model, with mistakes mixed in.

use std::collections::BTreeMap;

use super::blocks;
use super::drafts::{self, Draft};
use super::random::Random;
use crate::calls::{self, Answer};
use crate::integers::{self, HIGHEST};
use crate::one_way::Kind;
use crate::replay::{Call, Pair, INPUT_LIMIT, LENT_LIMIT, ROOM_LIMIT};

/// IDs that no client can have opened.
const OUTER_IDS: [u64; 8] = [1, 3, HIGHEST - 3, HIGHEST - 1, HIGHEST, HIGHEST + 1, HIGHEST + 3, u64::MAX];

/// What a client still means to send on an open stream.
#[derive(Default)]
struct Plan {
    rest: Vec<u8>,
    /// The sum of the drafted DATA lengths, for a Content-Length that fits.
    content: u64,
}

/// How a connection is treated, drawn anew at each start; the chances are percents.
struct Temper {
    /// Streams open at once, about.
    open: usize,
    /// Requests drafted with a connection fault.
    requests: u64,
    /// SETTINGS and control frames drafted with one.
    control: u64,
    /// One-way types drafted twice, or as push.
    types: u64,
}

impl Temper {
    /// Most faults in one place, so that the others are reached before the connection dies.
    fn draw(random: &mut Random) -> Temper {
        let open = random.pick(&[2, 5, 12, 24, 25]);
        let calm = Temper { open, requests: 0, control: 0, types: 0 };
        match random.below(7) {
            0 => calm,
            1 | 2 => Temper { requests: 20, ..calm },
            3 | 4 => Temper { control: 50, ..calm },
            5 => Temper { types: 40, ..calm },
            _ => Temper { requests: 8, control: 20, types: 10, ..calm },
        }
    }

    fn is_calm(&self) -> bool {
        self.requests + self.control + self.types == 0
    }
}

struct Schedule {
    random: Random,
    pair: Pair,
    plans: BTreeMap<u64, Plan>,
    /// One-way types already drafted on this connection.
    types: Vec<u64>,
    temper: Temper,
    /// Calls still to be made on a dead connection before the next start.
    after_fault: u64,
    script: String,
    made: u64,
    wanted: u64,
}

/// A script of `calls` calls, or of as many as fit 1 MiB, and their count.
pub fn script(seed: u64, calls: u64) -> (String, u64) {
    let mut random = Random::new(seed);
    let mut schedule = Schedule {
        temper: Temper::draw(&mut random),
        random,
        pair: Pair::started(),
        plans: BTreeMap::new(),
        types: Vec::new(),
        after_fault: 0,
        script: String::new(),
        made: 0,
        wanted: calls,
    };
    while schedule.made < schedule.wanted {
        schedule.step();
    }
    (schedule.script, schedule.made)
}

impl Schedule {
    /// Writes the call's line and asks the model; a line that no longer fits ends the script.
    fn make(&mut self, call: Call) -> Option<Answer> {
        let line = call.line();
        if self.made == self.wanted || self.script.len() + line.len() + 1 > INPUT_LIMIT {
            self.wanted = self.made;
            return None;
        }
        self.script += &line;
        self.script.push('\n');
        self.made += 1;
        let answer = self.pair.call(&call);
        if answer.is_none() {
            self.pair.play(&call);
        }
        let pair = &self.pair;
        self.plans.retain(|id, _| pair.stream(*id).is_some());
        answer
    }

    fn step(&mut self) {
        if self.random.one_in(7) {
            self.make(Call::Show);
        } else if self.pair.connection.fault.is_some() {
            self.step_dead();
        } else {
            self.step_alive();
        }
    }

    fn step_dead(&mut self) {
        if self.after_fault == 0 {
            self.restart();
            return;
        }
        self.after_fault -= 1;
        match self.random.below(10) {
            0 => self.open_next(),
            1..=4 => self.wrong_call(),
            5 | 6 => self.lent_call(),
            7 | 8 => self.goaway(),
            _ => self.write(),
        }
    }

    fn step_alive(&mut self) {
        self.after_fault = self.random.below(6);
        let crowded = self.plans.len() >= self.temper.open;
        match self.random.below(1000) {
            0..=2 => self.restart(),
            // With every further request barred, little is left to see.
            3..=99 if self.is_barred() => self.restart(),
            3..=39 => self.wrong_call(),
            40..=54 => self.lent_call(),
            55..=74 => self.goaway(),
            75..=124 => self.write(),
            125..=159 => self.open_next(),
            160..=359 if !crowded => self.open_next(),
            _ => self.work(),
        }
    }

    fn is_barred(&self) -> bool {
        let connection = &self.pair.connection;
        connection.our_goaway.is_some_and(|limit| limit <= connection.next_request)
    }

    fn restart(&mut self) {
        self.make(Call::Start);
        self.plans.clear();
        self.types.clear();
        self.temper = Temper::draw(&mut self.random);
    }

    fn open_next(&mut self) {
        // Where control frames are drafted broken, the control stream comes early.
        let control_first = self.temper.control > 0 && !self.types.contains(&0);
        let request = self.random.percent(if control_first { 30 } else { 70 });
        let connection = &self.pair.connection;
        let id = if request { connection.next_request } else { connection.next_one_way };
        let answer = self.make(Call::Open { id });
        if answer.is_some_and(|answer| answer.number == 0) {
            let plan = if request { self.request_plan() } else { self.one_way_plan() };
            self.plans.insert(id, plan);
        }
    }

    fn request_plan(&mut self) -> Plan {
        let random = &mut self.random;
        let mut frames = drafts::sound_request(random);
        if random.percent(15) {
            drafts::break_stream(random, &mut frames);
        }
        let broken = random.percent(self.temper.requests);
        if broken {
            drafts::break_request(random, &mut frames);
        }
        let content = drafts::content_sum(&frames);
        let mut rest = drafts::frames(random, &frames);
        if broken && random.one_in(4) {
            drafts::damage(random, &mut rest);
        }
        Plan { rest, content }
    }

    fn one_way_plan(&mut self) -> Plan {
        let kind = self.one_way_type();
        self.types.push(kind);
        let mut rest = drafts::integer(&mut self.random, kind);
        match kind {
            0 => {
                let settings = self.settings_draft();
                let mut frames = vec![settings];
                frames.extend(self.control_drafts());
                if self.temper.control > 0 && self.random.one_in(10) {
                    frames.remove(0);
                }
                rest.extend(drafts::frames(&mut self.random, &frames));
            }
            _ => rest.extend(self.free_bytes()),
        }
        Plan { rest, content: 0 }
    }

    fn one_way_type(&mut self) -> u64 {
        if self.random.percent(self.temper.types) {
            return self.random.pick(&[0, 1, 2, 3]);
        }
        if self.temper.control > 0 && !self.types.contains(&0) {
            return 0;
        }
        let types = &self.types;
        let unused: Vec<u64> = [0, 2, 3].into_iter().filter(|kind| !types.contains(kind)).collect();
        if !unused.is_empty() && self.random.percent(75) {
            return self.random.pick(&unused);
        }
        drafts::unknown_type(&mut self.random)
    }

    fn settings_draft(&mut self) -> Draft {
        if self.random.percent(self.temper.control / 2) {
            drafts::broken_settings(&mut self.random)
        } else {
            drafts::sound_settings(&mut self.random)
        }
    }

    fn control_drafts(&mut self) -> Vec<Draft> {
        let said = calls::said(&self.pair.row);
        let mut frames = drafts::sound_control(&mut self.random, said.goaway, said.max_push);
        if self.random.percent(self.temper.control) {
            frames.extend(drafts::broken_control(&mut self.random, said.goaway, said.max_push));
        }
        frames
    }

    fn free_bytes(&mut self) -> Vec<u8> {
        let length = self.random.pick(&[0, 1, 4, 20]);
        self.random.bytes(length)
    }

    /// Mostly a request: the one-way streams live long and have less to say.
    fn some_open_stream(&mut self) -> Option<u64> {
        let (requests, one_way): (Vec<u64>, Vec<u64>) = self.plans.keys().partition(|id| **id % 4 == 0);
        let requests_first = self.random.percent(if self.temper.control > 0 { 50 } else { 80 });
        let ids = match (requests.is_empty(), one_way.is_empty()) {
            (true, true) => return None,
            (true, false) => one_way,
            (false, true) => requests,
            (false, false) if requests_first => requests,
            (false, false) => one_way,
        };
        Some(self.random.pick(&ids))
    }

    /// The next sensible call on some open stream.
    fn work(&mut self) {
        let Some(id) = self.some_open_stream() else {
            return self.open_next();
        };
        let Some(stream) = self.pair.stream(id) else {
            return;
        };
        let (due, kind) = (stream.is_due(), stream.kind());
        if due {
            return self.work_due(id);
        }
        if !self.plans[&id].rest.is_empty() {
            return match self.random.below(100) {
                0 if !self.temper.is_calm() => drop(self.make(Call::End { id })),
                1 | 2 if kind.is_none() => drop(self.make(Call::Reset { id })),
                3 => self.give_section(id),
                _ => self.feed(id),
            };
        }
        match kind {
            None => match self.random.below(20) {
                0 => self.give_section(id),
                1 => drop(self.make(Call::Reset { id })),
                2 => self.feed(id),
                3 | 4 => self.extend(id),
                _ => drop(self.make(Call::End { id })),
            },
            Some(kind) => {
                // Ending a critical stream kills the connection, so it is rare.
                let patience = if kind.is_critical() { 60 } else { 4 };
                match self.random.below(patience) {
                    0 => drop(self.make(Call::End { id })),
                    1 => drop(self.make(Call::Reset { id })),
                    2 => self.feed(id),
                    _ => self.extend(id),
                }
            }
        }
    }

    fn work_due(&mut self, id: u64) {
        match self.random.below(30) {
            0 => self.feed(id),
            1 => drop(self.make(Call::End { id })),
            2 => drop(self.make(Call::Reset { id })),
            _ => self.give_section(id),
        }
    }

    /// Offers the rest of a stream's plan again, or a part of it.
    fn feed(&mut self, id: u64) {
        let rest = &self.plans[&id].rest;
        let all = rest.len().min(400);
        let length = match self.random.below(20) {
            0 => 0,
            1..=3 => all.min(1),
            4..=9 => self.random.index(all + 1),
            _ => all,
        };
        let piece = rest[..length].to_vec();
        let allowance = self.allowance();
        let answer = self.make(Call::Feed { id, allowance, piece });
        if let (Some(answer), Some(plan)) = (answer, self.plans.get_mut(&id)) {
            if answer.number == 0 {
                plan.rest.drain(..answer.consumed);
            }
        }
    }

    fn allowance(&mut self) -> u64 {
        match self.random.below(10) {
            0 => 0,
            1..=3 => 1,
            4 => 2,
            5 => self.random.between(3, 8),
            6 => u64::MAX,
            _ => 100,
        }
    }

    fn give_section(&mut self, id: u64) {
        let block = self.section_block(id);
        self.make(Call::Section { id, block });
    }

    fn section_block(&mut self, id: u64) -> Vec<u8> {
        let trailers = self.pair.stream(id).is_some_and(|stream| !stream.sections.is_empty());
        let content = self.plans.get(&id).map_or(0, |plan| plan.content);
        let random = &mut self.random;
        let content_length = match random.below(10) {
            0..=3 => Some(content),
            4 => Some(content.saturating_add(1)),
            5 => Some(content.saturating_sub(1)),
            _ => None,
        };
        let mut lines = if trailers {
            blocks::sound_trailers(random)
        } else {
            blocks::sound_header_section(random, content_length)
        };
        // A block at the size limit takes 32 KiB of script.
        if random.one_in(400) {
            blocks::to_size_limit(random, &mut lines);
        }
        match random.below(20) {
            0..=2 => blocks::flaw_lines(random, &mut lines),
            3 if !trailers => blocks::flaw_order(random, &mut lines),
            _ => {}
        }
        let mut block = blocks::bytes(&lines);
        if random.percent(8) {
            blocks::flaw_records(random, &mut block);
        }
        block
    }

    /// Drafts more bytes for a stream whose plan is sent.
    fn extend(&mut self, id: u64) {
        let kind = self.pair.stream(id).and_then(|stream| stream.kind());
        let (bytes, content) = match kind {
            None => {
                let frames = self.request_extension();
                (drafts::frames(&mut self.random, &frames), drafts::content_sum(&frames))
            }
            Some(Kind::Control) => {
                let frames = self.control_drafts();
                (drafts::frames(&mut self.random, &frames), 0)
            }
            Some(_) => (self.free_bytes(), 0),
        };
        if let Some(plan) = self.plans.get_mut(&id) {
            plan.rest.extend(bytes);
            plan.content = plan.content.saturating_add(content);
        }
        self.feed(id);
    }

    fn request_extension(&mut self) -> Vec<Draft> {
        let mut frames = drafts::sound_request(&mut self.random);
        // Without a further HEADERS it may well be sound.
        if !self.random.percent(self.temper.requests) {
            frames.retain(|draft| draft.kind != drafts::HEADERS);
        }
        frames
    }

    /// An ID that is likely not what the call wants.
    fn wrong_id(&mut self) -> u64 {
        let connection = &self.pair.connection;
        let (request, one_way) = (connection.next_request, connection.next_one_way);
        match self.random.below(8) {
            0 => request,
            1 => one_way,
            2 => request + 4,
            3 => one_way + 4,
            4 => self.random.below(request + 8),
            5 => self.random.pick(&OUTER_IDS),
            6 => request.saturating_sub(4),
            _ => self.random.below(12),
        }
    }

    fn wrong_call(&mut self) {
        let call = self.call_on_row();
        let opened = match call {
            Call::Open { id } => Some(id),
            _ => None,
        };
        let answer = self.make(call);
        // The next ID may be among the wrong ones; nothing is planned for it yet.
        if let (Some(id), Some(Answer { number: 0, .. })) = (opened, answer) {
            self.plans.insert(id, Plan::default());
        }
    }

    /// Any call that is lent the row, on any ID, without looking.
    fn call_on_row(&mut self) -> Call {
        let id = self.wrong_id();
        match self.random.below(5) {
            0 => Call::Open { id },
            1 => {
                let piece = self.free_bytes();
                Call::Feed { id: self.stray_id(id), allowance: self.allowance(), piece }
            }
            2 => Call::Section { id: self.stray_id(id), block: self.section_block(id) },
            3 => Call::End { id: self.stray_id(id) },
            _ => Call::Reset { id: self.stray_id(id) },
        }
    }

    /// Keeps blind calls away from open streams on calm connections, which they would kill.
    fn stray_id(&mut self, id: u64) -> u64 {
        let open = self.pair.stream(id).is_some();
        let alive = self.pair.connection.fault.is_none();
        if open && alive && self.temper.is_calm() {
            id + 1
        } else {
            id
        }
    }

    fn lent_call(&mut self) {
        let records = self.random.pick(&[0, 1, 23, 25, LENT_LIMIT]);
        let call = if self.random.one_in(5) { Call::Start } else { self.call_on_row() };
        self.make(Call::Lent { records, call: Box::new(call) });
    }

    fn goaway(&mut self) {
        let connection = &self.pair.connection;
        let (next, ours) = (connection.next_request, connection.our_goaway);
        let id = match self.random.below(12) {
            0 => next,
            1 => next + 4 * self.random.below(12),
            2 => HIGHEST - 3,
            3 => next.saturating_sub(4 * self.random.below(3)),
            4 => next + 1 + self.random.below(3),
            5 => HIGHEST + 1,
            6 => u64::MAX,
            7 => ours.unwrap_or(next) + 4,
            8 => ours.unwrap_or(HIGHEST - 3),
            9 => ours.unwrap_or(1 << 32).saturating_sub(4),
            _ => (next + 400).min(ours.unwrap_or(HIGHEST - 3)),
        };
        let size = integers::size(id).unwrap_or(8) as u64 + 2;
        let room = self.room(size);
        self.make(Call::Goaway { id, room });
    }

    fn room(&mut self, size: u64) -> u64 {
        match self.random.below(5) {
            0 => size - 1,
            1 => 0,
            2 => self.random.between(0, ROOM_LIMIT),
            _ => size,
        }
    }

    fn write(&mut self) {
        let (first, second) = (self.write_value(), self.write_value());
        let size = |value| integers::size(value).unwrap_or(8) as u64;
        let call = match self.random.below(5) {
            0 => {
                let room = self.room(size(first) + size(second));
                Call::FrameHeader { kind: first, length: second, room }
            }
            1 => {
                let room = self.room(size(first) + 1 + size(second));
                Call::IntegerFrame { kind: first, value: second, room }
            }
            2 => Call::Integer { value: first, room: self.room(size(first)) },
            3 => Call::ControlOpening { room: self.room(12) },
            _ => {
                let mut bytes = drafts::integer(&mut self.random, first.min(HIGHEST));
                match self.random.below(3) {
                    0 => drop(bytes.pop()),
                    1 => bytes.extend(self.free_bytes()),
                    _ => {}
                }
                Call::Read { bytes }
            }
        };
        self.make(call);
    }

    fn write_value(&mut self) -> u64 {
        if self.random.one_in(8) {
            return self.random.pick(&[HIGHEST + 1, HIGHEST + 2, 1 << 63, u64::MAX]);
        }
        drafts::any_value(&mut self.random)
    }
}
