//! Eistulko's leaves against the second program: the first difference ends the run.

mod driver;

use std::collections::BTreeMap;
use std::process::ExitCode;

use driver::{Answer, Asked, Call, Driver, MARK};
use second::generate::random::Random;
use second::generate::{blocks, drafts};
use second::sections::{judge_block, Part, LINE_SIZE, SECTION_LIMIT};
use second::{block, calls, integers, settings, writer};

const SEED: u64 = 9114;

const RANDOM_SETTINGS: u64 = 1_000_000;
const RANDOM_INTEGERS: u64 = 1_000_000;
const RANDOM_BLOCKS: u64 = 50_000;
const RANDOM_WRITES: u64 = 200_000;

/// Beside 0 to 8: the identifiers 1 and 6 in two bytes, and firsts of two, four and eight bytes.
const CHOSEN: [u8; 14] = [0, 1, 2, 3, 4, 5, 6, 7, 8, 0x40, 0x41, 0x46, 0x80, 0xc0];

fn main() -> ExitCode {
    let command: Vec<String> = std::env::args().skip(1).collect();
    match Driver::start(&command).and_then(run) {
        Ok(passed) => {
            println!("{passed} passed, 0 failed");
            ExitCode::SUCCESS
        }
        Err(difference) => {
            println!("{difference}");
            ExitCode::FAILURE
        }
    }
}

/// A set of questions: its name, and the numbers that must come up, so that it does not try too little.
struct Group {
    name: &'static str,
    due: &'static [u64],
    ask: fn(&mut Leaves) -> Asked,
}

const GROUPS: [Group; 10] = [
    Group { name: "SETTINGS of up to 3 bytes", due: &[0, 0x0106, 0x0109], ask: short_settings },
    Group { name: "SETTINGS of 4 to 6 chosen bytes", due: &[0, 0x0106, 0x0109], ask: chosen_settings },
    Group { name: "random SETTINGS", due: &[0, 0x0106, 0x0109], ask: random_settings },
    Group { name: "integers by their first two bytes", due: &[0, 1], ask: first_bytes },
    Group { name: "random integers at random places", due: &[0, 1], ask: random_integers },
    Group { name: "generated blocks", due: &[0, 6, 0x010b, 0x010e], ask: generated_blocks },
    Group { name: "damaged blocks", due: &[0, 6, 0x010b, 0x010e], ask: damaged_blocks },
    Group { name: "blocks by one byte", due: &[0, 0x010b, 0x010e], ask: blocks_by_byte },
    Group { name: "blocks by their size", due: &[0, 0x010b, 0x010e], ask: blocks_by_size },
    Group { name: "random writes", due: &[0, 7, 8], ask: random_writes },
];

/// How many comparisons agreed, or the first difference.
fn run(driver: Driver) -> Result<u64, String> {
    let mut leaves = Leaves { driver, answers: BTreeMap::new() };
    for group in GROUPS {
        let before = leaves.driver.compared;
        leaves.answers.clear();
        (group.ask)(&mut leaves)
            .and_then(|()| leaves.driver.compare())
            .map_err(|error| format!("{}: {error}", group.name))?;
        let counts = leaves.answers.iter().map(|(number, count)| format!(", {count} of {number:#06x}"));
        println!("{}: {} agree{}", group.name, leaves.driver.compared - before, counts.collect::<String>());
        if let Some(number) = group.due.iter().find(|number| !leaves.answers.contains_key(number)) {
            return Err(format!("{}: no answer is {number:#06x}", group.name));
        }
    }
    let passed = leaves.driver.compared;
    leaves.driver.end().map(|()| passed)
}

struct Leaves {
    driver: Driver,
    /// How often each number was the answer.
    answers: BTreeMap<u64, u64>,
}

impl Leaves {
    fn hold(&mut self, call: Call, bytes: &[u8], place: u64, second: Answer) -> Asked {
        *self.answers.entry(second[0]).or_default() += 1;
        self.driver.hold(call, bytes, place, second)
    }

    fn settings(&mut self, payload: &[u8]) -> Asked {
        let second = match settings::judge(payload) {
            Ok(kept) => {
                let [limited, size] = optional(kept.section_size);
                [0, limited, size, kept.table_capacity, kept.blocked_streams]
            }
            Err(code) => refusal(code),
        };
        self.hold(Call::Settings, payload, 0, second)
    }

    fn read(&mut self, bytes: &[u8], place: usize) -> Asked {
        self.read_as(bytes, place, integers::read(bytes, place))
    }

    /// Held to a value and size.
    fn read_as(&mut self, bytes: &[u8], place: usize, second: Option<(u64, usize)>) -> Asked {
        let second = match second {
            Some((value, size)) => [1, value, (place + size) as u64, MARK, MARK],
            None => refusal(0),
        };
        self.hold(Call::Read, bytes, place as u64, second)
    }

    /// As a header section and as trailers.
    fn block(&mut self, block: &[u8]) -> Asked {
        let second = match judge_block(Part::HeaderSection, block) {
            Ok(length) => {
                let [stated, length] = optional(length);
                let [from, to] = method(block);
                [0, stated, length, from, to]
            }
            Err(number) => refusal(number),
        };
        self.hold(Call::HeaderSection, block, 0, second)?;
        let number = judge_block(Part::Trailers, block).err().unwrap_or(0);
        self.hold(Call::Trailers, block, 0, refusal(number))
    }

    /// Two numbers and a room, of up to 16 bytes; `written` writes into it.
    fn write<W>(&mut self, call: Call, numbers: [u64; 2], place: u64, room: &[u8], written: W) -> Asked
    where
        W: FnOnce(&mut [u8]) -> Result<usize, u16>,
    {
        let bytes = [&numbers[0].to_le_bytes(), &numbers[1].to_le_bytes(), room].concat();
        let mut left = [0; 16];
        left[..room.len()].copy_from_slice(room);
        let [number, count] = match written(&mut left[..room.len()]) {
            Ok(count) => [0, count as u64],
            Err(number) => [u64::from(number), MARK],
        };
        let [low, high] = [0, 8].map(|at| u64::from_le_bytes(std::array::from_fn(|place| left[at + place])));
        self.hold(call, &bytes, place, [number, count, low, high, MARK])
    }
}

/// It leaves `out` as it was.
fn refusal(number: u16) -> Answer {
    [u64::from(number), MARK, MARK, MARK, MARK]
}

/// Whether a number is there, and the number, or 0.
fn optional(number: Option<u64>) -> [u64; 2] {
    [u64::from(number.is_some()), number.unwrap_or(0)]
}

/// Where in a readable block the method begins and ends.
fn method(block: &[u8]) -> [u64; 2] {
    let lines = block::lines(block).expect("a judged block is readable");
    let line =
        lines.iter().find(|line| line.name == b":method").expect("a sound header section has a method");
    let from = line.value.as_ptr() as usize - block.as_ptr() as usize;
    [from as u64, (from + line.value.len()) as u64]
}

// ---- SETTINGS

/// Every payload of up to three bytes.
fn short_settings(leaves: &mut Leaves) -> Asked {
    for length in 0..=3 {
        for number in 0..1u32 << (8 * length) {
            leaves.settings(&number.to_be_bytes()[4 - length..])?;
        }
    }
    Ok(())
}

/// Every payload of four to six chosen bytes, so that two pairs and more meet.
fn chosen_settings(leaves: &mut Leaves) -> Asked {
    for length in 4..=6 {
        for number in 0..CHOSEN.len().pow(length) {
            let digits = (0..length).map(|place| number / CHOSEN.len().pow(place) % CHOSEN.len());
            let payload: Vec<u8> = digits.map(|digit| CHOSEN[digit]).collect();
            leaves.settings(&payload)?;
        }
    }
    Ok(())
}

fn random_settings(leaves: &mut Leaves) -> Asked {
    let random = &mut Random::new(SEED);
    for _ in 0..RANDOM_SETTINGS {
        let mut payload = match random.below(4) {
            0 => drafts::sound_settings(random).payload,
            1 => drafts::broken_settings(random).payload,
            2 => {
                let length = random.index(300);
                random.bytes(length)
            }
            _ => pairs(random),
        };
        while random.one_in(4) {
            drafts::damage(random, &mut payload);
        }
        leaves.settings(&payload)?;
    }
    Ok(())
}

/// Many pairs in any sizes, few of them reserved; the identifiers are from a set in which they meet at times.
fn pairs(random: &mut Random) -> Vec<u8> {
    let many = random.below(40);
    let bound = random.pick(&[12, 100, 20_000, integers::HIGHEST]);
    let mut payload = Vec::new();
    for _ in 0..many {
        let identifier = random.below(bound);
        let safe = if (2..=5).contains(&identifier) && random.percent(90) { 6 } else { identifier };
        payload.extend(drafts::integer(random, safe));
        let value = drafts::any_value(random);
        payload.extend(drafts::integer(random, value));
    }
    payload
}

// ---- integers

/// Every first two bytes, with each number of bytes behind them up to one too many, and cut.
fn first_bytes(leaves: &mut Leaves) -> Asked {
    for pair in 0..=u16::MAX {
        let [first, second] = pair.to_be_bytes();
        let bytes = [first, second, 0x5a, 0, 0xff, 0x80, 0x7f, 1, 0xc3];
        for length in 0..=bytes.len() {
            leaves.read(&bytes[..length], 0)?;
        }
    }
    Ok(())
}

/// Random values in random sizes among random bytes, read there, cut, and at random places, past the end too.
fn random_integers(leaves: &mut Leaves) -> Asked {
    let random = &mut Random::new(SEED);
    for _ in 0..RANDOM_INTEGERS {
        let place = random.index(40);
        let value = drafts::any_value(random);
        let written = drafts::integer(random, value);
        let size = written.len();
        let mut bytes = random.bytes(place);
        bytes.extend(written);
        let behind = random.index(9);
        bytes.extend(random.bytes(behind));
        leaves.read_as(&bytes, place, Some((value, size)))?;
        leaves.read(&bytes[..place + random.index(size)], place)?;
        leaves.read(&bytes, random.index(bytes.len() + 2))?;
        leaves.read(&bytes, random.number() as usize)?;
    }
    Ok(())
}

// ---- section blocks

fn generated_blocks(leaves: &mut Leaves) -> Asked {
    let random = &mut Random::new(SEED);
    for _ in 0..RANDOM_BLOCKS {
        leaves.block(&blocks::any(random).1)?;
    }
    Ok(())
}

/// Bytes changed, taken out, put in, or cut off, wherever they stand.
fn damaged_blocks(leaves: &mut Leaves) -> Asked {
    let random = &mut Random::new(SEED + 1);
    for _ in 0..RANDOM_BLOCKS {
        let mut block = blocks::any(random).1;
        drafts::damage(random, &mut block);
        while random.one_in(3) {
            drafts::damage(random, &mut block);
        }
        leaves.block(&block)?;
    }
    Ok(())
}

fn lines(all: &[(&str, &str)]) -> blocks::Lines {
    all.iter().map(|(name, value)| (name.as_bytes().to_vec(), value.as_bytes().to_vec())).collect()
}

/// The lines of a request without a length.
fn asking(method: &str) -> [(&str, &str); 4] {
    [(":method", method), (":scheme", "https"), (":authority", "ab"), (":path", "/")]
}

/// Every byte in each place of a name and of each value that is judged, alone and among others.
fn blocks_by_byte(leaves: &mut Leaves) -> Asked {
    let sound = [
        (":method", "OPTIONS"),
        (":scheme", "https"),
        (":authority", "ab"),
        (":path", "*"),
        ("te", "trailers"),
        ("content-length", "12"),
        ("x-y", "a b"),
    ];
    for line in 0..sound.len() {
        by_byte(leaves, &sound, line)?;
    }
    // Without a length, the method alone decides.
    for method in ["PUT", "POST", "PATCH"] {
        by_byte(leaves, &asking(method), 0)?;
    }
    Ok(())
}

/// In one of the lines, in place of a byte and between two.
fn by_byte(leaves: &mut Leaves, all: &[(&str, &str)], line: usize) -> Asked {
    let (name, value) = all[line];
    for byte in 0..=u8::MAX {
        for place in 0..=name.len() + value.len() + 1 {
            for inserted in [false, true] {
                let mut lines = lines(all);
                let (bytes, at) = match place.checked_sub(name.len() + 1) {
                    None => (&mut lines[line].0, place),
                    Some(at) => (&mut lines[line].1, at),
                };
                match bytes.get_mut(at) {
                    Some(old) if !inserted => *old = byte,
                    _ => bytes.insert(at, byte),
                }
                leaves.block(&blocks::bytes(&lines))?;
                leaves.block(&blocks::bytes(&lines[line..=line].to_vec()))?;
            }
        }
    }
    Ok(())
}

/// Beside the limit, in any number of lines that has room for it: alone, behind a GET, and behind a PUT without a length.
fn blocks_by_size(leaves: &mut Leaves) -> Asked {
    for front in [lines(&[]), lines(&asking("GET")), lines(&asking("PUT"))] {
        for target in SECTION_LIMIT - 2..=SECTION_LIMIT + 2 {
            let left = target - blocks::size(&front);
            for count in 1..=left / (LINE_SIZE + 1) {
                let mut lines = front.clone();
                lines.resize(front.len() + count, (b"x".to_vec(), Vec::new()));
                lines[front.len()].1 = vec![b'v'; left - count * (LINE_SIZE + 1)];
                leaves.block(&blocks::bytes(&lines))?;
            }
        }
    }
    for count in [511, 512, 513, 5_000] {
        leaves.block(&blocks::bytes(&vec![(Vec::new(), Vec::new()); count]))?;
    }
    Ok(())
}

// ---- the writer

/// A value, at times above 2^62-1.
fn any_number(random: &mut Random) -> u64 {
    match random.below(8) {
        0 => random.pick(&[integers::HIGHEST + 1, u64::MAX]),
        1 => random.number(),
        _ => drafts::any_value(random),
    }
}

/// Every kind of write, into rooms of every length up to 16 that hold random bytes.
fn random_writes(leaves: &mut Leaves) -> Asked {
    let random = &mut Random::new(SEED);
    for _ in 0..RANDOM_WRITES {
        let length = random.index(17);
        let room = random.bytes(length);
        let [a, b] = [any_number(random), any_number(random)];
        leaves.write(Call::WriteInteger, [a, b], 0, &room, |room| writer::integer(a, room))?;
        leaves.write(Call::WriteHeader, [a, b], 0, &room, |room| writer::frame_header(a, b, room))?;
        leaves.write(Call::WriteIntegerFrame, [a, b], 0, &room, |room| writer::integer_frame(a, b, room))?;
        leaves.write(Call::WriteOpening, [a, b], 0, &room, writer::control_opening)?;
        goaway(leaves, random, &room)?;
    }
    Ok(())
}

/// After none or one sent before, at times the same or a neighbour.
fn goaway(leaves: &mut Leaves, random: &mut Random, room: &[u8]) -> Asked {
    let earlier = random.one_in(2).then(|| drafts::any_value(random) / 4 * 4);
    let near = earlier.unwrap_or(integers::HIGHEST - 3);
    let id = match random.below(3) {
        0 => any_number(random),
        1 => any_number(random) / 4 * 4,
        _ => near.saturating_add(random.pick(&[0, 1, 4])).saturating_sub(random.pick(&[0, 4])),
    };
    let mut connection = calls::Connection { our_goaway: earlier, ..calls::Connection::fresh() };
    let numbers = [earlier.unwrap_or(0), id];
    let sent = u64::from(earlier.is_some());
    leaves.write(Call::WriteGoaway, numbers, sent, room, |room| calls::goaway(&mut connection, id, room))
}
