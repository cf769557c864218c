//! Eistulko's feed against the second program, call by call: the first difference ends the run.

mod captures;
mod driver;
mod play;
mod requests;
mod tally;
mod ways;

use std::process::ExitCode;
use std::rc::Rc;
use std::time::{SystemTime, UNIX_EPOCH};

use driver::{Answer, Driver};
use play::{
    agree, Manner, Play, CONTENT, DECODER, ENCODER, GOAWAY, MAX_PUSH, NOTHING, SECTION, SECTION_LAST,
    SETTINGS,
};
use requests::Blocks;
use second::generate::random::Random;
use second::generate::streams::Streams;
use tally::{Came, Tally};

const STREAMS: usize = 100_000;
/// How often each of them is fed, cut and allowed otherwise.
const MANNERS: usize = 3;
/// Short streams that are cut in two at each of their bytes.
const CUT_STREAMS: usize = 1_500;
const CUT_LENGTH: usize = 80;
const CONNECTIONS: usize = 100_000;
const CUTTINGS: usize = 1_000;

const AT_ONCE: usize = 1 << 21;

/// `feeds SEED DRIVER [ARGUMENT...]`, where SEED is a number or `random`.
fn main() -> ExitCode {
    let words: Vec<String> = std::env::args().skip(1).collect();
    match run(&words) {
        Ok(compared) => {
            println!("{compared} passed, 0 failed");
            ExitCode::SUCCESS
        }
        Err(difference) => {
            println!("{difference}");
            ExitCode::FAILURE
        }
    }
}

fn seed(word: &str) -> Result<u64, String> {
    if word == "random" {
        let now = SystemTime::now().duration_since(UNIX_EPOCH).map_err(|error| error.to_string())?;
        return Ok(now.as_nanos() as u64);
    }
    word.parse().map_err(|error| format!("seed {word}: {error}"))
}

/// A set of plays: its name, and what must come up, so that it does not try too little.
struct Group {
    name: &'static str,
    due: &'static [(Came, u64)],
    play: fn(&mut Trial) -> Asked,
}

type Asked = Result<(), String>;

/// Everything that a request stream can bring.
const ALL: &[(Came, u64)] = &[
    (Came::Feed, 0),
    (Came::Feed, 4),
    (Came::Feed, 0x0105),
    (Came::Feed, 0x0107),
    (Came::Feed, 0x010c),
    (Came::Feed, 0x010e),
    (Came::Event, NOTHING),
    (Came::Event, CONTENT),
    (Came::Event, SECTION),
    (Came::Event, SECTION_LAST),
    (Came::Stop, 0),
    (Came::Stop, 1),
    (Came::Stop, 2),
    (Came::Stop, 3),
    (Came::Give, 0),
    (Came::Give, 5),
    (Came::Give, 6),
    (Came::Give, 0x010b),
    (Came::Give, 0x010e),
    (Came::End, 0),
    (Came::End, 4),
    (Came::End, 0x0106),
    (Came::End, 0x010d),
    (Came::End, 0x010e),
];

/// Everything that one-way streams can bring, but for their end.
const ALL_WAYS: &[(Came, u64)] = &[
    (Came::Feed, 0),
    (Came::Feed, 0x0103),
    (Came::Feed, 0x0105),
    (Came::Feed, 0x0106),
    (Came::Feed, 0x0107),
    (Came::Feed, 0x0108),
    (Came::Feed, 0x0109),
    (Came::Feed, 0x010a),
    (Came::Event, NOTHING),
    (Came::Event, ENCODER),
    (Came::Event, DECODER),
    (Came::Event, SETTINGS),
    (Came::Event, GOAWAY),
    (Came::Event, MAX_PUSH),
    (Came::Stop, 0),
    (Came::Stop, 1),
    (Came::Stop, 2),
];

const GROUPS: [Group; 5] = [
    Group { name: "generated requests", due: ALL, play: generated },
    Group {
        name: "requests cut at each byte",
        due: &[
            (Came::Feed, 0x0105),
            (Came::Event, CONTENT),
            (Came::Event, SECTION),
            (Came::Event, SECTION_LAST),
            (Came::End, 0),
            (Came::End, 0x0106),
            (Came::End, 0x010d),
        ],
        play: cut_at_each_byte,
    },
    Group {
        name: "captured requests",
        due: &[
            (Came::Event, CONTENT),
            (Came::Event, SECTION),
            (Came::Event, SECTION_LAST),
            (Came::Stop, 0),
            (Came::End, 0),
        ],
        play: captured_requests,
    },
    Group { name: "generated one-way streams", due: ALL_WAYS, play: generated_ways },
    Group {
        name: "captured one-way streams",
        due: &[(Came::Event, ENCODER), (Came::Event, SETTINGS), (Came::Event, MAX_PUSH), (Came::Stop, 1)],
        play: captured_ways,
    },
];

/// How many answers agreed, or the first difference.
fn run(words: &[String]) -> Result<u64, String> {
    let (word, command) = words.split_first().ok_or("usage: feeds SEED DRIVER [ARGUMENT...]")?;
    let seed = seed(word)?;
    println!("seed {seed}");
    let mut trial = Trial {
        driver: Driver::start(command)?,
        seed,
        random: Random::new(seed),
        waiting: Vec::new(),
        size: 0,
        plays: 0,
        compared: 0,
        tally: Tally::default(),
    };
    for group in GROUPS {
        let (plays, compared) = (trial.plays, trial.compared);
        trial.tally = Tally::default();
        (group.play)(&mut trial)
            .and_then(|()| trial.compare())
            .and_then(|()| trial.tally.hold(group.due))
            .map_err(|error| format!("{}, seed {seed}: {error}", group.name))?;
        let (plays, compared) = (trial.plays - plays, trial.compared - compared);
        println!("{}: {plays} plays, {compared} answers agree; {}", group.name, trial.tally.text());
    }
    trial.driver.end().map(|()| trial.compared)
}

struct Trial {
    driver: Driver,
    seed: u64,
    random: Random,
    waiting: Vec<Play>,
    size: usize,
    plays: u64,
    compared: u64,
    tally: Tally,
}

impl Trial {
    fn request(&mut self, stream: &Rc<[u8]>, manner: &Manner, block: &mut Blocks) -> Play {
        requests::play(stream, manner, block, &mut self.random, &mut self.tally)
    }

    fn ways(&mut self, streams: &[Vec<u8>], manner: &Manner) -> Play {
        ways::play(streams, manner, &mut self.random, &mut self.tally)
    }

    /// Asks the engine later, with others.
    fn hold(&mut self, play: Play) -> Asked {
        self.size += play.bytes.len() + 100 * play.notes.calls.len();
        self.waiting.push(play);
        if self.size > AT_ONCE {
            self.compare()?;
        }
        Ok(())
    }

    /// Asks what waits, and compares.
    fn compare(&mut self) -> Asked {
        let waiting = std::mem::take(&mut self.waiting);
        self.size = 0;
        for (play, engine) in waiting.iter().zip(self.ask(&waiting)?) {
            agree(play, &engine)?;
            self.plays += 1;
            self.compared += engine.len() as u64;
        }
        Ok(())
    }

    /// Asks at once; the engine's answers.
    fn now(&mut self, play: &Play) -> Result<Vec<Answer>, String> {
        let engine = self.ask(std::slice::from_ref(play))?.concat();
        agree(play, &engine).map(|()| engine)
    }

    fn ask(&mut self, plays: &[Play]) -> Result<Vec<Vec<Answer>>, String> {
        let asked = plays.iter().map(|play| (&play.bytes, &play.notes.calls[..]));
        self.driver.ask(asked).map_err(|error| format!("the driver: {error}"))
    }
}

/// Every kind of stream, cutting, allowance and block.
fn generated(trial: &mut Trial) -> Asked {
    for stream in Streams::new(trial.seed).take(STREAMS) {
        let stream: Rc<[u8]> = stream.into();
        let sum = requests::content_sum(&stream);
        for _ in 0..MANNERS {
            let manner = Manner::any(&mut trial.random, stream.len());
            let block = &mut |random: &mut Random, taken| requests::any_block(random, taken, sum);
            let play = trial.request(&stream, &manner, block);
            trial.hold(play)?;
        }
    }
    Ok(())
}

/// In two pieces, at each byte, with all headers allowed or one at a time; the sections sound.
fn cut_at_each_byte(trial: &mut Trial) -> Asked {
    let short = Streams::new(trial.seed.wrapping_add(1)).filter(|stream| stream.len() <= CUT_LENGTH);
    for stream in short.take(CUT_STREAMS) {
        let stream: Rc<[u8]> = stream.into();
        for cut in 0..=stream.len() {
            let allowance = trial.random.pick(&[Some(u64::MAX), Some(1)]);
            let manner = Manner { first: Some(cut), allowance, ..Manner::WHOLE };
            let block = &mut |random: &mut Random, taken| requests::sound_block(random, taken, None);
            let play = trial.request(&stream, &manner, block);
            trial.hold(play)?;
        }
    }
    Ok(())
}

/// Each capture as `DECODED.txt` has it, and the same whole request under every cutting.
fn captured_requests(trial: &mut Trial) -> Asked {
    for captures::Request { name, stream, block, decoded } in captures::requests()? {
        let mut block = |_: &mut Random, _| block.clone();
        let whole = trial.request(&stream, &Manner::WHOLE, &mut block);
        let described = captures::describe(&whole, &trial.now(&whole)?);
        if described != decoded {
            return Err(format!("{name}: decoded as {decoded}, read as {described}"));
        }
        for _ in 0..CUTTINGS {
            let manner = Manner::of_capture(&mut trial.random, stream.len());
            let play = trial.request(&stream, &manner, &mut block);
            let ended = play.notes.second.last().is_some_and(|answer| answer[0] == 0);
            if !ended || play.named != whole.named {
                return Err(format!("{name}: another request by the calls {:?}", play.notes.calls));
            }
            trial.hold(play)?;
        }
    }
    Ok(())
}

fn generated_ways(trial: &mut Trial) -> Asked {
    for _ in 0..CONNECTIONS {
        let streams = ways::any_streams(&mut trial.random);
        let manner = Manner::any(&mut trial.random, 0);
        let play = trial.ways(&streams, &manner);
        trial.hold(play)?;
    }
    Ok(())
}

/// The streams of each connection as `DECODED.txt` has them, under every cutting.
fn captured_ways(trial: &mut Trial) -> Asked {
    for (name, captures::Ways { streams, decoded }) in captures::ways()? {
        for _ in 0..CUTTINGS {
            let manner = Manner::of_capture(&mut trial.random, 80);
            let play = trial.ways(&streams, &manner);
            let engine = trial.now(&play)?;
            let read = captures::Decoded::of(&play, &engine);
            if read != decoded {
                return Err(format!("{name}: decoded as {decoded:?}, read as {read:?}"));
            }
            trial.plays += 1;
            trial.compared += engine.len() as u64;
        }
    }
    Ok(())
}
