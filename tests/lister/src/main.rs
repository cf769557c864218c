//! The lister against the second program: the first difference ends the run.

use std::collections::BTreeMap;
use std::io::{self, BufReader, BufWriter, Read, Write};
use std::process::{ChildStdin, Command, ExitCode, Stdio};
use std::thread;

use second::compare::{self, Program};
use second::generate::random::Random;
use second::generate::streams::Streams;
use second::{hex, lister};

/// In one process, the program's object behind the driver.
const STREAMS: u64 = 20_000;
/// In a process each, the program itself.
const STARTS: u64 = 300;

/// What the last words of some line have to be, so that too little is not tried.
const DUE: [&str; 11] = [
    "header section",
    "content",
    "trailers",
    "skipped",
    "whole",
    "too long",
    "refused 261",
    "refused 262",
    "refused 263",
    "refused 268",
    "refused 269",
];

fn main() -> ExitCode {
    let words: Vec<String> = std::env::args().skip(1).collect();
    match run(&words) {
        Ok(Ok(passed)) => {
            println!("{passed} passed, 0 failed");
            ExitCode::SUCCESS
        }
        Ok(Err(difference)) => {
            println!("{difference}");
            ExitCode::FAILURE
        }
        Err(error) => {
            println!("the lister's test: {error}");
            ExitCode::FAILURE
        }
    }
}

/// How many streams agreed, or the first difference.
type Compared = Result<u64, String>;

fn run(words: &[String]) -> io::Result<Compared> {
    let [seed, driver, program, start @ ..] = words else {
        return Err(io::Error::other("SEED DRIVER PROGRAM, and the words that start a program"));
    };
    let [first, others @ ..] = start else {
        return Err(io::Error::other("no word starts a program"));
    };
    let seed: u64 = seed.parse().map_err(|_| io::Error::other(format!("{seed} is no seed")))?;
    println!("seed {seed}");
    if let Err(difference) = many(seed, first, &[others, &[driver.clone()]].concat())? {
        return Ok(Err(difference));
    }
    let arguments = [others, &[program.clone()]].concat();
    let report =
        compare::listers(&Program { path: first, arguments: &arguments }, seed.wrapping_add(1), STARTS)?;
    print!("in a process each: {}", report.text);
    Ok(if report.agreed { Ok(STREAMS + STARTS) } else { Err("the program differs".to_string()) })
}

/// The streams of a seed, through the driver; each read hands over as many bytes as fit, or only a few.
fn many(seed: u64, path: &str, arguments: &[String]) -> io::Result<Compared> {
    let mut child =
        Command::new(path).args(arguments).stdin(Stdio::piped()).stdout(Stdio::piped()).spawn()?;
    let stdin = child.stdin.take().expect("standard input is piped");
    let mut answers = BufReader::new(child.stdout.take().expect("standard output is piped"));
    let asking = thread::spawn(move || ask(stdin, seed));
    let mut came = BTreeMap::new();
    for (number, stream) in (1..).zip(Streams::new(seed).take(STREAMS as usize)) {
        let printed = answer(&mut answers)?;
        let expected = lister::list(&stream);
        if printed != expected.as_bytes() {
            let printed = String::from_utf8_lossy(&printed);
            let stream = hex::show(&stream);
            return Ok(Err(format!(
                "stream {number} differs\n{stream}\n-- expected\n{expected}-- printed\n{printed}"
            )));
        }
        for word in expected.lines().filter_map(kind) {
            *came.entry(word).or_insert(0u64) += 1;
        }
    }
    asking.join().expect("asking does not panic")?;
    if !child.wait()?.success() {
        return Err(io::Error::other("the driver ends badly"));
    }
    let counts = came.iter().map(|(word, count)| format!(", {count} of {word}"));
    println!("in one process: {STREAMS} agree{}", counts.collect::<String>());
    Ok(match DUE.iter().find(|word| !came.contains_key(**word)) {
        Some(word) => Err(format!("no line is {word}")),
        None => Ok(STREAMS),
    })
}

fn ask(stdin: ChildStdin, seed: u64) -> io::Result<()> {
    let mut questions = BufWriter::new(stdin);
    let mut random = Random::new(!seed);
    for stream in Streams::new(seed).take(STREAMS as usize) {
        let piece = if random.one_in(2) { u64::MAX } else { random.between(1, 4096) };
        questions.write_all(&(stream.len() as u64).to_le_bytes())?;
        questions.write_all(&piece.to_le_bytes())?;
        questions.write_all(&stream)?;
    }
    questions.flush()
}

fn answer(answers: &mut impl Read) -> io::Result<Vec<u8>> {
    let mut length = [0; 8];
    answers.read_exact(&mut length)?;
    let mut printed = vec![0; u64::from_le_bytes(length) as usize];
    answers.read_exact(&mut printed)?;
    Ok(printed)
}

/// The use, the verdict and its code, or `too long`; the heading is none.
fn kind(line: &str) -> Option<String> {
    let words: Vec<&str> = line.split(' ').collect();
    match words.as_slice() {
        ["offset", ..] => None,
        ["too", "long"] => Some(line.to_string()),
        ["end", _, verdict] => Some(verdict.to_string()),
        ["refused", _, code] => Some(format!("refused {code}")),
        [_, _, _, usage @ ..] => Some(usage.join(" ")),
        _ => Some(line.to_string()),
    }
}
