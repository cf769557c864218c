//! Eistulko's second program: the lister, the replay, generated inputs and comparisons.

use std::env;
use std::io::{self, BufWriter, ErrorKind, Read, Write};
use std::process::ExitCode;

use second::compare::{self, Program, Report};
use second::generate::random::Random;
use second::generate::streams::Streams;
use second::generate::{blocks, schedule};
use second::sections::{judge_block, Part};
use second::{hex, lister, replay, settings};

const USAGE: &str = "usage:
second lister < stream
second replay < script
second streams SEED COUNT
second schedule SEED CALLS
second blocks SEED COUNT
second settings
second compare-lister PROGRAM SEED COUNT [ARGUMENT...]
second compare-replay PROGRAM SEED CALLS [ARGUMENT...]";

fn main() -> ExitCode {
    let words: Vec<String> = env::args().skip(1).collect();
    match run(&words) {
        Ok(true) => ExitCode::SUCCESS,
        Ok(false) => ExitCode::FAILURE,
        // Whoever reads our output may stop early.
        Err(error) if error.kind() == ErrorKind::BrokenPipe => ExitCode::SUCCESS,
        Err(error) => {
            eprintln!("second: {error}");
            ExitCode::from(2)
        }
    }
}

/// Whether the subcommand's outcome is good.
fn run(words: &[String]) -> io::Result<bool> {
    let mut output = BufWriter::new(io::stdout().lock());
    let names: Vec<&str> = words.iter().map(String::as_str).collect();
    match names.as_slice() {
        ["lister"] => write!(output, "{}", lister::list(&input(lister::INPUT_LIMIT)?))?,
        ["replay"] => write!(output, "{}", replay::run(&input(replay::INPUT_LIMIT)?))?,
        ["streams", seed, count] => {
            for stream in Streams::new(number(seed)?).take(number(count)? as usize) {
                writeln!(output, "{}", hex::show(&stream))?;
            }
        }
        ["schedule", seed, calls] => write!(output, "{}", schedule::script(number(seed)?, number(calls)?).0)?,
        ["blocks", seed, count] => write_blocks(&mut output, number(seed)?, number(count)?)?,
        ["settings"] => write_settings(&mut output)?,
        ["compare-lister", path, seed, count, ..] => {
            let program = Program { path, arguments: &words[4..] };
            return report(&mut output, compare::listers(&program, number(seed)?, number(count)?)?);
        }
        ["compare-replay", path, seed, calls, ..] => {
            let program = Program { path, arguments: &words[4..] };
            return report(&mut output, compare::replays(&program, number(seed)?, number(calls)?)?);
        }
        _ => return Err(io::Error::new(ErrorKind::InvalidInput, USAGE)),
    }
    output.flush()?;
    Ok(true)
}

/// Standard input up to one byte past the limit, which is enough to know it is too long.
fn input(limit: usize) -> io::Result<Vec<u8>> {
    let mut bytes = Vec::new();
    io::stdin().lock().take(limit as u64 + 1).read_to_end(&mut bytes)?;
    Ok(bytes)
}

fn number(word: &str) -> io::Result<u64> {
    word.parse().map_err(|_| io::Error::new(ErrorKind::InvalidInput, format!("{word} is no number\n{USAGE}")))
}

fn report(output: &mut impl Write, report: Report) -> io::Result<bool> {
    write!(output, "{}", report.text)?;
    output.flush()?;
    Ok(report.agreed)
}

/// `H` or `T`, the block, the number, and for an accepted header section its Content-Length.
fn write_blocks(output: &mut impl Write, seed: u64, count: u64) -> io::Result<()> {
    let mut random = Random::new(seed);
    for _ in 0..count {
        let (part, block) = blocks::any(&mut random);
        let letter = if part == Part::HeaderSection { 'H' } else { 'T' };
        let answer = match (part, judge_block(part, &block)) {
            (Part::HeaderSection, Ok(Some(length))) => format!("0 {length}"),
            (Part::HeaderSection, Ok(None)) => "0 -".to_string(),
            (Part::Trailers, Ok(_)) => "0".to_string(),
            (_, Err(number)) => number.to_string(),
        };
        writeln!(output, "{letter} {} {answer}", hex::show(&block))?;
    }
    Ok(())
}

/// Every payload of up to two bytes: the payload, the number, and if accepted `settings v6 v1 v7`.
fn write_settings(output: &mut impl Write) -> io::Result<()> {
    let none = std::iter::once(Vec::new());
    let one = (0..=u8::MAX).map(|byte| vec![byte]);
    let two = (0..=u16::MAX).map(|pair| pair.to_be_bytes().to_vec());
    for payload in none.chain(one).chain(two) {
        let answer = match settings::judge(&payload) {
            Ok(settings) => format!("0 settings {}", replay::show_settings(&settings)),
            Err(code) => code.to_string(),
        };
        writeln!(output, "{} {answer}", hex::show(&payload))?;
    }
    Ok(())
}
