//! The binary's subcommands, the generators' reach, and comparisons with programs right and wrong.

use std::collections::BTreeMap;
use std::process::Command;

use second::compare::{self, Program, Tally};
use second::generate::schedule;
use second::generate::streams::Streams;
use second::{hex, lister, numbers, replay, settings};

const BINARY: &str = env!("CARGO_BIN_EXE_second");

fn words(words: &[&str]) -> Vec<String> {
    words.iter().map(|word| word.to_string()).collect()
}

fn output(arguments: &[&str]) -> String {
    let output = Command::new(BINARY).args(arguments).output().unwrap();
    assert!(output.status.success());
    String::from_utf8(output.stdout).unwrap()
}

#[test]
fn lister_and_replay_read_standard_input() {
    let lister = Program { path: BINARY, arguments: &words(&["lister"]) };
    for text in ["-", "01010000036162632100", "0000"] {
        let stream = hex::parse(text).unwrap();
        assert_eq!(lister.run(&stream).unwrap(), lister::list(&stream).into_bytes());
    }
    assert_eq!(lister.run(&[0; 200_000]).unwrap(), b"too long\n");
    let replay = Program { path: BINARY, arguments: &words(&["replay"]) };
    for script in compare::edge_scripts() {
        assert_eq!(replay.run(&script).unwrap(), replay::run(&script).into_bytes());
    }
}

#[test]
fn a_program_that_agrees_passes() {
    let arguments = words(&["lister"]);
    let report = compare::listers(&Program { path: BINARY, arguments: &arguments }, 3, 200).unwrap();
    assert!(report.agreed);
    assert_eq!(report.text, "200 passed, 0 failed\n");
    let arguments = words(&["replay"]);
    let report = compare::replays(&Program { path: BINARY, arguments: &arguments }, 3, 30_000).unwrap();
    assert!(report.agreed);
    assert!(report.text.lines().last().unwrap().ends_with(" passed, 0 failed"));
}

#[test]
fn a_program_that_differs_fails() {
    // `cat` prints its input, which is no listing and no answers.
    let cat = Program { path: "cat", arguments: &[] };
    let report = compare::listers(&cat, 3, 200).unwrap();
    assert!(!report.agreed);
    assert!(report.text.starts_with("stream 1 differs\n"));
    let report = compare::replays(&cat, 3, 200).unwrap();
    assert!(!report.agreed);
    assert!(report.text.contains("-- expected\n0 0 0 -\n-- printed\nS\n"));
    let silent = Program { path: "true", arguments: &[] };
    assert!(!compare::replays(&silent, 3, 200).unwrap().agreed);
    assert!(!compare::listers(&silent, 3, 200).unwrap().agreed);
}

#[test]
fn the_same_seed_gives_the_same() {
    for arguments in [["streams", "9", "50"], ["blocks", "9", "50"], ["schedule", "9", "500"]] {
        let first = output(&arguments);
        assert_eq!(first, output(&arguments));
        assert_eq!(first.lines().count().to_string(), arguments[2]);
    }
}

#[test]
fn a_schedule_meets_every_number_and_event_often() {
    let mut tally = Tally::default();
    let mut made = 0;
    for seed in 0..8 {
        let (script, count) = schedule::script(seed, 100_000);
        assert!(script.len() <= replay::INPUT_LIMIT);
        let answers = replay::run(script.as_bytes());
        assert_eq!(answers.lines().count() as u64, count);
        answers.lines().for_each(|line| tally.count(line));
        made += count;
    }
    assert!(made > 100_000);
    for number in numbers::ALL {
        let count = tally.numbers.get(&number).copied().unwrap_or(0);
        assert!(count >= 60, "{number} came {count} times");
    }
    let gifts = [
        "section", "content", "qpack", "settings", "goaway", "maxpush", "whole", "freed", "written", "value",
        "cut", "state",
    ];
    for gift in gifts {
        let count = tally.events.get(gift).copied().unwrap_or(0);
        assert!(count >= 300, "{gift} came {count} times");
    }
}

#[test]
fn generated_streams_meet_every_verdict() {
    let mut verdicts: BTreeMap<String, u64> = BTreeMap::new();
    let mut lengths: BTreeMap<usize, u64> = BTreeMap::new();
    for stream in Streams::new(4).take(20_000) {
        assert!(stream.len() <= lister::INPUT_LIMIT + 1);
        *lengths.entry(stream.len()).or_default() += 1;
        let listing = lister::list(&stream);
        let last = listing.lines().last().unwrap();
        *verdicts.entry(last.rsplit(' ').next().unwrap().to_string()).or_default() += 1;
    }
    for verdict in ["whole", "261", "262", "263", "268", "269", "long"] {
        assert!(verdicts.get(verdict).is_some_and(|count| *count >= 10), "{verdict}: {verdicts:?}");
    }
    assert!(lengths[&lister::INPUT_LIMIT] >= 5);
}

#[test]
fn generated_blocks_meet_every_answer() {
    let mut answers: BTreeMap<String, u64> = BTreeMap::new();
    for line in output(&["blocks", "1", "5000"]).lines() {
        let words: Vec<&str> = line.split(' ').collect();
        assert!(hex::parse(words[1]).is_some());
        let length = words.get(3).map_or("", |word| if *word == "-" { " -" } else { " n" });
        *answers.entry(format!("{} {}{length}", words[0], words[2])).or_default() += 1;
    }
    for answer in ["H 0 -", "H 0 n", "H 6", "H 267", "H 270", "T 0", "T 6", "T 270"] {
        assert!(answers.get(answer).is_some_and(|count| *count >= 50), "{answer}: {answers:?}");
    }
    assert_eq!(answers.len(), 8);
}

#[test]
fn settings_payloads_of_up_to_two_bytes() {
    let listing = output(&["settings"]);
    assert_eq!(listing.lines().count(), 1 + 256 + 65_536);
    for line in [
        "- 0 settings - 0 0",
        "06 262",
        "0300 265",
        "0601 0 settings 1 0 0",
        "4006 262",
        "0000 0 settings - 0 0",
    ] {
        assert!(listing.lines().any(|listed| listed == line), "{line}");
    }
    assert!(settings::judge(&[6, 1, 6]).is_err());
}
