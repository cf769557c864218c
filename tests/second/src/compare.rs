//! Another program held against this one.

use std::collections::BTreeMap;
use std::io::{self, Read, Write};
use std::process::{Command, Stdio};
use std::sync::Mutex;
use std::thread;

use crate::generate::schedule;
use crate::generate::streams::Streams;
use crate::hex;
use crate::lister;
use crate::replay::{self, INPUT_LIMIT};

/// Programs run at the same time.
const AT_ONCE: usize = 2;

/// The other program, and the words it is started with.
pub struct Program<'a> {
    pub path: &'a str,
    pub arguments: &'a [String],
}

impl Program<'_> {
    /// Its standard output for that standard input; an end by a signal is an error.
    pub fn run(&self, input: &[u8]) -> io::Result<Vec<u8>> {
        let mut command = Command::new(self.path);
        let mut child = command.args(self.arguments).stdin(Stdio::piped()).stdout(Stdio::piped()).spawn()?;
        let mut stdin = child.stdin.take().expect("standard input is piped");
        let mut stdout = child.stdout.take().expect("standard output is piped");
        let mut output = Vec::new();
        thread::scope(|scope| {
            // A program may leave input unread, or answer before it has read it all.
            scope.spawn(move || drop(stdin.write_all(input)));
            stdout.read_to_end(&mut output)
        })?;
        let status = child.wait()?;
        if status.code().is_none() {
            return Err(io::Error::other(format!("{}: {status}", self.path)));
        }
        Ok(output)
    }
}

/// What a comparison found: the text to print, and whether all agreed.
pub struct Report {
    pub text: String,
    pub agreed: bool,
}

impl Report {
    fn passed(text: String, count: u64) -> Report {
        Report { text: format!("{text}{count} passed, 0 failed\n"), agreed: true }
    }

    fn failed(text: String, passed: u64) -> Report {
        Report { text: format!("{text}{passed} passed, 1 failed\n"), agreed: false }
    }
}

/// Holds a lister against ours on `count` generated streams.
pub fn listers(program: &Program, seed: u64, count: u64) -> io::Result<Report> {
    struct Work {
        streams: Streams,
        taken: u64,
        differing: Vec<(u64, String)>,
        broken: Option<io::Error>,
    }
    let work =
        Mutex::new(Work { streams: Streams::new(seed), taken: 0, differing: Vec::new(), broken: None });
    let compare = || loop {
        let (number, stream) = {
            let mut work = work.lock().expect("no worker panics");
            if work.taken == count || !work.differing.is_empty() || work.broken.is_some() {
                return;
            }
            work.taken += 1;
            (work.taken, work.streams.next().expect("streams are endless"))
        };
        let result = program.run(&stream);
        let expected = lister::list(&stream);
        let mut work = work.lock().expect("no worker panics");
        match result {
            Ok(output) if output == expected.as_bytes() => {}
            Ok(output) => work.differing.push((number, show_listing(number, &stream, &expected, &output))),
            Err(error) => work.broken = Some(error),
        }
    };
    thread::scope(|scope| {
        for _ in 0..AT_ONCE {
            scope.spawn(compare);
        }
    });
    let work = work.into_inner().expect("no worker panics");
    if let Some(error) = work.broken {
        return Err(error);
    }
    // Every stream before the lowest differing one was taken and agreed.
    match work.differing.into_iter().min() {
        Some((number, text)) => Ok(Report::failed(text, number - 1)),
        None => Ok(Report::passed(String::new(), count)),
    }
}

fn show_listing(number: u64, stream: &[u8], expected: &str, output: &[u8]) -> String {
    let output = String::from_utf8_lossy(output);
    let stream = hex::show(stream);
    format!("stream {number} differs\n{stream}\n-- expected\n{expected}-- printed\n{output}")
}

/// How often each answer number and each kind of event came.
#[derive(Default)]
pub struct Tally {
    pub numbers: BTreeMap<u16, u64>,
    pub events: BTreeMap<String, u64>,
}

impl Tally {
    /// Counts an output line: its first word is the number, its fourth what the call gave.
    pub fn count(&mut self, line: &str) {
        let words: Vec<&str> = line.split(' ').collect();
        if let [number, _, _, gave, ..] = words.as_slice() {
            if let Ok(number) = number.parse() {
                *self.numbers.entry(number).or_default() += 1;
            }
            *self.events.entry(gave.to_string()).or_default() += 1;
        }
    }

    fn text(&self) -> String {
        let numbers = self.numbers.iter().map(|(number, count)| format!("number {number}: {count}\n"));
        let events = self.events.iter().map(|(event, count)| format!("{}: {count}\n", event_name(event)));
        numbers.chain(events).collect()
    }
}

fn event_name(event: &str) -> String {
    let name = if event == "-" { "nothing" } else { event };
    format!("event {name}")
}

/// Holds a replay program against ours: the input's edges, then scripts of `calls` calls in all.
pub fn replays(program: &Program, seed: u64, calls: u64) -> io::Result<Report> {
    let mut tally = Tally::default();
    let mut passed = 0;
    for script in edge_scripts() {
        match compare_script(program, &script, "an edge of the input", &mut tally)? {
            Ok(lines) => passed += lines,
            Err((lines, text)) => return Ok(Report::failed(text, passed + lines)),
        }
    }
    let mut made = 0;
    let mut seed = seed;
    while made < calls {
        let (script, count) = schedule::script(seed, calls - made);
        let name = format!("schedule {seed} {}", calls - made);
        match compare_script(program, script.as_bytes(), &name, &mut tally)? {
            Ok(lines) => passed += lines,
            Err((lines, text)) => return Ok(Report::failed(text, passed + lines)),
        }
        made += count;
        seed = seed.wrapping_add(1);
    }
    Ok(Report::passed(tally.text(), passed))
}

/// The count of agreeing output lines, or that count up to the first difference and the difference.
type Compared = Result<u64, (u64, String)>;

fn compare_script(program: &Program, script: &[u8], name: &str, tally: &mut Tally) -> io::Result<Compared> {
    let expected = replay::run(script);
    let output = program.run(script)?;
    let output = String::from_utf8_lossy(&output);
    let script = String::from_utf8_lossy(script);
    // Kept with its line feed, so that a missing one is a difference.
    let mut printed = output.split_inclusive('\n');
    let mut calls = script.split('\n');
    let mut passed = 0;
    for expected in expected.split_inclusive('\n') {
        let call = calls.next().unwrap_or("");
        let printed = printed.next().unwrap_or("");
        if printed != expected {
            return Ok(Err((passed, difference(name, passed + 1, call, expected, printed))));
        }
        tally.count(expected.trim_end());
        passed += 1;
    }
    Ok(match printed.next() {
        Some(more) => Err((passed, difference(name, passed + 1, calls.next().unwrap_or(""), "", more))),
        None => Ok(passed),
    })
}

fn difference(name: &str, number: u64, call: &str, expected: &str, printed: &str) -> String {
    format!(
        "{name}: line {number} differs\n{call}\n-- expected\n{}\n-- printed\n{}\n",
        expected.trim_end_matches('\n'),
        printed.trim_end_matches('\n')
    )
}

/// Lines that are no call, and input of 1 MiB and one byte more.
pub fn edge_scripts() -> Vec<Vec<u8>> {
    const BAD: [&str; 34] = [
        "",
        " ",
        "S ",
        " S",
        "s",
        "X",
        "O",
        "O ",
        "O 00",
        "O 01",
        "O +1",
        "O -1",
        "O 18446744073709551616",
        "O 0 0",
        "O  0",
        "F 0 1",
        "F 0 1 ",
        "F 0 1 0",
        "F 0 1 AB",
        "F 0 1 0g",
        "F 0 1 --",
        "H 0",
        "G 0 65",
        "W 0 0 65",
        "N 0 65",
        "C 65",
        "I 0 0 65",
        "V",
        "D 0",
        "L 24 S",
        "L 33 S",
        "L 3 D",
        "L 3 L 3 S",
        "L 3",
    ];
    let mut scripts: Vec<Vec<u8>> = BAD.iter().map(|line| format!("S\n{line}\nS\n").into_bytes()).collect();
    scripts.push(Vec::new());
    scripts.push(b"\n".to_vec());
    scripts.push(b"O 18446744073709551615\nG 0 64\nV -\nL 0 S\nL 32 S\nD".to_vec());
    for length in [INPUT_LIMIT, INPUT_LIMIT + 1] {
        let mut script = b"D\nF 0 1 ".to_vec();
        script.resize(length, b'0');
        scripts.push(script);
    }
    scripts
}
