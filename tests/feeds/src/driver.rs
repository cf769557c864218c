//! The driver of the feed as a child: calls in batches, and its answers.

use std::io::{self, Read, Write};
use std::process::{Child, ChildStdin, ChildStdout, Command, Stdio};
use std::rc::Rc;

/// A call on the one request stream, or on a one-way stream by its place among them; a piece is a part of the play's bytes.
#[derive(Clone, Debug)]
pub enum Call {
    Feed {
        from: usize,
        to: usize,
        allowance: u64,
    },
    Give(Vec<u8>),
    End,
    FeedWay {
        way: usize,
        from: usize,
        to: usize,
        allowance: u64,
    },
    /// What the client said on its control stream.
    Said,
}

/// Number, event, the part's start and length, bytes consumed, headers finished; of a section or an end only the number.
/// A push ID stands for the length. What was said: SETTINGS there, 6, 1, 7, GOAWAY, MAX_PUSH_ID, each `NONE` where there is none.
pub type Answer = [u64; 6];

pub const NONE: u64 = u64::MAX;

/// The driver's words for what a call is.
const BYTES: u64 = 0;
const OPEN: u64 = 1;
const FEED: u64 = 2;
const GIVE: u64 = 3;
const END: u64 = 4;
const FEED_WAY: u64 = 5;
const SAID: u64 = 6;

pub struct Driver {
    child: Child,
    input: ChildStdin,
    output: ChildStdout,
    /// The bytes that the driver holds.
    held: Option<Rc<[u8]>>,
}

impl Driver {
    pub fn start(command: &[String]) -> Result<Driver, String> {
        let (program, arguments) = command.split_first().ok_or("no driver is named")?;
        let mut child = Command::new(program)
            .args(arguments)
            .stdin(Stdio::piped())
            .stdout(Stdio::piped())
            .spawn()
            .map_err(|error| format!("{program}: {error}"))?;
        let input = child.stdin.take().ok_or("the driver has no input")?;
        let output = child.stdout.take().ok_or("the driver has no output")?;
        Ok(Driver { child, input, output, held: None })
    }

    /// The answers to the calls of each play, all streams opened anew for each.
    pub fn ask<'a>(
        &mut self,
        plays: impl Iterator<Item = (&'a Rc<[u8]>, &'a [Call])>,
    ) -> io::Result<Vec<Vec<Answer>>> {
        let mut message = Vec::new();
        let mut counts = Vec::new();
        let mut made = 0;
        for (bytes, calls) in plays {
            let before = made;
            if !self.held.as_ref().is_some_and(|held| Rc::ptr_eq(held, bytes)) {
                put(&mut message, [BYTES, bytes.len() as u64, 0, 0, 0], bytes);
                self.held = Some(Rc::clone(bytes));
                made += 1;
            }
            put(&mut message, [OPEN, 0, 0, 0, 0], &[]);
            made += 1;
            counts.push((made - before, calls.len()));
            for call in calls {
                match call {
                    Call::Feed { from, to, allowance } => {
                        put(&mut message, [FEED, 0, *from as u64, *to as u64, *allowance], &[]);
                    }
                    Call::Give(block) => put(&mut message, [GIVE, block.len() as u64, 0, 0, 0], block),
                    Call::End => put(&mut message, [END, 0, 0, 0, 0], &[]),
                    Call::FeedWay { way, from, to, allowance } => {
                        let numbers = [FEED_WAY, *way as u64, *from as u64, *to as u64, *allowance];
                        put(&mut message, numbers, &[]);
                    }
                    Call::Said => put(&mut message, [SAID, 0, 0, 0, 0], &[]),
                }
            }
            made += calls.len();
        }
        for number in [made as u64, message.len() as u64] {
            self.input.write_all(&number.to_le_bytes())?;
        }
        self.input.write_all(&message)?;
        let mut bytes = vec![0; made * size_of::<Answer>()];
        self.output.read_exact(&mut bytes)?;
        let mut answers = bytes.chunks_exact(size_of::<Answer>()).map(answer);
        // Those to opening the play come first, also where it has no call.
        let of_play = |(opening, calls): (usize, usize)| {
            let all: Vec<Answer> = answers.by_ref().take(opening + calls).collect();
            all[opening..].to_vec()
        };
        Ok(counts.into_iter().map(of_play).collect())
    }

    /// Its status once it has no more to answer.
    pub fn end(self) -> Result<(), String> {
        let Driver { mut child, input, .. } = self;
        drop(input);
        match child.wait() {
            Ok(status) if status.success() => Ok(()),
            ended => Err(format!("the driver ended with {ended:?}")),
        }
    }
}

fn put(message: &mut Vec<u8>, numbers: [u64; 5], bytes: &[u8]) {
    for number in numbers {
        message.extend(number.to_le_bytes());
    }
    message.extend(bytes);
}

fn answer(bytes: &[u8]) -> Answer {
    std::array::from_fn(|place| {
        u64::from_le_bytes(bytes[8 * place..8 * place + 8].try_into().expect("eight bytes"))
    })
}
