//! The driver of the leaves as a child: questions in batches, each with the answer that the second program gives.

use std::io::{self, Read, Write};
use std::process::{Child, ChildStdin, ChildStdout, Command, Stdio};

use second::hex;

/// The calls, by the driver's numbers.
#[derive(Clone, Copy, Debug)]
pub enum Call {
    Read,
    Settings,
    HeaderSection,
    Trailers,
    WriteInteger,
    WriteHeader,
    WriteIntegerFrame,
    WriteOpening,
    WriteGoaway,
}

/// A number, and what is left in `out`.
pub type Answer = [u64; 5];

/// What stands in `out` where a call left it; no answer is above 2^62-1.
pub const MARK: u64 = u64::MAX;

const QUESTIONS_AT_ONCE: usize = 1 << 16;
const BYTES_AT_ONCE: usize = 1 << 21;

struct Question {
    call: Call,
    place: u64,
    bytes: Vec<u8>,
    second: Answer,
}

pub struct Driver {
    child: Child,
    input: ChildStdin,
    output: ChildStdout,
    waiting: Vec<Question>,
    size: usize,
    pub compared: u64,
}

/// The first difference, or why the driver cannot be asked.
pub type Asked = Result<(), String>;

impl Driver {
    pub fn start(command: &[String]) -> Result<Driver, String> {
        let (program, arguments) = command.split_first().ok_or("usage: leaves DRIVER [ARGUMENT...]")?;
        let mut child = Command::new(program)
            .args(arguments)
            .stdin(Stdio::piped())
            .stdout(Stdio::piped())
            .spawn()
            .map_err(|error| format!("{program}: {error}"))?;
        let input = child.stdin.take().ok_or("the driver has no input")?;
        let output = child.stdout.take().ok_or("the driver has no output")?;
        Ok(Driver { child, input, output, waiting: Vec::new(), size: 0, compared: 0 })
    }

    /// Asks later, with others; `second` is the answer that is due.
    pub fn hold(&mut self, call: Call, bytes: &[u8], place: u64, second: Answer) -> Asked {
        self.size += bytes.len() + 24;
        self.waiting.push(Question { call, place, bytes: bytes.to_vec(), second });
        if self.waiting.len() == QUESTIONS_AT_ONCE || self.size > BYTES_AT_ONCE {
            self.compare()?;
        }
        Ok(())
    }

    /// Asks what waits, and compares.
    pub fn compare(&mut self) -> Asked {
        let waiting = std::mem::take(&mut self.waiting);
        let answers = self.exchange(&waiting).map_err(|error| format!("the driver: {error}"))?;
        self.size = 0;
        for (question, leaf) in waiting.iter().zip(answers) {
            if leaf != question.second {
                let Question { call, place, bytes, second } = question;
                let (bytes, leaf, second) = (hex::show(bytes), show(&leaf), show(second));
                return Err(format!(
                    "{call:?} at {place} of {bytes}: the leaf says {leaf}, the second program {second}"
                ));
            }
            self.compared += 1;
        }
        Ok(())
    }

    fn exchange(&mut self, waiting: &[Question]) -> io::Result<Vec<Answer>> {
        let mut bytes = Vec::with_capacity(self.size + 16);
        for number in [waiting.len() as u64, self.size as u64] {
            bytes.extend(number.to_le_bytes());
        }
        for question in waiting {
            for number in [question.call as u64, question.bytes.len() as u64, question.place] {
                bytes.extend(number.to_le_bytes());
            }
            bytes.extend(&question.bytes);
        }
        self.input.write_all(&bytes)?;
        let mut answers = vec![0; waiting.len() * 40];
        self.output.read_exact(&mut answers)?;
        let number = |eight: &[u8]| u64::from_le_bytes(eight.try_into().expect("eight bytes"));
        let answer = |forty: &[u8]| std::array::from_fn(|place| number(&forty[8 * place..8 * place + 8]));
        Ok(answers.chunks_exact(40).map(answer).collect())
    }

    /// Its status once it has no more to answer.
    pub fn end(self) -> Asked {
        let Driver { mut child, input, .. } = self;
        drop(input);
        match child.wait() {
            Ok(status) if status.success() => Ok(()),
            ended => Err(format!("the driver ended with {ended:?}")),
        }
    }
}

/// The number in hexadecimal, and what was put into `out`.
fn show(answer: &Answer) -> String {
    let out = answer[1..].iter().filter(|number| **number != MARK).map(|number| format!(" {number}"));
    format!("{:#06x}{}", answer[0], out.collect::<String>())
}
