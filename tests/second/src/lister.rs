//! "The lister": the frames of one request stream, every section sound and without Content-Length.

use crate::reading::{Use, What};
use crate::request_stream;

pub const INPUT_LIMIT: usize = 65_536;

/// The whole output for the whole input.
pub fn list(input: &[u8]) -> String {
    if input.len() > INPUT_LIMIT {
        return "too long\n".to_string();
    }
    let reading = request_stream::read(input, &[None, None]);
    let mut output = "offset type length use\n".to_string();
    for item in &reading.items {
        if let What::Header { kind, length, usage: Some(usage) } = item.what {
            output += &format!("{} {kind} {length} {}\n", item.start, word(usage));
        }
    }
    let verdict = match reading.fault() {
        Some(fault) => Err(fault),
        None => request_stream::end(&reading, None).map_err(|code| (input.len(), code)),
    };
    output += &match verdict {
        Ok(()) => format!("end {} whole\n", input.len()),
        Err((place, code)) => format!("refused {place} {code}\n"),
    };
    output
}

fn word(usage: Use) -> &'static str {
    match usage {
        Use::HeaderSection => "header section",
        Use::Content => "content",
        Use::Trailers => "trailers",
        Use::Skipped => "skipped",
        Use::Control => unreachable!("a request stream takes no control frames"),
    }
}
