// The questions that standard input gives.

use debug_session::accept;
use machine::Machine;
use sharing_check::Checked;
use std::alloc::Global;
use std::io;
use trace_file::load_text;

/// A question about a description with its stimulus behind a trace.
#[derive(Clone, Copy)]
pub struct Case<'a> {
    pub name: &'a [u8],
    pub question: &'a [u8],
    pub subject: &'a [u8],
    pub source: &'a [u8],
    stimulus: &'a [u8],
    trace: &'a [u8],
}

impl<'a> Case<'a> {
    /// The system that they describe.
    pub fn checked(&self, alloc: Global) -> io::Result<Checked> {
        match accept(alloc, self.source, self.stimulus) {
            Ok(checked) => Ok(checked),
            Err(_) => Err(io::Error::other("the description is not accepted")),
        }
    }

    /// The machine behind the trace.
    pub fn machine(&self, alloc: Global) -> io::Result<Machine> {
        match load_text(alloc, self.checked(alloc)?, self.trace) {
            Ok(machine) => Ok(machine),
            Err(_) => Err(io::Error::other("the trace does not load")),
        }
    }
}

/// The first case of a text, and the text behind it. `None` at the end.
pub fn first_case(text: &[u8]) -> io::Result<Option<(Case<'_>, &[u8])>> {
    if text.is_empty() {
        return Ok(None);
    }
    match read_case(text) {
        Some(found) => Ok(Some(found)),
        None => Err(io::Error::other("standard input is no list of cases")),
    }
}

fn read_case(text: &[u8]) -> Option<(Case<'_>, &[u8])> {
    let (name, rest) = field(text, b' ')?;
    let (question, rest) = field(rest, b' ')?;
    let (subject, rest) = field(rest, b' ')?;
    let (source_length, rest) = field(rest, b' ')?;
    let (stimulus_length, rest) = field(rest, b' ')?;
    let (trace_length, rest) = field(rest, b'\n')?;
    let (source, rest) = rest.split_at_checked(number(source_length)?)?;
    let (stimulus, rest) = rest.split_at_checked(number(stimulus_length)?)?;
    let (trace, rest) = rest.split_at_checked(number(trace_length)?)?;
    let case = Case {
        name,
        question,
        subject,
        source,
        stimulus,
        trace,
    };
    Some((case, rest))
}

/// The bytes before the first `end`, and those behind it.
fn field(text: &[u8], end: u8) -> Option<(&[u8], &[u8])> {
    let at = text.iter().position(|byte| *byte == end)?;
    Some((&text[..at], &text[at + 1..]))
}

/// The number that these digits are.
pub fn number(digits: &[u8]) -> Option<usize> {
    let mut found: usize = 0;
    for digit in digits {
        if !digit.is_ascii_digit() {
            return None;
        }
        found = found
            .checked_mul(10)?
            .checked_add((*digit - b'0') as usize)?;
    }
    Some(found)
}
