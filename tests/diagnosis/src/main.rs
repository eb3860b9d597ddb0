//! Tells what `diagnosis` says of the faults that standard input lists, one behind the other.
//!
//! Each has a line of five numbers: the refusal, its field with 1 added (0 where it has none), how long the source is, which
//! other text there is (0 for none, 1 for a stimulus, 2 for a trace, 3 for a script, 4 for the name of a file that is
//! missing, 5 of a folder, 6 of one in no folder, 7 of one that may not be read, 8 of one that could not be), and how long that is. Behind the line stand the two texts. Behind each answer stands a line `----`. A refusal
//! of 0 asks for the page of the refusal whose number is the field.
#![tactic(auto)]

use diagnosis::{Input, Inputs, Unread, UnreadFile, explain};
use refusal_pages::{page_of, page_text};
use std::alloc::{AllocError, Global};
use std::io;
use std::io::Read;
use std::str;

/// The next number of a line, and what stands behind it and the byte that ends it.
fn number_of(bytes: &[u8]) -> (usize, &[u8]) {
    let mut number = 0_usize;
    for (index, byte) in bytes.iter().enumerate() {
        if !byte.is_ascii_digit() {
            return (number, bytes.get(index.saturating_add(1)..).unwrap_or(b""));
        }
        number = number
            .saturating_mul(10)
            .saturating_add(usize::from(byte.saturating_sub(b'0')));
    }
    (number, b"")
}

/// The first bytes of some, and the others.
fn cut(bytes: &[u8], length: usize) -> (&[u8], &[u8]) {
    (
        bytes.get(..length).unwrap_or(bytes),
        bytes.get(length..).unwrap_or(b""),
    )
}

/// A text under its name.
fn input<'a>(name: &'a str, bytes: &'a [u8]) -> Input<'a> {
    Input { name, bytes }
}

/// The file of this name that could not be read.
fn unread(kind: usize, name: &[u8]) -> Option<UnreadFile<'_>> {
    let name = str::from_utf8(name).ok()?;
    let why = match kind {
        4 => Unread::Missing,
        5 => Unread::IsFolder,
        6 => Unread::InNoFolder,
        7 => Unread::Forbidden,
        _ => Unread::Failed,
    };
    Some(UnreadFile { name, why })
}

/// What is told of a fault, with the other text of this kind.
fn told(
    alloc: Global,
    number: usize,
    field: usize,
    source: &[u8],
    kind: usize,
    other: &[u8],
) -> Result<String, AllocError> {
    let field = field.checked_sub(1);
    if number == 0 {
        return match page_of(field.unwrap_or(0) as u32 % 100) {
            Some(page) => page_text(alloc, page),
            None => String::from_str(alloc, "no page\n"),
        };
    }
    let mut inputs = Inputs {
        source: input("p.balsa", source),
        stimulus: None,
        trace: None,
        script: None,
        unread: None,
    };
    match kind {
        1 => inputs.stimulus = Some(input("p.stimulus", other)),
        2 => inputs.trace = Some(input("p.trace", other)),
        3 => inputs.script = Some(input("standard input", other)),
        4..=8 => inputs.unread = unread(kind, other),
        _ => {}
    }
    explain(
        alloc,
        (number % 100) as u32,
        field.map(|one| one as u64),
        &inputs,
    )
}

fn main(rt: HostRuntime) -> io::Result<()> {
    let mut bytes = Vec::new(rt.alloc());
    let mut stdin = rt.stdin();
    stdin.read_to_end(&mut bytes)?;
    let mut rest = bytes.as_slice();
    for _ in 0..100_000 {
        if rest.is_empty() {
            return Ok(());
        }
        let (number, behind) = number_of(rest);
        let (field, behind) = number_of(behind);
        let (length, behind) = number_of(behind);
        let (kind, behind) = number_of(behind);
        let (other_length, behind) = number_of(behind);
        let (source, behind) = cut(behind, length);
        let (other, behind) = cut(behind, other_length);
        rest = behind;
        match told(rt.alloc(), number, field, source, kind, other) {
            Ok(text) => print!(rt; "{text}")?,
            Err(_) => print!(rt; "memory\n")?,
        }
        print!(rt; "----\n")?;
    }
    Ok(())
}
