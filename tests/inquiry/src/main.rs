//! Answers the questions that standard input gives, about what there is, who waits, and why: each answer behind a line with the
//! name of its case. A question that begins with `timed-` is answered by how long it took, on standard error.
#![tactic(auto)]

mod cases;

use cases::{Case, first_case, number};
use machine::Machine;
use past::{Past, past_of_event, past_of_variable, write_past};
use questions::outline_text;
use std::alloc::Global;
use std::io;
use std::io::{BufReader, Read};
use std::process::ExitCode;
use std::time::Instant;
use waiting::who_waits;

/// The past of the variable of this name, or of the ticket that these digits are.
fn past(alloc: Global, machine: &Machine, subject: &[u8], all: bool) -> io::Result<Option<Past>> {
    if let Some(variable) = machine.checked().system().variable(subject) {
        return Ok(past_of_variable(alloc, machine.live_events(), variable, all)?);
    }
    match number(subject) {
        Some(ticket) => Ok(past_of_event(alloc, machine.live_events(), ticket as u64, all)?),
        None => Err(io::Error::other("no such variable, and no ticket")),
    }
}

/// The answer as text.
fn answer(alloc: Global, case: &Case<'_>, out: &mut Vec<u8>) -> io::Result<()> {
    if case.question == b"outline".as_slice() {
        let text = outline_text(alloc, &case.checked(alloc)?, case.source)?;
        out.extend_from_slice(text.as_slice())?;
        return Ok(());
    }
    let machine = case.machine(alloc)?;
    if case.question == b"waiting".as_slice() {
        who_waits(alloc, &machine)?.write_to(&machine, out)?;
        return Ok(());
    }
    match past(alloc, &machine, case.subject, case.question == b"why-all".as_slice())? {
        Some(past) => {
            let live = machine.live_events();
            write_past(alloc, out, machine.checked(), live, &past)?;
        }
        None => out.extend_from_slice(b"none\n")?,
    }
    Ok(())
}

/// How long each answer takes, in microseconds.
fn time(rt: &HostRuntime, case: &Case<'_>) -> io::Result<()> {
    let alloc = rt.alloc();
    let start = Instant::now(rt)?;
    let machine = case.machine(alloc)?;
    let loaded = start.elapsed(rt)?.as_micros();
    let start = Instant::now(rt)?;
    let told = who_waits(alloc, &machine)?;
    let waited = start.elapsed(rt)?.as_micros();
    let start = Instant::now(rt)?;
    let found = past(alloc, &machine, case.subject, true)?;
    let passed = start.elapsed(rt)?.as_micros();
    let live = machine.live_events().len();
    let sides = told.actions.len();
    let count = match found {
        Some(found) => found.events.len(),
        None => 0,
    };
    eprintln!(rt; "{live} events: load {loaded} us, waiting {waited} us ({sides}), why {passed} us ({count})")?;
    Ok(())
}

/// Answers all questions.
fn answer_all(rt: &HostRuntime) -> io::Result<()> {
    let mut text = Vec::new(rt.alloc());
    BufReader::new(rt.alloc(), rt.stdin())?.read_to_end(&mut text)?;
    let mut rest = text.as_slice();
    while let Some((case, behind)) = first_case(rest)? {
        rest = behind;
        let name = case.name.escape_ascii();
        println!(rt; "== {name}")?;
        if case.question == b"timed".as_slice() {
            time(rt, &case)?;
        } else {
            let mut out = Vec::new(rt.alloc());
            answer(rt.alloc(), &case, &mut out)?;
            for line in out.as_slice().split(|byte| *byte == b'\n') {
                let line = line.escape_ascii();
                println!(rt; "{line}")?;
            }
        }
    }
    Ok(())
}

fn main(rt: HostRuntime) -> ExitCode {
    match answer_all(&rt) {
        Ok(()) => ExitCode::from(0),
        Err(error) => {
            let _ = eprintln!(rt; "{error}");
            ExitCode::from(1)
        }
    }
}
