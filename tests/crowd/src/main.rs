//! Sixteen workers and then sixteen sessions on one execution of a row of buffers, and the same commands once more on a desk of
//! one thread.
#![tactic(auto)]

mod crowd;
mod logged;
mod random;

use crowd::{Crowd, Found, found};
use debug_session::accept;
use sharing_check::Checked;
use std::alloc::Global;
use std::io::Write;
use std::process::ExitCode;
use std::{env, io};

/// How many buffers stand in a row.
const BUFFERS: u32 = 48;
/// How many values come in.
const VALUES: u32 = 300;

/// Buffers in a row, each with a channel to the next.
fn source(alloc: Global) -> io::Result<Vec<u8>> {
    let mut text = Vec::new(alloc);
    text.write_all(b"procedure one (input i : 8 bits ; output o : 8 bits) is\n")?;
    text.write_all(b"variable x : 8 bits begin loop i -> x ; o <- x end end\n")?;
    text.write_all(b"procedure row (input c0 : 8 bits ; output ")?;
    writeln!(text, "c{BUFFERS} : 8 bits) is")?;
    for k in 1..BUFFERS {
        writeln!(text, "channel c{k} : 8 bits")?;
    }
    text.write_all(b"begin\n")?;
    for k in 0..BUFFERS {
        let next = k + 1;
        let between = if next == BUFFERS { "end" } else { "||" };
        writeln!(text, "one (c{k}, c{next}) {between}")?;
    }
    Ok(text)
}

fn stimulus(alloc: Global) -> io::Result<Vec<u8>> {
    let mut text = Vec::new(alloc);
    text.write_all(b"c0 =")?;
    for k in 0..VALUES {
        write!(text, " {}", k % 256)?;
    }
    Ok(text)
}

fn row(alloc: Global) -> io::Result<Checked> {
    let source = source(alloc)?;
    let stimulus = stimulus(alloc)?;
    match accept(alloc, source.as_slice(), stimulus.as_slice()) {
        Ok(checked) => Ok(checked),
        Err(_) => Err(io::Error::other("the row of buffers is refused")),
    }
}

/// The word of this place behind the program's name as a number.
fn number(rt: &HostRuntime, place: usize) -> io::Result<u64> {
    match env::args(rt)?.nth(place) {
        Some(word) => match word.parse() {
            Ok(number) => Ok(number),
            Err(_) => Err(io::Error::other("a word is no number")),
        },
        None => Err(io::Error::other("turns, rounds and a seed are wanted")),
    }
}

/// What the words behind the program's name ask for.
fn asked(rt: &HostRuntime) -> io::Result<Crowd> {
    Ok(Crowd {
        people: 16,
        turns: number(rt, 1)?,
        rounds: number(rt, 2)?,
        seed: number(rt, 3)?,
    })
}

/// Tells what was found, and whether all of it agrees.
fn tell(rt: &HostRuntime, found: Found) -> io::Result<bool> {
    println!(rt;
        "workers: {} calls, {} steps, {} lost",
        found.worked, found.stepped, found.lost
    )?;
    println!(rt; "in all: {} calls", found.noted)?;
    println!(rt; "each session has its own calls: {}", found.each_its_own)?;
    println!(rt; "all lengths agree: {}", found.lengths_agree)?;
    if let Some(place) = found.differs {
        println!(rt; "call {place} is answered otherwise")?;
    }
    let agrees = found.each_its_own && found.lengths_agree && found.differs.is_none();
    Ok(agrees && found.lost == 0)
}

fn main(rt: HostRuntime) -> io::Result<ExitCode> {
    let crowd = asked(&rt)?;
    let checked = row(rt.alloc())?;
    let found = found(&rt, rt.alloc(), checked, crowd)?;
    if tell(&rt, found)? {
        println!(rt; "all agree")?;
        return Ok(ExitCode::from(0));
    }
    Ok(ExitCode::from(1))
}
