//! Compares `Live` with a scan of all live events: on the first steps of two buffers, and on random lists of events with
//! random takes. It names the first answer that differs.
#![tactic(auto)]

mod buffers;
mod random;
mod scan;
mod session;
mod threads;

use session::Session;
use std::process::ExitCode;
use std::{env, io};

/// How many short lists there are, each looked at as a whole after each change.
const SHORT_LISTS: u64 = 12;
/// How many events are added or taken in a short list.
const SHORT: u64 = 50;
/// How many events are added or taken in the long list.
const LONG: u64 = 2_000;
/// After so many changes of the long list some of its last events are looked at.
const LOOK_EACH: u64 = 50;
/// How many.
const LOOKS: u64 = 3;
/// Among so many.
const LAST: usize = 150;
/// After so many changes of it one of all its events is looked at.
const LOOK_BACK_EACH: u64 = 500;

/// Changes a list and looks at all of it each time.
fn short_list(rt: &HostRuntime, seed: u64) -> io::Result<()> {
    let mut session = Session::new(rt.alloc(), seed)?;
    for _ in 0..SHORT {
        session.change()?;
        session.look_at_all()?;
        session.look_at_order()?;
    }
    Ok(())
}

/// Changes a list and looks at some of its events now and then.
fn long_list(rt: &HostRuntime, seed: u64) -> io::Result<()> {
    let mut session = Session::new(rt.alloc(), seed)?;
    for change in 1..=LONG {
        session.change()?;
        if change % LOOK_EACH == 0 {
            session.look_at_some(LOOKS, LAST)?;
        }
        if change % LOOK_BACK_EACH == 0 {
            session.look_at_some(1, usize::MAX)?;
            session.look_at_order()?;
        }
    }
    Ok(())
}

/// The first word behind the program's name as a number, 0 where there is none.
fn first_seed(rt: &HostRuntime) -> io::Result<u64> {
    match env::args(rt)?.nth(1) {
        Some(word) => match word.parse() {
            Ok(seed) => Ok(seed),
            Err(_) => Err(io::Error::other("the seed is no number")),
        },
        None => Ok(0),
    }
}

/// All comparisons; how many lists there were.
fn compare(rt: &HostRuntime) -> io::Result<u64> {
    let seed = first_seed(rt)?;
    buffers::first_steps(rt.alloc())?;
    for list in 0..SHORT_LISTS {
        short_list(rt, seed + list)?;
    }
    long_list(rt, seed + SHORT_LISTS)?;
    Ok(SHORT_LISTS + 2)
}

fn main(rt: HostRuntime) -> ExitCode {
    match compare(&rt) {
        Ok(lists) => {
            let _ = println!(rt; "{lists} lists agree");
            ExitCode::from(0)
        }
        Err(error) => {
            let _ = eprintln!(rt; "{error}");
            ExitCode::from(1)
        }
    }
}
