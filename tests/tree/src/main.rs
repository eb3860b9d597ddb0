//! Compares the tree that is changed in place with the slow replay, on random runs of the descriptions that standard input
//! gives: after each step and after each undo, in random orders. It names the first difference of each description. Deep and
//! wide ones are made and taken back as a whole.
#![tactic(auto)]

mod cases;
mod numbered;
mod random;
mod rows;
mod session;
mod sizes;
mod states;

use cases::{Case, first_case};
use random::Random;
use rows::Rows;
use session::Session;
use std::io::{BufReader, Read};
use std::process::ExitCode;
use std::{env, io};

/// How far the runs of one seed lie from those of the next.
const SEEDS: u64 = 1_000_000;
/// How many steps and undos each run has at most, before all is taken back.
const CHANGES: u64 = 50;

/// A run of the description, of the kind that its name says.
fn run_case(rt: &HostRuntime, case: Case<'_>, seed: u64, rows: &mut Rows) -> io::Result<()> {
    let alloc = rt.alloc();
    if case.name.starts_with(b"deep") {
        sizes::deep(alloc, case.checked(alloc)?)
    } else if case.name.starts_with(b"long") {
        sizes::long(alloc, case.checked(alloc)?)
    } else if case.name.starts_with(b"wide") {
        sizes::wide(alloc, case.checked(alloc)?)
    } else {
        run(rt, case, seed, rows)
    }
}

/// A run of the description: steps and undos in random orders, and then undos of all that is left.
fn run(rt: &HostRuntime, case: Case<'_>, seed: u64, rows: &mut Rows) -> io::Result<()> {
    let mut random = Random::new(seed);
    let mut session = Session::new(rt.alloc(), case.checked(rt.alloc())?)?;
    rows.count_system(session.system());
    session.look(&mut random)?;
    // One run goes far, another turns back often.
    let undos = random.below(5);
    for _ in 0..CHANGES {
        if session.len() > 0 && random.below(10) < undos {
            session.undo(&mut random, rows)?;
            session.look_at_tree()?;
        } else if !session.step(&mut random, rows)? {
            break;
        }
        session.look(&mut random)?;
        session.step_and_undo(&mut random)?;
    }
    while session.len() > 0 {
        session.undo(&mut random, rows)?;
        session.look(&mut random)?;
        session.look_at_tree()?;
    }
    Ok(())
}

/// How many descriptions agree, and how many do not.
fn compare(rt: &HostRuntime, text: &[u8], seed: u64, rows: &mut Rows) -> io::Result<(u64, u64)> {
    let mut rest = text;
    let mut passed = 0;
    let mut failed = 0;
    while let Some((case, behind)) = first_case(rest)? {
        rest = behind;
        match run_case(rt, case, seed * SEEDS + passed + failed, rows) {
            Ok(()) => passed += 1,
            Err(error) => {
                failed += 1;
                let name = case.name.escape_ascii();
                println!(rt; "{name}: {error}")?;
            }
        }
    }
    Ok((passed, failed))
}

/// The first word behind the program's name as a number, 0 where there is none.
fn first_seed(rt: &HostRuntime) -> io::Result<u64> {
    match env::args(rt)?.nth(1) {
        Some(word) => match word.parse() {
            Ok(seed) => Ok(seed),
            Err(_) => Err(io::Error::other("the seed is no number")),
        },
        None => Ok(0),
    }
}

fn compare_all(rt: &HostRuntime) -> io::Result<bool> {
    let seed = first_seed(rt)?;
    let mut text = Vec::new(rt.alloc());
    BufReader::new(rt.alloc(), rt.stdin())?.read_to_end(&mut text)?;
    let mut rows = Rows::new();
    let (passed, mut failed) = compare(rt, text.as_slice(), seed, &mut rows)?;
    if !rows.print(rt)? {
        println!(rt; "some form or move was not met")?;
        if seed == 0 {
            failed += 1;
        }
    }
    println!(rt; "{passed} passed, {failed} failed")?;
    Ok(failed == 0)
}

fn main(rt: HostRuntime) -> ExitCode {
    match compare_all(&rt) {
        Ok(true) => ExitCode::from(0),
        Ok(false) => ExitCode::from(1),
        Err(error) => {
            let _ = eprintln!(rt; "{error}");
            ExitCode::from(1)
        }
    }
}
