//! Undo, roll, blame and roll_value behind steps, one after the other. What memory the calls themselves ask for may be
//! wanting (`tests/memory/run`), but they ask for none.

use crate::examples::*;
use crate::told::place;
use calculus::{Choice, Refusal};
use machine::Machine;
use std::alloc::Global;
use std::process::Abort;
use std::test::Fail;

/// A call in short.
#[derive(Clone, Copy)]
pub enum Asked {
    Undo(u64),
    Roll(u64),
    /// of the variable of this number
    RollValue(u32),
    Blame(u32),
}

/// An answer in short.
#[derive(Clone, Copy, Debug, PartialEq, Eq)]
pub enum Told {
    Undone(u64),
    Rolled(u64),
    Blamed(u64),
    Refused(Refusal),
}

/// Calls with their answers, and the tickets that are live behind each.
pub type Calls = &'static [(Asked, Told, &'static [u64])];

/// The places of steps, with their arms.
pub type Steps = &'static [(&'static str, u32)];

pub fn begun(alloc: Global, example: Example, steps: Steps) -> Result<Machine, Fail> {
    let mut machine = Machine::new(alloc, example.checked(alloc)?)?;
    for (at, arm) in steps {
        let place = place(alloc, at.as_bytes())?;
        if let Err(refusal) = machine.step(&Choice { place, arm: *arm }) {
            return Err(Fail::from(refusal));
        }
    }
    Ok(machine)
}

fn ask(machine: &mut Machine, asked: Asked) -> Result<Told, Refusal> {
    match asked {
        Asked::Undo(ticket) => machine.undo(ticket).map(|_| Told::Undone(ticket)),
        Asked::Roll(ticket) => rollback::roll(machine, ticket).map(Told::Rolled),
        Asked::RollValue(variable) => rollback::roll_value(machine, variable).map(Told::Rolled),
        Asked::Blame(variable) => rollback::blame(machine, variable).map(Told::Blamed),
    }
}

/// What was answered, a refusal too.
fn told(answer: Result<Told, Refusal>) -> Told {
    match answer {
        Ok(told) => told,
        Err(refusal) => Told::Refused(refusal),
    }
}

/// Whether the live events have these tickets.
fn are_live(machine: &Machine, tickets: &[u64]) -> bool {
    for (at, ticket) in tickets.iter().enumerate() {
        if !matches!(machine.live_at(at as u64), Some((live, _)) if live == *ticket) {
            return false;
        }
    }
    machine.live_at(tickets.len() as u64).is_none()
}

/// Asks one call after the other.
pub fn look(rt: &impl Abort, machine: &mut Machine, calls: Calls) {
    for (asked, expected, left) in calls {
        assert_eq!(rt; told(ask(machine, *asked)), *expected);
        assert!(rt; are_live(machine, left));
    }
}

#[test]
fn steps_are_undone_the_last_first(rt: HostRuntime) -> Result<(), Fail> {
    let steps = &[("/0.0", 0), ("/0.1.0", 0), ("/2.0", 0)];
    let mut machine = begun(rt.alloc(), BUFFER, steps)?;
    let calls: Calls = &[
        (
            Asked::Undo(2),
            Told::Refused(Refusal::NeededBy(3)),
            &[1, 2, 3],
        ),
        (
            Asked::Undo(1),
            Told::Refused(Refusal::NeededBy(2)),
            &[1, 2, 3],
        ),
        (Asked::Undo(3), Told::Undone(3), &[1, 2]),
        (Asked::Blame(0), Told::Blamed(2), &[1, 2]),
        (Asked::Undo(2), Told::Undone(2), &[1]),
        (Asked::Blame(0), Told::Refused(Refusal::NeverWritten), &[1]),
        (Asked::Undo(1), Told::Undone(1), &[]),
        (Asked::Undo(1), Told::Refused(Refusal::NoSuchEvent), &[]),
    ];
    look(&rt, &mut machine, calls);
    Ok(())
}

/// Both loops turn, the first buffer receives, and hands its value on.
pub const IN_ROW: Steps = &[
    ("/0/0.0", 0),
    ("/0/1.0", 0),
    ("/0/0.1.0", 0),
    ("/0/1.1.0", 0),
];

#[test]
fn a_rollback_takes_what_depends_on_it(rt: HostRuntime) -> Result<(), Fail> {
    let mut machine = begun(rt.alloc(), TWO_BUFFERS, IN_ROW)?;
    let calls: Calls = &[
        (Asked::Blame(1), Told::Blamed(4), &[1, 2, 3, 4]),
        (
            Asked::Undo(2),
            Told::Refused(Refusal::NeededBy(4)),
            &[1, 2, 3, 4],
        ),
        (Asked::Roll(2), Told::Rolled(2), &[1, 3]),
        (Asked::Blame(0), Told::Blamed(3), &[1, 3]),
        (
            Asked::Blame(1),
            Told::Refused(Refusal::NeverWritten),
            &[1, 3],
        ),
        (Asked::RollValue(0), Told::Rolled(1), &[1]),
        (Asked::Roll(3), Told::Refused(Refusal::NoSuchEvent), &[1]),
    ];
    look(&rt, &mut machine, calls);
    Ok(())
}

#[test]
fn a_rollback_of_a_value_takes_what_read_it(rt: HostRuntime) -> Result<(), Fail> {
    let mut machine = begun(rt.alloc(), TWO_BUFFERS, IN_ROW)?;
    let calls: Calls = &[
        (Asked::RollValue(0), Told::Rolled(2), &[1, 2]),
        (
            Asked::RollValue(0),
            Told::Refused(Refusal::NeverWritten),
            &[1, 2],
        ),
        (Asked::Undo(1), Told::Undone(1), &[2]),
        (Asked::Roll(2), Told::Rolled(1), &[]),
    ];
    look(&rt, &mut machine, calls);
    Ok(())
}

#[test]
fn what_an_arm_did_holds_its_open(rt: HostRuntime) -> Result<(), Fail> {
    let mut machine = begun(rt.alloc(), FORK, &[("/0.0.0", 0), ("/2.0", 0)])?;
    let calls: Calls = &[
        (Asked::Undo(1), Told::Refused(Refusal::NeededBy(2)), &[1, 2]),
        (Asked::Roll(1), Told::Rolled(2), &[]),
    ];
    look(&rt, &mut machine, calls);
    Ok(())
}

#[test]
fn an_opened_arm_is_undone(rt: HostRuntime) -> Result<(), Fail> {
    let mut machine = begun(rt.alloc(), ARBITER, &[("/0.0", 1)])?;
    let calls: Calls = &[
        (Asked::Undo(1), Told::Undone(1), &[]),
        (Asked::Roll(1), Told::Refused(Refusal::NoSuchEvent), &[]),
    ];
    look(&rt, &mut machine, calls);
    Ok(())
}

#[test]
fn a_branch_is_undone_behind_another(rt: HostRuntime) -> Result<(), Fail> {
    let steps = &[("/0.0", 0), ("/0.1/0", 0), ("/0.1/1", 0), ("/0.2", 0)];
    let mut machine = begun(rt.alloc(), LOOP_OF_BRANCHES, steps)?;
    let calls: Calls = &[
        (
            Asked::Undo(2),
            Told::Refused(Refusal::NeededBy(4)),
            &[1, 2, 3, 4],
        ),
        (Asked::Undo(4), Told::Undone(4), &[1, 2, 3]),
        (Asked::Undo(2), Told::Undone(2), &[1, 3]),
        (Asked::Blame(1), Told::Blamed(3), &[1, 3]),
        (Asked::Roll(1), Told::Rolled(2), &[]),
    ];
    look(&rt, &mut machine, calls);
    Ok(())
}

#[test]
fn the_last_write_is_rolled_back_first(rt: HostRuntime) -> Result<(), Fail> {
    let mut machine = begun(rt.alloc(), TWO_WRITES, &[("/0.0", 0), ("/0.1", 0)])?;
    let calls: Calls = &[
        (Asked::Blame(0), Told::Blamed(2), &[1, 2]),
        (Asked::RollValue(0), Told::Rolled(1), &[1]),
        (Asked::Blame(0), Told::Blamed(1), &[1]),
        (Asked::RollValue(0), Told::Rolled(1), &[]),
        (
            Asked::RollValue(0),
            Told::Refused(Refusal::NeverWritten),
            &[],
        ),
        (Asked::Blame(1), Told::Refused(Refusal::NeverWritten), &[]),
    ];
    look(&rt, &mut machine, calls);
    Ok(())
}

#[test]
fn a_test_depends_on_what_it_reads(rt: HostRuntime) -> Result<(), Fail> {
    let steps = &[
        ("/0.0", 0),
        ("/0.1", 0),
        ("/0.2", 0),
        ("/0.3", 0),
        ("/0.4", 0),
    ];
    let mut machine = begun(rt.alloc(), COUNTER, steps)?;
    let calls: Calls = &[
        (Asked::Undo(5), Told::Undone(5), &[1, 2, 3, 4]),
        (Asked::RollValue(0), Told::Rolled(1), &[1, 2, 3]),
        (
            Asked::Undo(2),
            Told::Refused(Refusal::NeededBy(3)),
            &[1, 2, 3],
        ),
        (Asked::RollValue(0), Told::Rolled(2), &[1]),
        (Asked::Undo(1), Told::Undone(1), &[]),
    ];
    look(&rt, &mut machine, calls);
    Ok(())
}
