//! Passes on one execution, each of which could stand in a thread of its own.

use crate::examples::*;
use crate::told::place;
use calculus::{Choice, Kind, Refusal};
use locked_execution::{Command, Pass, Reply, Shared};
use machine::Machine;
use std::alloc::Global;
use std::sync::Wait;
use std::test::Fail;

/// A command in short, its place as a text.
#[derive(Clone, Copy)]
enum Asked {
    Step(&'static [u8]),
    Undo(u64),
    /// of the variable of this number
    Value(u32),
}

/// An answer in short.
#[derive(Clone, Copy)]
enum Told {
    Stepped(u64, Kind),
    Undone(u64),
    /// the bits of a value
    Value(u64),
    Refused(Refusal),
}

fn shared(alloc: Global, count: u32) -> Result<(Shared, Vec<Pass>), Fail> {
    let machine = Machine::new(alloc, BUFFER.checked(alloc)?)?;
    Ok(Shared::new(alloc, machine, count)?)
}

fn command(alloc: Global, asked: Asked) -> Result<Command, Fail> {
    Ok(match asked {
        Asked::Step(at) => Command::Step(Choice {
            place: place(alloc, at)?,
            arm: 0,
        }),
        Asked::Undo(ticket) => Command::Undo(ticket),
        Asked::Value(variable) => Command::Value(variable),
    })
}

/// Whether the pass is told so. A refusal for want of memory fails the test.
fn is_told<W: Wait>(
    rt: &W,
    alloc: Global,
    shared: &Shared,
    pass: &mut Pass,
    asked: Asked,
    told: Told,
) -> Result<bool, Fail> {
    let command = command(alloc, asked)?;
    Ok(match (shared.call(rt, pass, &command), told) {
        (Reply::Refused(Refusal::Memory), _) => return Err(Fail::from(Refusal::Memory)),
        (Reply::Stepped(ticket, event), Told::Stepped(same, kind)) => {
            ticket == same && event.kind == kind
        }
        (Reply::Undone(ticket, _), Told::Undone(same)) => ticket == same,
        (Reply::Value(value), Told::Value(bits)) => value.bits() == bits,
        (Reply::Refused(refusal), Told::Refused(same)) => refusal == same,
        _ => false,
    })
}

#[test]
fn two_passes_meet(rt: HostRuntime) -> Result<(), Fail> {
    let alloc = rt.alloc();
    let (shared, mut passes) = shared(alloc, 2)?;
    let (Some(mut one), Some(mut zero)) = (passes.pop(), passes.pop()) else {
        return Err(Fail::from("two passes"));
    };
    let first = Told::Stepped(1, Kind::Turn);
    assert!(rt; is_told(&rt, alloc, &shared, &mut zero, Asked::Step(b"/0.0"), first)?);
    assert_eq!(rt; shared.length(&mut zero), 1);
    assert_eq!(rt; shared.meet(&mut one, &mut zero), 1);
    assert!(rt;
        is_told(
            &rt,
            alloc,
            &shared,
            &mut one,
            Asked::Undo(1),
            Told::Undone(1)
        )?
    );
    assert_eq!(rt; shared.length(&mut one), 2);
    assert_eq!(rt; shared.length(&mut zero), 2);
    let again = Told::Stepped(2, Kind::Turn);
    assert!(rt; is_told(&rt, alloc, &shared, &mut zero, Asked::Step(b"/0.0"), again)?);
    let meets = Told::Stepped(3, Kind::Meet);
    assert!(rt;
        is_told(
            &rt,
            alloc,
            &shared,
            &mut zero,
            Asked::Step(b"/0.1.0"),
            meets
        )?
    );
    assert!(rt;
        is_told(
            &rt,
            alloc,
            &shared,
            &mut one,
            Asked::Value(0),
            Told::Value(5)
        )?
    );
    let machine = shared.finish();
    assert_eq!(rt; machine.next_ticket(), 4);
    Ok(())
}

#[test]
fn a_refusal_is_recorded(rt: HostRuntime) -> Result<(), Fail> {
    let alloc = rt.alloc();
    let (shared, mut passes) = shared(alloc, 1)?;
    let Some(mut pass) = passes.pop() else {
        return Err(Fail::from("a pass"));
    };
    let refused = Told::Refused(Refusal::NoSuchEvent);
    assert!(rt; is_told(&rt, alloc, &shared, &mut pass, Asked::Undo(1), refused)?);
    assert_eq!(rt; shared.length(&mut pass), 1);
    assert_eq!(rt; shared.branches(), 3);
    Ok(())
}

/// What the pass is told, by a second call where there was no memory for the first: that has recorded and changed nothing.
fn told_at_last<W: Wait>(
    rt: &W,
    shared: &Shared,
    pass: &mut Pass,
    command: &Command,
) -> Result<Reply, Fail> {
    let before = shared.length(pass);
    match shared.call(rt, pass, command) {
        Reply::Refused(Refusal::Memory) if shared.length(pass) != before => {
            Err(Fail::from("a call without memory was recorded"))
        }
        Reply::Refused(Refusal::Memory) => Ok(shared.call(rt, pass, command)),
        reply => Ok(reply),
    }
}

#[test]
fn a_call_without_memory_changes_nothing(rt: HostRuntime) -> Result<(), Fail> {
    let alloc = rt.alloc();
    let (shared, mut passes) = shared(alloc, 1)?;
    let Some(mut pass) = passes.pop() else {
        return Err(Fail::from("a pass"));
    };
    let turn = command(alloc, Asked::Step(b"/0.0"))?;
    let meet = command(alloc, Asked::Step(b"/0.1.0"))?;
    let told = told_at_last(&rt, &shared, &mut pass, &turn)?;
    assert!(rt; matches!(told, Reply::Stepped(1, event) if event.kind == Kind::Turn));
    let told = told_at_last(&rt, &shared, &mut pass, &meet)?;
    assert!(rt; matches!(told, Reply::Stepped(2, event) if event.kind == Kind::Meet));
    let told = told_at_last(&rt, &shared, &mut pass, &Command::Live)?;
    assert!(rt; matches!(told, Reply::Live(live) if live.len() == 2));
    let told = told_at_last(&rt, &shared, &mut pass, &Command::Break(1))?;
    assert!(rt; matches!(told, Reply::Done | Reply::Refused(Refusal::NoSuchLine)));
    let told = told_at_last(&rt, &shared, &mut pass, &Command::Undo(2))?;
    assert!(rt; matches!(told, Reply::Undone(2, _)));
    let told = told_at_last(&rt, &shared, &mut pass, &meet)?;
    assert!(rt; matches!(told, Reply::Stepped(3, _)));
    assert_eq!(rt; shared.length(&mut pass), 6);
    assert_eq!(rt; shared.finish().next_ticket(), 4);
    Ok(())
}

// What comes behind the first call here takes no memory, so tests/memory/run finds no allocation there to fail.
#[test]
fn lengths_and_meetings_take_no_memory(rt: HostRuntime) -> Result<(), Fail> {
    let (shared, mut passes) = shared(rt.alloc(), 2)?;
    let (Some(mut one), Some(mut zero)) = (passes.pop(), passes.pop()) else {
        return Err(Fail::from("two passes"));
    };
    let refused = Told::Refused(Refusal::NoSuchEvent);
    assert!(rt; is_told(&rt, rt.alloc(), &shared, &mut zero, Asked::Undo(1), refused)?);
    for _ in 0..100 {
        assert_eq!(rt; shared.length(&mut zero), 1);
        assert_eq!(rt; shared.meet(&mut one, &mut zero), 1);
        assert_eq!(rt; shared.meet(&mut zero, &mut one), 1);
        assert_eq!(rt; shared.length(&mut one), 1);
    }
    Ok(())
}
