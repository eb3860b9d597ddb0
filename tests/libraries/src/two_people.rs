//! The example of docs/guide/several-people.md: two people and two workers on one execution.

use debug_session::{Fault, Session, accept};
use locked_execution::{Gate, Machine, Shared};
use std::alloc::Global;
use std::sync::Wait;
use std::test::Fail;
use std::thread::{Threads, for_each_mut};

const SOURCE: &[u8] = b"procedure p is variable x, y : 8 bits begin x := 1 || y := 2 end";

/// Is told of each call of a worker, and lets all pass.
struct Unwatched;

impl Gate for Unwatched {
    fn before(&self, _worker: u32, _turn: u64) {}

    fn after(&self, _worker: u32, _turn: u64) {}
}

/// How many calls the two people made, how many steps the workers then took, and the execution when all is done.
fn two_people<R: Threads + Wait + Sync>(
    rt: &R,
    alloc: Global,
) -> Result<(u64, u64, Machine), Fault> {
    // One execution, and two passes on it.
    let checked = accept(alloc, SOURCE, b"")?;
    let machine = Machine::new(alloc, checked.clone()?)?;
    let (shared, passes) = Shared::new(alloc, machine, 2).map_err(|_| Fault::Memory)?;

    // Two people, each in a thread of their own, ask for the same step: one takes it, the other is told `refused 21`.
    let mut sessions = Vec::with_capacity(alloc, passes.len())?;
    for pass in passes {
        sessions.push_reserved(Session { pass });
    }
    for_each_mut(
        rt,
        sessions.as_mut_slice(),
        2,
        &|_, session: &mut Session| {
            let _ = session.answer(rt, alloc, &shared, &checked, b"step /0/0", 1);
        },
    );

    // Workers go on with their passes: each takes ten turns, and a turn steps a branch.
    let mut passes = Vec::with_capacity(alloc, sessions.len())?;
    let mut calls = 0;
    for session in sessions {
        let mut pass = session.pass;
        calls = shared.length(&mut pass);
        passes.push_reserved(pass);
    }
    let Ok(ran) = shared.run_workers(rt, alloc, passes, &Unwatched, 10) else {
        return Err(Fault::Memory);
    };
    Ok((calls, ran.stepped, shared.finish()))
}

#[test]
fn two_people_share_an_execution(rt: HostRuntime) -> Result<(), Fail> {
    let (calls, stepped, machine) = two_people(&rt, rt.alloc())?;
    if calls != 2 || stepped != 1 {
        // A call, a turn or an answer that had no memory.
        return Err(Fail::from(Fault::Memory));
    }
    assert!(rt; machine.live_at(1).is_some());
    assert!(rt; machine.live_at(2).is_none());
    Ok(())
}
