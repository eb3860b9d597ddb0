//! Workers in threads of their own on one execution.

ghost use Rattle.std.specs.Prelude.{◌≤◌, ◌^◌};

use crate::examples::*;
use locked_execution::{Command, Desk, Gate, Pass, Ran, Reply, Shared};
use machine::Machine;
use std::alloc::{AllocError, Global};
use std::sync::Wait;
use std::sync::atomic::{AtomicU64, Ordering};
use std::test::Fail;
use std::thread::Threads;

/// Nobody is told of calls.
struct Open;

impl Gate for Open {
    fn before(&self, _worker: u32, _turn: u64) {}

    fn after(&self, _worker: u32, _turn: u64) {}
}

/// How often the first worker looks whether another one was answered.
const LOOKS: u64 = 1_000_000_000;

/// Holds the worker that comes first before its call, until another one was answered.
#[derive(Drop)]
struct Holding {
    /// the worker that came first, its number plus one, and 0 before
    first: AtomicU64,
    /// 1 once another worker was answered
    answered: AtomicU64,
    /// 1 once the first worker has seen that
    seen: AtomicU64,
}

impl Holding {
    fn new() -> Holding {
        Holding {
            first: AtomicU64::new(0),
            answered: AtomicU64::new(0),
            seen: AtomicU64::new(0),
        }
    }

    fn was_seen(&self) -> bool {
        self.seen.load(Ordering::SeqCst) == 1
    }
}

/// The worker as the gate notes it.
fn noted(worker: u32) -> u64 {
    u64::from(worker) + 1
}

impl Gate for Holding {
    fn before(&self, worker: u32, _turn: u64) {
        let order = Ordering::SeqCst;
        let came = self.first.compare_exchange(0, noted(worker), order, order);
        if came.is_err() {
            return;
        }
        for _ in 0..LOOKS {
            if self.answered.load(order) == 1 {
                self.seen.store(1, order);
                return;
            }
        }
    }

    fn after(&self, worker: u32, _turn: u64) {
        if self.first.load(Ordering::SeqCst) != noted(worker) {
            self.answered.store(1, Ordering::SeqCst);
        }
    }
}

fn shared(alloc: Global, count: u32) -> Result<(Shared, Vec<Pass>), Fail>
    requires { count ≤ 16 }
{
    let machine = Machine::new(alloc, BUFFER.checked(alloc)?)?;
    Ok(Shared::new(alloc, machine, count)?)
}

/// So many workers take so many turns. A turn that was lost fails the test, since there was no memory for it.
fn ran<W: Threads + Wait + Sync, G: Gate>(
    rt: &W,
    alloc: Global,
    count: u32,
    gate: &G,
    turns: u64,
) -> Result<(Shared, Ran<Desk, Command, Reply>), Fail>
    requires count { count ≤ 16 }
    requires turns { turns ≤ 2 ^ 57 }
{
    let (shared, passes) = shared(alloc, count)?;
    match shared.run_workers(rt, alloc, passes, gate, turns) {
        Ok(ran) if ran.lost == 0 => Ok((shared, ran)),
        _ => Err(Fail::from(AllocError)),
    }
}

/// That the passes are in their order, and that this many calls are recorded, as each of them finds.
fn are_behind(shared: &Shared, passes: &mut [Pass], calls: u64) -> bool {
    for (place, pass) in passes.iter_mut().enumerate() {
        if pass.number() as usize != place || shared.length(pass) != calls {
            return false;
        }
    }
    true
}

fn live(machine: &Machine) -> u64 {
    let mut count = 0;
    while count < 1000 && machine.live_at(count).is_some() {
        count += 1;
    }
    count
}

#[test]
fn one_worker_steps_to_the_end(rt: HostRuntime) -> Result<(), Fail> {
    let (shared, mut ran) = ran(&rt, rt.alloc(), 1, &Open, 30)?;
    assert_eq!(rt; ran.stepped, 7);
    assert_eq!(rt; ran.passes.len(), 1);
    assert!(rt; are_behind(&shared, ran.passes.as_mut_slice(), 30));
    assert_eq!(rt; live(&shared.finish()), 7);
    Ok(())
}

#[test]
fn four_workers_step_to_the_end(rt: HostRuntime) -> Result<(), Fail> {
    let (shared, mut ran) = ran(&rt, rt.alloc(), 4, &Open, 100)?;
    assert_eq!(rt; ran.passes.len(), 4);
    assert!(rt; are_behind(&shared, ran.passes.as_mut_slice(), 400));
    assert!(rt; ran.stepped <= 7);
    assert_eq!(rt; ran.stepped, live(&shared.finish()));
    Ok(())
}

#[test]
fn no_worker_and_no_turn(rt: HostRuntime) -> Result<(), Fail> {
    let (_, none) = ran(&rt, rt.alloc(), 0, &Open, 30)?;
    assert_eq!(rt; none.passes.len(), 0);
    assert_eq!(rt; none.stepped, 0);
    let (shared, mut still) = ran(&rt, rt.alloc(), 2, &Open, 0)?;
    assert_eq!(rt; still.passes.len(), 2);
    assert!(rt; are_behind(&shared, still.passes.as_mut_slice(), 0));
    assert_eq!(rt; still.stepped + live(&shared.finish()), 0);
    Ok(())
}

#[test]
fn two_workers_run_at_once(rt: HostRuntime) -> Result<(), Fail> {
    let gate = Holding::new();
    let (shared, mut ran) = ran(&rt, rt.alloc(), 2, &gate, 30)?;
    assert!(rt; gate.was_seen());
    assert!(rt; are_behind(&shared, ran.passes.as_mut_slice(), 60));
    Ok(())
}

#[test]
fn without_memory_passes_come_back(rt: HostRuntime) -> Result<(), Fail> {
    let (shared, passes) = shared(rt.alloc(), 4)?;
    let mut ran = match shared.run_workers(&rt, rt.alloc(), passes, &Open, 30) {
        Ok(ran) => ran,
        Err((mut passes, _)) => {
            assert_eq!(rt; passes.len(), 4);
            assert!(rt; are_behind(&shared, passes.as_mut_slice(), 0));
            match shared.run_workers(&rt, rt.alloc(), passes, &Open, 30) {
                Ok(ran) => ran,
                Err(_) => return Err(Fail::from(AllocError)),
            }
        }
    };
    assert!(rt; are_behind(&shared, ran.passes.as_mut_slice(), 120 - ran.lost));
    assert_eq!(rt; ran.stepped, live(&shared.finish()));
    Ok(())
}
