//! What a gate is told while workers step a shared execution, as the command `work` lets them.

use crate::examples::*;
use crate::logged::Logged;
use locked_execution::{Gate, Machine, Shared};
use object_workers::run_workers;
use std::alloc::{AllocError, Global};
use std::sync::atomic::{AtomicU64, Ordering};
use std::test::Fail;

const ORDER: Ordering = Ordering::SeqCst;

/// So many numbers, each 0.
fn zeros(alloc: Global, count: usize) -> Result<Vec<AtomicU64>, AllocError> {
    let mut numbers = Vec::with_capacity(alloc, count)?;
    for _ in 0..count {
        numbers.push_reserved(AtomicU64::new(0));
    }
    Ok(numbers)
}

/// A gate that follows each worker through its turns.
#[derive(Drop)]
struct Followed {
    /// how far each worker has come: two for each turn that is over, and one more inside a turn
    moments: Vec<AtomicU64>,
    /// how often it was told of another turn than the next one of that worker, or of a worker that is not there
    astray: AtomicU64,
}

impl Followed {
    fn new(alloc: Global, workers: usize) -> Result<Followed, AllocError> {
        Ok(Followed {
            moments: zeros(alloc, workers)?,
            astray: AtomicU64::new(0),
        })
    }

    fn follow(&self, worker: u32, moment: u64) {
        let is_next = match self.moments.get(worker as usize) {
            Some(last) => last
                .compare_exchange(moment, moment + 1, ORDER, ORDER)
                .is_ok(),
            None => false,
        };
        if !is_next {
            self.astray.fetch_add(1, ORDER);
        }
    }

    /// Whether each worker was told of so many turns, from 0 on and in order, before and after each.
    fn are_all_told(&self, turns: u64) -> bool {
        for moment in self.moments.iter() {
            if moment.load(ORDER) != 2 * turns {
                return false;
            }
        }
        self.astray.load(ORDER) == 0
    }
}

impl Gate for Followed {
    fn before(&self, worker: u32, turn: u64) {
        self.follow(worker, 2 * turn);
    }

    fn after(&self, worker: u32, turn: u64) {
        self.follow(worker, 2 * turn + 1);
    }
}

#[test]
fn each_turn_of_a_loop_is_a_step(rt: HostRuntime) -> Result<(), Fail> {
    let alloc = rt.alloc();
    let machine = Machine::new(alloc, LOOP_OF_BRANCHES.checked(alloc)?)?;
    let (execution, passes) = Shared::new(alloc, machine, 4)?;
    let gate = Followed::new(alloc, 4)?;
    match execution.run_workers(&rt, alloc, passes, &gate, 25) {
        Ok(ran) if ran.lost == 0 => assert_eq!(rt; ran.stepped, 100),
        _ => return Err(Fail::from(AllocError)),
    }
    assert!(rt; gate.are_all_told(25));
    let machine = execution.finish();
    assert!(rt; machine.live_at(99).is_some());
    assert!(rt; machine.live_at(100).is_none());
    Ok(())
}

/// How often a worker looks whether no other one is at its call.
const LOOKS: u64 = 1_000_000_000;

/// A gate that lets one worker at a time make its call, so that the calls come in the order in which it is told of them.
#[derive(Drop)]
struct OneByOne {
    /// 1 while a worker is at its call
    taken: AtomicU64,
    calls: AtomicU64,
    /// the worker that made each call
    callers: Vec<AtomicU64>,
}

impl OneByOne {
    fn new(alloc: Global, calls: usize) -> Result<OneByOne, AllocError> {
        Ok(OneByOne {
            taken: AtomicU64::new(0),
            calls: AtomicU64::new(0),
            callers: zeros(alloc, calls)?,
        })
    }

    /// Whether the worker of each call has the number of the pass that made it.
    fn are_noted(&self, logged: &Logged) -> bool {
        for (place, caller) in self.callers.iter().enumerate() {
            if logged.caller(place).map(u64::from) != Some(caller.load(ORDER)) {
                return false;
            }
        }
        true
    }
}

impl Gate for OneByOne {
    fn before(&self, worker: u32, _turn: u64) {
        for _ in 0..LOOKS {
            if self.taken.compare_exchange(0, 1, ORDER, ORDER).is_ok() {
                break;
            }
        }
        let call = self.calls.fetch_add(1, ORDER);
        if let Some(caller) = self.callers.get(call as usize) {
            caller.store(u64::from(worker), ORDER);
        }
    }

    fn after(&self, _worker: u32, _turn: u64) {
        self.taken.store(0, ORDER);
    }
}

#[test]
fn a_worker_has_the_number_of_its_pass(rt: HostRuntime) -> Result<(), Fail> {
    let alloc = rt.alloc();
    let checked = LOOP_OF_BRANCHES.checked(alloc)?;
    let branches = checked.branches();
    let logged = Logged::new(alloc, checked)?;
    let (shared, passes) = locked_object::Shared::new(alloc, logged, 3)?;
    let gate = OneByOne::new(alloc, 12)?;
    match run_workers(&rt, alloc, &shared, branches, passes, &gate, 4) {
        Ok(ran) if ran.lost == 0 => {}
        _ => return Err(Fail::from(AllocError)),
    }
    let logged = shared.finish();
    assert_eq!(rt; logged.len(), 12);
    assert!(rt; gate.are_noted(&logged));
    Ok(())
}
