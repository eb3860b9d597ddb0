//! A client of the execution that several share and of its workers, written as the one of `from_the_specification` is.

use crate::from_the_specification::{BUFFER, FED, TWO_BUFFERS, checked, choice};
use crate::from_the_specification_events::{FOUR_STEPS, acts_at, machine_behind, tickets};
use branch_workers::{Gate, run_workers};
use calculus::{Event, replay};
use debug_session::{Line, write_reply};
use locked_execution::{Board, Command, Desk, Keeper, Pass, Reply, Shared, run_commands};
use machine::{Machine, Refusal};
use std::sync::atomic::{self, AtomicU64};
use std::test::Fail;
use value::Value;

#[test]
fn a_desk_keeps_the_breakpoints_of_each_session(rt: HostRuntime) -> Result<(), Fail> {
    let alloc = rt.alloc();
    let mut desk = Desk::new(machine_behind(alloc, BUFFER, FED, &[])?);
    for (session, command, number) in [
        (0, Command::Break(1), 28),
        (0, Command::Break(0), 28),
        (15, Command::Undo(1), 23),
        (15, Command::Roll(1), 23),
        (15, Command::Consequences(1), 23),
        (1, Command::Value(7), 25),
        (1, Command::Blame(7), 25),
        (1, Command::RollValue(7), 25),
    ] {
        let reply = desk.perform(session, &command);
        assert!(rt;
            matches!(reply, Reply::Refused(refusal) if refusal.number() == number),
            "{number}"
        );
    }
    assert!(rt; matches!(desk.perform(0, &Command::Break(2)), Reply::Done));
    assert!(rt; matches!(desk.perform(0, &Command::Branch(0)), Reply::Stopped(2)));
    assert!(rt; matches!(desk.perform(1, &Command::Branch(0)), Reply::Stepped(1, _)));
    assert!(rt; matches!(desk.perform(1, &Command::Branch(1)), Reply::Idle));
    assert!(rt; matches!(desk.perform(1, &Command::Branch(9)), Reply::Idle));
    assert!(rt; matches!(desk.perform(0, &Command::Clear(2)), Reply::Done));
    assert!(rt; matches!(desk.perform(0, &Command::Branch(0)), Reply::Stepped(2, _)));
    assert!(rt; matches!(desk.perform(0, &Command::Blame(0)), Reply::Blamed(2)));
    assert!(rt;
        matches!(
            desk.perform(2, &Command::Value(0)),
            Reply::Value(Value { bits: 5, width: 8 })
        )
    );
    assert!(rt; matches!(desk.perform(2, &Command::RollValue(0)), Reply::Rolled(1)));
    assert!(rt; matches!(desk.perform(2, &Command::Undo(1)), Reply::Undone(1, _)));
    assert!(rt; matches!(desk.perform(2, &Command::Ready), Reply::Ready(list) if list.len() == 1));
    assert!(rt; matches!(desk.perform(2, &Command::Live), Reply::Live(list) if list.is_empty()));
    Ok(())
}

#[test]
fn a_desk_refuses_one_breakpoint_too_many(rt: HostRuntime) -> Result<(), Fail> {
    let alloc = rt.alloc();
    let mut source = String::from_str(alloc, "procedure p is begin\n")?;
    for _ in 0..64 {
        source.push_str("continue ;\n")?;
    }
    source.push_str("continue\nend\n")?;
    let mut desk = Desk::new(machine_behind(alloc, source.as_str(), "", &[])?);
    for line in 2..66 {
        assert!(rt;
            matches!(desk.perform(0, &Command::Break(line)), Reply::Done),
            "{line}"
        );
    }
    let full = desk.perform(0, &Command::Break(66));
    assert!(rt; matches!(full, Reply::Refused(Refusal::BreaksFull)));
    assert!(rt; matches!(desk.perform(0, &Command::Break(2)), Reply::Done));
    let none = desk.perform(0, &Command::Break(1));
    assert!(rt; matches!(none, Reply::Refused(Refusal::NoSuchLine)));
    assert!(rt; matches!(desk.perform(1, &Command::Break(66)), Reply::Done));
    assert!(rt; matches!(desk.perform(0, &Command::Clear(2)), Reply::Done));
    assert!(rt; matches!(desk.perform(0, &Command::Clear(2)), Reply::Done));
    assert!(rt; matches!(desk.perform(0, &Command::Break(66)), Reply::Done));
    Ok(())
}

#[test]
fn one_list_of_commands_gives_a_reply_each(rt: HostRuntime) -> Result<(), Fail> {
    let alloc = rt.alloc();
    let checked = checked(alloc, TWO_BUFFERS, FED)?;
    let x = checked.variable(b"1:x").ok_or("no variable")?;
    let mut desk = Desk::new(Machine::new(alloc, checked.clone()?)?);
    let mut commands: Vec<(u32, Command)> = Vec::new(alloc);
    for step in FOUR_STEPS {
        commands.push((0, Command::Step(choice(alloc, step)?)))?;
    }
    commands.push((0, Command::Consequences(3)))?;
    commands.push((0, Command::Value(x)))?;
    commands.push((0, Command::Roll(3)))?;
    commands.push((0, Command::Live))?;
    commands.push((0, Command::Value(x)))?;
    let replies: Vec<Reply> = run_commands(alloc, &mut desk, commands.as_slice())?;
    let [
        Reply::Stepped(1, _),
        Reply::Stepped(2, _),
        Reply::Stepped(3, third),
        Reply::Stepped(4, _),
        Reply::Consequences(needing),
        Reply::Value(Value { bits: 5, width: 8 }),
        Reply::Rolled(2),
        Reply::Live(live),
        Reply::Value(Value { bits: 0, width: 8 }),
    ] = replies.as_slice()
    else {
        return Err(Fail::new("another list of replies"));
    };
    assert!(rt; acts_at(alloc, third, "/0/0.1.0")?);
    assert!(rt; needing.as_slice() == [3, 4].as_slice());
    assert_eq!(rt; live.len(), 2);
    let mut text = Vec::new(alloc);
    for ((_, command), reply) in commands.into_iter().zip(replies.iter()) {
        let line = Line::Asked(command);
        text.extend_from_slice(write_reply(alloc, &checked, &line, reply)?.as_slice())?;
    }
    let transcript = b"step 1 turn /0/0.0\nstep 2 turn /0/1.0\nstep 3 meet i 5 /1.0.0 /0/0.1.0\n\
        step 4 meet c 5 /0/0.1.1.0 /0/1.1.0\nconsequences 3 4\nvalue 1:x 5\nrolled 2\nlive 2\n  1 turn /0/0.0\n  \
        2 turn /0/1.0\nvalue 1:x 0\n";
    assert!(rt; text.as_slice() == transcript.as_slice());
    Ok(())
}

#[test]
fn what_a_list_of_commands_did_is_a_run(rt: HostRuntime) -> Result<(), Fail> {
    let alloc = rt.alloc();
    let checked = checked(alloc, TWO_BUFFERS, FED)?;
    let mut desk = Desk::new(Machine::new(alloc, checked.clone()?)?);
    let mut commands: Vec<(u32, Command)> = Vec::new(alloc);
    for (session, step) in (0..16).zip(FOUR_STEPS) {
        commands.push((session, Command::Step(choice(alloc, step)?)))?;
    }
    let mut events: Vec<Event> = Vec::new(alloc);
    for reply in run_commands(alloc, &mut desk, commands.as_slice())? {
        let Reply::Stepped(_, event) = reply else {
            return Err(Fail::new("a step was refused"));
        };
        events.push(event)?;
    }
    assert_eq!(rt; events.len(), 4);
    assert!(rt; replay(alloc, &checked, events.as_slice())?.is_some());
    assert!(rt; run_commands(alloc, &mut desk, &[])?.is_empty());
    Ok(())
}

#[test]
fn two_passes_share_one_history(rt: HostRuntime) -> Result<(), Fail> {
    let alloc = rt.alloc();
    let (shared, passes): (Shared, Vec<Pass>) = Shared::new(
        alloc,
        machine_behind(alloc, BUFFER, FED, &[])?,
        2,
    )?;
    assert_eq!(rt; passes.len(), 2);
    assert_eq!(rt; shared.branches(), 3);
    let mut passes = passes.into_iter();
    let mut first = passes.next().ok_or("no pass")?;
    let mut second = passes.next().ok_or("no pass")?;
    let turn = Command::Step(choice(alloc, "/0.0")?);
    assert!(rt;
        matches!(shared.call(&rt, &mut first, &turn), Reply::Stepped(1, event) if acts_at(alloc, &event, "/0.0")?)
    );
    assert_eq!(rt; shared.length(&mut first), 1);
    assert_eq!(rt; shared.meet(&mut second, &mut first), 1);
    assert!(rt;
        matches!(
            shared.call(&rt, &mut second, &Command::Undo(1)),
            Reply::Undone(1, _)
        )
    );
    assert_eq!(rt; shared.length(&mut second), 2);
    assert_eq!(rt; shared.length(&mut first), 2);
    assert!(rt; matches!(shared.call(&rt, &mut first, &turn), Reply::Stepped(2, _)));
    // A refused command is recorded too.
    assert!(rt;
        matches!(
            shared.call(&rt, &mut second, &turn),
            Reply::Refused(Refusal::NotReady)
        )
    );
    assert_eq!(rt; shared.length(&mut first), 4);
    let meet = Command::Step(choice(alloc, "/0.1.0")?);
    assert!(rt; matches!(shared.call(&rt, &mut first, &meet), Reply::Stepped(3, _)));
    let five = Value { bits: 5, width: 8 };
    assert!(rt;
        matches!(shared.call(&rt, &mut second, &Command::Value(0)), Reply::Value(value) if value == five)
    );
    assert_eq!(rt; shared.meet(&mut first, &mut second), 6);
    let machine = shared.finish();
    assert!(rt; tickets(alloc, &machine)?.as_slice() == [2, 3].as_slice());
    Ok(())
}

#[test]
fn a_keeper_performs_for_its_passes(rt: HostRuntime) -> Result<(), Fail> {
    let alloc = rt.alloc();
    let (shared, passes) = Shared::new(alloc, machine_behind(alloc, BUFFER, FED, &[])?, 16)?;
    assert_eq!(rt; passes.len(), 16);
    let (board, mut keeper): (Board, Keeper) = shared.into_keeper(&rt);
    let turn = Command::Step(choice(alloc, "/0.0")?);
    let mut taken = 0;
    for mut pass in passes {
        match keeper.perform(&board, &mut pass, &turn) {
            Reply::Stepped(1, _) => taken += 1,
            Reply::Refused(Refusal::NotReady) => {}
            _ => return Err(Fail::new("another reply")),
        }
        // Each session has breakpoints of its own.
        assert!(rt;
            matches!(
                keeper.perform(&board, &mut pass, &Command::Branch(0)),
                Reply::Stepped(..) | Reply::Idle
            )
        );
        assert!(rt;
            matches!(
                keeper.perform(&board, &mut pass, &Command::Break(2)),
                Reply::Done
            )
        );
    }
    assert_eq!(rt; taken, 1);
    let machine = keeper.into_machine();
    assert!(rt; tickets(alloc, &machine)?.as_slice() == [1, 2].as_slice());
    Ok(())
}

/// A gate that counts.
#[derive(Drop)]
struct Counts {
    before: AtomicU64,
    after: AtomicU64,
    /// calls by a worker or of a turn that there is not
    others: AtomicU64,
    workers: u32,
    turns: u64,
}

impl Counts {
    fn new(workers: u32, turns: u64) -> Counts {
        Counts {
            before: AtomicU64::new(0),
            after: AtomicU64::new(0),
            others: AtomicU64::new(0),
            workers,
            turns,
        }
    }

    fn counted(&self, calls: &AtomicU64, worker: u32, turn: u64) {
        calls.fetch_add(1, atomic::Ordering::SeqCst);
        if worker >= self.workers || turn >= self.turns {
            self.others.fetch_add(1, atomic::Ordering::SeqCst);
        }
    }

    /// How many calls of each came.
    fn seen(&self) -> [u64; 3] {
        [
            self.before.load(atomic::Ordering::SeqCst),
            self.after.load(atomic::Ordering::SeqCst),
            self.others.load(atomic::Ordering::SeqCst),
        ]
    }
}

impl Gate for Counts {
    fn before(&self, worker: u32, turn: u64) {
        self.counted(&self.before, worker, turn);
    }

    fn after(&self, worker: u32, turn: u64) {
        self.counted(&self.after, worker, turn);
    }
}

#[test]
fn workers_take_their_turns(rt: HostRuntime) -> Result<(), Fail> {
    let alloc = rt.alloc();
    for (workers, turns) in [(1, 30), (4, 100), (16, 1), (2, 0)] {
        let (shared, passes) = Shared::new(
            alloc,
            machine_behind(alloc, BUFFER, FED, &[])?,
            workers,
        )?;
        let gate = Counts::new(workers, turns);
        let (mut passes, stepped, lost) = match run_workers(
            &rt, alloc, &shared, passes, &gate, turns,
        ) {
            Ok(ran) => ran,
            Err((_passes, fault)) => return Err(Fail::from(fault)),
        };
        let calls = u64::from(workers) * turns;
        assert_eq!(rt; passes.len() as u64, u64::from(workers));
        assert!(rt; gate.seen() == [calls, calls, 0]);
        assert_eq!(rt; lost, 0);
        let first = passes.as_mut_slice().first_mut().ok_or("no pass")?;
        assert_eq!(rt; shared.length(first), calls);
        let machine = shared.finish();
        assert_eq!(rt; tickets(alloc, &machine)?.len() as u64, stepped);
        assert!(rt; stepped <= 7);
        if workers == 1 {
            assert_eq!(rt; stepped, 7);
        }
    }
    Ok(())
}

#[test]
fn workers_without_passes_do_nothing(rt: HostRuntime) -> Result<(), Fail> {
    let alloc = rt.alloc();
    let (shared, passes) = Shared::new(alloc, machine_behind(alloc, BUFFER, FED, &[])?, 1)?;
    let gate = Counts::new(0, 5);
    match run_workers(&rt, alloc, &shared, Vec::new(alloc), &gate, 5) {
        Ok((none, stepped, lost)) => {
            assert!(rt; none.is_empty());
            assert_eq!(rt; (stepped, lost), (0, 0));
        }
        Err((_none, fault)) => return Err(Fail::from(fault)),
    }
    for mut pass in passes {
        assert_eq!(rt; shared.length(&mut pass), 0);
    }
    assert!(rt; gate.seen() == [0, 0, 0]);
    Ok(())
}

/// A gate at which the first call waits, for so long, until a call of another worker was answered.
#[derive(Drop)]
struct Held {
    /// one more than the worker that came first
    first: AtomicU64,
    answered: AtomicU64,
    missed: AtomicU64,
}

impl Gate for Held {
    fn before(&self, worker: u32, _turn: u64) {
        let own = u64::from(worker) + 1;
        let order = atomic::Ordering::SeqCst;
        if self.first.compare_exchange(0, own, order, order).is_err() {
            return;
        }
        for _ in 0..1_000_000_000_u64 {
            if self.answered.load(atomic::Ordering::SeqCst) != 0 {
                return;
            }
        }
        self.missed.store(1, atomic::Ordering::SeqCst);
    }

    fn after(&self, worker: u32, _turn: u64) {
        let first = self.first.load(atomic::Ordering::SeqCst);
        if first != 0 && first != u64::from(worker) + 1 {
            self.answered.store(1, atomic::Ordering::SeqCst);
        }
    }
}

#[test]
fn a_worker_goes_on_while_another_is_held(rt: HostRuntime) -> Result<(), Fail> {
    let alloc = rt.alloc();
    let (shared, passes) = Shared::new(alloc, machine_behind(alloc, BUFFER, FED, &[])?, 2)?;
    let gate = Held {
        first: AtomicU64::new(0),
        answered: AtomicU64::new(0),
        missed: AtomicU64::new(0),
    };
    match run_workers(&rt, alloc, &shared, passes, &gate, 30) {
        Ok((passes, _stepped, lost)) => assert_eq!(rt; (passes.len(), lost), (2, 0)),
        Err((_passes, fault)) => return Err(Fail::from(fault)),
    }
    assert_eq!(rt; gate.missed.load(atomic::Ordering::SeqCst), 0);
    assert_eq!(rt; gate.answered.load(atomic::Ordering::SeqCst), 1);
    Ok(())
}
