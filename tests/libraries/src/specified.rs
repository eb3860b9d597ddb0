//! The public calls of the machine and of what stands above it, as a program of one's own writes them: each answer is taken by a
//! name of the type that the reference says, so that another signature does not compile.

use crate::examples::{BUFFER, TWO_BUFFERS, TWO_WRITES};
use crate::told::place;
use crate::transcripts::has_memory;
use branch_workers::{Gate, run_workers};
use calculus::{Choice, Event, Refusal};
use debug_session::{Line, Session, debug, read_command, write_reply};
use devices::Counted;
use locked_execution::{Board, Command, Desk, Keeper, Pass, Reply, Shared, run_commands};
use machine::{BranchReply, Breaks, Machine, Ticket, Var};
use sharing_check::Checked;
use source_view::view;
use std::alloc::{AllocError, Global};
use std::io::BufReader;
use std::test::Fail;
use trace_file::{load, save};
use value::Value;

/// The choice at the place of this text, with arm 0.
fn choice(alloc: Global, at: &[u8]) -> Result<Choice, Fail> {
    Ok(Choice {
        place: place(alloc, at)?,
        arm: 0,
    })
}

/// Both writes of the example taken.
fn written(alloc: Global) -> Result<Machine, Fail> {
    let made: Result<Machine, machine::Fault> = Machine::new(alloc, TWO_WRITES.checked(alloc)?);
    let mut machine = made?;
    for at in [b"/0.0", b"/0.1"] {
        let stepped: Result<(Ticket, Event), Refusal> = machine.step(&choice(alloc, at)?);
        stepped?;
    }
    Ok(machine)
}

#[test]
fn a_machine_is_asked(rt: HostRuntime) -> Result<(), Fail> {
    let x: Var = 0;
    let mut machine = written(rt.alloc())?;
    let checked: &Checked = machine.checked();
    assert_eq!(rt; checked.branches(), 1);
    let ready: Result<Vec<Event>, Refusal> = machine.ready();
    assert_eq!(rt; ready?.len(), 0);
    let value: Option<Value> = machine.value(x);
    assert!(rt; value == Value::new(2, 8));
    assert!(rt; machine.value(1).is_none());
    let entry: Option<(Ticket, &Event)> = machine.live_at(1);
    assert!(rt; matches!(entry, Some((2, _))));
    assert!(rt; machine.live_at(2).is_none());
    let blamed: Result<Ticket, Refusal> = rollback::blame(&machine, x);
    assert_eq!(rt; blamed?, 2);
    let marked: u64 = machine.mark_consequences(1);
    assert_eq!(rt; marked, 2);
    let last: Option<Ticket> = machine.last_marked();
    assert_eq!(rt; last, Some(2));
    Ok(())
}

#[test]
fn a_question_marks_nothing(rt: HostRuntime) -> Result<(), Fail> {
    let mut machine = written(rt.alloc())?;
    assert_eq!(rt; machine.mark_consequences(1), 2);
    let asked: &Machine = &machine;
    let consequences: Result<Vec<Ticket>, Refusal> = rollback::consequences(asked, 2);
    assert!(rt; consequences?.as_slice() == [2].as_slice());
    machine.undo(2)?;
    assert_eq!(rt; machine.last_marked(), Some(1));
    Ok(())
}

#[test]
fn marks_stay_until_the_next_marking(rt: HostRuntime) -> Result<(), Fail> {
    let mut machine = written(rt.alloc())?;
    assert_eq!(rt; machine.mark_consequences(1), 2);
    machine.undo(2)?;
    assert_eq!(rt; machine.last_marked(), Some(1));
    machine.step(&choice(rt.alloc(), b"/0.1")?)?;
    assert_eq!(rt; machine.last_marked(), Some(1));
    assert_eq!(rt; machine.mark_consequences(3), 1);
    assert_eq!(rt; machine.last_marked(), Some(3));
    Ok(())
}

#[test]
fn a_machine_goes_back(rt: HostRuntime) -> Result<(), Fail> {
    let mut machine = written(rt.alloc())?;
    let undone: Result<Event, Refusal> = machine.undo(2);
    assert_eq!(rt; undone?.written, Some(0));
    assert!(rt; matches!(machine.undo(2), Err(Refusal::NoSuchEvent)));
    let rolled: Result<u64, Refusal> = rollback::roll_value(&mut machine, 0);
    assert_eq!(rt; rolled?, 1);
    let again = rollback::roll_value(&mut machine, 0);
    assert!(rt; matches!(again, Err(Refusal::NeverWritten)));
    assert!(rt; matches!(rollback::blame(&machine, 0), Err(Refusal::NeverWritten)));
    assert!(rt; matches!(rollback::roll(&mut machine, 1), Err(Refusal::NoSuchEvent)));
    let consequences = rollback::consequences(&machine, 1);
    assert!(rt; matches!(consequences, Err(Refusal::NoSuchEvent)));
    let mut machine = written(rt.alloc())?;
    assert!(rt; matches!(machine.undo(1), Err(Refusal::NeededBy(2))));
    let rolled: Result<u64, Refusal> = rollback::roll(&mut machine, 1);
    assert_eq!(rt; rolled?, 2);
    Ok(())
}

#[test]
fn a_machine_is_rolled_back(rt: HostRuntime) -> Result<(), Fail> {
    let mut machine = written(rt.alloc())?;
    let blamed: Result<Ticket, Refusal> = rollback::blame(&machine, 0);
    assert_eq!(rt; blamed?, 2);
    let consequences: Result<Vec<Ticket>, Refusal> = rollback::consequences(&machine, 1);
    assert!(rt; consequences?.as_slice() == [1, 2].as_slice());
    let rolled: Result<u64, Refusal> = rollback::roll_value(&mut machine, 0);
    assert_eq!(rt; rolled?, 1);
    assert!(rt; machine.value(0) == Value::new(1, 8));
    let rolled: Result<u64, Refusal> = rollback::roll(&mut machine, 1);
    assert_eq!(rt; rolled?, 1);
    assert!(rt; matches!(rollback::roll(&mut machine, 1), Err(Refusal::NoSuchEvent)));
    Ok(())
}

/// Two buffers in a row: both loops turn, and a value goes through the first.
fn handed_on(alloc: Global) -> Result<Machine, Fail> {
    let mut machine = Machine::new(alloc, TWO_BUFFERS.checked(alloc)?)?;
    for at in [b"/0/0.0".as_slice(), b"/0/1.0", b"/0/0.1.0", b"/0/1.1.0"] {
        machine.step(&choice(alloc, at)?)?;
    }
    Ok(machine)
}

#[test]
fn a_rollback_is_what_undos_of_the_marked_are(rt: HostRuntime) -> Result<(), Fail> {
    let mut one = handed_on(rt.alloc())?;
    let marked = one.mark_consequences(1);
    assert_eq!(rt; marked, 3);
    let mut undone: u64 = 0;
    while let Some(ticket) = one.last_marked() {
        one.undo(ticket)?;
        undone += 1;
    }
    assert_eq!(rt; undone, marked);
    let mut other = handed_on(rt.alloc())?;
    assert_eq!(rt; rollback::roll(&mut other, 1)?, marked);
    for machine in [&one, &other] {
        assert!(rt; matches!(machine.live_at(0), Some((2, _))));
        assert!(rt; machine.live_at(1).is_none());
    }
    Ok(())
}

/// The ticket, where a branch took a step.
fn stepped_by(reply: BranchReply) -> Result<Option<Ticket>, Refusal> {
    match reply {
        BranchReply::Stepped(ticket, event) => {
            let _event: Event = event;
            Ok(Some(ticket))
        }
        BranchReply::Stopped(line) => {
            let _line: u64 = line;
            Ok(None)
        }
        BranchReply::Idle => Ok(None),
        BranchReply::Refused(why) => Err(why),
    }
}

#[test]
fn a_branch_steps_up_to_a_breakpoint(rt: HostRuntime) -> Result<(), Fail> {
    let mut machine = Machine::new(rt.alloc(), TWO_WRITES.checked(rt.alloc())?)?;
    let mut breaks = Breaks::new();
    let set: Result<(), Refusal> = breaks.set(1);
    set?;
    assert!(rt; breaks.has(1));
    assert_eq!(rt; stepped_by(machine.branch_step(0, &breaks))?, None);
    breaks.clear(1);
    assert_eq!(rt; stepped_by(machine.branch_step(0, &breaks))?, Some(1));
    assert_eq!(rt; stepped_by(machine.branch_step(9, &breaks))?, None);
    assert_eq!(rt; machine::Fault::Memory.number(), 1);
    Ok(())
}

/// A reply in a word. Want of memory fails the test.
fn word(reply: &Reply) -> Result<&'static str, Refusal> {
    Ok(match reply {
        Reply::Stepped(_, _) => "stepped",
        Reply::Undone(_, _) => "undone",
        Reply::Rolled(_) => "rolled",
        Reply::Blamed(_) => "blamed",
        Reply::Ready(_) => "ready",
        Reply::Consequences(_) => "consequences",
        Reply::Live(_) => "live",
        Reply::Value(_) => "value",
        Reply::Stopped(_) => "stopped",
        Reply::Idle => "idle",
        Reply::Done => "done",
        Reply::Refused(Refusal::Memory) => return Err(Refusal::Memory),
        Reply::Refused(_) => "refused",
    })
}

/// Each command once, with its answer in a word, behind one another on the two writes.
fn commands(alloc: Global) -> Result<[(Command, &'static str); 12], Fail> {
    Ok([
        (Command::Step(choice(alloc, b"/0.0")?), "stepped"),
        (Command::Branch(0), "stepped"),
        (Command::Blame(0), "blamed"),
        (Command::Consequences(1), "consequences"),
        (Command::Value(0), "value"),
        (Command::Live, "live"),
        (Command::Ready, "ready"),
        (Command::RollValue(0), "rolled"),
        (Command::Undo(1), "undone"),
        (Command::Roll(1), "refused"),
        (Command::Break(1), "done"),
        (Command::Clear(1), "done"),
    ])
}

#[test]
fn a_desk_performs_each_command(rt: HostRuntime) -> Result<(), Fail> {
    let machine = Machine::new(rt.alloc(), TWO_WRITES.checked(rt.alloc())?)?;
    let mut desk = Desk::new(machine);
    let asked = commands(rt.alloc())?;
    for (command, answer) in &asked {
        let reply: Reply = desk.perform(0, command);
        assert_eq!(rt; word(&reply)?, *answer);
    }
    let replies: Result<Vec<Reply>, locked_execution::Fault> = run_commands(
        rt.alloc(),
        &mut desk,
        &[(15, Command::Live), (0, Command::Ready)],
    );
    assert_eq!(rt; replies?.len(), 2);
    Ok(())
}

#[test]
fn passes_call_one_execution(rt: HostRuntime) -> Result<(), Fail> {
    let machine = Machine::new(rt.alloc(), BUFFER.checked(rt.alloc())?)?;
    let made: Result<(Shared, Vec<Pass>), locked_execution::Fault> = Shared::new(
        rt.alloc(),
        machine,
        2,
    );
    let (shared, mut passes) = made?;
    assert_eq!(rt; locked_execution::Fault::Memory.number(), 1);
    let branches: u32 = shared.branches();
    assert_eq!(rt; branches, 3);
    let (Some(mut other), Some(mut one)) = (passes.pop(), passes.pop()) else {
        return Err(Fail::from("two passes"));
    };
    let reply: Reply = shared.call(&rt, &mut one, &Command::Step(choice(rt.alloc(), b"/0.0")?));
    assert_eq!(rt; word(&reply)?, "stepped");
    let length: u64 = shared.length(&mut one);
    assert_eq!(rt; length, 1);
    let met: u64 = shared.meet(&mut other, &mut one);
    assert_eq!(rt; met, 1);
    let reply = shared.call(&rt, &mut other, &Command::Undo(1));
    assert_eq!(rt; word(&reply)?, "undone");
    let machine: Machine = shared.finish();
    assert!(rt; machine.live_at(0).is_none());
    Ok(())
}

/// Nobody is told of calls.
struct Open;

impl Gate for Open {
    fn before(&self, _worker: u32, _turn: u64) {}

    fn after(&self, _worker: u32, _turn: u64) {}
}

#[test]
fn workers_step_one_execution(rt: HostRuntime) -> Result<(), Fail> {
    let machine = Machine::new(rt.alloc(), BUFFER.checked(rt.alloc())?)?;
    let (shared, passes) = Shared::new(rt.alloc(), machine, 1)?;
    let ran: Result<(Vec<Pass>, u64, u64), (Vec<Pass>, locked_execution::Fault)> = run_workers(
        &rt,
        rt.alloc(),
        &shared,
        passes,
        &Open,
        30,
    );
    match ran {
        // There was no memory for a turn that was lost.
        Ok((_passes, _stepped, lost)) if lost != 0 => Err(Fail::from(AllocError)),
        Ok((passes, stepped, _lost)) => {
            assert_eq!(rt; passes.len(), 1);
            assert_eq!(rt; stepped, 7);
            Ok(())
        }
        Err((_passes, fault)) => Err(Fail::from(fault)),
    }
}

#[test]
fn a_keeper_performs_without_a_lock(rt: HostRuntime) -> Result<(), Fail> {
    let machine = Machine::new(rt.alloc(), BUFFER.checked(rt.alloc())?)?;
    let (shared, mut passes) = Shared::new(rt.alloc(), machine, 1)?;
    let Some(mut pass) = passes.pop() else {
        return Err(Fail::from("one pass"));
    };
    let (board, mut keeper): (Board, Keeper) = shared.into_keeper(&rt);
    let step = Command::Step(choice(rt.alloc(), b"/0.0")?);
    let reply: Reply = keeper.perform(&board, &mut pass, &step);
    assert_eq!(rt; word(&reply)?, "stepped");
    let reply: Reply = keeper.perform(&board, &mut pass, &step);
    assert_eq!(rt; word(&reply)?, "refused");
    let machine: Machine = keeper.into_machine();
    assert!(rt; machine.live_at(0).is_some());
    Ok(())
}

#[test]
fn a_session_reads_and_writes(rt: HostRuntime) -> Result<(), Fail> {
    let checked = BUFFER.checked(rt.alloc())?;
    let read: Result<Line, debug_session::Fault> = read_command(
        rt.alloc(),
        &checked,
        b"step /0.0",
        1,
    );
    let line = read?;
    let written: Result<Vec<u8>, AllocError> = write_reply(
        rt.alloc(),
        &checked,
        &line,
        &Reply::Idle,
    );
    assert!(rt; written?.as_slice() == b"idle\n".as_slice());
    let nothing = write_reply(rt.alloc(), &checked, &Line::View, &Reply::Idle)?;
    assert!(rt; nothing.is_empty());
    let (shared, mut passes) = Shared::new(
        rt.alloc(),
        Machine::new(rt.alloc(), BUFFER.checked(rt.alloc())?)?,
        1,
    )?;
    let Some(pass) = passes.pop() else {
        return Err(Fail::from("one pass"));
    };
    let mut session = Session { pass };
    let answer: Result<Vec<u8>, debug_session::Fault> = session.answer(
        &rt,
        rt.alloc(),
        &shared,
        &checked,
        b"step /0.0",
        1,
    );
    let answer = answer?;
    has_memory(answer.as_slice())?;
    assert!(rt; answer.as_slice() == b"step 1 turn /0.0\n".as_slice());
    let ended: debug_session::Fault = locked_execution::Fault::Memory.into();
    assert_eq!(rt; ended.number(), 1);
    Ok(())
}

/// A place of 50,000 entries is longer than what may be kept back as too long.
#[test]
fn a_long_place_is_read(rt: HostRuntime) -> Result<(), Fail> {
    let checked = BUFFER.checked(rt.alloc())?;
    let mut line: Vec<u8> = Vec::with_capacity(rt.alloc(), 100_016)?;
    line.extend_from_slice(b"step ")?;
    for _ in 0..50_000 {
        line.extend_from_slice(b".0")?;
    }
    let Line::Asked(command) = read_command(rt.alloc(), &checked, line.as_slice(), 1)? else {
        return Err(Fail::from("a command"));
    };
    let mut desk = Desk::new(Machine::new(rt.alloc(), BUFFER.checked(rt.alloc())?)?);
    let reply = desk.perform(0, &command);
    assert_eq!(rt; word(&reply)?, "refused");
    assert!(rt; matches!(reply, Reply::Refused(Refusal::NotReady)));
    line.push(b'x')?;
    match read_command(rt.alloc(), &checked, line.as_slice(), 7) {
        Err(debug_session::Fault::BadCommand(7)) => Ok(()),
        Err(fault) => Err(Fail::from(fault)),
        Ok(_) => Err(Fail::from("a refusal")),
    }
}

#[test]
fn a_script_is_debugged(rt: HostRuntime) -> Result<(), Fail> {
    let script = b"ready\nstep /0.0\n";
    let mut reader = Counted::new(BufReader::with_capacity(rt.alloc(), 64, script.as_slice())?);
    let mut out: Vec<u8> = Vec::with_capacity(rt.alloc(), 1024)?;
    let ended: Result<(), debug_session::Fault> = debug(
        rt.alloc(),
        &mut reader,
        &mut Counted::new(&mut out),
        BUFFER.source.as_bytes(),
        BUFFER.stimulus.as_bytes(),
    );
    ended?;
    has_memory(out.as_slice())?;
    assert!(rt; out.as_slice() == b"ready 1\n  turn /0.0\nstep 1 turn /0.0\n".as_slice());
    Ok(())
}

#[test]
fn a_machine_is_shown_saved_and_loaded(rt: HostRuntime) -> Result<(), Fail> {
    let machine = written(rt.alloc())?;
    let shown: Result<Vec<u8>, AllocError> = view(
        rt.alloc(),
        &machine,
        &Breaks::new(),
        b"one line",
    );
    assert!(rt; !shown?.is_empty());
    let mut text: Vec<u8> = Vec::with_capacity(rt.alloc(), 1024)?;
    let saved: Result<(), trace_file::Fault> = save(
        rt.alloc(),
        &machine,
        &mut Counted::new(&mut text),
    );
    saved?;
    let checked = TWO_WRITES.checked(rt.alloc())?;
    let loaded: Result<Machine, trace_file::Fault> = load(
        rt.alloc(),
        checked,
        &mut Counted::new(text.as_slice()),
    );
    assert!(rt; loaded?.live_at(1).is_some());
    Ok(())
}
