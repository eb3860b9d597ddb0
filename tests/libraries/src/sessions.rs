//! What a machine shows beside the answers to lines, and lists of commands.

ghost use Rattle.std.specs.Prelude.{◌<◌};

use crate::examples::*;
use crate::told::place;
use calculus::{Choice, Event, Kind, Refusal};
use debug_session::write_answer;
use locked_execution::{Command, Desk, Reply, run_commands};
use machine::{Breaks, Machine};
use std::alloc::Global;
use std::test::Fail;

/// A command in short, its place as a text.
#[derive(Clone, Copy)]
enum Asked {
    Step(&'static [u8]),
    Undo(u64),
    Live,
}

/// An answer in short.
#[derive(Clone, Copy)]
enum Told {
    Stepped(u64, Kind),
    Undone(u64, Kind),
    /// the tickets
    Live(&'static [u64]),
}

fn choice(alloc: Global, at: &[u8]) -> Result<Choice, Fail> {
    let place = place(alloc, at)?;
    Ok(Choice { place, arm: 0 })
}

/// The command itself.
fn command(alloc: Global, asked: Asked) -> Result<Command, Fail> {
    Ok(match asked {
        Asked::Step(at) => Command::Step(choice(alloc, at)?),
        Asked::Undo(ticket) => Command::Undo(ticket),
        Asked::Live => Command::Live,
    })
}

fn are_tickets(entries: &[(u64, Event)], tickets: &[u64]) -> bool {
    for (entry, ticket) in entries.iter().zip(tickets) {
        if entry.0 != *ticket {
            return false;
        }
    }
    entries.len() == tickets.len()
}

/// Whether this was answered. A refusal for want of memory fails the test.
fn is_told(reply: &Reply, told: Told) -> Result<bool, Fail> {
    Ok(match (reply, told) {
        (Reply::Refused(Refusal::Memory), _) => return Err(Fail::from(Refusal::Memory)),
        (Reply::Stepped(ticket, event), Told::Stepped(told, kind)) => {
            *ticket == told && event.kind == kind
        }
        (Reply::Undone(ticket, event), Told::Undone(told, kind)) => {
            *ticket == told && event.kind == kind
        }
        (Reply::Live(entries), Told::Live(told)) => are_tickets(entries.as_slice(), told),
        _ => false,
    })
}

fn desk(alloc: Global, example: Example) -> Result<Desk, Fail> {
    let checked = example.checked(alloc)?;
    Ok(Desk::new(Machine::new(alloc, checked)?))
}

/// What the desk answers. A refusal for want of memory fails the test.
pub fn reply_to(desk: &mut Desk, session: u32, command: &Command) -> Result<Reply, Fail>
    requires { session < 16 }
{
    match desk.perform(session, command) {
        Reply::Refused(Refusal::Memory) => Err(Fail::from(Refusal::Memory)),
        reply => Ok(reply),
    }
}

/// Whether the desk answers the command so.
fn answers(alloc: Global, desk: &mut Desk, asked: Asked, told: Told) -> Result<bool, Fail> {
    let command = command(alloc, asked)?;
    is_told(&reply_to(desk, 0, &command)?, told)
}

#[test]
fn a_machine_shows_what_it_holds(rt: HostRuntime) -> Result<(), Fail> {
    let mut desk = desk(rt.alloc(), ONCE)?;
    let step = answers(
        rt.alloc(),
        &mut desk,
        Asked::Step(b"/0.0"),
        Told::Stepped(1, Kind::Meet),
    )?;
    assert!(rt; step);
    let machine = desk.machine();
    assert_eq!(rt; machine.next_ticket(), 2);
    assert!(rt; matches!(machine.live_at(0), Some((1, event)) if event.kind == Kind::Meet));
    assert!(rt; machine.live_at(1).is_none());
    assert_eq!(rt; machine.checked().system().variable(b"x"), Some(0));
    Ok(())
}

/// The replies to a step, to `live` and to an undo, each of another session.
fn three_replies(alloc: Global) -> Result<Vec<Reply>, Fail> {
    let mut desk = desk(alloc, ONCE)?;
    let step = command(alloc, Asked::Step(b"/0.0"))?;
    let live = command(alloc, Asked::Live)?;
    let undo = command(alloc, Asked::Undo(1))?;
    let commands = [(0, step), (1, live), (2, undo)];
    Ok(run_commands(alloc, &mut desk, &commands)?)
}

#[test]
fn a_list_of_commands_is_answered_in_order(rt: HostRuntime) -> Result<(), Fail> {
    let told = [
        Told::Stepped(1, Kind::Meet),
        Told::Live(&[1]),
        Told::Undone(1, Kind::Meet),
    ];
    let replies = three_replies(rt.alloc())?;
    assert_eq!(rt; replies.len(), told.len());
    for (reply, told) in replies.iter().zip(told) {
        assert!(rt; is_told(reply, told)?);
    }
    Ok(())
}

/// What is answered to the commands in one list, each of session 0, as a script is answered.
fn answered(alloc: Global, example: Example, commands: &[(u32, Command)]) -> Result<Vec<u8>, Fail> {
    let mut desk = desk(alloc, example)?;
    let replies = run_commands(alloc, &mut desk, commands)?;
    let mut text = Vec::new(alloc);
    for ((_, command), reply) in commands.iter().zip(replies.iter()) {
        if let Reply::Refused(Refusal::Memory) = reply {
            return Err(Fail::from(Refusal::Memory));
        }
        let answer = write_answer(alloc, desk.machine().checked(), command, reply)?;
        text.extend_from_slice(answer.as_slice())?;
    }
    Ok(text)
}

#[test]
fn a_list_of_commands_goes_back_to_a_cause(rt: HostRuntime) -> Result<(), Fail> {
    let alloc = rt.alloc();
    let checked = TWO_BUFFERS.checked(alloc)?;
    let Some(second) = checked.system().variable(b"1:x") else {
        return Err(Fail::from("a variable"));
    };
    let commands = [
        (0, command(alloc, Asked::Step(b"/0/0.0"))?),
        (0, command(alloc, Asked::Step(b"/0/1.0"))?),
        (0, command(alloc, Asked::Step(b"/0/0.1.0"))?),
        (0, command(alloc, Asked::Step(b"/0/1.1.0"))?),
        (0, Command::Consequences(3)),
        (0, Command::Value(second)),
        (0, Command::Roll(3)),
        (0, Command::Live),
        (0, Command::Value(second)),
    ];
    let text = answered(alloc, TWO_BUFFERS, &commands)?;
    let expected = b"step 1 turn /0/0.0
step 2 turn /0/1.0
step 3 meet a 5 /1.0.0 /0/0.1.0
step 4 meet c 5 /0/0.1.1.0 /0/1.1.0
consequences 3 4
value 1:x 5
rolled 2
live 2
  1 turn /0/0.0
  2 turn /0/1.0
value 1:x 0
";
    assert!(rt; text.as_slice() == expected.as_slice());
    Ok(())
}

#[test]
fn a_breakpoint_stops_its_own_session(rt: HostRuntime) -> Result<(), Fail> {
    let mut desk = desk(rt.alloc(), ONCE)?;
    assert!(rt; matches!(reply_to(&mut desk, 3, &Command::Break(2))?, Reply::Done));
    assert!(rt;
        matches!(
            reply_to(&mut desk, 3, &Command::Branch(0))?,
            Reply::Stopped(2)
        )
    );
    assert!(rt; matches!(reply_to(&mut desk, 2, &Command::Branch(9))?, Reply::Idle));
    assert!(rt;
        matches!(
            reply_to(&mut desk, 2, &Command::Branch(0))?,
            Reply::Stepped(1, _)
        )
    );
    assert!(rt; desk.breaks(3).has(2));
    assert!(rt; !desk.breaks(2).has(2));
    Ok(())
}

#[test]
fn a_session_has_64_breakpoints(rt: HostRuntime) {
    let mut breaks = Breaks::new();
    for line in 1..65 {
        assert!(rt; breaks.set(line).is_ok());
    }
    assert!(rt; matches!(breaks.set(65), Err(Refusal::BreaksFull)));
    assert!(rt; breaks.set(64).is_ok());
    breaks.clear(1);
    assert!(rt; !breaks.has(1));
    assert!(rt; breaks.set(65).is_ok());
}
