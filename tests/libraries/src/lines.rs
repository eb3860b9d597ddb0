//! The line of a place in the arm that was taken, and whether a `select` opens there.

use crate::sessions::reply_to;
use crate::told::place;
use calculus::Choice;
use debug_session::accept;
use locked_execution::{Command, Desk};
use machine::Machine;
use std::alloc::Global;
use std::test::Fail;

/// Each arm on a line of its own; the `else` is taken.
const IF_ON_2: &str = "procedure p is variable x : 8 bits begin
    if x = 1 then
        x := 5
    else
        x := 6
    end end";

/// A `select` in one arm and an `arbitrate` in the other, which is taken.
const ARBITRATE_TAKEN: &str = "procedure p (input a, b : 8 bits) is variable g : 1 bits begin
    if g then select a then continue end
    else arbitrate a then continue | b then continue end
    end end";

/// The same, and the `select` is taken.
const SELECT_TAKEN: &str = "procedure p (input a, b : 8 bits) is variable g : 1 bits begin
    if not g then select a then continue end
    else arbitrate a then continue | b then continue end
    end end";

fn desk(alloc: Global, source: &str) -> Result<Desk, Fail> {
    let checked = accept(alloc, source.as_bytes(), b"")?;
    Ok(Desk::new(Machine::new(alloc, checked)?))
}

/// Takes a step.
fn take(alloc: Global, desk: &mut Desk, step: &[u8]) -> Result<(), Fail> {
    let place = place(alloc, step)?;
    reply_to(desk, 0, &Command::Step(Choice { place, arm: 0 }))?;
    Ok(())
}

#[test]
fn a_place_has_the_line_in_the_arm_that_was_taken(rt: HostRuntime) -> Result<(), Fail> {
    let mut desk = desk(rt.alloc(), IF_ON_2)?;
    let test = place(rt.alloc(), b"/0.0")?;
    let arm = place(rt.alloc(), b"/0.1")?;
    assert_eq!(rt; desk.machine().line(&test), Some(2));
    assert_eq!(rt; desk.machine().line(&arm), None);
    take(rt.alloc(), &mut desk, b"/0.0")?;
    assert_eq!(rt; desk.machine().line(&arm), Some(5));
    assert_eq!(rt; desk.machine().checked().line(&arm), Some(3));
    Ok(())
}

#[test]
fn a_select_opens_where_its_arm_was_taken(rt: HostRuntime) -> Result<(), Fail> {
    let open = place(rt.alloc(), b"/0.1.0")?;
    for (source, is_select) in [(ARBITRATE_TAKEN, false), (SELECT_TAKEN, true)] {
        let mut desk = desk(rt.alloc(), source)?;
        take(rt.alloc(), &mut desk, b"/0.0")?;
        assert_eq!(rt; desk.machine().select(&open), is_select);
        assert!(rt; desk.machine().checked().select(&open));
    }
    Ok(())
}

/// The arms are taken in turn.
const ARMS_IN_TURN: &str = "procedure p is variable x : 1 bits begin
    loop
        if x then
            x := 0
        else
            x := 1
        end
    end end";

/// The lines of two rounds: turn, test and assignment of each, and `else` is taken first.
const TWO_ROUNDS: [u64; 6] = [2, 3, 6, 2, 3, 4];

/// So many rounds that their places stand in several rows of the table.
const ROUNDS: u64 = 200;

#[test]
fn each_round_of_a_loop_has_the_line_of_its_own_arm(rt: HostRuntime) -> Result<(), Fail> {
    let mut desk = desk(rt.alloc(), ARMS_IN_TURN)?;
    for _ in 0..3 * ROUNDS {
        reply_to(&mut desk, 0, &Command::Branch(0))?;
    }
    let live = desk.machine().live_events();
    assert_eq!(rt; live.len() as u64, 3 * ROUNDS);
    for (index, (_, event)) in live.iter().enumerate() {
        let line = TWO_ROUNDS[index % TWO_ROUNDS.len()];
        assert_eq!(rt; desk.machine().line(event.acting_place()), Some(line));
    }
    let earlier = place(rt.alloc(), b"/0.397.1")?;
    let last = place(rt.alloc(), b"/0.399.1")?;
    reply_to(&mut desk, 0, &Command::Roll(3 * ROUNDS - 1))?;
    assert_eq!(rt; desk.machine().line(&earlier), Some(6));
    assert_eq!(rt; desk.machine().line(&last), None);
    Ok(())
}
