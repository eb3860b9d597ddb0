//! Live events with their followers: one that finds no memory is handed back, and goes in at the next call.

use crate::told::*;
use calculus::Event;
use dependence::Live;
use std::alloc::{AllocError, Global};
use std::process::Abort;
use std::test::Fail;
use syntax::Boxed;

/// The first steps of two buffers, one behind the other: both loops turn, the first buffer receives a value, and hands it on.
fn steps() -> [Told; 4] {
    let received = meet(b"/1.0.0", b"/0/0.1.0", 0, 5);
    let handed_on = meet(b"/0/0.1.1", b"/0/1.1.0", 2, 5);
    [
        turn(b"/0/0.0"),
        turn(b"/0/1.0"),
        into(received, 0),
        reading(&[0], into(handed_on, 1)),
    ]
}

/// How many events depend directly on the first, after so many steps; at no step nobody asks.
const COUNTS: [u64; 4] = [0, 0, 0, 1];

/// Adds an event; one that is refused is equal to it, and the others are as they were.
fn add(
    rt: &impl Abort,
    live: &mut Live,
    ticket: u64,
    event: Boxed<Event>,
    copy: &Event,
) -> Result<(), AllocError> {
    let Err(back) = live.add(ticket, event) else {
        return Ok(());
    };
    let before = ticket - 1;
    assert!(rt; back.get().equals(copy));
    assert!(rt; live.pair_at(before).is_none());
    if before > 0 {
        assert_eq!(rt; live.count(1), COUNTS[before as usize]);
    }
    match live.add(ticket, back) {
        Ok(()) => Ok(()),
        Err(_) => Err(AllocError),
    }
}

/// The live events after these steps, under tickets from 1.
fn after_steps(rt: &impl Abort, alloc: Global) -> Result<Live, Fail> {
    let mut live = Live::new(alloc);
    let mut ticket = 0;
    for told in steps() {
        ticket += 1;
        let made = event(alloc, told)?;
        let copy = made.copy(alloc)?;
        add(rt, &mut live, ticket, Boxed::new(alloc, made)?, &copy)?;
    }
    Ok(live)
}

#[test]
fn events_have_followers_and_are_taken(rt: HostRuntime) -> Result<(), Fail> {
    let mut live = after_steps(&rt, rt.alloc())?;
    assert!(rt; live.followers(1) == [3].as_slice());
    assert!(rt; live.leads(1).is_empty());
    assert!(rt; live.leads(3) == [1].as_slice());
    assert!(rt; live.leads(4) == [3, 2].as_slice());
    assert_eq!(rt; live.first_dependent(1), Some(3));
    assert_eq!(rt; live.count(1), 2);
    assert_eq!(rt; live.first_dependent(2), Some(4));
    assert_eq!(rt; live.mark_consequences(1), 3);
    assert_eq!(rt; live.last_marked(), Some(4));
    live.take(4);
    assert_eq!(rt; live.count(1), 1);
    assert_eq!(rt; live.first_dependent(2), None);
    assert_eq!(rt; live.last_marked(), Some(3));
    Ok(())
}
