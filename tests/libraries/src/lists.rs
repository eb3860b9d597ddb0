//! Single events, lists of events with tickets, and the events that are allowed.

use crate::examples::*;
use crate::runs::state_after;
use crate::told::*;
use calculus::{Event, replay_live};
use std::alloc::Global;
use std::test::Fail;
use syntax::Items;

/// Whether the two events are the same one.
fn are_equal(alloc: Global, first: Told, second: Told) -> Result<bool, Fail> {
    let first = event(alloc, first)?;
    let second = event(alloc, second)?;
    Ok(first.equals(&second))
}

#[test]
fn events_differ_by_each_of_their_parts(rt: HostRuntime) -> Result<(), Fail> {
    let met = meet(b"/0.1.0", b"/2.0", 1, 5);
    let others = [
        ("kind", open(b"/0.1.0", b"/2.0", 1, 0, Some(5))),
        ("first", meet(b"/0.1.1", b"/2.0", 1, 5)),
        ("second", meet(b"/0.1.0", b"/2.1", 1, 5)),
        ("channel", meet(b"/0.1.0", b"/2.0", 0, 5)),
        ("value", meet(b"/0.1.0", b"/2.0", 1, 6)),
        ("written", into(met, 1)),
        ("read", reading(&[0], met)),
    ];
    for (what, other) in others {
        assert!(rt; !are_equal(rt.alloc(), met, other)?, "{what}");
    }
    Ok(())
}

/// Whether the event is chosen at this place, with this arm.
fn is_chosen_by(alloc: Global, told: Told, at: &[u8], arm: u32) -> Result<bool, Fail> {
    let at = place(alloc, at)?;
    let choice = event(alloc, told)?.choice(alloc)?;
    Ok(choice.place == at && choice.arm == arm)
}

#[test]
fn an_event_is_chosen_on_its_receiving_side(rt: HostRuntime) -> Result<(), Fail> {
    let cases: [(&str, Told, &[u8], u32); 5] = [
        ("open", open(b"/3.0.0", b"/0.0", 2, 1, None), b"/0.0", 1),
        ("meet", meet(b"/3.0.0", b"/0.0", 2, 5), b"/0.0", 0),
        ("close", close(b"/3.0.0", b"/0.0", 2), b"/0.0", 0),
        ("sync", sync(b"/0.0", b"/3.0.0", 2), b"/0.0", 0),
        ("test", test(b"/0.0", Some(1)), b"/0.0", 0),
    ];
    for (what, told, at, arm) in cases {
        assert!(rt; is_chosen_by(rt.alloc(), told, at, arm)?, "{what}");
    }
    Ok(())
}

/// The events with tickets from 1.
fn with_tickets(alloc: Global, told: &[Told]) -> Result<Vec<(u64, Event)>, Fail> {
    let mut live = Vec::new(alloc);
    let mut ticket: u64 = 0;
    for told in told {
        ticket = ticket.saturating_add(1);
        live.push((ticket, event(alloc, *told)?))?;
    }
    Ok(live)
}

/// The number in variable 0 after the events under tickets, `None` where they do not run.
fn number_after_live(alloc: Global, told: &[Told]) -> Result<Option<u64>, Fail> {
    let checked = BUFFER.checked(alloc)?;
    let live = with_tickets(alloc, told)?;
    match replay_live(alloc, &checked, live.as_slice())? {
        Some(plain) => Ok(plain.value(0).map(|value| value.bits())),
        None => Ok(None),
    }
}

#[test]
fn events_under_tickets_are_replayed(rt: HostRuntime) -> Result<(), Fail> {
    let told = [turn(b"/0.0"), into(meet(b"/1.0.0", b"/0.1.0", 0, 5), 0)];
    assert_eq!(rt; number_after_live(rt.alloc(), &told)?, Some(5));
    let told = [turn(b"/0.0"), turn(b"/0.2")];
    assert_eq!(rt; number_after_live(rt.alloc(), &told)?, None);
    Ok(())
}

/// The events that are allowed at first.
fn allowed(alloc: Global, example: Example) -> Result<Items<Event>, Fail> {
    let plain = state_after(alloc, example, &[])?.ok_or("no state")?;
    Ok(plain.allowed(alloc)?)
}

/// How many events are allowed at first, where this one is among them.
fn allowed_with(alloc: Global, example: Example, told: Told) -> Result<Option<usize>, Fail> {
    let wanted = event(alloc, told)?;
    let events = allowed(alloc, example)?;
    for event in events.as_slice() {
        if event.equals(&wanted) {
            return Ok(Some(events.len()));
        }
    }
    Ok(None)
}

#[test]
fn these_events_are_allowed(rt: HostRuntime) -> Result<(), Fail> {
    let held = open(b"/1.0.0", b"/0.0.0", 0, 0, Some(5));
    let second_arm = open(b"/3.0.0", b"/0.0", 2, 1, Some(7));
    let handshake = open(b"/0/0.0", b"/0/1.0", 0, 0, None);
    let cases = [
        ("turn", BUFFER, turn(b"/0.0"), 1),
        ("enclosed input", FORK, held, 1),
        ("second arm", ARBITER, second_arm, 2),
        ("assignment", BRANCHES, assign(b"/0/1.0", 1, 2), 2),
        ("handshake", SELECTION, handshake, 1),
        ("test", COUNTER, test(b"/0.0", Some(0)), 1),
        (
            "read in a sum",
            READER,
            reading(&[3, 1, 3], assign(b"/0", 0, 0)),
            1,
        ),
        (
            "read in guards",
            GUARDS,
            reading(&[1, 0], choosing(b"/0.0", None)),
            1,
        ),
    ];
    for (what, example, told, number) in cases {
        let found = allowed_with(rt.alloc(), example, told)?;
        assert_eq!(rt; found, Some(number), "{what}");
    }
    Ok(())
}
