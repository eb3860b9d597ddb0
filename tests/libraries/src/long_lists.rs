//! Lists of 4,096 events, in two loops. The trial build takes a millisecond or so for each.

use crate::examples::TWO_LOOPS;
use address::{Address, Entry};
use calculus::{Event, Kind, replay, same_run};
use dependence::Live;
use std::alloc::{AllocError, Global};
use std::test::Fail;
use syntax::Boxed;
use system::Variables;
use value::Value;

/// How many events.
const COUNT: u32 = 4_096;

/// Where the loop of this branch makes its step of this number: a turn where that is even, else an assignment.
fn place(alloc: Global, branch: u32, number: u32) -> Result<Address, AllocError> {
    let mut entries = Vec::new(alloc);
    entries.push(Entry::Branch(0))?;
    entries.push(Entry::Branch(branch))?;
    entries.push(Entry::Ordered(number))?;
    Ok(Address::from_vec(entries))
}

/// That step.
fn step(alloc: Global, branch: u32, number: u32) -> Result<Event, AllocError> {
    let is_turn = number % 2 == 0;
    Ok(Event {
        kind: if is_turn { Kind::Turn } else { Kind::Assign },
        first: place(alloc, branch, number)?,
        second: None,
        arm: None,
        channel: None,
        value: if is_turn {
            None
        } else {
            Value::new(u64::from(branch) + 1, 8)
        },
        written: if is_turn { None } else { Some(branch) },
        read: Variables::none(alloc),
    })
}

/// The step at this index where the two loops take turns.
fn in_turn(alloc: Global, index: u32) -> Result<Event, AllocError> {
    step(alloc, index % 2, index / 2)
}

/// The step at this index where one loop follows the other.
fn one_by_one(alloc: Global, index: u32) -> Result<Event, AllocError> {
    step(alloc, index / (COUNT / 2), index % (COUNT / 2))
}

#[test]
fn a_long_list_of_live_events_answers(rt: HostRuntime) -> Result<(), Fail> {
    let mut live = Live::new(rt.alloc());
    for index in 0..COUNT {
        let event = in_turn(rt.alloc(), index)?;
        let event = Boxed::new(rt.alloc(), event)?;
        if live.add(u64::from(index) + 1, event).is_err() {
            return Err(Fail::from("an event finds no memory"));
        }
    }
    assert_eq!(rt; live.len(), 4_096);
    assert_eq!(rt; live.first_dependent(1), Some(3));
    assert_eq!(rt; live.count(1), 2_047);
    assert_eq!(rt; live.count(4_096), 0);
    assert_eq!(rt; live.last_writer(0), Some(4_095));
    assert_eq!(rt; live.mark_consequences(2), 2_048);
    assert_eq!(rt; live.last_marked(), Some(4_096));
    while let Some(last) = live.last_marked() {
        live.take(last);
    }
    assert_eq!(rt; live.len(), 2_048);
    assert_eq!(rt; live.last_marked(), None);
    assert_eq!(rt; live.index_of(4_095), Some(2_047));
    assert_eq!(rt; live.mark_consequences(4_095), 1);
    live.take(4_095);
    assert_eq!(rt; live.count(4_093), 0);
    Ok(())
}

#[test]
fn long_lists_in_two_orders_are_one_run(rt: HostRuntime) -> Result<(), Fail> {
    let alloc = rt.alloc();
    let checked = TWO_LOOPS.checked(alloc)?;
    let mut one = Vec::new(alloc);
    let mut other = Vec::new(alloc);
    for index in 0..COUNT {
        one.push(in_turn(alloc, index)?)?;
        other.push(one_by_one(alloc, index)?)?;
    }
    let Some(plain) = same_run(alloc, &checked, &one, &other)? else {
        return Err(Fail::from("the two orders are one run"));
    };
    assert_eq!(rt; plain.value(1).map(|value| value.bits()), Some(2));
    assert!(rt; replay(alloc, &checked, &other)?.is_some());
    other.pop();
    assert!(rt; same_run(alloc, &checked, &one, &other)?.is_none());
    Ok(())
}
