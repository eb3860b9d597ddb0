//! The public calls of the parts below the machine, from a text to an event that is taken back, as a program of one's own writes
//! them: each answer is taken by a name of the type that the reference says, so that another signature does not compile.

use crate::examples::{BUFFER, TWO_BUFFERS};
use crate::told::{events, into, meet, turn};
use address::{Address, before, read};
use calculus::{Choice, Event, Kind, Plain, replay, same_run};
use dependence::Live;
use elaborate::{Stimulus, System, elaborate};
use event_inverse::{Record, apply, invert};
use lexer::{Token, lex};
use parser::parse;
use process_tree::Tree;
use rendezvous::{event_at, ready_events};
use sharing_check::{Checked, check_sharing};
use std::alloc::{AllocError, Global};
use std::cmp::Ordering;
use std::test::Fail;
use store::Store;
use syntax::{Boxed, Description};
use types::{Typed, check_types};
use value::{Comparison, Value, add, bit_and, bit_or, bit_xor, compare, not, resize, sub};

#[test]
fn values_are_reckoned(rt: HostRuntime) -> Result<(), Fail> {
    let three = Value { bits: 3, width: 4 };
    let five = Value::make(5, 8);
    assert!(rt; three.bits == 3 && three.width == 4);
    let sum: Value = add(three, five);
    assert!(rt; sum == Value::make(8, 9));
    assert!(rt; sub(three, five) == Value::make(254, 8));
    assert!(rt; bit_and(three, five) == Value::make(1, 8));
    assert!(rt; bit_or(three, five) == Value::make(7, 8));
    assert!(rt; bit_xor(three, five) == Value::make(6, 8));
    assert!(rt; not(three) == Value::make(12, 4));
    assert!(rt; resize(five, 2) == Value::make(1, 2));
    assert!(rt; compare(Comparison::Less, three, five) == Value::make(1, 1));
    assert!(rt; Value::new(16, 4).is_none());
    Ok(())
}

#[test]
fn places_are_read_and_compared(rt: HostRuntime) -> Result<(), Fail> {
    let found: Result<Option<Address>, AllocError> = read(rt.alloc(), b"/0.1.0");
    let one = found?.ok_or("a place")?;
    let copy: Result<Address, AllocError> = one.copy(rt.alloc());
    assert!(rt; copy?.equals(&one));
    let two = read(rt.alloc(), b"/0.2")?.ok_or("a place")?;
    assert!(rt; before(&one, &two) && !before(&two, &one));
    let order: Ordering = address::compare(&two, &one);
    assert!(rt; order == Ordering::Greater);
    assert!(rt; read(rt.alloc(), b"/00")?.is_none());
    Ok(())
}

/// The description that the text is.
fn description(alloc: Global, source: &[u8]) -> Result<Description, Fail> {
    let tokens: Result<Vec<Token<'_>>, lexer::Fault> = lex(alloc, source);
    let tokens = tokens?;
    let parsed: Result<Description, parser::Fault> = parse(alloc, tokens.as_slice());
    Ok(parsed?)
}

/// The system of source and stimulus, pass by pass.
fn system_of(alloc: Global, source: &[u8], stimulus: &[u8]) -> Result<Checked, Fail> {
    let typed: Result<Typed, types::Fault> = check_types(alloc, &description(alloc, source)?);
    let entries: Result<Stimulus, elaborate::Fault> = Stimulus::read(alloc, stimulus);
    let system: Result<System, elaborate::Fault> = elaborate(alloc, &typed?, &entries?);
    let checked: Result<Checked, sharing_check::Fault> = check_sharing(alloc, system?);
    Ok(checked?)
}

#[test]
fn a_text_becomes_a_system(rt: HostRuntime) -> Result<(), Fail> {
    let checked = system_of(
        rt.alloc(),
        BUFFER.source.as_bytes(),
        BUFFER.stimulus.as_bytes(),
    )?;
    let branches: u32 = checked.branches();
    assert_eq!(rt; branches, 3);
    let x: Option<u32> = checked.variable(b"x");
    assert_eq!(rt; x, Some(0));
    assert!(rt; checked.variable(b"y").is_none());
    assert!(rt; checked.variable_name(0).is_some() && checked.variable_name(1).is_none());
    assert!(rt; checked.channel_name(1).is_some() && checked.channel_name(2).is_none());
    let turn = read(rt.alloc(), b"/0.0")?.ok_or("a place")?;
    let line: Option<u64> = checked.line(&turn);
    assert_eq!(rt; line, Some(2));
    assert!(rt; checked.begins(2) && !checked.begins(1));
    let branch: Option<u32> = checked.branch(&turn);
    assert_eq!(rt; branch, Some(0));
    assert!(rt; !checked.select(&turn));
    let copy: Result<Checked, AllocError> = checked.clone();
    assert_eq!(rt; copy?.branches(), 3);
    Ok(())
}

#[test]
fn a_list_is_replayed(rt: HostRuntime) -> Result<(), Fail> {
    let checked = TWO_BUFFERS.checked(rt.alloc())?;
    let one = events(rt.alloc(), &[turn(b"/0/0.0"), turn(b"/0/1.0")])?;
    let other = events(rt.alloc(), &[turn(b"/0/1.0"), turn(b"/0/0.0")])?;
    let plain: Result<Option<Plain>, AllocError> = replay(rt.alloc(), &checked, one.as_slice());
    assert!(rt; plain?.is_some());
    let same: Result<Option<Plain>, AllocError> = same_run(
        rt.alloc(),
        &checked,
        one.as_slice(),
        other.as_slice(),
    );
    assert!(rt; same?.is_some());
    let choice: Result<Choice, AllocError> = one[0].choice(rt.alloc());
    assert_eq!(rt; choice?.arm, 0);
    let copy: Result<Event, AllocError> = one[0].copy(rt.alloc());
    assert!(rt; copy?.kind == Kind::Turn);
    Ok(())
}

#[test]
fn an_event_is_found_made_and_taken_back(rt: HostRuntime) -> Result<(), Fail> {
    let checked = BUFFER.checked(rt.alloc())?;
    let mut tree: Tree = Tree::new(rt.alloc(), checked.system())?;
    let mut store: Store = Store::new(rt.alloc(), checked.system())?;
    let ready: Result<Vec<Event>, AllocError> = ready_events(rt.alloc(), &tree, &store);
    assert_eq!(rt; ready?.len(), 1);
    let choice = Choice {
        place: read(rt.alloc(), b"/0.0")?.ok_or("a place")?,
        arm: 0,
    };
    let found: Result<Option<Event>, AllocError> = event_at(rt.alloc(), &tree, &store, &choice);
    let event = found?.ok_or("an event")?;
    let record: Result<Record, AllocError> = apply(rt.alloc(), &mut tree, &mut store, event);
    let back: Event = invert(&mut tree, &mut store, record?);
    assert!(rt; back.kind == Kind::Turn);
    let old: Value = store.put(0, Value::make(7, 8));
    assert!(rt; old == Value::zero(8) && store.get(0) == Value::make(7, 8));
    Ok(())
}

#[test]
fn live_events_are_added_and_taken(rt: HostRuntime) -> Result<(), Fail> {
    let alloc = rt.alloc();
    let mut live: Live = Live::new(alloc);
    let received = into(meet(b"/1.0.0", b"/0.1.0", 0, 5), 0);
    let mut ticket = 0;
    for made in events(alloc, &[turn(b"/0.0"), received])? {
        ticket += 1;
        let added: Result<(), Boxed<Event>> = live.add(ticket, Boxed::new(alloc, made)?);
        added.map_err(|_back| AllocError)?;
    }
    let pair: Option<(u64, &Event)> = live.pair_at(1);
    assert!(rt; matches!(pair, Some((2, _))));
    let followers: &[u64] = live.followers(1);
    assert!(rt; followers == [2].as_slice());
    let dependent: Option<u64> = live.first_dependent(1);
    assert_eq!(rt; dependent, Some(2));
    assert_eq!(rt; live.count(1), 1);
    let tickets: Result<Vec<u64>, AllocError> = live.consequences(1);
    assert!(rt; tickets?.as_slice() == [1, 2].as_slice());
    assert_eq!(rt; live.last_marked(), None);
    let marked: u64 = live.mark_consequences(2);
    assert_eq!(rt; marked, 1);
    assert!(rt; live.consequences(1)?.len() == 2);
    assert_eq!(rt; live.last_marked(), Some(2));
    let taken: Event = live.take(2);
    assert!(rt; taken.kind == Kind::Meet);
    Ok(())
}
