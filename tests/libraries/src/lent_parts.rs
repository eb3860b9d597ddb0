//! Parts of a tree that are lent by their places, and what it offers once they were written.

use crate::examples::*;
use crate::told::*;
use calculus::{Ask, Event};
use process_tree::{Proc, Tree};
use std::alloc::Global;
use std::test::Fail;
use store::Store;
use value::Value;

/// The tree of the example, after these moves, and its store, before any.
fn after(alloc: Global, example: Example, moves: &[(&[u8], Ask)]) -> Result<(Tree, Store), Fail> {
    let checked = example.checked(alloc)?;
    let mut tree = Tree::new(alloc, checked.system())?;
    for one in moves {
        let at = place(alloc, one.0)?;
        tree.advance(alloc, at.entries(), one.1)?;
    }
    let store = Store::new(alloc, checked.system())?;
    Ok((tree, store))
}

/// Whether a part is lent at each of these places, or at none.
fn are_there(alloc: Global, tree: &mut Tree, places: &[&[u8]], lent: bool) -> Result<bool, Fail> {
    for text in places {
        let at = place(alloc, text)?;
        if tree.at_mut(&at).is_some() != lent {
            return Ok(false);
        }
    }
    Ok(true)
}

/// Writes the process over the part at the place.
fn put(alloc: Global, tree: &mut Tree, text: &[u8], proc: Proc) -> Result<(), Fail> {
    let at = place(alloc, text)?;
    let Some(part) = tree.at_mut(&at) else {
        return Err(Fail::from("a part"));
    };
    *part = proc;
    Ok(())
}

/// Whether these events are ready, in this order, and no others.
fn are_ready(alloc: Global, tree: &Tree, store: &Store, told: &[Told]) -> Result<bool, Fail> {
    let ready = rendezvous::ready_events(alloc, tree, store)?;
    are_events(ready.as_slice(), events(alloc, told)?.as_slice())
}

fn are_events(found: &[Event], wanted: &[Event]) -> Result<bool, Fail> {
    for (event, same) in found.iter().zip(wanted) {
        if !event.equals(same) {
            return Ok(false);
        }
    }
    Ok(found.len() == wanted.len())
}

#[test]
fn a_branch_is_lent_and_changed(rt: HostRuntime) -> Result<(), Fail> {
    let alloc = rt.alloc();
    let (mut tree, store) = after(alloc, BRANCHES, &[])?;
    let there = [b"".as_slice(), b"/0", b"/0/0", b"/0/1"];
    assert!(rt; are_there(alloc, &mut tree, &there, true)?);
    let not_there = [b"/1".as_slice(), b"/0/2", b"/0/0/0", b"/0/0.0", b"/0.0"];
    assert!(rt; are_there(alloc, &mut tree, &not_there, false)?);
    put(alloc, &mut tree, b"/0/0", Proc::Idle)?;
    assert!(rt; are_ready(alloc, &tree, &store, &[assign(b"/0/1.0", 1, 2)])?);
    put(alloc, &mut tree, b"", Proc::Idle)?;
    assert!(rt; are_ready(alloc, &tree, &store, &[])?);
    assert!(rt; are_there(alloc, &mut tree, &there[1..], false)?);
    Ok(())
}

#[test]
fn a_child_is_lent_once_it_has_begun(rt: HostRuntime) -> Result<(), Fail> {
    let alloc = rt.alloc();
    let (mut tree, _) = after(alloc, TWO_WRITES, &[])?;
    assert!(rt; are_there(alloc, &mut tree, &[b"/0.0", b"/0.1"], false)?);
    let (mut tree, store) = after(alloc, TWO_WRITES, &[(b"/0.0", Ask::Assign)])?;
    assert!(rt; are_there(alloc, &mut tree, &[b"/0.1", b"/0.2", b"/0/0"], false)?);
    assert!(rt; are_ready(alloc, &tree, &store, &[assign(b"/0.1", 0, 2)])?);
    // The first write is made once more.
    let first = place(alloc, b"/0.0")?;
    match tree.at_mut(&first) {
        Some(Proc::Once(_, made)) => *made = false,
        _ => return Err(Fail::from("a write")),
    }
    assert!(rt; are_ready(alloc, &tree, &store, &[assign(b"/0.0", 0, 1)])?);
    Ok(())
}

#[test]
fn the_body_of_a_turn_is_lent(rt: HostRuntime) -> Result<(), Fail> {
    let alloc = rt.alloc();
    let turns = [(b"/0.0".as_slice(), Ask::Turn)];
    let (mut tree, _) = after(alloc, BUFFER, &[])?;
    assert!(rt; are_there(alloc, &mut tree, &[b"/0.1"], false)?);
    let (mut tree, store) = after(alloc, BUFFER, &turns)?;
    let not_there = [b"/0.0".as_slice(), b"/0.2", b"/0.3", b"/0/1"];
    assert!(rt; are_there(alloc, &mut tree, &not_there, false)?);
    put(alloc, &mut tree, b"/0.1", Proc::Idle)?;
    assert!(rt; are_ready(alloc, &tree, &store, &[turn(b"/0.2")])?);
    Ok(())
}

#[test]
fn the_body_stays_behind_the_test_that_ends_a_loop(rt: HostRuntime) -> Result<(), Fail> {
    let alloc = rt.alloc();
    let moves = [
        (b"/0.0".as_slice(), Ask::Test(Some(0))),
        (b"/0.1", Ask::Assign),
        (b"/0.2", Ask::Test(Some(0))),
        (b"/0.3", Ask::Assign),
        (b"/0.4", Ask::Test(None)),
    ];
    let (mut tree, _) = after(alloc, COUNTER, &moves[..3])?;
    assert!(rt; are_there(alloc, &mut tree, &[b"/0.3"], true)?);
    let (mut tree, _) = after(alloc, COUNTER, &moves)?;
    assert!(rt; are_there(alloc, &mut tree, &[b"/0.3"], true)?);
    assert!(rt; are_there(alloc, &mut tree, &[b"/0.1", b"/0.5"], false)?);
    Ok(())
}

#[test]
fn an_arm_is_lent_once_it_is_taken(rt: HostRuntime) -> Result<(), Fail> {
    let alloc = rt.alloc();
    let five = Value::new(5, 8);
    let cases = [
        (SECOND_GUARD, Ask::Test(Some(1))),
        (ARBITER, Ask::Open(0, five)),
    ];
    for (example, ask) in cases {
        let (mut tree, _) = after(alloc, example, &[])?;
        assert!(rt; are_there(alloc, &mut tree, &[b"/0.1"], false)?);
        let (mut tree, _) = after(alloc, example, &[(b"/0.0", ask)])?;
        assert!(rt; are_there(alloc, &mut tree, &[b"/0.1"], true)?);
        assert!(rt; are_there(alloc, &mut tree, &[b"/0.0", b"/0.2", b"/0/1"], false)?);
    }
    Ok(())
}

#[test]
fn the_part_at_the_place_alone_is_lent(rt: HostRuntime) -> Result<(), Fail> {
    let alloc = rt.alloc();
    // What was lent and not written is as it was, and so is all beside it.
    let (mut tree, store) = after(alloc, BUFFER, &[(b"/0.0", Ask::Turn)])?;
    assert!(rt; are_there(alloc, &mut tree, &[b"/0.1", b"/0"], true)?);
    let received = into(meet(b"/1.0.0", b"/0.1.0", 0, 5), 0);
    assert!(rt; are_ready(alloc, &tree, &store, &[received])?);
    // Of two parts that are alike the one at the place is written.
    let (mut tree, _) = after(alloc, TWO_SYNCS, &[])?;
    put(alloc, &mut tree, b"/0/1", Proc::Stopped)?;
    let (first, second) = (place(alloc, b"/0/0")?, place(alloc, b"/0/1")?);
    assert!(rt; matches!(tree.at_mut(&first), Some(Proc::Sender(_, _))));
    assert!(rt; matches!(tree.at_mut(&second), Some(Proc::Stopped)));
    Ok(())
}
