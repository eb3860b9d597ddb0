//! What a tree offers, before and after moves, and where a sequence is not at work in one child.

use crate::examples::*;
use crate::told::place;
use calculus::{Ask, Choice};
use machine::Machine;
use process_tree::{Offer, OfferKind, Tree};
use std::alloc::{AllocError, Global};
use std::test::Fail;
use syntax::Items;
use value::Value;

/// The tree of the example before its first move.
fn tree_of(alloc: Global, example: Example) -> Result<Tree, Fail> {
    let checked = example.checked(alloc)?;
    Ok(Tree::new(alloc, checked.system())?)
}

/// Makes the move.
fn advance(alloc: Global, tree: &mut Tree, at: &[u8], ask: Ask) -> Result<(), Fail> {
    let at = place(alloc, at)?;
    tree.advance(alloc, at.entries(), ask)?;
    Ok(())
}

fn are_same(one: OfferKind, other: OfferKind) -> bool {
    match (one, other) {
        (OfferKind::Assigns(a), OfferKind::Assigns(b)) => a == b,
        (OfferKind::Tests, OfferKind::Tests) => true,
        (OfferKind::Turns, OfferKind::Turns) => true,
        (OfferKind::Sends(a), OfferKind::Sends(b)) => a == b,
        (OfferKind::Receives(a, x), OfferKind::Receives(b, y)) => a == b && x == y,
        (OfferKind::Syncs(a), OfferKind::Syncs(b)) => a == b,
        (OfferKind::Opens(a, k), OfferKind::Opens(b, l)) => a == b && k == l,
        (OfferKind::Releases(a), OfferKind::Releases(b)) => a == b,
        (OfferKind::Closes(a), OfferKind::Closes(b)) => a == b,
        _ => false,
    }
}

/// Whether the tree offers these, in this order, and no others.
fn offers(alloc: Global, tree: &Tree, told: &[(&[u8], OfferKind)]) -> Result<bool, Fail> {
    let found: Result<Items<Offer>, AllocError> = tree.ready(alloc);
    let found = found?;
    for (offer, one) in found.as_slice().iter().zip(told) {
        if !offer.place.equals(&place(alloc, one.0)?) || !are_same(offer.kind, one.1) {
            return Ok(false);
        }
    }
    Ok(found.len() == told.len())
}

#[test]
fn a_buffer_offers_its_turn_and_the_environment(rt: HostRuntime) -> Result<(), Fail> {
    let alloc = rt.alloc();
    let mut tree = tree_of(alloc, BUFFER)?;
    let sends = (b"/1.0.0".as_slice(), OfferKind::Sends(0));
    let drains = (b"/2.0".as_slice(), OfferKind::Receives(1, None));
    assert!(rt; offers(alloc, &tree, &[(b"/0.0", OfferKind::Turns), sends, drains])?);
    advance(alloc, &mut tree, b"/0.0", Ask::Turn)?;
    let receives = (b"/0.1.0".as_slice(), OfferKind::Receives(0, Some(0)));
    assert!(rt; offers(alloc, &tree, &[receives, sends, drains])?);
    advance(alloc, &mut tree, b"/0.1.0", Ask::Receive)?;
    advance(alloc, &mut tree, b"/0.1.1.0", Ask::Send)?;
    assert!(rt; offers(alloc, &tree, &[(b"/0.2", OfferKind::Turns), sends, drains])?);
    Ok(())
}

#[test]
fn each_arm_opens_and_one_is_closed(rt: HostRuntime) -> Result<(), Fail> {
    let alloc = rt.alloc();
    let mut tree = tree_of(alloc, ARBITER)?;
    let around = [
        (b"/1.0.0".as_slice(), OfferKind::Sends(0)),
        (b"/2.0", OfferKind::Receives(1, None)),
        (b"/3.0.0", OfferKind::Sends(2)),
    ];
    let opens = [
        (b"/0.0".as_slice(), OfferKind::Opens(0, 0)),
        (b"/0.0", OfferKind::Opens(2, 1)),
    ];
    assert!(rt;
        offers(
            alloc,
            &tree,
            &[opens[0], opens[1], around[0], around[1], around[2]]
        )?
    );
    advance(alloc, &mut tree, b"/3.0.0", Ask::Hold)?;
    let seven = Some(Value::make(7, 8));
    advance(alloc, &mut tree, b"/0.0", Ask::Open(1, seven))?;
    let held = (b"/3.0.1".as_slice(), OfferKind::Releases(2));
    let sends = (b"/0.1.0".as_slice(), OfferKind::Sends(1));
    assert!(rt; offers(alloc, &tree, &[sends, around[0], around[1], held])?);
    advance(alloc, &mut tree, b"/0.1.0", Ask::Send)?;
    let closes = (b"/0.2".as_slice(), OfferKind::Closes(2));
    assert!(rt; offers(alloc, &tree, &[closes, around[0], around[1], held])?);
    Ok(())
}

#[test]
fn a_test_offers_itself_and_then_its_arm(rt: HostRuntime) -> Result<(), Fail> {
    let alloc = rt.alloc();
    let mut tree = tree_of(alloc, CASE_WITH_ELSE)?;
    assert!(rt; offers(alloc, &tree, &[(b"/0.0", OfferKind::Tests)])?);
    advance(alloc, &mut tree, b"/0.0", Ask::Test(Some(1)))?;
    assert!(rt; offers(alloc, &tree, &[(b"/0.1", OfferKind::Assigns(0))])?);
    advance(alloc, &mut tree, b"/0.1", Ask::Assign)?;
    assert!(rt; offers(alloc, &tree, &[])?);
    let mut halting = tree_of(alloc, CASE_WITH_ELSE)?;
    advance(alloc, &mut halting, b"/0.0", Ask::Test(Some(0)))?;
    assert!(rt; offers(alloc, &halting, &[])?);
    let mut counting = tree_of(alloc, COUNTER)?;
    assert!(rt; offers(alloc, &counting, &[(b"/0.0", OfferKind::Tests)])?);
    advance(alloc, &mut counting, b"/0.0", Ask::Test(None))?;
    assert!(rt; offers(alloc, &counting, &[])?);
    Ok(())
}

#[test]
fn two_syncs_and_branches_are_offered_side_by_side(rt: HostRuntime) -> Result<(), Fail> {
    let alloc = rt.alloc();
    let tree = tree_of(alloc, TWO_SYNCS)?;
    let syncs = OfferKind::Syncs(0);
    assert!(rt; offers(alloc, &tree, &[(b"/0/0.0", syncs), (b"/0/1.0", syncs)])?);
    let tree = tree_of(alloc, BRANCHES)?;
    let both = [
        (b"/0/0".as_slice(), OfferKind::Assigns(0)),
        (b"/0/1.0", OfferKind::Assigns(1)),
    ];
    assert!(rt; offers(alloc, &tree, &both)?);
    Ok(())
}

/// The first child is undone while the second has moved: the first is at work, and the second offers nothing.
#[test]
fn an_untidy_tree_offers_its_first_unfinished_child(rt: HostRuntime) -> Result<(), Fail> {
    let alloc = rt.alloc();
    let mut tree = tree_of(alloc, TWO_WRITES)?;
    let first = (b"/0.0".as_slice(), OfferKind::Assigns(0));
    assert!(rt; offers(alloc, &tree, &[first])?);
    advance(alloc, &mut tree, b"/0.0", Ask::Assign)?;
    assert!(rt; offers(alloc, &tree, &[(b"/0.1", OfferKind::Assigns(0))])?);
    advance(alloc, &mut tree, b"/0.1", Ask::Assign)?;
    assert!(rt; offers(alloc, &tree, &[])?);
    let at = place(alloc, b"/0.0")?;
    tree.retreat(at.entries(), None);
    assert!(rt; offers(alloc, &tree, &[first])?);
    Ok(())
}

#[test]
fn a_machine_lends_the_tree_and_the_values_of_its_live_events(rt: HostRuntime) -> Result<(), Fail> {
    let alloc = rt.alloc();
    let mut machine = Machine::new(alloc, BUFFER.checked(alloc)?)?;
    let sends = (b"/1.0.0".as_slice(), OfferKind::Sends(0));
    let drains = (b"/2.0".as_slice(), OfferKind::Receives(1, None));
    let receives = (b"/0.1.0".as_slice(), OfferKind::Receives(0, Some(0)));
    for at in [b"/0.0".as_slice(), b"/0.1.0"] {
        let choice = Choice {
            place: place(alloc, at)?,
            arm: 0,
        };
        machine.step(&choice)?;
    }
    assert!(rt; machine.state().1.get(0).bits() == 5);
    machine.undo(2)?;
    let (tree, store) = machine.state();
    assert!(rt; offers(alloc, tree, &[receives, sends, drains])?);
    assert!(rt; store.get(0).bits() == 0);
    Ok(())
}
