//! The tree that is changed in place, with its store: steps and undos one by one, and what is there where memory is wanting.

ghost use Rattle.std.specs.Prelude.{◌<◌};

use crate::examples::*;
use crate::numbered::numbers_of;
use crate::told::*;
use allowed_events::{event_with, ready_below, ready_events};
use calculus::{Ask, Choice, Event};
use channel_uses::ChannelUses;
use event_inverse::{Record, apply, invert};
use local_actions::{ActionKind, actions_of};
use process_tree::{Code, Proc, Tree, Turns, code_of, start, system_code};
use rendezvous::event_at;
use sharing_check::Checked;
use std::alloc::{AllocError, Global};
use std::process::Abort;
use std::test::Fail;
use store::Store;
use value::Value;

/// A tree with its store, and what takes its events back.
#[derive(Drop)]
struct Run {
    checked: Checked,
    uses: ChannelUses,
    tree: Tree,
    store: Store,
    records: Vec<Record>,
}

/// The example before its first event.
fn begun(alloc: Global, example: Example) -> Result<Run, Fail> {
    let checked = example.checked(alloc)?;
    let code = system_code(alloc, checked.system())?;
    let uses = ChannelUses::new(alloc, &code)?;
    let tree = Tree::new(alloc, checked.system())?;
    let store = Store::new(alloc, checked.system())?;
    Ok(Run {
        checked,
        uses,
        tree,
        store,
        records: Vec::new(alloc),
    })
}

/// Makes the event. Where memory is wanting, tree and store are as they were.
fn make(rt: &impl Abort, alloc: Global, run: &mut Run, made: Event) -> Result<(), Fail> {
    run.records.reserve(1)?;
    let tree = numbers_of(alloc, run.tree.root())?;
    let store = Vec::from_slice(alloc, run.store.as_slice())?;
    match apply(alloc, &mut run.tree, &mut run.store, made) {
        Ok(record) => Ok(run.records.push(record)?),
        Err(error) => {
            let left = numbers_of(alloc, run.tree.root())?;
            assert!(rt; left.as_slice() == tree.as_slice());
            assert!(rt; run.store.as_slice() == store.as_slice());
            Err(Fail::from(error))
        }
    }
}

/// The example after these events.
fn after(rt: &impl Abort, alloc: Global, example: Example, told: &[Told]) -> Result<Run, Fail> {
    let mut run = begun(alloc, example)?;
    for one in told {
        make(rt, alloc, &mut run, event(alloc, *one)?)?;
    }
    Ok(run)
}

/// Takes back the event whose record stands at this place. It takes no memory.
fn undo(run: &mut Run, place: usize) -> Event {
    let record = run.records.remove(place);
    invert(&mut run.tree, &mut run.store, record)
}

/// Whether these events are ready, in this order, and no others, by the fast call and by the plain one.
fn are_ready(alloc: Global, run: &Run, told: &[Told]) -> Result<bool, Fail> {
    let ready = ready_events(alloc, &run.tree, &run.store)?;
    let plain = rendezvous::ready_events(alloc, &run.tree, &run.store)?;
    Ok(are_events(alloc, ready.as_slice(), told)? && are_events(alloc, plain.as_slice(), told)?)
}

/// Whether these events are ready at the place and below it, in this order, and no others.
fn are_ready_below(alloc: Global, run: &Run, at: &[u8], told: &[Told]) -> Result<bool, Fail> {
    let place = place(alloc, at)?;
    let found = ready_below(alloc, &run.uses, &run.tree, &run.store, place.entries())?;
    are_events(alloc, found.as_slice(), told)
}

fn are_events(alloc: Global, found: &[Event], told: &[Told]) -> Result<bool, Fail> {
    for (event, same) in found.iter().zip(events(alloc, told)?.as_slice()) {
        if !event.equals(same) {
            return Ok(false);
        }
    }
    Ok(found.len() == told.len())
}

/// The number in the variable.
fn number_in(run: &Run, variable: u32) -> u64 {
    run.store.get(variable).bits()
}

#[test]
fn a_store_gives_back_what_it_held(rt: HostRuntime) -> Result<(), Fail> {
    let mut store = begun(rt.alloc(), BRANCHES)?.store;
    let zero = Value::zero(8);
    assert!(rt; store.as_slice() == [zero, zero].as_slice());
    let old = store.put(1, Value::make(300, 16));
    assert!(rt; old == zero);
    assert!(rt; store.get(1) == Value::make(44, 8));
    assert!(rt; store.get(0) == zero);
    store.put_back(1, old);
    assert!(rt; store.as_slice() == [zero, zero].as_slice());
    Ok(())
}

/// The events of the buffer in its first turn, and the turn behind it.
fn in_buffer() -> [Told; 4] {
    [
        turn(b"/0.0"),
        into(meet(b"/1.0.0", b"/0.1.0", 0, 5), 0),
        reading(&[0], meet(b"/0.1.1.0", b"/2.0", 1, 5)),
        turn(b"/0.2"),
    ]
}

/// What was begun has made no move: the body in branch 0, and the environment at each port.
#[test]
fn a_tree_begins_with_all_branches(rt: HostRuntime) -> Result<(), Fail> {
    let run = begun(rt.alloc(), BUFFER)?;
    let Proc::Parallel(branches) = run.tree.root() else {
        return Err(Fail::from("a parallel"));
    };
    assert_eq!(rt; branches.len(), 3);
    assert!(rt; matches!(&branches[0], Proc::Loop(_, Turns::Fresh)));
    assert!(rt; matches!(&branches[1], Proc::Sequence(_, begun) if begun.is_empty()));
    assert!(rt; matches!(&branches[2], Proc::Drained(1, 0)));
    assert!(rt; are_ready(rt.alloc(), &run, &[turn(b"/0.0")])?);
    Ok(())
}

#[test]
fn branches_begin_at_once_and_children_later(rt: HostRuntime) -> Result<(), Fail> {
    let checked = BRANCHES.checked(rt.alloc())?;
    let code = code_of(rt.alloc(), &checked.system().main)?;
    let Code::SideBySide(row) = &code else {
        return Err(Fail::from("a parallel"));
    };
    assert_eq!(rt; row.get().codes.len(), 2);
    assert!(rt; matches!(row.get().codes.get(1), Some(Code::InTurn(_))));
    let Proc::Parallel(branches) = start(rt.alloc(), &code)? else {
        return Err(Fail::from("branches"));
    };
    assert!(rt; matches!(&branches[0], Proc::Once(_, false)));
    assert!(rt; matches!(&branches[1], Proc::Sequence(_, begun) if begun.is_empty()));
    Ok(())
}

/// Asks for the move. Where memory is wanting, the tree is as it was.
fn advance(
    rt: &impl Abort,
    alloc: Global,
    tree: &mut Tree,
    place: &[u8],
    ask: Ask,
) -> Result<Option<Box<Proc>>, Fail> {
    let at = crate::told::place(alloc, place)?;
    let before = numbers_of(alloc, tree.root())?;
    match tree.advance(alloc, at.entries(), ask) {
        Ok(out) => Ok(out),
        Err(error) => {
            let left = numbers_of(alloc, tree.root())?;
            assert!(rt; left.as_slice() == before.as_slice());
            Err(Fail::from(error))
        }
    }
}

#[test]
fn a_move_is_made_and_taken_back(rt: HostRuntime) -> Result<(), Fail> {
    let mut tree = begun(rt.alloc(), COUNTER)?.tree;
    let first = numbers_of(rt.alloc(), tree.root())?;
    let alloc = rt.alloc();
    let out = advance(&rt, alloc, &mut tree, b"/0.0", Ask::Test(Some(0)))?;
    assert!(rt; out.is_none());
    assert!(rt; advance(&rt, alloc, &mut tree, b"/0.1", Ask::Assign)?.is_none());
    let before = numbers_of(alloc, tree.root())?;
    // The second turn gives out the body of the first, which has made its move.
    let out = advance(&rt, alloc, &mut tree, b"/0.2", Ask::Test(Some(0)))?;
    let Some(body) = out else {
        return Err(Fail::from("a body"));
    };
    assert!(rt; matches!(&*body, Proc::Once(_, true)));
    let turn = place(alloc, b"/0.2")?;
    tree.retreat(turn.entries(), Some(body));
    let now = numbers_of(alloc, tree.root())?;
    assert!(rt; now.as_slice() == before.as_slice());
    let assigned = place(alloc, b"/0.1")?;
    tree.retreat(assigned.entries(), None);
    let tested = place(alloc, b"/0.0")?;
    tree.retreat(tested.entries(), None);
    let last = numbers_of(alloc, tree.root())?;
    assert!(rt; last.as_slice() == first.as_slice());
    Ok(())
}

#[test]
fn an_event_is_made_and_taken_back(rt: HostRuntime) -> Result<(), Fail> {
    let told = in_buffer();
    let mut run = after(&rt, rt.alloc(), BUFFER, &told[..2])?;
    assert_eq!(rt; number_in(&run, 0), 5);
    assert!(rt; are_ready(rt.alloc(), &run, &[told[2]])?);
    let received = event(rt.alloc(), told[1])?;
    assert!(rt; undo(&mut run, 1).equals(&received));
    assert_eq!(rt; number_in(&run, 0), 0);
    assert!(rt; are_ready(rt.alloc(), &run, &[told[1]])?);
    Ok(())
}

#[test]
fn an_undo_puts_the_body_of_the_turn_before_back(rt: HostRuntime) -> Result<(), Fail> {
    let told = in_buffer();
    let mut run = after(&rt, rt.alloc(), BUFFER, &told[..3])?;
    let before = numbers_of(rt.alloc(), run.tree.root())?;
    make(&rt, rt.alloc(), &mut run, event(rt.alloc(), told[3])?)?;
    let next = into(meet(b"/1.1.0", b"/0.3.0", 0, 7), 0);
    assert!(rt; are_ready(rt.alloc(), &run, &[next])?);
    undo(&mut run, 3);
    let now = numbers_of(rt.alloc(), run.tree.root())?;
    assert!(rt; now.as_slice() == before.as_slice());
    undo(&mut run, 2);
    assert!(rt; are_ready(rt.alloc(), &run, &[told[2]])?);
    Ok(())
}

/// A value that opens each arm of the arbiter.
fn opens() -> [Told; 2] {
    [
        open(b"/1.0.0", b"/0.0", 0, 0, Some(5)),
        open(b"/3.0.0", b"/0.0", 2, 1, Some(7)),
    ]
}

#[test]
fn an_open_is_taken_back(rt: HostRuntime) -> Result<(), Fail> {
    let opens = opens();
    let mut run = after(&rt, rt.alloc(), ARBITER, &opens[1..])?;
    // The arm sends what was received; the other arm waits no more.
    let sent = meet(b"/0.1.0", b"/2.0", 1, 7);
    assert!(rt; are_ready(rt.alloc(), &run, &[sent])?);
    let opened = event(rt.alloc(), opens[1])?;
    assert!(rt; undo(&mut run, 0).equals(&opened));
    assert!(rt; are_ready(rt.alloc(), &run, &opens)?);
    Ok(())
}

#[test]
fn a_send_is_held_until_the_close(rt: HostRuntime) -> Result<(), Fail> {
    let held = open(b"/1.0.0", b"/0.0.0", 0, 0, Some(5));
    let both = [
        meet(b"/0.0.1/0.0", b"/2.0", 1, 5),
        meet(b"/0.0.1/1.0", b"/3.0", 2, 5),
    ];
    let closed = close(b"/1.0.1", b"/0.0.2", 0);
    let second = into(meet(b"/1.1.0", b"/0.1", 0, 7), 0);
    let mut run = after(&rt, rt.alloc(), FORK, &[held])?;
    assert!(rt; are_ready(rt.alloc(), &run, &both)?);
    make(&rt, rt.alloc(), &mut run, event(rt.alloc(), both[1])?)?;
    assert!(rt; are_ready(rt.alloc(), &run, &both[..1])?);
    make(&rt, rt.alloc(), &mut run, event(rt.alloc(), both[0])?)?;
    assert!(rt; are_ready(rt.alloc(), &run, &[closed])?);
    make(&rt, rt.alloc(), &mut run, event(rt.alloc(), closed)?)?;
    assert!(rt; are_ready(rt.alloc(), &run, &[second])?);
    undo(&mut run, 3);
    assert!(rt; are_ready(rt.alloc(), &run, &[closed])?);
    Ok(())
}

#[test]
fn an_undo_in_the_middle_leaves_what_came_later(rt: HostRuntime) -> Result<(), Fail> {
    let told = [
        assign(b"/0/0", 0, 1),
        assign(b"/0/1.0", 1, 2),
        assign(b"/0/1.1", 1, 3),
    ];
    let mut run = after(&rt, rt.alloc(), BRANCHES, &told)?;
    assert!(rt; are_ready(rt.alloc(), &run, &[])?);
    undo(&mut run, 0);
    assert_eq!(rt; number_in(&run, 0), 0);
    assert_eq!(rt; number_in(&run, 1), 3);
    assert!(rt; are_ready(rt.alloc(), &run, &told[..1])?);
    undo(&mut run, 1);
    assert_eq!(rt; number_in(&run, 1), 2);
    assert!(rt; are_ready(rt.alloc(), &run, &[told[0], told[2]])?);
    Ok(())
}

#[test]
fn each_place_offers_its_side(rt: HostRuntime) -> Result<(), Fail> {
    let run = begun(rt.alloc(), ONCE)?;
    let sides = actions_of(rt.alloc(), &run.tree, &run.store)?;
    let sides = sides.as_slice();
    assert_eq!(rt; sides.len(), 3);
    assert!(rt; sides[0].place.equals(&place(rt.alloc(), b"/0.0")?));
    assert!(rt; matches!(&sides[0].action, ActionKind::Receives(0, Some(0))));
    assert!(rt; sides[1].place.equals(&place(rt.alloc(), b"/1.0.0")?));
    assert!(rt;
        matches!(&sides[1].action, ActionKind::Sends(0, value, read) if value.bits() == 5 && read.as_slice().is_empty())
    );
    assert!(rt; sides[2].place.equals(&place(rt.alloc(), b"/2.0")?));
    assert!(rt; matches!(&sides[2].action, ActionKind::Receives(1, None)));
    Ok(())
}

/// Whether the choice means the event, by the fast call and by the plain one; `None` for a choice that means none.
fn means(alloc: Global, run: &Run, at: &[u8], arm: u32, told: Option<Told>) -> Result<bool, Fail> {
    let place = place(alloc, at)?;
    let choice = Choice { place, arm };
    let found = event_with(alloc, &run.uses, &run.tree, &run.store, &choice)?;
    let plain = event_at(alloc, &run.tree, &run.store, &choice)?;
    Ok(is_told(alloc, &found, told)? && is_told(alloc, &plain, told)?)
}

fn is_told(alloc: Global, found: &Option<Event>, told: Option<Told>) -> Result<bool, Fail> {
    Ok(match (found, told) {
        (Some(found), Some(told)) => found.equals(&event(alloc, told)?),
        (None, None) => true,
        _ => false,
    })
}

#[test]
fn any_tree_has_its_events(rt: HostRuntime) -> Result<(), Fail> {
    let alloc = rt.alloc();
    let checked = TWO_WRITES.checked(alloc)?;
    let mut tree = Tree::new(alloc, checked.system())?;
    let store = Store::new(alloc, checked.system())?;
    let (first, second) = (place(alloc, b"/0.0")?, place(alloc, b"/0.1")?);
    tree.advance(alloc, first.entries(), Ask::Assign)?;
    tree.advance(alloc, second.entries(), Ask::Assign)?;
    tree.retreat(first.entries(), None);
    let ready = rendezvous::ready_events(alloc, &tree, &store)?;
    assert!(rt; are_events(alloc, ready.as_slice(), &[assign(b"/0.0", 0, 1)])?);
    let choice = Choice {
        place: second,
        arm: 0,
    };
    assert!(rt; event_at(alloc, &tree, &store, &choice)?.is_none());
    Ok(())
}

#[test]
fn a_choice_means_an_event(rt: HostRuntime) -> Result<(), Fail> {
    let run = begun(rt.alloc(), ARBITER)?;
    let opens = opens();
    assert!(rt; means(rt.alloc(), &run, b"/0.0", 0, Some(opens[0]))?);
    assert!(rt; means(rt.alloc(), &run, b"/0.0", 1, Some(opens[1]))?);
    assert!(rt; means(rt.alloc(), &run, b"/0.0", 2, None)?);
    assert!(rt; means(rt.alloc(), &run, b"/1.0.0", 0, None)?);
    assert!(rt; means(rt.alloc(), &run, b"/0", 0, None)?);
    assert!(rt; means(rt.alloc(), &run, b"", 0, None)?);
    Ok(())
}

#[test]
fn a_branch_has_its_own_events(rt: HostRuntime) -> Result<(), Fail> {
    let alloc = rt.alloc();
    let run = begun(alloc, BRANCHES)?;
    let both = [assign(b"/0/0", 0, 1), assign(b"/0/1.0", 1, 2)];
    assert!(rt; are_ready(rt.alloc(), &run, &both)?);
    assert!(rt; are_ready_below(alloc, &run, b"/0/1", &both[1..])?);
    assert!(rt; are_ready_below(alloc, &run, b"/0/2", &[])?);
    Ok(())
}

/// The events of a branch are those in which a side of it acts, with whatever branch; a sender acts in none.
#[test]
fn a_branch_meets_the_others_from_deep_inside(rt: HostRuntime) -> Result<(), Fail> {
    let alloc = rt.alloc();
    let all = [
        into(meet(b"/0/0.0", b"/0/1.1/0", 1, 1), 0),
        into(meet(b"/0/2.1/0.0", b"/0/1.1/1.1", 2, 2), 1),
        into(meet(b"/1.0.0", b"/0/1.1/2", 0, 5), 2),
        assign(b"/0/2.1/1", 3, 4),
    ];
    let mut run = begun(alloc, CROSSING)?;
    assert!(rt; are_ready(alloc, &run, &all)?);
    for whole in [b"".as_slice(), b"/0"] {
        assert!(rt; are_ready_below(alloc, &run, whole, &all)?);
    }
    for branch in [b"/0/1".as_slice(), b"/0/1.1"] {
        assert!(rt; are_ready_below(alloc, &run, branch, &all[..3])?);
    }
    for deep in [b"/0/1.1/1".as_slice(), b"/0/1.1/1.1"] {
        assert!(rt; are_ready_below(alloc, &run, deep, &all[1..2])?);
    }
    assert!(rt; are_ready_below(alloc, &run, b"/0/2", &all[3..])?);
    for other in [
        b"/0/0".as_slice(),
        b"/1",
        b"/0/1.0",
        b"/0/1.1/1.0",
        b"/0/1.1/3",
        b"/0/1.1/1.1.0",
    ] {
        assert!(rt; are_ready_below(alloc, &run, other, &[])?);
    }
    make(&rt, alloc, &mut run, event(alloc, all[1])?)?;
    assert!(rt; are_ready_below(alloc, &run, b"/0/1", &[all[0], all[2]])?);
    assert!(rt; are_ready_below(alloc, &run, b"/0/1.1/1", &[])?);
    undo(&mut run, 0);
    assert!(rt; are_ready_below(alloc, &run, b"/0/1.1/1", &all[1..2])?);
    Ok(())
}

#[test]
fn the_end_of_a_loop_is_taken_back(rt: HostRuntime) -> Result<(), Fail> {
    let told = [
        test(b"/0.0", Some(0)),
        count(b"/0.1", 1),
        test(b"/0.2", Some(0)),
        count(b"/0.3", 2),
        test(b"/0.4", None),
    ];
    let mut run = after(&rt, rt.alloc(), COUNTER, &told)?;
    assert!(rt; are_ready(rt.alloc(), &run, &[])?);
    let mut last = told.len();
    while last > 0 {
        last -= 1;
        undo(&mut run, last);
        assert!(rt; are_ready(rt.alloc(), &run, &told[last..last + 1])?);
    }
    assert_eq!(rt; number_in(&run, 0), 0);
    Ok(())
}

/// Makes the first event that is ready, again and again until none is or so many are made, and takes all back, the last first.
fn go_and_return(
    rt: &impl Abort,
    alloc: Global,
    example: Example,
    most: usize,
) -> Result<usize, Fail> {
    let mut run = begun(alloc, example)?;
    let first = numbers_of(alloc, run.tree.root())?;
    while run.records.len() < most {
        let ready = ready_events(alloc, &run.tree, &run.store)?;
        let Some(event) = ready.get(0) else {
            break;
        };
        make(rt, alloc, &mut run, event.copy(alloc)?)?;
    }
    let made = run.records.len();
    for place in (0..made).rev() {
        undo(&mut run, place);
    }
    let last = numbers_of(alloc, run.tree.root())?;
    assert!(rt; last.as_slice() == first.as_slice());
    Ok(made)
}

#[test]
fn choices_are_made_and_taken_back(rt: HostRuntime) -> Result<(), Fail> {
    let alloc = rt.alloc();
    // The test takes the second guard, and its arm assigns.
    assert_eq!(rt; go_and_return(&rt, alloc, SECOND_GUARD, 9)?, 2);
    assert_eq!(rt; go_and_return(&rt, alloc, CASE_WITH_ELSE, 9)?, 2);
    // No arm is taken, and nothing is left.
    assert_eq!(rt; go_and_return(&rt, alloc, NO_ARM, 9)?, 1);
    // The sync opens the arm, and is released by the close.
    assert_eq!(rt; go_and_return(&rt, alloc, SELECTION, 9)?, 2);
    Ok(())
}

#[test]
fn branches_begin_again_and_are_taken_back(rt: HostRuntime) -> Result<(), Fail> {
    let alloc = rt.alloc();
    assert_eq!(rt; go_and_return(&rt, alloc, LOOP_OF_BRANCHES, 5)?, 5);
    Ok(())
}
