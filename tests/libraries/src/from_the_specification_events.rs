//! A client of runs and live events, of the machine and of rollbacks, written as the one of `from_the_specification` is.
//! What several share is in `from_the_specification_runs`, and lines, views and traces in `from_the_specification_texts`.

use crate::from_the_specification::{
    BUFFER, FED, TWO_BUFFERS, checked, choice, place, system, word,
};
use calculus::{Choice, Event, Kind, replay, same_run};
use dependence::Live;
use event_inverse::apply;
use machine::{BranchReply, Breaks, Machine, Refusal};
use process_tree::Tree;
use rendezvous::event_at;
use rollback::{blame, consequences, roll, roll_value};
use std::alloc::Global;
use std::cmp::Ordering;
use std::test::Fail;
use store::Store;
use syntax::Boxed;
use value::Value;

/// The machine of a source and a stimulus, behind these steps of arm 0.
pub fn machine_behind(
    alloc: Global,
    source: &str,
    stimulus: &str,
    steps: &[&str],
) -> Result<Machine, Fail> {
    let mut machine = Machine::new(alloc, checked(alloc, source, stimulus)?)?;
    for step in steps {
        let (_, _event) = machine.step(&choice(alloc, step)?)?;
    }
    Ok(machine)
}

/// Whether the event acts there.
pub fn acts_at(alloc: Global, event: &Event, text: &str) -> Result<bool, Fail> {
    let acting = event.choice(alloc)?.place;
    Ok(address::compare(&acting, &place(alloc, text)?) == Ordering::Equal)
}

/// The tickets of the live events.
pub fn tickets(alloc: Global, machine: &Machine) -> Result<Vec<u64>, Fail> {
    let mut tickets = Vec::new(alloc);
    while let Some((ticket, _)) = machine.live_at(tickets.len() as u64) {
        tickets.push(ticket)?;
    }
    Ok(tickets)
}

/// The events of these steps, each of arm 0.
pub fn events_of(
    alloc: Global,
    source: &str,
    stimulus: &str,
    steps: &[&str],
) -> Result<Vec<Event>, Fail> {
    let system = system(alloc, source, stimulus)?;
    let (mut tree, mut store) = (Tree::new(alloc, &system)?, Store::new(alloc, &system)?);
    let mut events = Vec::new(alloc);
    for step in steps {
        let event = event_at(alloc, &tree, &store, &choice(alloc, step)?)?.ok_or("not ready")?;
        events.push(event.copy(alloc)?)?;
        let _record = apply(alloc, &mut tree, &mut store, event)?;
    }
    Ok(events)
}

/// The first four steps of the worked example of two buffers: a turn of each, a meeting on `i`, and one on `c`.
pub const FOUR_STEPS: [&str; 4] = ["/0/0.0", "/0/1.0", "/0/0.1.0", "/0/1.1.0"];

#[test]
fn events_tell_what_they_do(rt: HostRuntime) -> Result<(), Fail> {
    let alloc = rt.alloc();
    let checked = checked(alloc, TWO_BUFFERS, FED)?;
    let events = events_of(alloc, TWO_BUFFERS, FED, &FOUR_STEPS)?;
    let turn = events.first().ok_or("no event")?;
    assert!(rt; matches!(turn.kind, Kind::Turn));
    assert!(rt; turn.second.is_none() && turn.arm.is_none() && turn.channel.is_none());
    assert!(rt; turn.value.is_none() && turn.written.is_none() && turn.read.as_slice().is_empty());
    let meet = events.last().ok_or("no event")?.copy(alloc)?;
    assert!(rt; matches!(meet.kind, Kind::Meet));
    assert!(rt; address::compare(&meet.first, &place(alloc, "/0/0.1.1.0")?) == Ordering::Equal);
    let acting = place(alloc, "/0/1.1.0")?;
    assert!(rt;
        meet.second.as_ref().is_some_and(|second| address::compare(second, &acting)
            == Ordering::Equal)
    );
    let channel = meet.channel.ok_or("no channel")?;
    assert!(rt;
        checked
            .channel_name(channel)
            .is_some_and(|name| name.is(b"c"))
    );
    assert_eq!(rt; (meet.value, meet.arm), (Some(word(5, 8)), None));
    assert_eq!(rt; meet.written, checked.variable(b"2:x"));
    assert_eq!(rt;
        meet.read.as_slice().first().copied(),
        checked.variable(b"1:x")
    );
    assert_eq!(rt; meet.read.as_slice().len(), 1);
    let choice: Choice = meet.choice(alloc)?;
    assert_eq!(rt; choice.arm, 0);
    assert!(rt; address::compare(&choice.place, &acting) == Ordering::Equal);
    Ok(())
}

/// Steps of a source, the kind of the last event, its arm and value, whether it has a second place and a channel, whether it
/// writes, and how many variables it reads.
type Shown = (
    &'static str,
    &'static str,
    &'static [&'static str],
    Kind,
    Option<u32>,
    Option<u64>,
    [bool; 3],
    usize,
);

const IFS: &str = "procedure p is variable x, y : 8 bits begin \
    x := 3 ; if y = 1 then halt | x = y then halt else halt end end";

const WAITS: &str = "procedure p is sync s begin sync s || select s then continue end end";

const SHOWN: [Shown; 9] = [
    (
        IFS,
        "",
        &["/0.0"],
        Kind::Assign,
        None,
        Some(3),
        [false, false, true],
        0,
    ),
    (
        IFS,
        "",
        &["/0.0", "/0.1.0"],
        Kind::Test,
        Some(2),
        None,
        [false, false, false],
        2,
    ),
    (
        "procedure p is begin loop while 0 then halt end end",
        "",
        &["/0.0"],
        Kind::Test,
        None,
        None,
        [false, false, false],
        0,
    ),
    (
        BUFFER,
        FED,
        &["/0.0"],
        Kind::Turn,
        None,
        None,
        [false, false, false],
        0,
    ),
    (
        BUFFER,
        FED,
        &["/0.0", "/0.1.0"],
        Kind::Meet,
        None,
        Some(5),
        [true, true, true],
        0,
    ),
    (
        BUFFER,
        FED,
        &["/0.0", "/0.1.0", "/2.0"],
        Kind::Meet,
        None,
        Some(5),
        [true, true, false],
        1,
    ),
    (
        WAITS,
        "",
        &["/0/1.0"],
        Kind::Open,
        Some(0),
        None,
        [true, true, false],
        0,
    ),
    (
        WAITS,
        "",
        &["/0/1.0", "/0/1.2"],
        Kind::Close,
        None,
        None,
        [true, true, false],
        0,
    ),
    (
        "procedure p is sync s begin sync s || sync s end",
        "",
        &["/0/0.0"],
        Kind::Sync,
        None,
        None,
        [true, true, false],
        0,
    ),
];

#[test]
fn each_kind_of_event_shows_its_own_parts(rt: HostRuntime) -> Result<(), Fail> {
    let alloc = rt.alloc();
    for (source, stimulus, steps, kind, arm, bits, has, reads) in SHOWN {
        let events = events_of(alloc, source, stimulus, steps)?;
        let event = events.last().ok_or("no event")?;
        assert!(rt; event.kind == kind, "{steps:?}");
        assert_eq!(rt; event.arm, arm, "{steps:?}");
        assert_eq!(rt; event.value.map(|value| value.bits), bits, "{steps:?}");
        let parts = [
            event.second.is_some(),
            event.channel.is_some(),
            event.written.is_some(),
        ];
        assert!(rt; parts == has, "{steps:?}");
        assert_eq!(rt; event.read.as_slice().len(), reads, "{steps:?}");
        assert!(rt; event.read.as_slice().is_sorted(), "{steps:?}");
        let choice: Choice = event.choice(alloc)?;
        assert_eq!(rt; choice.arm, 0, "{steps:?}");
        let acting = steps.last().ok_or("no step")?;
        assert!(rt; acts_at(alloc, event, acting)?, "{steps:?}");
    }
    Ok(())
}

/// The events in this order.
fn ordered(alloc: Global, events: &[Event], order: &[usize]) -> Result<Vec<Event>, Fail> {
    let mut list = Vec::new(alloc);
    for at in order {
        list.push(events.get(*at).ok_or("no event")?.copy(alloc)?)?;
    }
    Ok(list)
}

#[test]
fn lists_of_the_same_events_are_one_run(rt: HostRuntime) -> Result<(), Fail> {
    let alloc = rt.alloc();
    let checked = checked(alloc, TWO_BUFFERS, FED)?;
    let events = events_of(alloc, TWO_BUFFERS, FED, &FOUR_STEPS)?;
    let first = checked.variable(b"1:x").ok_or("no variable")?;
    let opening = replay(alloc, &checked, &[])?.ok_or("no run")?;
    assert_eq!(rt;
        (opening.value(first), opening.value(2)),
        (Some(word(0, 8)), None)
    );
    for (order, runs) in [
        ([0, 1, 2, 3].as_slice(), true),
        ([0, 2, 1, 3].as_slice(), true),
        ([1, 0, 2, 3].as_slice(), true),
        ([0, 1, 3, 2].as_slice(), false),
        ([2, 0, 1, 3].as_slice(), false),
        ([0, 0, 1, 2].as_slice(), false),
    ] {
        let other = ordered(alloc, events.as_slice(), order)?;
        assert_eq!(rt;
            replay(alloc, &checked, other.as_slice())?.is_some(),
            runs,
            "{order:?}"
        );
        let same = same_run(alloc, &checked, events.as_slice(), other.as_slice())?;
        assert_eq!(rt; same.is_some(), runs, "{order:?}");
        let value = same.and_then(|state| state.value(first));
        assert_eq!(rt; value, runs.then_some(word(5, 8)), "{order:?}");
    }
    // A beginning runs, but has fewer events.
    let fewer = ordered(alloc, events.as_slice(), &[0, 2])?;
    assert!(rt; replay(alloc, &checked, fewer.as_slice())?.is_some());
    assert!(rt; same_run(alloc, &checked, events.as_slice(), fewer.as_slice())?.is_none());
    Ok(())
}

#[test]
fn a_race_over_a_shared_variable_has_two_runs(rt: HostRuntime) -> Result<(), Fail> {
    let alloc = rt.alloc();
    let source = "procedure p is shared variable x : 8 bits begin x := 1 || x := 2 end";
    let checked = checked(alloc, source, "")?;
    let one = events_of(alloc, source, "", &["/0/0", "/0/1"])?;
    let other = events_of(alloc, source, "", &["/0/1", "/0/0"])?;
    assert!(rt; replay(alloc, &checked, one.as_slice())?.is_some());
    assert!(rt; replay(alloc, &checked, other.as_slice())?.is_some());
    assert!(rt; same_run(alloc, &checked, one.as_slice(), one.as_slice())?.is_some());
    assert!(rt; same_run(alloc, &checked, one.as_slice(), other.as_slice())?.is_none());
    Ok(())
}

#[test]
fn live_events_know_who_needs_them(rt: HostRuntime) -> Result<(), Fail> {
    let alloc = rt.alloc();
    let mut live = Live::new(alloc);
    let mut last = None;
    for (event, ticket) in events_of(alloc, TWO_BUFFERS, FED, &FOUR_STEPS)?
        .into_iter()
        .zip(1..5)
    {
        last = Some(event.copy(alloc)?);
        assert!(rt; live.add(ticket, Boxed::new(alloc, event)?).is_ok());
    }
    for (ticket, count, first, marked) in [
        (1, 2, Some(3), 3),
        (2, 1, Some(4), 2),
        (3, 1, Some(4), 2),
        (4, 0, None, 1),
    ] {
        assert_eq!(rt;
            (live.count(ticket), live.first_dependent(ticket)),
            (count, first),
            "{ticket}"
        );
        assert_eq!(rt; live.mark_consequences(ticket), marked, "{ticket}");
        assert_eq!(rt; live.last_marked(), Some(4), "{ticket}");
    }
    assert!(rt; live.followers(1) == [3].as_slice());
    assert_eq!(rt; live.pair_at(3).map(|pair| pair.0), Some(4));
    assert!(rt; live.pair_at(4).is_none());
    // Marks stay until the next marking, and an added event has none.
    assert_eq!(rt; live.mark_consequences(3), 2);
    let taken: Event = live.take(4);
    assert!(rt; matches!(taken.kind, Kind::Meet));
    assert_eq!(rt;
        (live.count(1), live.first_dependent(2), live.last_marked()),
        (1, None, Some(3))
    );
    let again = last.ok_or("no event")?;
    assert!(rt; live.add(9, Boxed::new(alloc, again)?).is_ok());
    assert_eq!(rt;
        (live.first_dependent(2), live.last_marked()),
        (Some(9), Some(3))
    );
    assert_eq!(rt; live.mark_consequences(9), 1);
    assert_eq!(rt; live.last_marked(), Some(9));
    Ok(())
}

#[test]
fn a_machine_steps_and_undoes(rt: HostRuntime) -> Result<(), Fail> {
    let alloc = rt.alloc();
    let mut machine = machine_behind(alloc, BUFFER, FED, &[])?;
    let steps = ["/0.0", "/0.1.0", "/2.0"];
    for (ticket, at) in (1..4).zip(steps) {
        let ready: Vec<Event> = machine.ready()?;
        assert_eq!(rt; ready.len(), 1);
        let (given, event) = machine.step(&choice(alloc, at)?)?;
        assert_eq!(rt; given, ticket);
        assert!(rt; acts_at(alloc, &event, at)?, "{at}");
    }
    assert!(rt;
        matches!(
            machine.step(&choice(alloc, "/0.0")?),
            Err(Refusal::NotReady)
        )
    );
    for (ticket, refusal) in [
        (1, Refusal::NeededBy(2)),
        (2, Refusal::NeededBy(3)),
        (0, Refusal::NoSuchEvent),
        (4, Refusal::NoSuchEvent),
    ] {
        assert!(rt;
            matches!(machine.undo(ticket), Err(found) if found == refusal),
            "{ticket}"
        );
    }
    for ticket in [3, 2, 1] {
        let undone: Event = machine.undo(ticket)?;
        assert!(rt; acts_at(alloc, &undone, steps[ticket as usize - 1])?);
    }
    assert!(rt; machine.live_at(0).is_none());
    // A ticket is never used again.
    assert_eq!(rt; machine.step(&choice(alloc, "/0.0")?)?.0, 4);
    Ok(())
}

#[test]
fn events_apart_are_undone_in_any_order(rt: HostRuntime) -> Result<(), Fail> {
    let alloc = rt.alloc();
    let mut two = machine_behind(alloc, TWO_BUFFERS, FED, &["/0/0.0", "/0/1.0"])?;
    assert!(rt; acts_at(alloc, &two.undo(1)?, "/0/0.0")?);
    assert!(rt; tickets(alloc, &two)?.as_slice() == [2].as_slice());

    let source = "procedure p is variable x, y : 8 bits begin loop [x := 1 || y := 2] end end";
    let mut machine = machine_behind(alloc, source, "", &["/0.0", "/0.1/0", "/0.1/1", "/0.2"])?;
    let (x, y) = (
        machine.checked().variable(b"x"),
        machine.checked().variable(b"y"),
    );
    let (x, y) = (x.ok_or("no variable")?, y.ok_or("no variable")?);
    assert!(rt; matches!(machine.undo(2), Err(Refusal::NeededBy(4))));
    assert!(rt; matches!(machine.undo(4)?.kind, Kind::Turn));
    let undone = machine.undo(2)?;
    assert!(rt; matches!(undone.kind, Kind::Assign));
    assert_eq!(rt;
        (undone.written, undone.value),
        (Some(x), Some(Value { bits: 1, width: 8 }))
    );
    assert_eq!(rt; machine.value(x), Some(Value { bits: 0, width: 8 }));
    assert_eq!(rt; machine.value(y), Some(Value { bits: 2, width: 8 }));
    assert_eq!(rt; machine.value(2), None);
    let ready = machine.ready()?;
    assert_eq!(rt; ready.len(), 1);
    assert!(rt; acts_at(alloc, ready.first().ok_or("none is ready")?, "/0.1/0")?);
    Ok(())
}

#[test]
fn turns_go_on_and_back(rt: HostRuntime) -> Result<(), Fail> {
    let alloc = rt.alloc();
    let turns = [
        "/0.0", "/0.2", "/0.4", "/0.6", "/0.8", "/0.10", "/0.12", "/0.14",
    ];
    let mut machine = machine_behind(
        alloc,
        "procedure p is begin loop continue end end",
        "",
        &turns,
    )?;
    assert!(rt; matches!(machine.undo(1), Err(Refusal::NeededBy(2))));
    assert!(rt; acts_at(alloc, &machine.undo(8)?, "/0.14")?);
    assert_eq!(rt; machine.step(&choice(alloc, "/0.14")?)?.0, 9);
    assert_eq!(rt; machine.mark_consequences(3), 6);
    assert_eq!(rt; machine.last_marked(), Some(9));
    assert_eq!(rt; roll(&mut machine, 3)?, 6);
    assert!(rt; tickets(alloc, &machine)?.as_slice() == [1, 2].as_slice());
    assert_eq!(rt; machine.last_marked(), None);
    Ok(())
}

#[test]
fn a_branch_steps_where_no_breakpoint_stands(rt: HostRuntime) -> Result<(), Fail> {
    let alloc = rt.alloc();
    let mut machine = machine_behind(alloc, BUFFER, FED, &[])?;
    let mut breaks = Breaks::new();
    breaks.set(2)?;
    assert!(rt; breaks.has(2) && !breaks.has(1));
    assert!(rt; matches!(machine.branch_step(0, &breaks), BranchReply::Stopped(2)));
    assert!(rt; matches!(machine.branch_step(1, &breaks), BranchReply::Idle));
    breaks.clear(2);
    assert!(rt; !breaks.has(2));
    assert!(rt;
        matches!(machine.branch_step(0, &breaks), BranchReply::Stepped(1, event) if acts_at(alloc, &event, "/0.0")?)
    );
    assert!(rt; matches!(machine.branch_step(9, &breaks), BranchReply::Idle));
    // An environment place has no line, and so no breakpoint.
    breaks.set(2)?;
    breaks.clear(2);
    assert!(rt; matches!(machine.branch_step(0, &breaks), BranchReply::Stepped(2, _)));
    breaks.set(2)?;
    assert!(rt; matches!(machine.branch_step(2, &breaks), BranchReply::Stepped(3, _)));
    Ok(())
}

#[test]
fn so_many_lines_have_a_breakpoint(rt: HostRuntime) -> Result<(), Fail> {
    let mut breaks = Breaks::new();
    for line in 1..65 {
        breaks.set(line)?;
    }
    assert!(rt; breaks.set(65) == Err(Refusal::BreaksFull));
    assert!(rt; breaks.set(64).is_ok());
    assert!(rt; !breaks.has(65));
    breaks.clear(1);
    breaks.clear(1);
    assert!(rt; breaks.set(65).is_ok());
    Ok(())
}

#[test]
fn a_written_value_goes_back_to_the_one_before(rt: HostRuntime) -> Result<(), Fail> {
    let alloc = rt.alloc();
    let source = "procedure p is variable x : 8 bits begin x := 1 ; x := 2 end";
    let mut machine = machine_behind(alloc, source, "", &[])?;
    let x = machine.checked().variable(b"x").ok_or("no variable")?;
    assert!(rt; blame(&machine, x) == Err(Refusal::NeverWritten));
    for step in ["/0.0", "/0.1"] {
        let (_, _event) = machine.step(&choice(alloc, step)?)?;
    }
    for (ticket, left) in [(2, 1), (1, 0)] {
        assert_eq!(rt; blame(&machine, x)?, ticket);
        assert_eq!(rt; roll_value(&mut machine, x)?, 1);
        assert_eq!(rt; machine.value(x).map(|value| value.bits), Some(left));
    }
    for variable in [x, 1, u32::MAX] {
        assert!(rt; roll_value(&mut machine, variable) == Err(Refusal::NeverWritten));
        assert!(rt; blame(&machine, variable) == Err(Refusal::NeverWritten));
    }
    Ok(())
}

#[test]
fn a_rollback_takes_the_consequences_alone(rt: HostRuntime) -> Result<(), Fail> {
    let alloc = rt.alloc();
    let mut machine = machine_behind(alloc, TWO_BUFFERS, FED, &FOUR_STEPS)?;
    for (ticket, list) in [
        (1, [1, 3, 4].as_slice()),
        (2, [2, 4].as_slice()),
        (3, [3, 4].as_slice()),
        (4, [4].as_slice()),
    ] {
        assert!(rt;
            consequences(&machine, ticket)?.as_slice() == list,
            "{ticket}"
        );
    }
    assert!(rt; matches!(consequences(&machine, 5), Err(Refusal::NoSuchEvent)));
    assert!(rt; matches!(machine.undo(2), Err(Refusal::NeededBy(4))));
    assert_eq!(rt; roll(&mut machine, 2)?, 2);
    assert!(rt; tickets(alloc, &machine)?.as_slice() == [1, 3].as_slice());
    assert!(rt; roll(&mut machine, 2) == Err(Refusal::NoSuchEvent));
    let (first, second) = (
        machine.checked().variable(b"1:x"),
        machine.checked().variable(b"2:x"),
    );
    assert_eq!(rt; blame(&machine, first.ok_or("no variable")?), Ok(3));
    assert_eq!(rt;
        blame(&machine, second.ok_or("no variable")?),
        Err(Refusal::NeverWritten)
    );
    let ready = machine.ready()?;
    assert_eq!(rt; ready.len(), 1);
    assert!(rt; acts_at(alloc, ready.first().ok_or("none is ready")?, "/0/1.0")?);
    Ok(())
}
