//! What the view of a source shows, and that it shows nothing else where memory is wanting.

use crate::told::place;
use calculus::{Choice, Refusal};
use debug_session::accept;
use machine::{Breaks, Machine};
use source_view::view;
use std::alloc::Global;
use std::test::Fail;

/// A choice in a loop: the loop on line 2, the choice on line 3, its arms on the lines 4 and 5.
const MERGE: &[u8] = b"procedure merge (input a, b : 8 bits ; output o : 8 bits) is begin
loop
select a then
o <- a | b then
o <- b end end end";

/// Before the first turn of the loop.
const BEFORE: &[u8] = b"    1     procedure merge (input a, b : 8 bits ; output o : 8 bits) is begin
    2 >   loop
    3     select a then
    4  *  o <- a | b then
    5     o <- b end end end
";

/// In the first turn, where both inputs have a value.
const BOTH: &[u8] = b"    1     procedure merge (input a, b : 8 bits ; output o : 8 bits) is begin
    2     loop
    3 > ! select a then
    4  *  o <- a | b then
    5     o <- b end end end
";

/// In the first turn, where one input has a value.
const ONE: &[u8] = b"    1     procedure merge (input a, b : 8 bits ; output o : 8 bits) is begin
    2     loop
    3 >   select a then
    4  *  o <- a | b then
    5     o <- b end end end
";

/// A stimulus, and what is seen in the first turn.
const CASES: [(&[u8], &[u8]); 2] = [(b"a = 5\nb = 7", BOTH), (b"a = 5", ONE)];

fn merge(alloc: Global, stimulus: &[u8]) -> Result<Machine, Fail> {
    let checked = accept(alloc, MERGE, stimulus)?;
    Ok(Machine::new(alloc, checked)?)
}

/// A breakpoint on line 4.
fn one_break() -> Result<Breaks, Refusal> {
    let mut breaks = Breaks::new();
    breaks.set(4)?;
    Ok(breaks)
}

/// Begins the first turn of the loop.
fn turn(alloc: Global, machine: &mut Machine) -> Result<(), Fail> {
    let place = place(alloc, b"/0.0")?;
    match machine.step(&Choice { place, arm: 0 }) {
        Ok((1, _)) => Ok(()),
        Err(Refusal::Memory) => Err(Fail::from(Refusal::Memory)),
        _ => Err("no turn")?,
    }
}

#[test]
fn a_view_shows_where_something_may_happen(rt: HostRuntime) -> Result<(), Fail> {
    let breaks = one_break()?;
    for (stimulus, within) in CASES {
        let mut machine = merge(rt.alloc(), stimulus)?;
        let bytes = view(rt.alloc(), &machine, &breaks, MERGE)?;
        assert_eq!(rt; bytes.as_slice(), BEFORE);
        turn(rt.alloc(), &mut machine)?;
        let bytes = view(rt.alloc(), &machine, &breaks, MERGE)?;
        assert_eq!(rt; bytes.as_slice(), within);
    }
    Ok(())
}

/// The view before the first turn, where there is memory for it.
fn view_before(alloc: Global) -> Option<Vec<u8>> {
    let checked = accept(alloc, MERGE, b"").ok()?;
    let machine = Machine::new(alloc, checked).ok()?;
    let breaks = one_break().ok()?;
    view(alloc, &machine, &breaks, MERGE).ok()
}

/// Holds whichever allocation fails, so it is for runs in which one does.
#[test]
fn without_memory_there_is_no_other_view(rt: HostRuntime) {
    if let Some(bytes) = view_before(rt.alloc()) {
        assert_eq!(rt; bytes.as_slice(), BEFORE);
    }
}
