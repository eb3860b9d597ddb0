//! What a checked system tells of its branches, places, lines and names.

use crate::one::checked;
use address::{Address, read};
use sharing_check::Checked;
use std::alloc::Global;
use std::test::Fail;
use system::QualifiedName;

/// A buffer with two places, in one loop, on the lines 2 to 4.
const BUFFER: &[u8] =
    b"procedure buffer (input i : 8 bits ; output o : 8 bits) is variable x, y : 8 bits begin
loop i -> x ; i -> y ;
    o <- x ;
    o <- y end end";

/// The same of two buffers with one place each, side by side: both are calls of one procedure, with commands on the
/// lines 2 and 3.
const ROW: &[u8] =
    b"procedure one (input i : 8 bits ; output o : 8 bits) is variable x : 8 bits begin
loop i -> x ;
    o <- x end end
procedure row (input a : 8 bits ; output b : 8 bits) is channel c : 8 bits begin
one (a, c) || one (c, b) end";

/// A choice in a loop: the loop on line 2, the choice on line 3, its arms on the lines 4 and 5.
const MERGE: &[u8] = b"procedure merge (input a, b : 8 bits ; output o : 8 bits) is begin
loop
select a then
o <- a | b then
o <- b end end end";

/// What is told of a place.
#[derive(Clone, Copy)]
enum Told {
    Branch(Option<u32>),
    Line(Option<u64>),
    /// whether a `select` opens there
    Select(bool),
}

fn is_told(checked: &Checked, place: &Address, told: Told) -> bool {
    match told {
        Told::Branch(branch) => checked.branch(place) == branch,
        Told::Line(line) => checked.line(place) == line,
        Told::Select(opens) => checked.select(place) == opens,
    }
}

/// Places, and what is told of each.
type Places = &'static [(&'static str, Told)];

const IN_BUFFER: Places = &[
    ("/0.0", Told::Branch(Some(0))),
    ("/0.1.0", Told::Branch(Some(0))),
    ("/1.0.0", Told::Branch(Some(1))),
    ("/3.0", Told::Branch(None)),
];

const IN_ROW: Places = &[
    ("/0/0.0", Told::Branch(Some(0))),
    ("/0/1.1.0", Told::Branch(Some(1))),
    ("/0/1", Told::Branch(Some(1))),
    ("/0/2.0", Told::Branch(None)),
    ("/0.0", Told::Branch(None)),
    ("/1.0.0", Told::Branch(Some(2))),
    ("/2.7", Told::Branch(Some(3))),
    ("/3.0", Told::Branch(None)),
    ("/0/0.0", Told::Line(Some(2))),
    ("/0/0.1.0", Told::Line(Some(2))),
    ("/0/1.3.1.0", Told::Line(Some(3))),
    ("/0/1.3.1.1", Told::Line(Some(3))),
    ("/0/1.3.1.2", Told::Line(None)),
    ("/0/1.3.2", Told::Line(None)),
    ("/0/2.0", Told::Line(None)),
    ("/0.0", Told::Line(None)),
    ("/1.0.0", Told::Line(None)),
];

/// The loop, the choice as it opens and as it closes, and what its arms do.
const IN_MERGE: Places = &[
    ("/0.2", Told::Line(Some(2))),
    ("/0.3.0", Told::Line(Some(3))),
    ("/0.3.2", Told::Line(Some(3))),
    ("/0.3.1.0", Told::Line(Some(4))),
    ("/0.1.0", Told::Select(true)),
    ("/0.3.0", Told::Select(true)),
    ("/0.0", Told::Select(false)),
    ("/0.1.1.0", Told::Select(false)),
    ("/0.1.2", Told::Select(false)),
    ("/1.0.0", Told::Select(false)),
];

/// The first of the places of which something else is told.
fn first_other(
    alloc: Global,
    checked: &Checked,
    places: Places,
) -> Result<Option<&'static str>, Fail> {
    for (text, told) in places {
        let place = read(alloc, text.as_bytes())?.ok_or("an address")?;
        if !is_told(checked, &place, *told) {
            return Ok(Some(*text));
        }
    }
    Ok(None)
}

/// Sources with the numbers of their branches.
const CASES: [(&[u8], u32, Places); 3] = [
    (BUFFER, 3, IN_BUFFER),
    (ROW, 4, IN_ROW),
    (MERGE, 4, IN_MERGE),
];

#[test]
fn places_have_branches_lines_and_selects(rt: HostRuntime) -> Result<(), Fail> {
    for (source, branches, places) in CASES {
        let checked = checked(rt.alloc(), source)?;
        assert_eq!(rt; checked.branches(), branches);
        assert_eq!(rt; first_other(rt.alloc(), &checked, places)?, None);
    }
    Ok(())
}

const BEGINS: [(u64, bool); 6] = [
    (0, false),
    (1, false),
    (2, true),
    (3, true),
    (4, true),
    (5, false),
];

#[test]
fn commands_begin_on_lines(rt: HostRuntime) -> Result<(), Fail> {
    let checked = checked(rt.alloc(), BUFFER)?;
    for (line, begins) in BEGINS {
        assert_eq!(rt; checked.begins(line), begins, "{line}");
    }
    Ok(())
}

/// Whether there is a name, and it is this one.
fn is_named(name: Option<&QualifiedName>, text: &str) -> bool {
    match name {
        Some(name) => name.is(text.as_bytes()),
        None => false,
    }
}

/// A clone of the system, which is gone itself.
fn cloned(alloc: Global) -> Result<Checked, Fail> {
    let original = checked(alloc, ROW)?;
    Ok(original.clone()?)
}

#[test]
fn a_clone_outlives_the_original(rt: HostRuntime) -> Result<(), Fail> {
    let clone = cloned(rt.alloc())?;
    assert_eq!(rt; clone.branches(), 4);
    assert_eq!(rt; clone.variable(b"2:x"), Some(1));
    assert_eq!(rt; clone.variable(b"x"), None);
    assert!(rt; is_named(clone.variable_name(1), "2:x"));
    assert!(rt; clone.variable_name(2).is_none());
    assert!(rt; is_named(clone.channel_name(2), "c"));
    assert!(rt; clone.channel_name(3).is_none());
    Ok(())
}
