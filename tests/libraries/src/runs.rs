//! Lists that are runs and the states after them, and lists that are none.

use crate::examples::*;
use crate::told::*;
use calculus::{Plain, replay};
use std::alloc::Global;
use std::test::Fail;

/// The state after the events, `None` where they do not run.
pub fn state_after(alloc: Global, example: Example, told: &[Told]) -> Result<Option<Plain>, Fail> {
    let checked = example.checked(alloc)?;
    let events = events(alloc, told)?;
    Ok(replay(alloc, &checked, events.as_slice())?)
}

/// The number in the variable after the events, `None` where they do not run.
fn number_after(
    alloc: Global,
    example: Example,
    told: &[Told],
    variable: u32,
) -> Result<Option<u64>, Fail> {
    match state_after(alloc, example, told)? {
        Some(plain) => Ok(plain.value(variable).map(|value| value.bits())),
        None => Ok(None),
    }
}

/// Whether the events run.
fn runs(alloc: Global, example: Example, told: &[Told]) -> Result<bool, Fail> {
    Ok(state_after(alloc, example, told)?.is_some())
}

#[test]
fn values_are_passed_on(rt: HostRuntime) -> Result<(), Fail> {
    let read = into(meet(b"/1.0.0", b"/0.1.0", 0, 5), 0);
    let written = reading(&[0], meet(b"/0.1.1.0", b"/2.0", 1, 5));
    let told = [turn(b"/0.0"), read, written];
    assert_eq!(rt; number_after(rt.alloc(), BUFFER, &told, 0)?, Some(5));
    // There is one variable.
    assert_eq!(rt; number_after(rt.alloc(), BUFFER, &told, 1)?, None);
    assert!(rt; !runs(rt.alloc(), BUFFER, &[read, turn(b"/0.0")])?);
    assert!(rt; !runs(rt.alloc(), BUFFER, &[turn(b"/0.2")])?);
    Ok(())
}

#[test]
fn an_event_that_says_something_wrong_is_no_run(rt: HostRuntime) -> Result<(), Fail> {
    let right = meet(b"/1.0.0", b"/0.1.0", 0, 5);
    let wrong = [
        ("value", into(meet(b"/1.0.0", b"/0.1.0", 0, 6), 0)),
        ("channel", into(meet(b"/1.0.0", b"/0.1.0", 1, 5), 0)),
        ("sides", into(meet(b"/0.1.0", b"/1.0.0", 0, 5), 0)),
        ("written variable", into(right, 1)),
        ("read variable", reading(&[0], into(right, 0))),
        ("kind", sync(b"/1.0.0", b"/0.1.0", 0)),
    ];
    for (what, event) in wrong {
        assert!(rt;
            !runs(rt.alloc(), BUFFER, &[turn(b"/0.0"), event])?,
            "{what}"
        );
    }
    Ok(())
}

#[test]
fn a_test_takes_no_other_arm(rt: HostRuntime) -> Result<(), Fail> {
    let cases = [
        ("first of a case", CASE_WITH_ELSE, Some(0), false),
        ("none of a case", CASE_WITH_ELSE, None, false),
        ("second of two", BOTH_GUARDS, Some(1), false),
        ("false guard", SECOND_GUARD, Some(0), false),
        ("else", SECOND_GUARD, Some(2), false),
        ("none with an else", NO_GUARD, None, false),
        ("else where there is none", NO_ARM, Some(2), false),
        ("none where there is no else", NO_ARM, None, true),
    ];
    for (what, example, arm, taken) in cases {
        let told = [test(b"/0.0", arm)];
        assert_eq!(rt; runs(rt.alloc(), example, &told)?, taken, "{what}");
    }
    Ok(())
}

#[test]
fn an_event_reads_all_that_its_expressions_name(rt: HostRuntime) -> Result<(), Fail> {
    let sum = assign(b"/0", 0, 0);
    let guards = choosing(b"/0.0", None);
    let cases = [
        ("operands", READER, reading(&[3, 1, 3], sum), true),
        ("one operand", READER, reading(&[3], sum), false),
        ("guards", GUARDS, reading(&[1, 0], guards), true),
        ("first guard", GUARDS, reading(&[1], guards), false),
    ];
    for (what, example, told, is_run) in cases {
        assert_eq!(rt; runs(rt.alloc(), example, &[told])?, is_run, "{what}");
    }
    Ok(())
}
