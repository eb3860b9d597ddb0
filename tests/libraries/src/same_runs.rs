//! Lists of the same events as one run, and lists that are none.

use crate::examples::*;
use crate::sharing::racing;
use crate::told::*;
use calculus::{Event, replay, same_run};
use sharing_check::Checked;
use std::alloc::Global;
use std::test::Fail;

/// The first steps of two buffers, one behind the other.
fn steps() -> [Told; 4] {
    let received = into(meet(b"/1.0.0", b"/0/0.1.0", 0, 5), 0);
    let handed_on = into(meet(b"/0/0.1.1.0", b"/0/1.1.0", 2, 5), 1);
    [
        turn(b"/0/0.0"),
        turn(b"/0/1.0"),
        received,
        reading(&[0], handed_on),
    ]
}

/// The steps of these tickets, in this order.
fn in_order(alloc: Global, tickets: &[usize]) -> Result<Vec<Event>, Fail> {
    let mut told = Vec::new(alloc);
    for ticket in tickets {
        told.push(steps()[*ticket - 1])?;
    }
    events(alloc, told.as_slice())
}

/// The values of the first two variables after both lists, `None` where they are not one run.
fn values(
    alloc: Global,
    checked: &Checked,
    a: &[Event],
    b: &[Event],
) -> Result<Option<[Option<u64>; 2]>, Fail> {
    let Some(plain) = same_run(alloc, checked, a, b)? else {
        return Ok(None);
    };
    let value = |variable| plain.value(variable).map(|value| value.bits());
    Ok(Some([value(0), value(1)]))
}

#[test]
fn orders_that_respect_dependence_are_one_run(rt: HostRuntime) -> Result<(), Fail> {
    let checked = TWO_BUFFERS.checked(rt.alloc())?;
    let orders: [&[usize]; 3] = [&[1, 2, 3, 4], &[1, 3, 2, 4], &[2, 1, 3, 4]];
    for one in orders {
        for other in orders {
            let a = in_order(rt.alloc(), one)?;
            let b = in_order(rt.alloc(), other)?;
            let told = values(rt.alloc(), &checked, &a, &b)?;
            assert_eq!(rt; told, Some([Some(5), Some(5)]));
        }
    }
    Ok(())
}

#[test]
fn other_events_are_another_run(rt: HostRuntime) -> Result<(), Fail> {
    let checked = TWO_BUFFERS.checked(rt.alloc())?;
    let cases: [(&[usize], &[usize]); 5] = [
        (&[1, 2, 3], &[1, 2, 3, 4]),
        (&[1, 2, 3, 4], &[1, 2, 3]),
        (&[1, 3], &[1, 2]),
        // the second is no run
        (&[1, 2, 3, 4], &[3, 1, 2, 4]),
        (&[3, 1, 2, 4], &[1, 2, 3, 4]),
    ];
    for (one, other) in cases {
        let a = in_order(rt.alloc(), one)?;
        let b = in_order(rt.alloc(), other)?;
        assert_eq!(rt; values(rt.alloc(), &checked, &a, &b)?, None);
    }
    assert_eq!(rt;
        values(rt.alloc(), &checked, &[], &[])?,
        Some([Some(0), Some(0)])
    );
    Ok(())
}

/// Both lists end in one state, and are of one length.
#[test]
fn arms_that_end_alike_are_two_runs(rt: HostRuntime) -> Result<(), Fail> {
    let checked = ALIKE.checked(rt.alloc())?;
    let one = events(rt.alloc(), &[open(b"/1.0.0", b"/0.0", 0, 0, Some(5))])?;
    let other = events(rt.alloc(), &[open(b"/2.0.0", b"/0.0", 1, 1, Some(5))])?;
    assert!(rt; replay(rt.alloc(), &checked, &one)?.is_some());
    assert!(rt; replay(rt.alloc(), &checked, &other)?.is_some());
    assert!(rt; same_run(rt.alloc(), &checked, &one, &other)?.is_none());
    Ok(())
}

#[test]
fn writes_of_a_shared_variable_keep_their_order(rt: HostRuntime) -> Result<(), Fail> {
    let checked = racing(
        rt.alloc(),
        b"procedure p is variable x : 8 bits begin x := 1 || x := 2 end",
    )?;
    let one = events(rt.alloc(), &[assign(b"/0/0", 0, 1), assign(b"/0/1", 0, 2)])?;
    let other = events(rt.alloc(), &[assign(b"/0/1", 0, 2), assign(b"/0/0", 0, 1)])?;
    assert!(rt; replay(rt.alloc(), &checked, &one)?.is_some());
    assert!(rt; replay(rt.alloc(), &checked, &other)?.is_some());
    assert!(rt; same_run(rt.alloc(), &checked, &one, &other)?.is_none());
    assert!(rt; same_run(rt.alloc(), &checked, &other, &one)?.is_none());
    assert!(rt; same_run(rt.alloc(), &checked, &one, &one)?.is_some());
    Ok(())
}

/// Two branches read `x`, in either order, and both before the third writes it.
#[test]
fn reads_of_a_shared_variable_may_change_places(rt: HostRuntime) -> Result<(), Fail> {
    let checked = racing(
        rt.alloc(),
        b"procedure p is variable x, y, z : 8 bits begin y := x || z := x || x := 1 end",
    )?;
    let first = reading(&[0], assign(b"/0/0", 1, 0));
    let second = reading(&[0], assign(b"/0/1", 2, 0));
    let write = assign(b"/0/2", 0, 1);
    let one = events(rt.alloc(), &[first, second, write])?;
    let other = events(rt.alloc(), &[second, first, write])?;
    assert!(rt; same_run(rt.alloc(), &checked, &one, &other)?.is_some());
    let late = reading(&[0], assign(b"/0/1", 2, 1));
    let behind = events(rt.alloc(), &[first, write, late])?;
    assert!(rt; replay(rt.alloc(), &checked, &behind)?.is_some());
    assert!(rt; same_run(rt.alloc(), &checked, &one, &behind)?.is_none());
    Ok(())
}

/// A write that leaves the value as it is may not change places with a read either.
#[test]
fn a_read_and_a_write_keep_their_order(rt: HostRuntime) -> Result<(), Fail> {
    let checked = racing(
        rt.alloc(),
        b"procedure p is variable x, y : 8 bits begin x := 0 || y := x end",
    )?;
    let write = assign(b"/0/0", 0, 0);
    let read = reading(&[0], assign(b"/0/1", 1, 0));
    let one = events(rt.alloc(), &[write, read])?;
    let other = events(rt.alloc(), &[read, write])?;
    assert!(rt; replay(rt.alloc(), &checked, &one)?.is_some());
    assert!(rt; replay(rt.alloc(), &checked, &other)?.is_some());
    assert!(rt; same_run(rt.alloc(), &checked, &one, &other)?.is_none());
    assert!(rt; same_run(rt.alloc(), &checked, &other, &one)?.is_none());
    Ok(())
}
