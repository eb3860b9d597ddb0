//! Undo, roll, blame and roll_value behind steps of every form of the language. With `rollbacks` these are the steps of all
//! worked runs. None of the calls wants memory: `tests/memory/run` refuses each request for it.

use crate::examples::*;
use crate::rollbacks::{Asked, Calls, IN_ROW, Steps, Told, begun, look};
use calculus::Refusal;
use std::test::Fail;

const NO_SUCH_EVENT: Told = Told::Refused(Refusal::NoSuchEvent);

const NEVER_WRITTEN: Told = Told::Refused(Refusal::NeverWritten);

#[test]
fn one_of_two_turns_is_undone(rt: HostRuntime) -> Result<(), Fail> {
    let mut machine = begun(rt.alloc(), TWO_BUFFERS, &[("/0/0.0", 0), ("/0/1.0", 0)])?;
    let calls: Calls = &[
        (Asked::Undo(1), Told::Undone(1), &[2]),
        (Asked::Roll(1), NO_SUCH_EVENT, &[2]),
        (Asked::Blame(0), NEVER_WRITTEN, &[2]),
        (Asked::Roll(2), Told::Rolled(1), &[]),
    ];
    look(&rt, &mut machine, calls);
    Ok(())
}

#[test]
fn two_orders_of_undoing_leave_the_same(rt: HostRuntime) -> Result<(), Fail> {
    let orders: [Calls; 2] = [
        &[
            (Asked::Undo(4), Told::Undone(4), &[1, 2, 3]),
            (Asked::Undo(3), Told::Undone(3), &[1, 2]),
            (Asked::Undo(2), Told::Undone(2), &[1]),
        ],
        &[
            (Asked::Undo(4), Told::Undone(4), &[1, 2, 3]),
            (Asked::Undo(2), Told::Undone(2), &[1, 3]),
            (Asked::Undo(3), Told::Undone(3), &[1]),
        ],
    ];
    for calls in orders {
        let mut machine = begun(rt.alloc(), TWO_BUFFERS, IN_ROW)?;
        look(&rt, &mut machine, calls);
    }
    Ok(())
}

#[test]
fn a_closed_arm_is_rolled_back_in_parts(rt: HostRuntime) -> Result<(), Fail> {
    let steps: Steps = &[
        ("/0.0.0", 0),
        ("/2.0", 0),
        ("/3.0", 0),
        ("/0.0.2", 0),
        ("/0.1", 0),
    ];
    let mut machine = begun(rt.alloc(), FORK, steps)?;
    let calls: Calls = &[
        (Asked::Blame(0), Told::Blamed(5), &[1, 2, 3, 4, 5]),
        (
            Asked::Undo(4),
            Told::Refused(Refusal::NeededBy(5)),
            &[1, 2, 3, 4, 5],
        ),
        (Asked::RollValue(0), Told::Rolled(1), &[1, 2, 3, 4]),
        (
            Asked::Undo(3),
            Told::Refused(Refusal::NeededBy(4)),
            &[1, 2, 3, 4],
        ),
        (Asked::Roll(2), Told::Rolled(2), &[1, 3]),
        (Asked::Undo(1), Told::Refused(Refusal::NeededBy(3)), &[1, 3]),
        (Asked::Roll(1), Told::Rolled(2), &[]),
    ];
    look(&rt, &mut machine, calls);
    Ok(())
}

#[test]
fn a_selected_arm_is_undone(rt: HostRuntime) -> Result<(), Fail> {
    let mut machine = begun(rt.alloc(), SELECT, &[("/0.0", 1)])?;
    let calls: Calls = &[
        (Asked::RollValue(0), NEVER_WRITTEN, &[1]),
        (Asked::Undo(1), Told::Undone(1), &[]),
        (Asked::Undo(1), NO_SUCH_EVENT, &[]),
    ];
    look(&rt, &mut machine, calls);
    Ok(())
}

#[test]
fn a_sync_is_undone(rt: HostRuntime) -> Result<(), Fail> {
    let mut machine = begun(rt.alloc(), TWO_SYNCS, &[("/0/0.0", 0)])?;
    look(&rt, &mut machine, &[(Asked::Undo(1), Told::Undone(1), &[])]);
    let mut machine = begun(rt.alloc(), SELECTION, &[("/0/1.0", 0), ("/0/1.2", 0)])?;
    let calls: Calls = &[
        (Asked::Undo(1), Told::Refused(Refusal::NeededBy(2)), &[1, 2]),
        (Asked::Undo(2), Told::Undone(2), &[1]),
        (Asked::Roll(1), Told::Rolled(1), &[]),
    ];
    look(&rt, &mut machine, calls);
    Ok(())
}

#[test]
fn a_sync_with_the_environment_is_undone(rt: HostRuntime) -> Result<(), Fail> {
    let steps: Steps = &[("/0.0", 0), ("/0.1.0", 0), ("/0.2", 0)];
    let mut machine = begun(rt.alloc(), SYNC_LOOP, steps)?;
    let calls: Calls = &[
        (
            Asked::Undo(2),
            Told::Refused(Refusal::NeededBy(3)),
            &[1, 2, 3],
        ),
        (Asked::Undo(3), Told::Undone(3), &[1, 2]),
        (Asked::Roll(1), Told::Rolled(2), &[]),
    ];
    look(&rt, &mut machine, calls);
    Ok(())
}

#[test]
fn values_that_are_cut_and_that_wrap_go_back(rt: HostRuntime) -> Result<(), Fail> {
    let calls: Calls = &[
        (Asked::Blame(0), Told::Blamed(1), &[1]),
        (Asked::RollValue(0), Told::Rolled(1), &[]),
        (Asked::Blame(0), NEVER_WRITTEN, &[]),
    ];
    for example in CUT_AND_WRAPPED {
        let mut machine = begun(rt.alloc(), example, &[("/0", 0)])?;
        look(&rt, &mut machine, calls);
    }
    Ok(())
}

#[test]
fn turns_are_rolled_back(rt: HostRuntime) -> Result<(), Fail> {
    let steps: Steps = &[
        ("/0.0", 0),
        ("/0.2", 0),
        ("/0.4", 0),
        ("/0.6", 0),
        ("/0.8", 0),
        ("/0.10", 0),
        ("/0.12", 0),
        ("/0.14", 0),
    ];
    let mut machine = begun(rt.alloc(), EMPTY_LOOP, steps)?;
    let calls: Calls = &[
        (
            Asked::Undo(1),
            Told::Refused(Refusal::NeededBy(2)),
            &[1, 2, 3, 4, 5, 6, 7, 8],
        ),
        (Asked::Roll(4), Told::Rolled(5), &[1, 2, 3]),
        (Asked::Undo(3), Told::Undone(3), &[1, 2]),
        (Asked::Roll(1), Told::Rolled(2), &[]),
    ];
    look(&rt, &mut machine, calls);
    let mut machine = begun(rt.alloc(), STARVED_BUFFER, &[("/0.0", 0)])?;
    look(&rt, &mut machine, &[(Asked::Undo(1), Told::Undone(1), &[])]);
    Ok(())
}

#[test]
fn a_value_in_and_out_goes_back(rt: HostRuntime) -> Result<(), Fail> {
    let mut machine = begun(rt.alloc(), ONCE, &[("/0.0", 0), ("/2.0", 0)])?;
    let calls: Calls = &[
        (Asked::Blame(0), Told::Blamed(1), &[1, 2]),
        (Asked::Undo(1), Told::Refused(Refusal::NeededBy(2)), &[1, 2]),
        (Asked::RollValue(0), Told::Rolled(2), &[]),
    ];
    look(&rt, &mut machine, calls);
    Ok(())
}

#[test]
fn an_arm_of_a_case_goes_back(rt: HostRuntime) -> Result<(), Fail> {
    let mut machine = begun(rt.alloc(), CASE_WITH_ELSE, &[("/0.0", 0), ("/0.1", 0)])?;
    let calls: Calls = &[
        (Asked::Blame(0), Told::Blamed(2), &[1, 2]),
        (Asked::Undo(1), Told::Refused(Refusal::NeededBy(2)), &[1, 2]),
        (Asked::Roll(2), Told::Rolled(1), &[1]),
        (Asked::Undo(1), Told::Undone(1), &[]),
    ];
    look(&rt, &mut machine, calls);
    Ok(())
}

#[test]
fn a_turn_goes_back_with_what_it_did(rt: HostRuntime) -> Result<(), Fail> {
    let steps: Steps = &[
        ("/0.0", 0),
        ("/0.1.0", 0),
        ("/0.1.1", 0),
        ("/0.2", 0),
        ("/0.3.0", 0),
    ];
    let mut machine = begun(rt.alloc(), LOOP_OF_WRITES, steps)?;
    let calls: Calls = &[
        (Asked::Blame(0), Told::Blamed(5), &[1, 2, 3, 4, 5]),
        (Asked::Roll(3), Told::Rolled(3), &[1, 2]),
        (Asked::Blame(0), Told::Blamed(2), &[1, 2]),
        (Asked::RollValue(0), Told::Rolled(1), &[1]),
    ];
    look(&rt, &mut machine, calls);
    Ok(())
}

#[test]
fn races_go_back(rt: HostRuntime) -> Result<(), Fail> {
    let mut machine = begun(rt.alloc(), RACE, &[("/0/0", 0), ("/0/1", 0)])?;
    let calls: Calls = &[
        (Asked::Undo(1), Told::Refused(Refusal::NeededBy(2)), &[1, 2]),
        (Asked::Blame(1), Told::Blamed(2), &[1, 2]),
        (Asked::Roll(1), Told::Rolled(2), &[]),
    ];
    look(&rt, &mut machine, calls);
    let mut machine = begun(rt.alloc(), RACE, &[("/0/1", 0), ("/0/0", 0)])?;
    let calls: Calls = &[
        (Asked::Undo(1), Told::Refused(Refusal::NeededBy(2)), &[1, 2]),
        (Asked::Undo(2), Told::Undone(2), &[1]),
        (Asked::Blame(0), NEVER_WRITTEN, &[1]),
        (Asked::Undo(1), Told::Undone(1), &[]),
    ];
    look(&rt, &mut machine, calls);
    Ok(())
}

#[test]
fn the_last_of_two_racing_writes_goes_back(rt: HostRuntime) -> Result<(), Fail> {
    let mut machine = begun(rt.alloc(), RACE_OF_WRITES, &[("/0/1", 0), ("/0/0", 0)])?;
    let calls: Calls = &[
        (Asked::Blame(0), Told::Blamed(2), &[1, 2]),
        (Asked::RollValue(0), Told::Rolled(1), &[1]),
        (Asked::Blame(0), Told::Blamed(1), &[1]),
    ];
    look(&rt, &mut machine, calls);
    Ok(())
}

#[test]
fn a_value_that_was_handed_over_goes_back(rt: HostRuntime) -> Result<(), Fail> {
    let mut machine = begun(rt.alloc(), HANDED_OVER, &[("/0/1.0", 0), ("/0/0", 0)])?;
    let calls: Calls = &[
        (Asked::Blame(0), Told::Blamed(2), &[1, 2]),
        (Asked::Blame(1), Told::Blamed(1), &[1, 2]),
        (Asked::RollValue(1), Told::Rolled(2), &[]),
    ];
    look(&rt, &mut machine, calls);
    Ok(())
}
