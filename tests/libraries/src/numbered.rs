// Trees as numbers, so that two of them can be compared, and what stands at a place of one.

use address::Entry;
use process_tree::{Gate, Phase, Proc, Tested, Turns};
use std::alloc::{AllocError, Global};
use value::Value;

/// The tree as numbers. The last children of a sequence that have begun and made no move are left out: an undo may leave some.
pub fn numbers_of(alloc: Global, proc: &Proc) -> Result<Vec<u64>, AllocError> {
    let mut out = Vec::new(alloc);
    add(proc, &mut out)?;
    Ok(out)
}

fn add(proc: &Proc, out: &mut Vec<u64>) -> Result<(), AllocError> {
    match proc {
        Proc::Idle => out.push(0)?,
        Proc::Stopped => out.push(1)?,
        Proc::Once(_, made) => {
            out.push(2)?;
            out.push(u64::from(*made))?;
        }
        Proc::Sender(_, phase) => {
            out.push(3)?;
            out.push(number_of(*phase))?;
        }
        Proc::Loop(_, turns) => add_loop(turns, out)?,
        Proc::Test(_, tested) => add_test(tested, out)?,
        Proc::Arms(_, gate) => add_arms(gate, out)?,
        Proc::Sequence(_, begun) => {
            out.push(12)?;
            add_all(moved(begun.as_slice()), out)?;
        }
        Proc::Parallel(procs) => {
            out.push(13)?;
            add_all(procs.as_slice(), out)?;
        }
        Proc::Drained(channel, count) => {
            out.push(14)?;
            out.push(u64::from(*channel))?;
            out.push(*count)?;
        }
    }
    Ok(())
}

fn number_of(phase: Phase) -> u64 {
    match phase {
        Phase::Waiting => 0,
        Phase::Holding => 1,
        Phase::Past => 2,
    }
}

fn add_loop(turns: &Turns, out: &mut Vec<u64>) -> Result<(), AllocError> {
    match turns {
        Turns::Fresh => out.push(4)?,
        Turns::EndedAtOnce => out.push(5)?,
        Turns::Turn(turn, over, body) => {
            out.push(6)?;
            out.push(*turn)?;
            out.push(u64::from(*over))?;
            add(body, out)?;
        }
    }
    Ok(())
}

fn add_test(tested: &Tested, out: &mut Vec<u64>) -> Result<(), AllocError> {
    match tested {
        Tested::Untested => out.push(7)?,
        Tested::Skipped => out.push(8)?,
        Tested::Took(arm, body) => {
            out.push(9)?;
            out.push(u64::from(*arm))?;
            add(body, out)?;
        }
    }
    Ok(())
}

fn add_arms(gate: &Gate, out: &mut Vec<u64>) -> Result<(), AllocError> {
    match gate {
        Gate::Unopened => out.push(10)?,
        Gate::Opened(channel, value, over, body) => {
            out.push(11)?;
            out.push(u64::from(*channel))?;
            add_value(*value, out)?;
            out.push(u64::from(*over))?;
            add(body, out)?;
        }
    }
    Ok(())
}

fn add_value(value: Option<Value>, out: &mut Vec<u64>) -> Result<(), AllocError> {
    match value {
        Some(value) => {
            out.push(u64::from(value.width()))?;
            out.push(value.bits())?;
        }
        None => out.push(0)?,
    }
    Ok(())
}

fn add_all(procs: &[Proc], out: &mut Vec<u64>) -> Result<(), AllocError> {
    out.push(procs.len() as u64)?;
    for proc in procs {
        add(proc, out)?;
    }
    Ok(())
}

/// The children up to the last that has made a move.
fn moved(children: &[Proc]) -> &[Proc] {
    let mut count = children.len();
    while count > 0 && !has_moved(&children[count - 1]) {
        count -= 1;
    }
    &children[..count]
}

fn has_moved(proc: &Proc) -> bool {
    match proc {
        Proc::Idle | Proc::Stopped => false,
        Proc::Once(_, made) => *made,
        Proc::Sender(_, phase) => !matches!(phase, Phase::Waiting),
        Proc::Loop(_, turns) => !matches!(turns, Turns::Fresh),
        Proc::Test(_, tested) => !matches!(tested, Tested::Untested),
        Proc::Arms(_, gate) => !matches!(gate, Gate::Unopened),
        Proc::Sequence(_, begun) => some_has_moved(begun.as_slice()),
        Proc::Parallel(procs) => some_has_moved(procs.as_slice()),
        Proc::Drained(_, count) => *count > 0,
    }
}

fn some_has_moved(procs: &[Proc]) -> bool {
    for proc in procs {
        if has_moved(proc) {
            return true;
        }
    }
    false
}

/// What stands at the place, or at the beginning of it where that says what is done there.
pub fn found_at<'a>(proc: &'a Proc, place: &[Entry]) -> Option<&'a Proc> {
    let Some((first, below)) = place.split_first() else {
        return Some(proc);
    };
    match (proc, first) {
        (Proc::Sequence(_, begun), Entry::Ordered(number)) => {
            found_at(begun.get(*number as usize)?, below)
        }
        (Proc::Parallel(procs), Entry::Branch(number)) => {
            found_at(procs.get(*number as usize)?, below)
        }
        (Proc::Loop(_, Turns::Turn(_, _, body)), Entry::Ordered(number)) if *number % 2 == 1 => {
            found_at(body, below)
        }
        (Proc::Test(_, Tested::Took(_, body)), Entry::Ordered(1)) => found_at(body, below),
        (Proc::Arms(_, Gate::Opened(_, _, _, body)), Entry::Ordered(1)) => found_at(body, below),
        _ => Some(proc),
    }
}
