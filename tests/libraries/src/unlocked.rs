//! `length` and `meet` wait for nobody: another pass is in its call meanwhile, and has the lock. A call that is not recorded gives
//! the lock back.

use locked_object::{NotRecorded, Object, Pass, Shared};
use std::sync::atomic::{AtomicU64, Ordering};
use std::test::Fail;
use std::thread::join;

/// How often one thread looks for the other.
const LOOKS: u64 = 1_000_000_000;

/// What two threads tell one another.
#[derive(Drop)]
struct Signs {
    /// 1 once the object performs a call
    performs: AtomicU64,
    /// 1 once `length` and `meet` have returned
    returned: AtomicU64,
}

/// Whether the sign is given before this thread has looked so often.
fn is_given(sign: &AtomicU64) -> bool {
    for _ in 0..LOOKS {
        if sign.load(Ordering::SeqCst) == 1 {
            return true;
        }
    }
    false
}

/// An object whose call lasts until `length` and `meet` have returned. It answers whether they have.
#[derive(Drop)]
struct Lasting<'a> {
    signs: &'a Signs,
}

impl<'a> Object<u8, bool> for Lasting<'a> {
    ghost performs = { λ _ _ _ _ _. Unit {0} };

    ghost refuses = { λ _ _ _ _. Unit {0} };

    fn perform(&mut self, _pass: u32, _command: &u8) -> Result<bool, bool> {
        self.signs.performs.store(1, Ordering::SeqCst);
        Ok(is_given(&self.signs.returned))
    }
}

type Execution<'a> = Shared<u8, bool, Lasting<'a>>;

type Side<'a> = Pass<Lasting<'a>, u8, bool>;

/// The lengths that `length` and `meet` answer while the object performs a call.
fn lengths<'a>(
    execution: &Execution<'a>,
    signs: &Signs,
    one: &mut Side<'a>,
    two: &mut Side<'a>,
) -> Option<(u64, u64)> {
    if !is_given(&signs.performs) {
        return None;
    }
    let found = (execution.length(one), execution.meet(one, two));
    signs.returned.store(1, Ordering::SeqCst);
    Some(found)
}

#[test]
fn length_and_meet_wait_for_nobody(rt: HostRuntime) -> Result<(), Fail> {
    let signs = Signs {
        performs: AtomicU64::new(0),
        returned: AtomicU64::new(0),
    };
    let (execution, mut passes) = Shared::new(rt.alloc(), Lasting { signs: &signs }, 3)?;
    let (Some(mut two), Some(mut one), Some(mut zero)) = (passes.pop(), passes.pop(), passes.pop())
    else {
        return Err(Fail::from("three passes"));
    };
    let (told, found) = join(
        &rt,
        || execution.call(&rt, &mut zero, &0),
        || lengths(&execution, &signs, &mut one, &mut two),
    );
    assert!(rt; matches!(told, Ok(true)));
    assert_eq!(rt; found, Some((0, 0)));
    assert_eq!(rt; execution.length(&mut one), 1);
    Ok(())
}

/// An object that answers whether the command is even, and refuses it where it is odd.
#[derive(Drop)]
struct Choosy;

impl Object<u8, bool> for Choosy {
    ghost performs = { λ _ _ _ _ _. Unit {0} };

    ghost refuses = { λ _ _ _ _. Unit {0} };

    fn perform(&mut self, _pass: u32, command: &u8) -> Result<bool, bool> {
        if *command % 2 == 0 {
            Ok(true)
        } else {
            Err(false)
        }
    }
}

#[test]
fn a_call_that_is_not_recorded_gives_the_lock_back(rt: HostRuntime) -> Result<(), Fail> {
    let (execution, mut passes) = Shared::new(rt.alloc(), Choosy, 2)?;
    let (Some(mut one), Some(mut zero)) = (passes.pop(), passes.pop()) else {
        return Err(Fail::from("two passes"));
    };
    let refused = execution.call(&rt, &mut zero, &1);
    assert!(rt; matches!(refused, Err(NotRecorded::Refused(false))));
    // Where the lock is not free, this never comes back.
    assert!(rt; matches!(execution.call(&rt, &mut one, &2), Ok(true)));
    assert!(rt; matches!(execution.call(&rt, &mut zero, &3), Err(_)));
    assert_eq!(rt; execution.length(&mut zero), 1);
    Ok(())
}
