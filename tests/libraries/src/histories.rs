//! What a crowd was told is what one desk answers to the same commands, one after another.

use crate::crowd::{Crowd, found};
use crate::examples::*;
use std::alloc::AllocError;
use std::test::Fail;

#[test]
fn a_crowd_is_told_what_one_desk_answers(rt: HostRuntime) -> Result<(), Fail> {
    for (seed, example) in [TWO_BUFFERS, LOOP_OF_BRANCHES, ARBITER].iter().enumerate() {
        let crowd = Crowd {
            people: 4,
            turns: 50,
            rounds: 100,
            seed: seed as u64,
        };
        let found = found(&rt, rt.alloc(), example.checked(rt.alloc())?, crowd)?;
        if found.lost != 0 {
            return Err(Fail::from(AllocError));
        }
        assert_eq!(rt; found.worked, 200);
        assert!(rt; found.stepped >= 3);
        assert!(rt; found.each_its_own);
        assert!(rt; found.lengths_agree);
        assert_eq!(rt; found.differs, None);
    }
    Ok(())
}
