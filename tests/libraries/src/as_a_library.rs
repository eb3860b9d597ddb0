//! The example of crates/README.md.

use debug_session::accept;
use machine::Machine;
use std::test::Fail;
use trace_file::{Counted, save};

const SOURCE: &[u8] = b"procedure p is variable x : 8 bits begin x := 1 ; x := 2 end\n";

#[test]
fn a_machine_steps_and_goes_back(rt: HostRuntime) -> Result<(), Fail> {
    let checked = accept(rt.alloc(), SOURCE, b"")?;
    let Some(x) = checked.variable(b"x") else {
        return Err(Fail::from("there is a variable x"));
    };
    let mut machine = Machine::new(rt.alloc(), checked)?;
    for _ in 0..2 {
        let ready = machine.ready()?;
        let (_ticket, event) = machine.step(&ready[0].choice(rt.alloc())?)?;
        assert!(rt; event.written == Some(x));
    }
    assert!(rt; machine.value(x).is_some_and(|value| value.bits == 2));
    let last = rollback::blame(&machine, x)?;
    assert_eq!(rt; rollback::roll(&mut machine, last)?, 1);
    assert!(rt; machine.value(x).is_some_and(|value| value.bits == 1));
    let mut text = Vec::new(rt.alloc());
    save(rt.alloc(), &machine, &mut Counted::new(&mut text))?;
    assert!(rt; text.as_slice() == b"balsadbg trace 2\nstep /0.0 0\n".as_slice());
    Ok(())
}
