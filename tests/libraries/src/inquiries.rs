//! What there is, who waits, and why: the answers as text, for the circuits of `examples.rs` and for rings.

use crate::examples::{Example, FORK, ONCE, TWO_BUFFERS};
use machine::Machine;
use outline::outline_of;
use past::{past_of_event, past_of_variable, write_past};
use std::alloc::Global;
use std::process::Abort;
use std::test::Fail;
use trace_file::load_text;
use waiting::who_waits;

/// Two that each wait for what the other one sends later.
const PAIR: Example = Example {
    source: "procedure p is channel c, d : 8 bits variable x, y : 8 bits
        begin [c -> x ; d <- x] || [d -> y ; c <- y] end",
    stimulus: "",
};

/// Five in a circle, each of which waits for the one before it.
const CIRCLE: Example = Example {
    source: "procedure cell (input i : 8 bits ; output o : 8 bits) is
        variable x : 8 bits begin loop i -> x ; o <- x end end
        procedure p is channel a, b, c, d, e : 8 bits
        begin cell (a, b) || cell (b, c) || cell (c, d) || cell (d, e) || cell (e, a) end",
    stimulus: "",
};

/// One that waits for either of two that have come to their end.
const CHOICE: Example = Example {
    source: "procedure p (input a, b : 8 bits ; output o : 8 bits) is
        begin select a then o <- a | b then o <- b end end",
    stimulus: "",
};

/// The example behind the steps of the trace.
fn loaded(alloc: Global, example: Example, trace: &[u8]) -> Result<Machine, Fail> {
    Ok(load_text(alloc, example.checked(alloc)?, trace)?)
}

/// Who waits, as text.
fn told(alloc: Global, example: Example, trace: &[u8]) -> Result<Vec<u8>, Fail> {
    let machine = loaded(alloc, example, trace)?;
    let mut text = Vec::new(alloc);
    who_waits(alloc, &machine)?.write_to(&machine, &mut text)?;
    Ok(text)
}

/// Whether the texts are the same; else the first is shown.
fn is(rt: &impl Abort, text: &Vec<u8>, wanted: &[u8]) {
    assert!(rt; text.as_slice() == wanted);
}

#[test]
fn a_run_goes_on_while_an_event_is_allowed(rt: HostRuntime) -> Result<(), Fail> {
    let text = told(rt.alloc(), ONCE, b"balsadbg trace 2\n")?;
    is(
        &rt,
        &text,
        b"goes on\nready 1\n  branch 0 meet i 5 /1.0.0 /0.0\nwaiting 1\n  branch 2 /2.0 environment: takes from o, behind branch 0 /0.0, for line 2\n",
    );
    Ok(())
}

#[test]
fn a_run_is_done_when_only_outputs_are_offered(rt: HostRuntime) -> Result<(), Fail> {
    let text = told(
        rt.alloc(),
        ONCE,
        b"balsadbg trace 2\nstep /0.0 0\nstep /2.0 0\n",
    )?;
    is(
        &rt,
        &text,
        b"done\nwaiting 1\n  branch 2 /2.1 environment: takes from o, no other branch comes to it on line 2 any more\n",
    );
    Ok(())
}

#[test]
fn a_held_sender_waits_for_its_arm(rt: HostRuntime) -> Result<(), Fail> {
    let text = told(rt.alloc(), FORK, b"balsadbg trace 2\nstep /0.0.0 0\n")?;
    is(
        &rt,
        &text,
        b"goes on\nready 2\n  branch 2 meet a 5 /0.0.1/0.0 /2.0\n  branch 3 meet b 5 /0.0.1/1.0 /3.0\nwaiting 1\n  branch 1 /1.0.1 environment: is held on i, behind branch 0 /0.0.1, for line 2\n",
    );
    Ok(())
}

#[test]
fn the_second_value_waits_behind_the_first(rt: HostRuntime) -> Result<(), Fail> {
    let trace = b"balsadbg trace 2\nstep /0.0.0 0\nstep /2.0 0\nstep /3.0 0\n";
    let text = told(rt.alloc(), FORK, trace)?;
    let wanted =
        b"goes on\nready 1\n  branch 0 close i /1.0.1 /0.0.2\nwaiting 2\n  branch 2 /2.1 environment: takes from a, no other branch comes to it on line 2 any more\n  branch 3 /3.1 environment: takes from b, no other branch comes to it on line 2 any more\n";
    is(&rt, &text, wanted);
    Ok(())
}

#[test]
fn two_wait_for_one_another(rt: HostRuntime) -> Result<(), Fail> {
    let text = told(rt.alloc(), PAIR, b"balsadbg trace 2\n")?;
    let wanted =
        b"stuck\nwaiting 2\n  branch 0 /0/0.0 line 2: receives from c, behind branch 1 /0/1.0, for line 2\n  branch 1 /0/1.0 line 2: receives from d, behind branch 0 /0/0.0, for line 2\nring 2\n  branch 0 /0/0.0\n  branch 1 /0/1.0\n";
    is(&rt, &text, wanted);
    Ok(())
}

#[test]
fn five_wait_in_a_circle(rt: HostRuntime) -> Result<(), Fail> {
    let trace =
        b"balsadbg trace 2\nstep /0/0.0 0\nstep /0/1.0 0\nstep /0/2.0 0\nstep /0/3.0 0\nstep /0/4.0 0\n";
    let machine = loaded(rt.alloc(), CIRCLE, trace)?;
    let told = who_waits(rt.alloc(), &machine)?;
    assert!(rt; told.actions.len() == 5);
    assert!(rt; told.ring.as_slice() == [0, 4, 3, 2, 1].as_slice());
    Ok(())
}

#[test]
fn arms_wait_for_inputs_that_have_no_values(rt: HostRuntime) -> Result<(), Fail> {
    let text = told(rt.alloc(), CHOICE, b"balsadbg trace 2\n")?;
    let wanted =
        b"out of input\nwaiting 3\n  branch 0 /0.0 line 2: opens arm 0 on a, the stimulus of a is used up\n  branch 0 /0.0 line 2: opens arm 1 on b, the stimulus of b is used up\n  branch 3 /3.0 environment: takes from o, behind branch 0 /0, for line 2\n";
    is(&rt, &text, wanted);
    Ok(())
}

/// One that waits for either of two, each of which waits for it.
const KNOT: Example = Example {
    source: "procedure p is channel a, b, x, y : 8 bits variable v, w : 8 bits
        begin [select a then continue | b then continue end ; [x <- 1 || y <- 2]] || [x -> v ; a <- v] || [y -> w ; b <- w] end",
    stimulus: "",
};

#[test]
fn a_ring_goes_through_one_arm_of_a_choice(rt: HostRuntime) -> Result<(), Fail> {
    let text = told(rt.alloc(), KNOT, b"balsadbg trace 2\n")?;
    let wanted = b"stuck
waiting 4
  branch 0 /0/0.0.0 line 2: opens arm 0 on a, behind branch 1 /0/1.0, for line 2
  branch 0 /0/0.0.0 line 2: opens arm 1 on b, behind branch 2 /0/2.0, for line 2
  branch 1 /0/1.0 line 2: receives from x, behind branch 0 /0/0.0, for line 2
  branch 2 /0/2.0 line 2: receives from y, behind branch 0 /0/0.0, for line 2
ring 2
  branch 0 /0/0.0.0
  branch 1 /0/1.0
";
    is(&rt, &text, wanted);
    Ok(())
}

/// The two buffers behind four steps: both turn, and the value goes on to the second.
const FOUR: &[u8] =
    b"balsadbg trace 2\nstep /0/0.0 0\nstep /0/0.1.0 0\nstep /0/1.0 0\nstep /0/1.1.0 0\n";

#[test]
fn a_value_has_a_past(rt: HostRuntime) -> Result<(), Fail> {
    let alloc = rt.alloc();
    let machine = loaded(alloc, TWO_BUFFERS, FOUR)?;
    let Some(past) = past_of_variable(alloc, machine.live_events(), 1, false)? else {
        return Err(Fail::from(std::alloc::AllocError));
    };
    let mut text = Vec::new(alloc);
    write_past(
        alloc,
        &mut text,
        machine.checked(),
        machine.live_events(),
        &past,
    )?;
    let wanted =
        b"  2 line 2: a carries 5 into 1:x\n  4 line 2: c carries 5 into 2:x, reads 1:x = 5 of step 2, after 2\n2 steps without a value left out: --all\n";
    is(&rt, &text, wanted);
    Ok(())
}

#[test]
fn the_whole_past_has_turns_too(rt: HostRuntime) -> Result<(), Fail> {
    let alloc = rt.alloc();
    let machine = loaded(alloc, TWO_BUFFERS, FOUR)?;
    let Some(past) = past_of_event(alloc, machine.live_events(), 4, true)? else {
        return Err(Fail::from(std::alloc::AllocError));
    };
    let mut tickets = Vec::new(alloc);
    for event in past.events.as_slice() {
        tickets.push(event.ticket)?;
    }
    assert!(rt; tickets.as_slice() == [1, 2, 3, 4].as_slice());
    let Some(short) = past_of_event(alloc, machine.live_events(), 3, true)? else {
        return Err(Fail::from(std::alloc::AllocError));
    };
    assert!(rt; short.events.len() == 1);
    assert!(rt; short.left_out == 0);
    Ok(())
}

#[test]
fn a_step_without_a_value_is_told_where_it_is_asked_for(rt: HostRuntime) -> Result<(), Fail> {
    let alloc = rt.alloc();
    let trace =
        b"balsadbg trace 2\nstep /0/0.0 0\nstep /0/0.1.0 0\nstep /0/1.0 0\nstep /0/1.1.0 0\nstep /0/0.2 0\n";
    let machine = loaded(alloc, TWO_BUFFERS, trace)?;
    let Some(past) = past_of_event(alloc, machine.live_events(), 5, false)? else {
        return Err(Fail::from(std::alloc::AllocError));
    };
    let mut text = Vec::new(alloc);
    write_past(
        alloc,
        &mut text,
        machine.checked(),
        machine.live_events(),
        &past,
    )?;
    let wanted =
        b"  2 line 2: a carries 5 into 1:x\n  4 line 2: c carries 5 into 2:x, reads 1:x = 5 of step 2, after 2\n  5 line 2: turn, after 4\n2 steps without a value left out: --all\n";
    is(&rt, &text, wanted);
    Ok(())
}

#[test]
fn what_was_never_written_has_no_past(rt: HostRuntime) -> Result<(), Fail> {
    let alloc = rt.alloc();
    let machine = loaded(alloc, TWO_BUFFERS, b"balsadbg trace 2\n")?;
    let none = past_of_variable(alloc, machine.live_events(), 0, true)?;
    assert!(rt; none.is_none());
    let none = past_of_event(alloc, machine.live_events(), 1, true)?;
    assert!(rt; none.is_none());
    Ok(())
}

#[test]
fn branches_and_names_have_their_numbers(rt: HostRuntime) -> Result<(), Fail> {
    let alloc = rt.alloc();
    let checked = TWO_BUFFERS.checked(alloc)?;
    let mut text = Vec::new(alloc);
    outline_of(alloc, &checked)?.write_to(&mut text)?;
    let wanted = b"branches 4
  0 /0/0 line 2
    receives a line 2
    sends c line 2
  1 /0/1 line 2
    receives c line 2
    sends b line 2
  2 /1 environment
    sends a
  3 /2 environment
    receives b
variables 2
  1:x 8 bits
  2:x 8 bits
channels 3
  a 8 bits
    receives, branch 0 line 2
    sends, branch 2
  b 8 bits
    sends, branch 1 line 2
    receives, branch 3
  c 8 bits
    sends, branch 0 line 2
    receives, branch 1 line 2
";
    is(&rt, &text, wanted);
    Ok(())
}
