//! Sessions of a shell, over files that are made up: each line with the answer of a script, and the words behind it.
//!
//! Expected answers of a script are those of `debug` on the same lines.

use crate::one::{FIVE, ONE};
use shell::{Counted, Fault, FileFault, Host, Texts, run};
use std::alloc::Global;
use std::cell::Cell;
use std::io::BufReader;
use std::str;
use std::test::Fail;
use std::time::Duration;

/// A trace of one step.
const TRACE: &[u8] = b"balsadbg trace 2\nstep /0.0 0\n";

/// The first lines.
const FIRST: &[u8] =
    b"one: input i; output o; branches 0 (line 1), 1 i, 2 o.\n`ready` lists what can be stepped, `run` takes steps, `help` lists all words.\n";

/// Each line with its end, what a script is answered to it, and the words behind it.
const LINES: [(&[u8], &[u8], &[u8]); 29] = [
    (
        b"ready\n",
        b"ready 1\n  meet i 5 /1.0.0 /0.0\n",
        b"  [1] receive 5 from i into x, line 1\n",
    ),
    (
        b"1\r\n",
        b"step 1 meet i 5 /1.0.0 /0.0\n",
        b"  received 5 from i into x, line 1\n",
    ),
    (
        b"  VALUE \t x  \n",
        b"value x 5\n",
        b"  x is 5, written by step 1 (received 5 from i into x, line 1)\n",
    ),
    (
        b"2\n",
        b"",
        b"  no step has the number 2 here; `ready` numbers those that can be taken\n",
    ),
    (
        b"run 1\n",
        b"step 2 meet o 5 /0.1.0 /2.0\n",
        b"  sent 5 to o, line 1\n  took 1 step, as many as were asked for\n",
    ),
    (b"run\n", b"", b"  took 0 steps; all done after 2 steps\n"),
    (
        b"undo 1\n",
        b"refused 24 2\n",
        b"  step 1 stays: step 2 (sent 5 to o, line 1) depends on it\n  `roll 1` takes back 2 steps: 1 and 2\n",
    ),
    (
        b"show 1\n",
        b"",
        b"  step 1 (received 5 from i into x, line 1)\n  it depends on no other step\n  step 2 depends on it\n",
    ),
    (
        b"why 2\n",
        b"",
        b"  step 1 (received 5 from i into x, line 1)\n  step 2 (sent 5 to o, line 1), from x = 5 of step 1\n",
    ),
    (b"vars\n", b"", b"  x = 5\n"),
    (
        b"valu x\n",
        b"",
        b"  `valu` is no word here; did you mean `value`?\n",
    ),
    (
        b"value y\n",
        b"",
        b"  no variable has the name `y`; `vars` lists the variables\n",
    ),
    (
        b"break x\n",
        b"",
        b"  `x` does not fit behind `break`: it is no whole number\n  write `break LINE`, as `break 7`\n  it sets a breakpoint on a line\n",
    ),
    (
        b"save old\n",
        b"",
        b"  not saved: old is there already, and stays as it is\n  `save! old` writes over it\n",
    ),
    (b"save! old\n", b"", b"  wrote old, 41 bytes\n"),
    (
        b"save full\n",
        b"",
        b"  not saved: full: the disk is full, and nothing was written\n",
    ),
    (
        b"save closed\n",
        b"",
        b"  not saved: closed: you may not read or write it there\n",
    ),
    (b"script new\n", b"", b"  wrote new, 40 bytes\n"),
    (
        b"load folder\n",
        b"",
        b"  not loaded: folder is no file: it is a folder or a device\n",
    ),
    (
        b"load other\n",
        b"",
        b"  not loaded: other: refused 31\n  its first line is not `balsadbg trace 2`, or ends as on Windows\n  the steps stay as they are\n",
    ),
    (
        b"undo\n",
        b"undone 2 meet o 5 /0.1.0 /2.0\n",
        b"  taken back: sent 5 to o, line 1\n  took back 1 step; 1 step is live\n",
    ),
    (
        b"back 7\n",
        b"undone 1 meet i 5 /1.0.0 /0.0\n",
        b"  taken back: received 5 from i into x, line 1\n  took back 1 step; 0 steps are live\n",
    ),
    (
        b"back\n",
        b"",
        b"  no step was taken back: no step is live\n",
    ),
    (
        b"break 1\n",
        b"ok\n",
        b"  a run stops at no send to an output port: the environment takes that step\n  where nothing else is on this line, break on what comes before\n",
    ),
    (b"load one\n", b"", b"  loaded 1 step\n"),
    (
        b"live\n",
        b"live 1\n  1 meet i 5 /1.0.0 /0.0\n",
        b"  step 1 (received 5 from i into x, line 1)\n",
    ),
    (
        b"roll 1\n",
        b"rolled 1\n",
        b"  took back 1 step; 0 steps are live\n",
    ),
    (
        b"branch 0\n",
        b"stopped 1\n",
        b"  its next step is on line 1, which has a breakpoint\n  `clear 1` takes it off, `ready` and a number take the step\n",
    ),
    (b"quit\n", b"", b""),
];

/// Files that are made up, and nobody waits.
struct Shelf;

impl Host for Shelf {
    ghost files = { λ _. record { holds = λ _ _. Unit {0}; free = λ _. Unit {0} } };

    fn read(&self, alloc: Global, name: &str) -> Result<Vec<u8>, FileFault> {
        let text = match name {
            "one" => TRACE,
            "other" => ONE,
            "folder" => return Err(FileFault::NoFile),
            _ => return Err(FileFault::Missing),
        };
        let mut bytes = Vec::new(alloc);
        match bytes.extend_from_slice(text) {
            Ok(()) => Ok(bytes),
            Err(_) => Err(FileFault::Memory),
        }
    }

    fn write(
        &self,
        _alloc: Global,
        name: &str,
        _bytes: &[u8],
        over: bool,
    ) -> Result<(), FileFault> {
        match name {
            "old" if !over => Err(FileFault::Exists),
            "full" => Err(FileFault::Full),
            "closed" => Err(FileFault::Forbidden),
            _ => Ok(()),
        }
    }

    fn clock(&self) -> Option<Duration> {
        None
    }

    fn show_steps(&self, _count: u64) {}

    fn clear_line(&self) {}
}

/// No files, and somebody who waits, for whom 600 ms pass between two looks at the clock.
#[derive(Drop)]
struct Patient {
    looks: Cell<u64>,
    shown: Cell<u64>,
    last: Cell<u64>,
    cleared: Cell<u64>,
}

impl Host for Patient {
    ghost files = { λ _. record { holds = λ _ _. Unit {0}; free = λ _. Unit {0} } };

    fn read(&self, _alloc: Global, _name: &str) -> Result<Vec<u8>, FileFault> {
        Err(FileFault::Missing)
    }

    fn write(
        &self,
        _alloc: Global,
        _name: &str,
        _bytes: &[u8],
        _over: bool,
    ) -> Result<(), FileFault> {
        Err(FileFault::Forbidden)
    }

    fn clock(&self) -> Option<Duration> {
        self.looks.set(self.looks.get() + 1);
        Some(Duration::from_millis(600 * self.looks.get()))
    }

    fn show_steps(&self, count: u64) {
        self.shown.set(self.shown.get() + 1);
        self.last.set(count);
    }

    fn clear_line(&self) {
        self.cleared.set(self.cleared.get() + 1);
    }
}

/// What is answered to these lines, on the description `one`. Want of memory, told or not, fails the test.
fn answers(
    alloc: Global,
    mut lines: &[u8],
    trace: Option<&[u8]>,
    is_terminal: bool,
) -> Result<Vec<u8>, Fail> {
    let mut answers = Vec::with_capacity(alloc, 8192)?;
    let texts = Texts {
        source: ONE,
        stimulus: FIVE,
        trace,
    };
    let ended = run(
        alloc,
        &mut Counted::new(BufReader::new(alloc, &mut lines)?),
        &mut Counted::new(&mut answers),
        &Shelf,
        texts,
        is_terminal,
    );
    ended?;
    if tells_no_memory(answers.as_slice()) {
        return Err(Fail::from(Fault::Memory));
    }
    Ok(answers)
}

/// Whether want of memory is told somewhere.
fn tells_no_memory(answers: &[u8]) -> bool {
    let told = b"no memory".as_slice();
    answers.windows(told.len()).any(|part| part == told)
}

#[test]
fn each_line_has_its_answer_and_words(rt: HostRuntime) -> Result<(), Fail> {
    let mut lines = Vec::with_capacity(rt.alloc(), 1024)?;
    for (line, _, _) in LINES {
        lines.extend_from_slice(line)?;
    }
    lines.extend_from_slice(b"live\n")?;
    let told = answers(rt.alloc(), lines.as_slice(), None, false)?;
    let mut left = told.as_slice();
    assert!(rt; left.starts_with(FIRST));
    left = left.get(FIRST.len()..).unwrap_or(b"");
    for (line, own, words) in LINES {
        let line = str::from_utf8(line).unwrap_or("");
        let text = str::from_utf8(left).unwrap_or("no text");
        let rest = behind(left, own, words);
        assert!(rt; rest.is_some(), "{line}: {text}");
        left = rest.unwrap_or(b"");
    }
    assert!(rt; left.is_empty());
    Ok(())
}

/// What stands behind the two parts of an answer; `None` where another one comes.
fn behind<'a>(told: &'a [u8], own: &[u8], words: &[u8]) -> Option<&'a [u8]> {
    told.strip_prefix(own)?.strip_prefix(words)
}

#[test]
fn a_session_begins_behind_a_trace(rt: HostRuntime) -> Result<(), Fail> {
    let told = answers(rt.alloc(), b"live", Some(TRACE), true)?;
    let expected = b"one: input i; output o; branches 0 (line 1), 1 i, 2 o.\n\
1 step of the trace is taken.\n`ready` lists what can be stepped, `run` takes steps, `help` lists all words.\n\
> live 1\n  1 meet i 5 /1.0.0 /0.0\n  step 1 (received 5 from i into x, line 1)\n";
    assert!(rt; told.as_slice() == expected.as_slice());
    Ok(())
}

#[test]
fn a_long_run_tells_how_far_it_is(rt: HostRuntime) -> Result<(), Fail> {
    let alloc = rt.alloc();
    let patient = Patient {
        looks: Cell::new(0),
        shown: Cell::new(0),
        last: Cell::new(0),
        cleared: Cell::new(0),
    };
    let mut lines = b"run 400\nrun 10\n".as_slice();
    let mut answers = Vec::with_capacity(alloc, 65536)?;
    let texts = Texts {
        source: b"procedure p is variable x : 1 bits begin loop x := 1 end end",
        stimulus: b"",
        trace: None,
    };
    run(
        alloc,
        &mut Counted::new(BufReader::new(alloc, &mut lines)?),
        &mut Counted::new(&mut answers),
        &patient,
        texts,
        true,
    )?;
    // It is asked for the time as a line begins, and once in 64 commands: so it is told every second time.
    assert!(rt; patient.shown.get() == 3);
    assert!(rt; patient.last.get() == 384);
    assert!(rt; patient.cleared.get() == 1);
    Ok(())
}
