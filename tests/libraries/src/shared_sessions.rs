//! Sessions on one execution, each in a thread of its own.

ghost use Rattle.std.specs.Prelude.{◌≤◌};

use crate::examples::*;
use crate::transcripts::has_memory;
use debug_session::{Fault, Session};
use locked_execution::{Machine, Shared};
use sharing_check::Checked;
use std::alloc::Global;
use std::sync::Wait;
use std::test::Fail;
use std::thread::{Threads, for_each_mut};

/// An execution of the buffer, and its system.
#[derive(Drop)]
struct Execution {
    shared: Shared,
    checked: Checked,
}

/// A session, and what its last line was answered.
#[derive(Drop)]
struct Sitter {
    session: Session,
    told: Result<Vec<u8>, Fault>,
}

fn execution(alloc: Global, count: u32) -> Result<(Execution, Vec<Sitter>), Fail>
    requires { count ≤ 16 }
{
    let checked = BUFFER.checked(alloc)?;
    let machine = Machine::new(alloc, checked.clone()?)?;
    let (shared, passes) = Shared::new(alloc, machine, count)?;
    let mut sitters = Vec::with_capacity(alloc, passes.len())?;
    for pass in passes {
        sitters.push_reserved(Sitter {
            session: Session { pass },
            told: Ok(Vec::new(alloc)),
        });
    }
    Ok((Execution { shared, checked }, sitters))
}

impl Execution {
    /// What the session is answered to the line of this number. Want of memory fails the test.
    fn answer<W: Wait>(
        &self,
        rt: &W,
        alloc: Global,
        sitter: &mut Sitter,
        line: &[u8],
        number: u64,
    ) -> Result<Result<Vec<u8>, Fault>, Fail> {
        let session = &mut sitter.session;
        match session.answer(rt, alloc, &self.shared, &self.checked, line, number) {
            Err(Fault::Memory) => Err(Fail::from(Fault::Memory)),
            Ok(bytes) => {
                has_memory(bytes.as_slice())?;
                Ok(Ok(bytes))
            }
            fault => Ok(fault),
        }
    }

    /// Lets each session answer the line in a thread of its own.
    fn answer_all<W: Threads + Wait + Sync>(
        &self,
        rt: &W,
        alloc: Global,
        sitters: &mut [Sitter],
        line: &[u8],
    ) {
        let (shared, checked) = (&self.shared, &self.checked);
        for_each_mut(
            rt,
            sitters,
            16,
            &|_, it: &mut Sitter| {
                it.told = it.session.answer(rt, alloc, shared, checked, line, 1);
            },
        );
    }

    /// Whether each session finds that so many calls are recorded.
    fn have_seen(&self, sitters: &mut [Sitter], calls: u64) -> bool {
        for sitter in sitters {
            if self.shared.length(&mut sitter.session.pass) != calls {
                return false;
            }
        }
        true
    }
}

fn is(bytes: &[u8], text: &[u8]) -> bool {
    bytes == text
}

/// How many sessions were answered so. Want of memory fails the test.
fn told_so(sitters: &[Sitter], answer: &[u8]) -> Result<usize, Fail> {
    let mut count = 0;
    for sitter in sitters {
        match &sitter.told {
            Ok(bytes) => {
                has_memory(bytes.as_slice())?;
                if is(bytes.as_slice(), answer) {
                    count += 1;
                }
            }
            Err(fault) => return Err(Fail::from(*fault)),
        }
    }
    Ok(count)
}

#[test]
fn a_session_answers_its_lines(rt: HostRuntime) -> Result<(), Fail> {
    let (execution, mut sitters) = execution(rt.alloc(), 1)?;
    let Some(mut sitter) = sitters.pop() else {
        return Err(Fail::from("a session"));
    };
    let sitter = &mut sitter;
    let step = execution.answer(&rt, rt.alloc(), sitter, b"step /0.0", 1)?;
    assert!(rt; matches!(step, Ok(bytes) if is(bytes.as_slice(), b"step 1 turn /0.0\n")));
    let empty = execution.answer(&rt, rt.alloc(), sitter, b"", 2)?;
    assert!(rt; matches!(empty, Ok(bytes) if bytes.is_empty()));
    let others: [&[u8]; 4] = [b"session 1", b"view", b"trace", b"jump"];
    for (place, line) in others.iter().enumerate() {
        let number = place as u64 + 3;
        let bad = execution.answer(&rt, rt.alloc(), sitter, line, number)?;
        assert!(rt; matches!(bad, Err(fault) if fault == Fault::BadCommand(number)));
    }
    assert_eq!(rt; execution.shared.length(&mut sitter.session.pass), 1);
    Ok(())
}

#[test]
fn sixteen_sessions_answer_at_once(rt: HostRuntime) -> Result<(), Fail> {
    let (execution, mut sitters) = execution(rt.alloc(), 16)?;
    let sitters = sitters.as_mut_slice();
    execution.answer_all(&rt, rt.alloc(), sitters, b"step /0.0");
    assert_eq!(rt; told_so(sitters, b"step 1 turn /0.0\n")?, 1);
    assert_eq!(rt; told_so(sitters, b"refused 21\n")?, 15);
    assert!(rt; execution.have_seen(sitters, 16));
    execution.answer_all(&rt, rt.alloc(), sitters, b"undo 1");
    assert_eq!(rt; told_so(sitters, b"undone 1 turn /0.0\n")?, 1);
    assert_eq!(rt; told_so(sitters, b"refused 23\n")?, 15);
    assert!(rt; execution.have_seen(sitters, 32));
    Ok(())
}

#[test]
fn an_answer_without_memory_calls_once_at_most(rt: HostRuntime) -> Result<(), Fail> {
    let (execution, mut sitters) = execution(rt.alloc(), 1)?;
    let Some(Sitter { mut session, .. }) = sitters.pop() else {
        return Err(Fail::from("a session"));
    };
    let (shared, checked) = (&execution.shared, &execution.checked);
    let mut calls = 0;
    for _ in 0..3 {
        match session.answer(&rt, rt.alloc(), shared, checked, b"step /0.0", 1) {
            Ok(bytes) if calls == 0 => {
                let is_step = is(bytes.as_slice(), b"step 1 turn /0.0\n");
                assert!(rt; is_step || is(bytes.as_slice(), b"refused 1\n"));
                calls += u64::from(is_step);
            }
            Ok(bytes) => {
                let is_refused = is(bytes.as_slice(), b"refused 21\n");
                assert!(rt; is_refused || is(bytes.as_slice(), b"refused 1\n"));
                calls += u64::from(is_refused);
            }
            Err(fault) => {
                assert_eq!(rt; fault, Fault::Memory);
                let found = shared.length(&mut session.pass);
                assert!(rt; found == calls || found == calls + 1);
                calls = found;
            }
        }
        assert_eq!(rt; shared.length(&mut session.pass), calls);
    }
    assert!(rt; calls >= 2);
    Ok(())
}
