//! Sessions over a reader and a writer of one's own, which count their failures themselves.

ghost use Rattle.std.specs.Prelude.{◌-◌, Some, vec_len};

use crate::one::{FIVE, ONE};
use debug_session::{CountedLines, CountedWrite, Fault, debug};
use devices::{ReadFault, WriteFailed};
use std::alloc::{AllocError, Global};
use std::test::Fail;

/// A reader that has all of its bytes at hand.
#[derive(Drop)]
struct Script<'a> {
    rest: &'a [u8],
}

impl CountedLines for Script<'_> {
    ghost remaining = { λ script. Some script.rest.now };

    // It never fails.
    ghost failed = { λ _. 0 };

    ghost buffered = { λ script. script.rest.now };

    ghost Asked = { Unit {0} };

    ghost asked = { λ _. tt };

    fn look_at_line(&self, line: &mut Vec<u8>) -> Result<bool, AllocError> {
        let Some(end) = self.rest.iter().position(|byte| *byte == b'\n') else {
            return Ok(false);
        };
        line.clear();
        line.extend_from_slice(&self.rest[..end])?;
        Ok(true)
    }

    fn pass_line(&mut self, line: &[u8]) {
        self.rest = &self.rest[line.len() + 1..];
    }

    fn read_line(&mut self, line: &mut Vec<u8>) -> Result<bool, ReadFault> {
        let is_whole = self.look_at_line(line);
        if let Ok(true) = is_whole {
            self.pass_line(line.as_slice());
            return Ok(true);
        }
        line.clear();
        if is_whole.is_err() || line.extend_from_slice(self.rest).is_err() {
            return Err(ReadFault::Memory);
        }
        self.rest = b"";
        Ok(false)
    }
}

/// A writer that takes a byte at a time, and fails behind so many.
#[derive(Drop)]
struct Paper {
    taken: Vec<u8>,
    good: usize,
    /// how many were taken when it was last flushed
    sent: usize,
    /// how many it was last asked to take
    wanted: usize,
    failed: u64,
}

impl Paper {
    fn new(alloc: Global, room: usize, good: usize) -> Result<Paper, Fail> {
        Ok(Paper {
            taken: Vec::with_capacity(alloc, room)?,
            good,
            sent: 0,
            wanted: 0,
            failed: 0,
        })
    }
}

impl CountedWrite for Paper {
    ghost contents = { λ paper. Some paper.taken.items };

    ghost failed = { λ paper. paper.failed };

    ghost tries = { λ _. 0 };

    ghost unsent = { λ paper. vec_len paper.taken - paper.sent };

    ghost wanted = { λ paper. paper.wanted };

    fn write_some(&mut self, bytes: &[u8]) -> Result<usize, WriteFailed> {
        self.wanted = bytes.len();
        if self.taken.len() >= self.good || self.taken.extend_from_slice(&bytes[..1]).is_err() {
            self.failed = self.failed.wrapping_add(1);
            return Err(WriteFailed);
        }
        Ok(1)
    }

    fn flush_out(&mut self) -> Result<(), WriteFailed> {
        self.sent = self.taken.len();
        Ok(())
    }
}

/// How a session of these lines ends on the writer, and what is left of them.
fn ended<'a>(
    alloc: Global,
    lines: &'a [u8],
    paper: &mut Paper,
) -> Result<(Result<(), Fault>, &'a [u8]), Fail> {
    let mut script = Script { rest: lines };
    match debug(alloc, &mut script, paper, ONE, FIVE) {
        Err(Fault::Memory) => Err(Fail::from(Fault::Memory)),
        ended => Ok((ended, script.rest)),
    }
}

#[test]
fn a_session_is_over_any_devices(rt: HostRuntime) -> Result<(), Fail> {
    let lines = b"step /0.0\nlive";
    let answers = b"step 1 meet i 5 /1.0.0 /0.0\nlive 1\n  1 meet i 5 /1.0.0 /0.0\n";
    let first = b"step 1 meet i 5 /1.0.0 /0.0\n".len();
    for good in 0..answers.len() + 1 {
        let mut paper = Paper::new(rt.alloc(), 256, good)?;
        let (ended, _) = ended(rt.alloc(), lines, &mut paper)?;
        assert_eq!(rt; ended.is_ok(), good == answers.len());
        assert_eq!(rt; paper.failed, if ended.is_ok() { 0 } else { 1 });
        assert!(rt; paper.taken.as_slice() == &answers[..good]);
        // What was written whole is flushed: the first answer, before more is read, and both at the end.
        let begun = if good < first { 0 } else { first };
        assert_eq!(rt; paper.sent, if ended.is_ok() { good } else { begun });
    }
    Ok(())
}

#[test]
fn behind_a_failed_write_no_line_is_taken(rt: HostRuntime) -> Result<(), Fail> {
    let mut lines = Vec::new(rt.alloc());
    for _ in 0..5_000 {
        lines.extend_from_slice(b"live\n")?;
    }
    // Answers of 7 bytes each are held up to 8,192 bytes: the line behind 1,170 of them is taken once those are out.
    for (good, taken) in [(0, 1_170), (1_000, 1_170), (8_193, 1_171), (8_197, 2_341)] {
        let mut paper = Paper::new(rt.alloc(), 16_384, good)?;
        let (ended, rest) = ended(rt.alloc(), lines.as_slice(), &mut paper)?;
        assert!(rt; matches!(ended, Err(Fault::WriteFailed)));
        assert_eq!(rt; paper.taken.len(), good);
        assert_eq!(rt; rest.len(), lines.len() - 5 * taken);
    }
    Ok(())
}

#[test]
fn behind_a_failed_write_an_empty_line_stays_too(rt: HostRuntime) -> Result<(), Fail> {
    let mut lines = Vec::new(rt.alloc());
    for _ in 0..1_171 {
        lines.extend_from_slice(b"live\n")?;
    }
    lines.extend_from_slice(b"\nlive\n")?;
    let mut paper = Paper::new(rt.alloc(), 16_384, 8_193)?;
    let (ended, rest) = ended(rt.alloc(), lines.as_slice(), &mut paper)?;
    assert!(rt; matches!(ended, Err(Fault::WriteFailed)));
    assert!(rt; rest == b"\nlive\n".as_slice());
    Ok(())
}

#[test]
fn a_bad_line_is_taken_once_the_answers_before_it_are_out(rt: HostRuntime) -> Result<(), Fail> {
    for (good, rest) in [(0, "no\nlive\n"), (6, "no\nlive\n"), (7, "live\n")] {
        let mut paper = Paper::new(rt.alloc(), 256, good)?;
        let (ended, left) = ended(rt.alloc(), b"live\nno\nlive\n", &mut paper)?;
        let fault = if good < 7 {
            Fault::WriteFailed
        } else {
            Fault::BadCommand(2)
        };
        assert!(rt; ended == Err(fault));
        assert!(rt; left == rest.as_bytes());
        assert_eq!(rt; paper.taken.len(), good);
    }
    Ok(())
}
