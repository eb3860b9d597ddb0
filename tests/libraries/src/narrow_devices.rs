//! A session of every script line, over devices that move one byte at a time, and that fail at any one read, write or flush.
//!
//! `tests/memory/run` leaves these tests out: each of them is hundreds of sessions. Want of memory in such a session is tried
//! by `tests/memory/refused`.

use crate::one::over;
use crate::transcripts::has_memory;
use debug_session::Fault;
use std::io;
use std::io::{ErrorKind, Read, Write};
use std::test::Fail;

/// Each line of the script with its end, and what is answered to it.
const LINES: [(&[u8], &[u8]); 20] = [
    (b"session 1\n", b"session 1\n"),
    (b"ready\n", b"ready 1\n  meet i 5 /1.0.0 /0.0\n"),
    (b"break 1\n", b"ok\n"),
    (b"branch 0\n", b"stopped 1\n"),
    (b"clear 1\n", b"ok\n"),
    (b"step /0.0 0\n", b"step 1 meet i 5 /1.0.0 /0.0\n"),
    (b"value x\n", b"value x 5\n"),
    (b"blame x\n", b"blame 1\n"),
    (b"step /2.0\n", b"step 2 meet o 5 /0.1.0 /2.0\n"),
    (b"\n", b""),
    (b"consequences 1\n", b"consequences 1 2\n"),
    (b"undo 1\n", b"refused 24 2\n"),
    (
        b"live\n",
        b"live 2\n  1 meet i 5 /1.0.0 /0.0\n  2 meet o 5 /0.1.0 /2.0\n",
    ),
    (b"trace\n", b"balsadbg trace 2\nstep /0.0 0\nstep /2.0 0\n"),
    (b"undo 2\n", b"undone 2 meet o 5 /0.1.0 /2.0\n"),
    (b"rollvalue x\n", b"rolled 1\n"),
    (b"roll 1\n", b"refused 23\n"),
    (
        b"view\n",
        b"    1 >   type byte is 8 bits procedure one (input i : byte; output o : byte) is \
variable x : byte begin i -> x ; o <- x end\n",
    ),
    (b"branch 0\n", b"step 3 meet i 5 /1.0.0 /0.0\n"),
    // The last line may lack its end.
    (b"roll 3", b"rolled 1\n"),
];

/// The whole script.
fn script(into: &mut Vec<u8>) -> Result<(), Fail> {
    for (line, _) in LINES {
        into.extend_from_slice(line)?;
    }
    Ok(())
}

/// What is answered once so many bytes of the script were read, and no more can be.
fn answers(count: usize, into: &mut Vec<u8>) -> Result<(), Fail> {
    let mut read = 0;
    for (line, answer) in LINES {
        read += line.len();
        if read > count || !line.ends_with(b"\n") {
            return Ok(());
        }
        into.extend_from_slice(answer)?;
    }
    Ok(())
}

/// What is answered to so many of the lines.
fn answers_to(count: usize, into: &mut Vec<u8>) -> Result<(), Fail> {
    for (_, answer) in LINES.iter().take(count) {
        into.extend_from_slice(answer)?;
    }
    Ok(())
}

/// A reader that gives one byte at a time.
#[derive(Drop)]
struct ByTheByte<'a> {
    rest: &'a [u8],
    /// how many reads there are before the one that fails, if one fails; those behind it find the end
    good: Option<usize>,
}

impl<'a> ByTheByte<'a> {
    fn new(rest: &'a [u8], good: Option<usize>) -> ByTheByte<'a> {
        ByTheByte { rest, good }
    }
}

impl Read for ByTheByte<'_> {
    fn read(&mut self, buf: &mut [u8]) -> io::Result<usize> {
        match self.good {
            Some(0) => {
                self.rest = b"";
                self.good = None;
                return Err(ErrorKind::Other.into());
            }
            Some(good) => self.good = Some(good - 1),
            None => {}
        }
        let count = self.rest.len().min(buf.len()).min(1);
        buf[..count].copy_from_slice(&self.rest[..count]);
        self.rest = &self.rest[count..];
        Ok(count)
    }
}

/// In what way a writer fails.
#[derive(Clone, Copy, PartialEq, Eq)]
enum Way {
    /// a write is an error
    Refuses,
    /// a write takes no byte
    TakesNone,
    /// a flush is an error
    IsNotFlushed,
}

/// A writer that takes one byte at a time, and fails once.
#[derive(Drop)]
struct Takes {
    taken: Vec<u8>,
    way: Way,
    /// how many writes, or flushes, there are before the one that fails, if one fails
    good: Option<usize>,
}

impl Takes {
    /// Whether this call fails.
    fn fails(&mut self) -> bool {
        match self.good {
            Some(0) => {
                self.good = None;
                true
            }
            Some(good) => {
                self.good = Some(good - 1);
                false
            }
            None => false,
        }
    }
}

impl Write for Takes {
    fn write(&mut self, buf: &[u8]) -> io::Result<usize> {
        if self.way != Way::IsNotFlushed && self.fails() {
            return match self.way {
                Way::TakesNone => Ok(0),
                _ => Err(ErrorKind::Other.into()),
            };
        }
        let count = buf.len().min(1);
        self.taken.extend_from_slice(&buf[..count])?;
        Ok(count)
    }

    fn flush(&mut self) -> io::Result<()> {
        if self.way == Way::IsNotFlushed && self.fails() {
            return Err(ErrorKind::Other.into());
        }
        Ok(())
    }
}

/// That the session ended so, and not for want of memory.
fn ended(
    ended: Result<(), Fault>,
    expected: Result<(), Fault>,
    taken: &[u8],
) -> Result<bool, Fail> {
    has_memory(taken)?;
    match ended {
        Err(Fault::Memory) => Err(Fail::from(Fault::Memory)),
        ended => Ok(ended == expected),
    }
}

#[test]
fn one_byte_at_a_time_gives_the_same_transcript(rt: HostRuntime) -> Result<(), Fail> {
    let mut lines = Vec::with_capacity(rt.alloc(), 256)?;
    script(&mut lines)?;
    let mut transcript = Vec::with_capacity(rt.alloc(), 1024)?;
    answers_to(LINES.len(), &mut transcript)?;

    let mut whole: &[u8] = lines.as_slice();
    let mut all: Vec<u8> = Vec::with_capacity(rt.alloc(), 1024)?;
    let done = over(rt.alloc(), &mut whole, &mut all);
    assert!(rt; ended(done, Ok(()), all.as_slice())?);
    assert!(rt; all.as_slice() == transcript.as_slice());

    let mut reader = ByTheByte::new(lines.as_slice(), None);
    let mut writer = Takes {
        taken: Vec::with_capacity(rt.alloc(), 1024)?,
        way: Way::Refuses,
        good: None,
    };
    let done = over(rt.alloc(), &mut reader, &mut writer);
    assert!(rt; ended(done, Ok(()), writer.taken.as_slice())?);
    assert!(rt; writer.taken.as_slice() == transcript.as_slice());
    Ok(())
}

#[test]
fn a_script_that_fails_at_any_read_is_answered_so_far(rt: HostRuntime) -> Result<(), Fail> {
    let mut lines = Vec::with_capacity(rt.alloc(), 256)?;
    script(&mut lines)?;
    // A read for each byte, and one that sees the end.
    for good in 0..lines.len() + 1 {
        let mut reader = ByTheByte::new(lines.as_slice(), Some(good));
        let mut out: Vec<u8> = Vec::with_capacity(rt.alloc(), 1024)?;
        let mut expected = Vec::with_capacity(rt.alloc(), 1024)?;
        answers(good, &mut expected)?;
        let done = over(rt.alloc(), &mut reader, &mut out);
        assert!(rt;
            ended(done, Err(Fault::ReadFailed), out.as_slice())?,
            "{good}"
        );
        assert!(rt; out.as_slice() == expected.as_slice(), "{good}");
    }
    Ok(())
}

#[test]
fn a_writer_that_fails_at_any_write_has_a_beginning(rt: HostRuntime) -> Result<(), Fail> {
    let mut lines = Vec::with_capacity(rt.alloc(), 256)?;
    script(&mut lines)?;
    let mut transcript = Vec::with_capacity(rt.alloc(), 1024)?;
    answers_to(LINES.len(), &mut transcript)?;
    for way in [Way::Refuses, Way::TakesNone] {
        for good in 0..transcript.len() {
            let mut reader: &[u8] = lines.as_slice();
            let mut writer = Takes {
                taken: Vec::with_capacity(rt.alloc(), 1024)?,
                way,
                good: Some(good),
            };
            let done = over(rt.alloc(), &mut reader, &mut writer);
            let taken = writer.taken.as_slice();
            assert!(rt; ended(done, Err(Fault::WriteFailed), taken)?, "{good}");
            assert!(rt; taken == &transcript.as_slice()[..good], "{good}");
        }
    }
    Ok(())
}

#[test]
fn a_writer_that_fails_at_any_flush_has_the_answers_so_far(rt: HostRuntime) -> Result<(), Fail> {
    let mut lines = Vec::with_capacity(rt.alloc(), 256)?;
    script(&mut lines)?;
    let mut good = 0;
    for count in 1..LINES.len() + 1 {
        if LINES[count - 1].1.is_empty() {
            continue;
        }
        let mut reader = ByTheByte::new(lines.as_slice(), None);
        let mut writer = Takes {
            taken: Vec::with_capacity(rt.alloc(), 1024)?,
            way: Way::IsNotFlushed,
            good: Some(good),
        };
        let mut expected = Vec::with_capacity(rt.alloc(), 1024)?;
        answers_to(count, &mut expected)?;
        let done = over(rt.alloc(), &mut reader, &mut writer);
        let taken = writer.taken.as_slice();
        assert!(rt; ended(done, Err(Fault::WriteFailed), taken)?, "{good}");
        assert!(rt; taken == expected.as_slice(), "{good}");
        good += 1;
    }
    Ok(())
}
