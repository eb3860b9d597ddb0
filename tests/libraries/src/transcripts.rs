//! Sessions whose reader or writer fails.

use crate::one::over;
use calculus::Refusal;
use debug_session::Fault;
use std::io;
use std::io::{ErrorKind, Read, Write};
use std::test::Fail;

/// That the session ended with this fault, and not for want of memory or with none.
fn ends(ended: Result<(), Fault>, expected: Fault) -> Result<(), Fail> {
    match ended {
        Ok(()) => Err("no fault")?,
        Err(fault) if fault == expected => Ok(()),
        Err(fault) => Err(fault)?,
    }
}

/// That no command was refused for want of memory.
pub fn has_memory(transcript: &[u8]) -> Result<(), Refusal> {
    for start in 0..transcript.len() {
        if transcript[start..].starts_with(b"refused 1\n") {
            return Err(Refusal::Memory);
        }
    }
    Ok(())
}

/// A reader that always fails.
#[derive(Drop)]
struct Broken;

impl Read for Broken {
    fn read(&mut self, _buf: &mut [u8]) -> io::Result<usize> {
        Err(ErrorKind::Other.into())
    }
}

/// What there is of the script before it breaks off, and what is answered to that.
const BROKEN: [(&[u8], &[u8]); 7] = [
    (b"", b""),
    (b"live", b""),
    (b"live\n", b"live 0\n"),
    (b"live\nundo 1", b"live 0\n"),
    (b"live\nundo 1\n", b"live 0\nrefused 23\n"),
    (b"live\nundo 1\nlive", b"live 0\nrefused 23\n"),
    (b"live\nundo 1\nlive\n", b"live 0\nrefused 23\nlive 0\n"),
];

#[test]
fn a_reader_fails_behind_its_complete_lines(rt: HostRuntime) -> Result<(), Fail> {
    for (script, answers) in BROKEN {
        let mut reader = script.chain(Broken);
        let mut out: Vec<u8> = Vec::with_capacity(rt.alloc(), 1024)?;
        let ended = over(rt.alloc(), &mut reader, &mut out);
        ends(ended, Fault::ReadFailed)?;
        has_memory(out.as_slice())?;
        assert_eq!(rt; out.as_slice(), answers);
    }
    Ok(())
}

/// A writer that takes two bytes at a time, so many in all, and then fails.
#[derive(Drop)]
struct Narrow {
    taken: Vec<u8>,
    room: usize,
}

impl Write for Narrow {
    fn write(&mut self, buf: &[u8]) -> io::Result<usize> {
        if self.room == 0 {
            return Err(ErrorKind::Other.into());
        }
        let count = buf.len().min(2).min(self.room);
        self.taken.extend_from_slice(&buf[..count])?;
        self.room -= count;
        Ok(count)
    }

    fn flush(&mut self) -> io::Result<()> {
        Ok(())
    }
}

/// A reader that gives a line of five bytes at a time.
#[derive(Drop)]
struct ByLine<'a> {
    rest: &'a [u8],
}

impl Read for ByLine<'_> {
    fn read(&mut self, buf: &mut [u8]) -> io::Result<usize> {
        let count = self.rest.len().min(buf.len()).min(5);
        buf[..count].copy_from_slice(&self.rest[..count]);
        self.rest = &self.rest[count..];
        Ok(count)
    }
}

/// How many bytes are taken, and how many of the script are left then, which is read line by line.
const FULL_AT: [(usize, usize); 5] = [(0, 10), (1, 10), (7, 5), (12, 5), (20, 0)];

#[test]
fn a_writer_fails_with_a_beginning_out(rt: HostRuntime) -> Result<(), Fail> {
    for (room, left) in FULL_AT {
        let mut reader = ByLine {
            rest: b"live\nlive\nlive\n",
        };
        let taken = Vec::with_capacity(rt.alloc(), 20)?;
        let mut out = Narrow { taken, room };
        let ended = over(rt.alloc(), &mut reader, &mut out);
        ends(ended, Fault::WriteFailed)?;
        assert!(rt;
            b"live 0\nlive 0\nlive 0\n".starts_with(out.taken.as_slice()),
            "{room}"
        );
        assert_eq!(rt; (out.taken.len(), reader.rest.len()), (room, left));
    }
    Ok(())
}
