//! How a session uses its reader and its writer: when it asks, when it flushes, and what their failures become.

use crate::one::over;
use crate::transcripts::has_memory;
use debug_session::Fault;
use std::cell::Cell;
use std::io;
use std::io::{BufWriter, ErrorKind, Read, Write};
use std::test::Fail;

/// What reader and writer see of each other.
#[derive(Drop)]
struct Log {
    /// lines that the reader gave
    given: Cell<usize>,
    /// bytes that the writer took
    taken: Cell<usize>,
    /// bytes of these that were flushed
    flushed: Cell<usize>,
    /// how often the writer was asked
    writes: Cell<usize>,
    /// whether a line was asked for before the answers to those before it were flushed
    is_early: Cell<bool>,
}

/// How long each line `live` is, with its end.
const LINE: usize = 5;

/// How long the answer to it is.
const ANSWER: usize = 7;

/// A reader that gives so many lines at a time.
#[derive(Drop)]
struct Asked<'a> {
    rest: &'a [u8],
    lines: usize,
    log: &'a Log,
}

impl Read for Asked<'_> {
    fn read(&mut self, buf: &mut [u8]) -> io::Result<usize> {
        if self.log.flushed.get() < ANSWER.saturating_mul(self.log.given.get()) {
            self.log.is_early.set(true);
        }
        let count = self
            .rest
            .len()
            .min(LINE.saturating_mul(self.lines))
            .min(buf.len());
        buf[..count].copy_from_slice(&self.rest[..count]);
        self.rest = &self.rest[count..];
        self.log
            .given
            .set(self.log.given.get().saturating_add(count / LINE));
        Ok(count)
    }
}

/// A writer that counts.
#[derive(Drop)]
struct Counting<'a> {
    log: &'a Log,
}

impl Write for Counting<'_> {
    fn write(&mut self, buf: &[u8]) -> io::Result<usize> {
        self.log
            .taken
            .set(self.log.taken.get().saturating_add(buf.len()));
        self.log.writes.set(self.log.writes.get().saturating_add(1));
        Ok(buf.len())
    }

    fn flush(&mut self) -> io::Result<()> {
        self.log.flushed.set(self.log.taken.get());
        Ok(())
    }
}

#[test]
fn answers_are_flushed_before_more_lines_are_asked_for(rt: HostRuntime) -> Result<(), Fail> {
    for lines in 1..4 {
        let log = Log {
            given: Cell::new(0),
            taken: Cell::new(0),
            flushed: Cell::new(0),
            writes: Cell::new(0),
            is_early: Cell::new(false),
        };
        let mut reader = Asked {
            rest: b"live\nlive\nlive\nlive\nlive\nlive\n",
            lines,
            log: &log,
        };
        let mut writer = Counting { log: &log };
        over(rt.alloc(), &mut reader, &mut writer)?;
        assert!(rt; !log.is_early.get());
        assert_eq!(rt; log.flushed.get(), 6 * ANSWER);
        assert_eq!(rt; log.writes.get(), 6 / lines);
    }
    Ok(())
}

#[test]
fn a_writer_with_a_buffer_is_flushed(rt: HostRuntime) -> Result<(), Fail> {
    let mut reader: &[u8] = b"live\nvalue x";
    let mut out = BufWriter::new(rt.alloc(), Vec::with_capacity(rt.alloc(), 64)?)?;
    over(rt.alloc(), &mut reader, &mut out)?;
    has_memory(out.get_ref().as_slice())?;
    assert_eq!(rt; out.get_ref().as_slice(), b"live 0\nvalue x 0\n".as_slice());
    Ok(())
}

/// Whether the session ended so. Another fault, as want of memory, fails the test.
fn has_ended(ended: Result<(), Fault>, expected: Result<(), Fault>) -> Result<bool, Fault> {
    match ended {
        Err(fault) if expected != Err(fault) => Err(fault),
        ended => Ok(ended == expected),
    }
}

/// A reader that fails once in this way, and then is at its end.
#[derive(Drop)]
struct Failing {
    first: Option<ErrorKind>,
}

impl Read for Failing {
    fn read(&mut self, _buf: &mut [u8]) -> io::Result<usize> {
        match self.first.take() {
            Some(kind) => Err(kind.into()),
            None => Ok(0),
        }
    }
}

#[test]
fn a_failed_read_is_what_its_kind_says(rt: HostRuntime) -> Result<(), Fail> {
    let cases = [
        (ErrorKind::Interrupted, Ok(())),
        (ErrorKind::OutOfMemory, Err(Fault::Memory)),
        (ErrorKind::Other, Err(Fault::ReadFailed)),
        (ErrorKind::UnexpectedEof, Err(Fault::ReadFailed)),
    ];
    for (kind, expected) in cases {
        let mut reader = Failing { first: Some(kind) };
        let mut out: Vec<u8> = Vec::new(rt.alloc());
        let ended = over(rt.alloc(), &mut reader, &mut out);
        assert!(rt; has_ended(ended, expected)?, "{kind:?}");
    }
    Ok(())
}

/// A writer that fails once in this way, or takes nothing once.
#[derive(Drop)]
struct Faltering {
    first: Option<Result<usize, ErrorKind>>,
    taken: Vec<u8>,
}

impl Write for Faltering {
    fn write(&mut self, buf: &[u8]) -> io::Result<usize> {
        match self.first.take() {
            Some(Ok(count)) => Ok(count.min(buf.len())),
            Some(Err(kind)) => Err(kind.into()),
            None => {
                self.taken.extend_from_slice(buf)?;
                Ok(buf.len())
            }
        }
    }

    fn flush(&mut self) -> io::Result<()> {
        Ok(())
    }
}

#[test]
fn a_write_is_made_again_after_an_interruption_alone(rt: HostRuntime) -> Result<(), Fail> {
    let cases = [
        (Err(ErrorKind::Interrupted), Ok(()), b"live 0\n".as_slice()),
        (Ok(0), Err(Fault::WriteFailed), b"".as_slice()),
        (
            Err(ErrorKind::WouldBlock),
            Err(Fault::WriteFailed),
            b"".as_slice(),
        ),
        (
            Err(ErrorKind::OutOfMemory),
            Err(Fault::WriteFailed),
            b"".as_slice(),
        ),
    ];
    for (first, expected, bytes) in cases {
        let mut reader: &[u8] = b"live\n";
        let taken = Vec::with_capacity(rt.alloc(), 64)?;
        let mut out = Faltering {
            first: Some(first),
            taken,
        };
        let ended = over(rt.alloc(), &mut reader, &mut out);
        assert!(rt; has_ended(ended, expected)?, "{first:?}");
        has_memory(out.taken.as_slice())?;
        assert!(rt; out.taken.as_slice() == bytes, "{first:?}");
    }
    Ok(())
}

/// A writer whose flush fails.
#[derive(Drop)]
struct Unflushed {
    kind: ErrorKind,
}

impl Write for Unflushed {
    fn write(&mut self, buf: &[u8]) -> io::Result<usize> {
        Ok(buf.len())
    }

    fn flush(&mut self) -> io::Result<()> {
        Err(self.kind.into())
    }
}

#[test]
fn a_failed_flush_ends_the_session(rt: HostRuntime) -> Result<(), Fail> {
    for kind in [ErrorKind::Other, ErrorKind::Interrupted] {
        let mut reader: &[u8] = b"live\nlive\n";
        let mut out = Unflushed { kind };
        let ended = over(rt.alloc(), &mut reader, &mut out);
        assert!(rt; has_ended(ended, Err(Fault::WriteFailed))?, "{kind:?}");
    }
    Ok(())
}
