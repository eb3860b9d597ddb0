//! The whole program over made up files, readers and writers, of which any one call fails.

ghost use Rattle.std.specs.Prelude.{⊤};

use crate::program::run;
use debug_session::{Counted, Fault};
use diagnosis::Unread;
use file_answers::Files;
use std::alloc::Global;
use std::io::{BufReader, Eprint, ErrorKind, Read, Write};
use std::sync::Wait;
use std::test::Fail;
use std::thread::Threads;
use std::time::Clock;
use std::{fs, io};

/// The files that there are, by their names.
const FILES: [(&str, &[u8]); 4] = [
    (
        "buffer",
        b"type byte is 8 bits\nprocedure buffer (input i : byte; output o : byte) is \
variable x : byte begin loop i -> x ; o <- x end end\n",
    ),
    ("values", b"i = 5 7\n"),
    ("steps", b"balsadbg trace 1\nstep /0.0 0\nstep /0.1.0 0\n"),
    ("nothing", b""),
];

/// These files, and no other.
#[derive(Clone, Copy)]
struct Made;

impl Files for Made {
    ghost holds = { λ _ _ _. ⊤ };

    fn read(&self, alloc: Global, name: &str, why: &mut Unread) -> Result<Vec<u8>, Fault> {
        for (known, bytes) in FILES {
            if known == name {
                return Ok(Vec::from_slice(alloc, bytes)?);
            }
        }
        *why = Unread::Missing;
        Err(Fault::ReadFailed)
    }
}

/// The script, each line with its end, and what is answered to it.
const LINES: [(&[u8], &[u8]); 3] = [
    (b"step /0.0\n", b"step 1 turn /0.0\n"),
    (b"step /0.1.0\n", b"step 2 meet i 5 /1.0.0 /0.1.0\n"),
    (b"step /2.0\n", b"step 3 meet o 5 /0.1.1.0 /2.0\n"),
];

/// The words of a run, and what it writes.
const RUNS: [(&[&str], &[u8]); 4] = [
    (&["balsadbg", "check", "buffer"], b"accepted\n"),
    (
        &["balsadbg", "debug", "buffer", "values"],
        b"step 1 turn /0.0\nstep 2 meet i 5 /1.0.0 /0.1.0\nstep 3 meet o 5 /0.1.1.0 /2.0\n",
    ),
    (
        &["balsadbg", "replay", "buffer", "values", "steps"],
        b"live 2\n  1 turn /0.0\n  2 meet i 5 /1.0.0 /0.1.0\n",
    ),
    (
        &[
            "balsadbg",
            "work",
            "buffer",
            "values",
            "--workers",
            "1",
            "--turns",
            "30",
        ],
        b"stepped 7\nlive 7\n",
    ),
];

/// A reader that gives a byte at a time.
#[derive(Drop)]
struct ByTheByte<'a> {
    rest: &'a [u8],
    /// how many reads there are before the one that fails, if one fails
    good: Option<usize>,
}

impl Read for ByTheByte<'_> {
    fn read(&mut self, buf: &mut [u8]) -> io::Result<usize> {
        match self.good {
            Some(0) => return Err(ErrorKind::Other.into()),
            Some(good) => self.good = Some(good - 1),
            None => {}
        }
        let count = self.rest.len().min(buf.len()).min(1);
        buf[..count].copy_from_slice(&self.rest[..count]);
        self.rest = &self.rest[count..];
        Ok(count)
    }
}

/// A writer that takes a byte at a time.
#[derive(Drop)]
struct Takes {
    taken: Vec<u8>,
    /// how many writes, or flushes, there are before all of them fail, if they do
    good: Option<usize>,
    /// whether it is flushes that fail
    is_flush: bool,
}

impl Takes {
    /// One that takes all.
    fn all(alloc: Global) -> Takes {
        Takes {
            taken: Vec::new(alloc),
            good: None,
            is_flush: false,
        }
    }

    /// One of which writes fail behind so many.
    fn some(alloc: Global, good: usize) -> Takes {
        Takes {
            taken: Vec::new(alloc),
            good: Some(good),
            is_flush: false,
        }
    }

    /// Whether this call fails.
    fn fails(&mut self) -> bool {
        match self.good {
            Some(0) => true,
            Some(good) => {
                self.good = Some(good - 1);
                false
            }
            None => false,
        }
    }
}

impl Write for Takes {
    fn write(&mut self, buf: &[u8]) -> io::Result<usize> {
        if !self.is_flush && self.fails() {
            return Err(ErrorKind::Other.into());
        }
        let count = buf.len().min(1);
        self.taken.extend_from_slice(&buf[..count])?;
        Ok(count)
    }

    fn flush(&mut self) -> io::Result<()> {
        if self.is_flush && self.fails() {
            return Err(ErrorKind::Other.into());
        }
        Ok(())
    }
}

/// The status of a run with these words, whose standard input gives so many bytes of the script, where it then fails.
fn status<W: fs::Files + Input + Eprint + Clock + AllocGlobal + Threads + Wait + Sync>(
    rt: &W,
    words: &[&str],
    good: Option<usize>,
    out: &mut Takes,
    err: &mut Takes,
) -> Result<u8, Fail> {
    let mut script = Vec::new(rt.alloc());
    for (line, _) in LINES {
        script.extend_from_slice(line)?;
    }
    let mut bytes = ByTheByte {
        rest: script.as_slice(),
        good,
    };
    let mut reader = Counted::new(BufReader::with_capacity(rt.alloc(), 64, &mut bytes)?);
    Ok(run(
        rt,
        words,
        &Made,
        &mut reader,
        &mut Counted::new(out),
        &mut Counted::new(err),
    ))
}

#[test]
fn each_request_is_answered(rt: HostRuntime) -> Result<(), Fail> {
    for (words, output) in RUNS {
        let mut out = Takes::all(rt.alloc());
        let mut err = Takes::all(rt.alloc());
        assert_eq!(rt; status(&rt, words, None, &mut out, &mut err)?, 0);
        assert!(rt; out.taken.as_slice() == output);
        assert!(rt; err.taken.is_empty());
    }
    Ok(())
}

#[test]
fn a_file_that_is_missing_is_refused(rt: HostRuntime) -> Result<(), Fail> {
    let missing: [&[&str]; 4] = [
        &["balsadbg", "check", "other"],
        &["balsadbg", "debug", "other", "nothing"],
        &["balsadbg", "debug", "buffer", "other"],
        &["balsadbg", "replay", "buffer", "values", "other"],
    ];
    for words in missing {
        let mut out = Takes::all(rt.alloc());
        let mut err = Takes::all(rt.alloc());
        assert_eq!(rt; status(&rt, words, None, &mut out, &mut err)?, 1);
        assert!(rt; out.taken.is_empty());
        assert!(rt; err.taken.as_slice() == b"balsadbg: refused 41\n".as_slice());
    }
    Ok(())
}

#[test]
fn a_read_that_fails_is_told_behind_the_answers(rt: HostRuntime) -> Result<(), Fail> {
    let mut length = 0;
    for (line, _) in LINES {
        length += line.len();
    }
    // A read for each byte, and one that sees the end.
    for good in 0..length + 1 {
        let mut expected = Vec::new(rt.alloc());
        let mut read = 0;
        for (line, answer) in LINES {
            read += line.len();
            if read <= good {
                expected.extend_from_slice(answer)?;
            }
        }
        let mut out = Takes::all(rt.alloc());
        let mut err = Takes::all(rt.alloc());
        assert_eq!(rt; status(&rt, RUNS[1].0, Some(good), &mut out, &mut err)?, 1);
        assert!(rt; out.taken.as_slice() == expected.as_slice(), "{good}");
        assert!(rt; err.taken.as_slice() == b"balsadbg: refused 41\n".as_slice());
    }
    Ok(())
}

#[test]
fn a_write_that_fails_is_told(rt: HostRuntime) -> Result<(), Fail> {
    for (words, output) in RUNS {
        for good in 0..output.len() {
            let mut out = Takes::some(rt.alloc(), good);
            let mut err = Takes::all(rt.alloc());
            assert_eq!(rt; status(&rt, words, None, &mut out, &mut err)?, 1);
            assert!(rt; out.taken.as_slice() == &output[..good], "{good}");
            assert!(rt; err.taken.as_slice() == b"balsadbg: refused 42\n".as_slice());
        }
    }
    Ok(())
}

#[test]
fn a_flush_that_fails_is_told(rt: HostRuntime) -> Result<(), Fail> {
    for (words, _) in RUNS {
        let mut out = Takes::all(rt.alloc());
        out.is_flush = true;
        out.good = Some(0);
        let mut err = Takes::all(rt.alloc());
        assert_eq!(rt; status(&rt, words, None, &mut out, &mut err)?, 1);
        assert!(rt; err.taken.as_slice() == b"balsadbg: refused 42\n".as_slice());
    }
    Ok(())
}

#[test]
fn a_refusal_that_cannot_be_told_is_one(rt: HostRuntime) -> Result<(), Fail> {
    let told = b"balsadbg: refused 41\n";
    for good in 0..told.len() {
        let mut out = Takes::all(rt.alloc());
        let mut err = Takes::some(rt.alloc(), good);
        let words = &["balsadbg", "check", "other"];
        assert_eq!(rt; status(&rt, words, None, &mut out, &mut err)?, 1);
        assert!(rt; out.taken.is_empty());
        assert!(rt; err.taken.as_slice() == &told[..good]);
    }
    Ok(())
}

#[test]
fn a_mistake_in_the_words_ends_with_2(rt: HostRuntime) -> Result<(), Fail> {
    let mut out = Takes::all(rt.alloc());
    let mut err = Takes::some(rt.alloc(), 3);
    assert_eq!(rt;
        status(
            &rt,
            &["balsadbg", "chek", "buffer"],
            None,
            &mut out,
            &mut err
        )?,
        2
    );
    assert!(rt; out.taken.is_empty());
    assert_eq!(rt; err.taken.len(), 3);
    let mut out = Takes::some(rt.alloc(), 3);
    let mut err = Takes::all(rt.alloc());
    assert_eq!(rt;
        status(&rt, &["balsadbg", "--help"], None, &mut out, &mut err)?,
        1
    );
    assert_eq!(rt; out.taken.len(), 3);
    assert!(rt; err.taken.as_slice() == b"balsadbg: refused 42\n".as_slice());
    Ok(())
}
