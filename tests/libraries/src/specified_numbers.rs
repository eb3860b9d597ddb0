//! Each refusal by its number and what stands behind it, as the public call answers it.

use crate::examples::{BUFFER, Example, TWO_BUFFERS, TWO_WRITES};
use crate::one::over;
use crate::told::place;
use crate::transcripts::has_memory;
use calculus::{Choice, Refusal};
use debug_session::{Session, read_command};
use devices::Counted;
use elaborate::{Stimulus, elaborate};
use lexer::lex;
use locked_execution::{Command, Desk, Reply, Shared};
use machine::{Breaks, Machine};
use parser::parse;
use sharing_check::check_sharing;
use std::alloc::{AllocError, Global};
use std::io;
use std::io::{ErrorKind, Read, Write};
use std::test::Fail;
use trace_file::{load, save};
use types::check_types;

/// A number and what stands behind it.
type Told = (u32, Option<u64>);

/// What is told of a refusal. Want of memory fails the test.
fn told(number: u32, field: Option<u64>) -> Result<Told, AllocError> {
    if number == 1 {
        Err(AllocError)
    } else {
        Ok((number, field))
    }
}

/// How source and stimulus are refused, pass by pass; `None` where they make a system.
fn refusal_of(alloc: Global, source: &[u8], stimulus: &[u8]) -> Result<Option<Told>, AllocError> {
    let tokens = match lex(alloc, source) {
        Ok(tokens) => tokens,
        Err(fault) => return Ok(Some(told(fault.number(), fault.offset())?)),
    };
    let description = match parse(alloc, tokens.as_slice()) {
        Ok(description) => description,
        Err(fault) => return Ok(Some(told(fault.number(), fault.offset())?)),
    };
    let typed = match check_types(alloc, &description) {
        Ok(typed) => typed,
        Err(fault) => return Ok(Some(told(fault.number(), fault.offset())?)),
    };
    let entries = match Stimulus::read(alloc, stimulus) {
        Ok(entries) => entries,
        Err(fault) => return Ok(Some(told(fault.number(), fault.line())?)),
    };
    let system = match elaborate(alloc, &typed, &entries) {
        Ok(system) => system,
        Err(fault) => return Ok(Some(told(fault.number(), fault.line())?)),
    };
    match check_sharing(alloc, system) {
        Ok(_) => Ok(None),
        Err(fault) => Ok(Some(told(fault.number(), fault.offset())?)),
    }
}

/// Sources that are refused at an offset.
const SOURCES: [(u32, u64, &[u8]); 15] = [
    (2, 12, b"procedure p @"),
    (3, 0, b"(-- (-- --)"),
    (4, 26, b"procedure p is begin x := 18446744073709551616 end"),
    (5, 0, b""),
    (
        6,
        85,
        b"procedure p is begin [[[[[[[[[[[[[[[[[[[[[[[[[[[[[[[[[[[[[[[[[[[[[[[[[[[[[[[[[[[[[[[[[",
    ),
    (7, 21, b"procedure p is begin x := 1 end"),
    (
        8,
        27,
        b"procedure p is variable x, x : 8 bits begin halt end",
    ),
    (9, 40, b"procedure p is channel c : 8 bits begin c := 1 end"),
    (
        10,
        46,
        b"procedure p is variable x : 8 bits begin x := 255 + 1 end",
    ),
    (
        11,
        44,
        b"procedure p is variable x : 8 bits begin if x then halt end end",
    ),
    (
        12,
        65,
        b"procedure p is variable x : 8 bits begin case x of 1 then halt | 1 then halt end end",
    ),
    (
        13,
        69,
        b"procedure q (sync s) is begin sync s end procedure p is begin halt ; q () end",
    ),
    (
        15,
        44,
        b"procedure p is variable x, y : 8 bits begin x := 1 || y := x end",
    ),
    (
        16,
        20,
        b"procedure p is sync s begin sync s || sync s || sync s end",
    ),
    (
        17,
        50,
        b"procedure p (input c : 8 bits) is begin c -> then c -> then halt end end end",
    ),
];

#[test]
fn a_source_is_refused_by_number_and_place(rt: HostRuntime) -> Result<(), Fail> {
    for (number, offset, source) in SOURCES {
        let found = refusal_of(rt.alloc(), source, b"")?;
        assert!(rt; found == Some((number, Some(offset))), "{number}");
    }
    Ok(())
}

/// Each of eight procedures does four times what the one before it does.
const TOO_MANY_NODES: &[u8] = b"procedure a is begin halt end
procedure b is begin a () || a () || a () || a () end
procedure c is begin b () || b () || b () || b () end
procedure d is begin c () || c () || c () || c () end
procedure e is begin d () || d () || d () || d () end
procedure f is begin e () || e () || e () || e () end
procedure g is begin f () || f () || f () || f () end
procedure h is begin g () || g () || g () || g () end";

#[test]
fn a_stimulus_is_refused_by_number_and_line(rt: HostRuntime) -> Result<(), Fail> {
    let alloc = rt.alloc();
    let source = BUFFER.source.as_bytes();
    assert!(rt; refusal_of(alloc, source, b"i = 5\ni =  7")? == Some((51, Some(2))));
    assert!(rt; refusal_of(alloc, source, b"i = 256")? == Some((51, Some(1))));
    assert!(rt; refusal_of(alloc, source, b"\no = 5")? == Some((51, Some(2))));
    assert!(rt; refusal_of(alloc, source, b"i = 5 7")?.is_none());
    assert!(rt; refusal_of(alloc, TOO_MANY_NODES, b"")? == Some((14, None)));
    // A line that names no port goes before the size.
    assert!(rt; refusal_of(alloc, TOO_MANY_NODES, b"i = 5")? == Some((51, Some(1))));
    Ok(())
}

/// A device that fails.
#[derive(Drop)]
struct Broken;

impl Read for Broken {
    fn read(&mut self, _buf: &mut [u8]) -> io::Result<usize> {
        Err(ErrorKind::Other.into())
    }
}

impl Write for Broken {
    fn write(&mut self, _buf: &[u8]) -> io::Result<usize> {
        Err(ErrorKind::Other.into())
    }

    fn flush(&mut self) -> io::Result<()> {
        Err(ErrorKind::Other.into())
    }
}

/// How the trace is refused, if it is.
fn trace_refusal(alloc: Global, example: Example, text: &[u8]) -> Result<Option<Told>, Fail> {
    match load(alloc, example.checked(alloc)?, &mut Counted::new(text)) {
        Ok(_) => Ok(None),
        Err(fault) => Ok(Some(told(fault.number(), fault.field())?)),
    }
}

#[test]
fn a_trace_is_refused_by_number_and_line(rt: HostRuntime) -> Result<(), Fail> {
    let traces: [(Option<Told>, &[u8]); 6] = [
        (Some((31, None)), b""),
        (Some((32, Some(2))), b"balsadbg trace 1\nstep /00.0 0\n"),
        (Some((32, Some(2))), b"balsadbg trace 1\nstep /0/0.0 0"),
        (Some((33, Some(2))), b"balsadbg trace 1\nstep /0/0.1.0 0\n"),
        (
            Some((34, Some(3))),
            b"balsadbg trace 2\nstep /0/0.0 0\nstep /0/1.0 0\nstep /0/0.1.0 0\nstep /0/1.1.0 0\n",
        ),
        (
            None,
            b"balsadbg trace 1\nstep /0/0.0 0\nstep /0/1.0 0\nstep /0/0.1.0 0\nstep /0/1.1.0 0\n",
        ),
    ];
    for (expected, text) in traces {
        assert!(rt; trace_refusal(rt.alloc(), TWO_BUFFERS, text)? == expected);
    }
    Ok(())
}

#[test]
fn a_device_that_fails_is_told(rt: HostRuntime) -> Result<(), Fail> {
    let alloc = rt.alloc();
    let checked = BUFFER.checked(alloc)?;
    let Err(fault) = load(alloc, checked, &mut Counted::new(Broken)) else {
        return Err(Fail::from("a refusal"));
    };
    assert!(rt; told(fault.number(), fault.field())? == (41, None));
    let machine = Machine::new(alloc, BUFFER.checked(alloc)?)?;
    let Err(fault) = save(alloc, &machine, &mut Counted::new(Broken)) else {
        return Err(Fail::from("a refusal"));
    };
    assert!(rt; told(fault.number(), fault.field())? == (42, None));
    Ok(())
}

/// How a session is refused, if it is.
fn session_refusal(ended: Result<(), debug_session::Fault>) -> Result<Option<Told>, AllocError> {
    match ended {
        Ok(()) => Ok(None),
        Err(fault) => Ok(Some(told(fault.number(), fault.field())?)),
    }
}

#[test]
fn a_session_ends_by_number_and_line(rt: HostRuntime) -> Result<(), Fail> {
    let alloc = rt.alloc();
    let mut script = b"live\njump\nlive\n".as_slice();
    let mut out: Vec<u8> = Vec::with_capacity(alloc, 1024)?;
    let ended = session_refusal(over(alloc, &mut script, &mut out))?;
    has_memory(out.as_slice())?;
    assert!(rt; ended == Some((61, Some(2))));
    assert!(rt; out.as_slice() == b"live 0\n".as_slice());
    let ended = session_refusal(over(alloc, &mut Broken, &mut out))?;
    assert!(rt; ended == Some((41, None)));
    let mut script = b"live\n".as_slice();
    let ended = session_refusal(over(alloc, &mut script, &mut Broken))?;
    assert!(rt; ended == Some((42, None)));
    let checked = BUFFER.checked(alloc)?;
    let Err(fault) = read_command(alloc, &checked, b"value y", 9) else {
        return Err(Fail::from("a refusal"));
    };
    assert!(rt; told(fault.number(), fault.field())? == (61, Some(9)));
    Ok(())
}

#[test]
fn a_session_of_its_own_has_no_view(rt: HostRuntime) -> Result<(), Fail> {
    let alloc = rt.alloc();
    let checked = BUFFER.checked(alloc)?;
    let machine = Machine::new(alloc, BUFFER.checked(alloc)?)?;
    let (shared, mut passes) = Shared::new(alloc, machine, 1)?;
    let Some(pass) = passes.pop() else {
        return Err(Fail::from("one pass"));
    };
    let mut session = Session { pass };
    for line in [
        b"view".as_slice(),
        b"trace",
        b"session 1",
        b"step",
        b"live 0",
    ] {
        let Err(fault) = session.answer(&rt, alloc, &shared, &checked, line, 5) else {
            return Err(Fail::from("a refusal"));
        };
        assert!(rt; told(fault.number(), fault.field())? == (61, Some(5)));
    }
    assert!(rt;
        session
            .answer(&rt, alloc, &shared, &checked, b"", 6)?
            .is_empty()
    );
    assert_eq!(rt; shared.length(&mut session.pass), 0);
    Ok(())
}

/// The number of the refusal that the command is answered, if it is one.
fn refused(desk: &mut Desk, command: &Command) -> Result<Option<u8>, Refusal> {
    match desk.perform(3, command) {
        Reply::Refused(Refusal::Memory) => Err(Refusal::Memory),
        Reply::Refused(why) => Ok(Some(why.number())),
        _ => Ok(None),
    }
}

/// A step there, with arm 0.
fn step(alloc: Global, at: &[u8]) -> Result<Command, Fail> {
    Ok(Command::Step(Choice {
        place: place(alloc, at)?,
        arm: 0,
    }))
}

#[test]
fn a_command_is_refused_by_number(rt: HostRuntime) -> Result<(), Fail> {
    let alloc = rt.alloc();
    let mut desk = Desk::new(Machine::new(alloc, TWO_WRITES.checked(alloc)?)?);
    let (first, second) = (step(alloc, b"/0.0")?, step(alloc, b"/0.1")?);
    assert_eq!(rt; refused(&mut desk, &second)?, Some(21));
    assert_eq!(rt; refused(&mut desk, &Command::RollValue(0))?, Some(25));
    assert_eq!(rt; refused(&mut desk, &first)?, None);
    assert_eq!(rt; refused(&mut desk, &second)?, None);
    assert_eq!(rt; refused(&mut desk, &Command::Undo(3))?, Some(23));
    assert_eq!(rt; refused(&mut desk, &Command::Roll(3))?, Some(23));
    assert_eq!(rt; refused(&mut desk, &Command::Consequences(3))?, Some(23));
    assert_eq!(rt; refused(&mut desk, &Command::Undo(1))?, Some(24));
    // Of a number that names no variable.
    assert_eq!(rt; refused(&mut desk, &Command::Blame(7))?, Some(25));
    assert_eq!(rt; refused(&mut desk, &Command::RollValue(7))?, Some(25));
    assert_eq!(rt; refused(&mut desk, &Command::Value(7))?, Some(25));
    assert_eq!(rt; refused(&mut desk, &Command::Break(2))?, Some(28));
    assert_eq!(rt; refused(&mut desk, &Command::Break(1))?, None);
    assert_eq!(rt; refused(&mut desk, &Command::Break(1))?, None);
    assert_eq!(rt; refused(&mut desk, &Command::Clear(2))?, None);
    Ok(())
}

#[test]
fn a_breakpoint_too_many_is_refused(rt: HostRuntime) -> Result<(), Fail> {
    let mut breaks = Breaks::new();
    for line in 1..65 {
        breaks.set(line)?;
    }
    breaks.set(64)?;
    let Err(refusal) = breaks.set(65) else {
        return Err(Fail::from("a refusal"));
    };
    assert_eq!(rt; refusal.number(), 27);
    assert!(rt; !breaks.has(65));
    Ok(())
}
