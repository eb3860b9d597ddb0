//! Traces that are saved and loaded, over readers and writers that give little at a time or fail.

use crate::examples::{BUFFER, Example, TWO_BUFFERS};
use crate::told::place;
use calculus::Choice;
use devices::Counted;
use machine::Machine;
use std::alloc::Global;
use std::io;
use std::io::{ErrorKind, Read, Write};
use std::test::Fail;
use trace_file::{Fault, load, load_text, save, write_trace};

/// The trace of a turn, a value in and the value out.
const THREE: &[u8] = b"balsadbg trace 2\nstep /0.0 0\nstep /0.1.0 0\nstep /2.0 0\n";

/// The places of these steps.
const PLACES: [&[u8]; 3] = [b"/0.0", b"/0.1.0", b"/2.0"];

/// The buffer behind these steps.
fn stepped(alloc: Global, places: &[&'static [u8]]) -> Result<Machine, Fail> {
    behind(alloc, BUFFER, places)
}

/// The example behind these steps.
fn behind(alloc: Global, example: Example, places: &[&'static [u8]]) -> Result<Machine, Fail> {
    let mut machine = Machine::new(alloc, example.checked(alloc)?)?;
    for at in places {
        let place = place(alloc, at)?;
        if let Err(refusal) = machine.step(&Choice { place, arm: 0 }) {
            return Err(Fail::from(refusal));
        }
    }
    Ok(machine)
}

/// Whether both machines have the same events under the same tickets.
fn same_events(one: &Machine, other: &Machine) -> Result<bool, Fail> {
    Ok(one.live()?.as_slice() == other.live()?.as_slice())
}

/// Why the text is refused, `None` where it is loaded. Want of memory fails the test.
fn refused(loaded: &Result<Machine, Fault>) -> Result<Option<Fault>, Fault> {
    match loaded {
        Ok(_) => Ok(None),
        Err(Fault::Memory) => Err(Fault::Memory),
        Err(fault) => Ok(Some(*fault)),
    }
}

/// A reader that gives so many bytes at a time.
#[derive(Drop)]
struct Trickle<'a> {
    rest: &'a [u8],
    at_once: usize,
    /// how many reads there are before one that fails, if one fails
    good: Option<usize>,
}

impl Read for Trickle<'_> {
    fn read(&mut self, buf: &mut [u8]) -> io::Result<usize> {
        match self.good {
            Some(0) => return Err(ErrorKind::Other.into()),
            Some(good) => self.good = Some(good - 1),
            None => {}
        }
        let count = self.rest.len().min(self.at_once).min(buf.len());
        buf[..count].copy_from_slice(&self.rest[..count]);
        self.rest = &self.rest[count..];
        Ok(count)
    }
}

#[test]
fn what_is_saved_loads_to_the_same_events(rt: HostRuntime) -> Result<(), Fail> {
    for steps in 0..4 {
        let machine = stepped(rt.alloc(), &PLACES[..steps])?;
        let mut text: Vec<u8> = Vec::with_capacity(rt.alloc(), 128)?;
        save(rt.alloc(), &machine, &mut Counted::new(&mut text))?;
        assert!(rt; THREE.starts_with(text.as_slice()), "{steps}");
        assert!(rt; text.as_slice() == write_trace(rt.alloc(), &machine)?.as_slice());
        let loaded = load_text(rt.alloc(), BUFFER.checked(rt.alloc())?, text.as_slice())?;
        assert!(rt; same_events(&machine, &loaded)?, "{steps}");
        assert_eq!(rt; loaded.next_ticket(), machine.next_ticket());
    }
    Ok(())
}

/// Two buffers in a row: a turn of each, a value into the first, and from the first into the second.
const IN_CANONICAL_ORDER: &[u8] =
    b"balsadbg trace 2\nstep /0/0.0 0\nstep /0/0.1.0 0\nstep /0/1.0 0\nstep /0/1.1.0 0\n";

/// The same steps in three orders.
const ORDERS: [[&[u8]; 4]; 3] = [
    [b"/0/0.0", b"/0/1.0", b"/0/0.1.0", b"/0/1.1.0"],
    [b"/0/0.0", b"/0/0.1.0", b"/0/1.0", b"/0/1.1.0"],
    [b"/0/1.0", b"/0/0.0", b"/0/0.1.0", b"/0/1.1.0"],
];

#[test]
fn orders_of_the_same_steps_have_equal_bytes(rt: HostRuntime) -> Result<(), Fail> {
    assert_eq!(rt; IN_CANONICAL_ORDER.len(), 77);
    let expected = behind(rt.alloc(), TWO_BUFFERS, &ORDERS[1])?;
    for order in ORDERS {
        let machine = behind(rt.alloc(), TWO_BUFFERS, &order)?;
        let text = write_trace(rt.alloc(), &machine)?;
        assert!(rt; text.as_slice() == IN_CANONICAL_ORDER);
        let loaded = load_text(
            rt.alloc(),
            TWO_BUFFERS.checked(rt.alloc())?,
            text.as_slice(),
        )?;
        assert!(rt; same_events(&expected, &loaded)?);
    }
    Ok(())
}

/// Texts of these four steps in another order, and why they are refused.
const OUT_OF_ORDER: [(&[u8], Option<Fault>); 5] = [
    (
        b"balsadbg trace 2\nstep /0/0.0 0\nstep /0/1.0 0\nstep /0/0.1.0 0\nstep /0/1.1.0 0\n",
        Some(Fault::NotCanonical(3)),
    ),
    (
        b"balsadbg trace 2\nstep /0/1.0 0\nstep /0/0.0 0\nstep /0/0.1.0 0\nstep /0/1.1.0 0\n",
        Some(Fault::NotCanonical(2)),
    ),
    (
        b"balsadbg trace 1\nstep /0/1.0 0\nstep /0/0.0 0\nstep /0/0.1.0 0\nstep /0/1.1.0 0\n",
        None,
    ),
    (
        b"balsadbg trace 2\nstep /0/1.0 0\nstep /0/0.0 0\nstep /0/0.0 0\n",
        Some(Fault::NotAStep(4)),
    ),
    (
        b"balsadbg trace 2\nstep /0/1.0 0\nstep /0/0.0 0\nstep",
        Some(Fault::BadLine(4)),
    ),
];

#[test]
fn another_order_is_refused_at_its_first_line(rt: HostRuntime) -> Result<(), Fail> {
    for (text, fault) in OUT_OF_ORDER {
        let loaded = load_text(rt.alloc(), TWO_BUFFERS.checked(rt.alloc())?, text);
        assert_eq!(rt; refused(&loaded)?, fault, "{fault:?}");
    }
    Ok(())
}

#[test]
fn tickets_begin_anew(rt: HostRuntime) -> Result<(), Fail> {
    let mut machine = stepped(rt.alloc(), &PLACES)?;
    for ticket in [3, 2] {
        assert!(rt; machine.undo(ticket).is_ok());
    }
    let text = write_trace(rt.alloc(), &machine)?;
    let loaded = load_text(rt.alloc(), BUFFER.checked(rt.alloc())?, text.as_slice())?;
    assert_eq!(rt; machine.next_ticket(), 4);
    assert_eq!(rt; loaded.next_ticket(), 2);
    assert!(rt; matches!(loaded.live_at(0), Some((1, _))));
    Ok(())
}

#[test]
fn a_reader_may_give_one_byte_at_a_time(rt: HostRuntime) -> Result<(), Fail> {
    let machine = stepped(rt.alloc(), &PLACES)?;
    for at_once in [1, 2, 16, 64] {
        let trickle = Trickle {
            rest: THREE,
            at_once,
            good: None,
        };
        let mut reader = Counted::new(trickle);
        let loaded = load(rt.alloc(), BUFFER.checked(rt.alloc())?, &mut reader)?;
        assert!(rt; same_events(&machine, &loaded)?, "{at_once}");
    }
    Ok(())
}

#[test]
fn a_reader_that_fails_at_any_read_is_told(rt: HostRuntime) -> Result<(), Fail> {
    // A read for each byte, and one that sees the end.
    for good in 0..THREE.len() + 1 {
        let trickle = Trickle {
            rest: THREE,
            at_once: 1,
            good: Some(good),
        };
        let mut reader = Counted::new(trickle);
        let loaded = load(rt.alloc(), BUFFER.checked(rt.alloc())?, &mut reader);
        assert_eq!(rt; refused(&loaded)?, Some(Fault::ReadFailed), "{good}");
    }
    Ok(())
}

/// What a trace of these lines means that is cut behind so many bytes.
fn cut(count: usize) -> Option<Fault> {
    match count {
        0..16 => Some(Fault::BadHeader),
        16 => Some(Fault::BadLine(1)),
        17 | 29 | 43 | 55 => None,
        18..29 => Some(Fault::BadLine(2)),
        30..43 => Some(Fault::BadLine(3)),
        _ => Some(Fault::BadLine(4)),
    }
}

#[test]
fn a_trace_may_be_cut_at_each_byte(rt: HostRuntime) -> Result<(), Fail> {
    assert_eq!(rt; THREE.len(), 55);
    for count in 0..56 {
        let loaded = load_text(rt.alloc(), BUFFER.checked(rt.alloc())?, &THREE[..count]);
        assert_eq!(rt; refused(&loaded)?, cut(count), "{count}");
    }
    Ok(())
}

/// A writer that takes one byte at a time, so many in all, and then fails.
#[derive(Drop)]
struct Narrow {
    taken: Vec<u8>,
    room: usize,
}

impl Write for Narrow {
    fn write(&mut self, buf: &[u8]) -> io::Result<usize> {
        if self.room == 0 {
            return Err(ErrorKind::Other.into());
        }
        let count = buf.len().min(1);
        self.taken.extend_from_slice(&buf[..count])?;
        self.room -= count;
        Ok(count)
    }

    fn flush(&mut self) -> io::Result<()> {
        Ok(())
    }
}

#[test]
fn a_writer_that_fails_has_a_beginning(rt: HostRuntime) -> Result<(), Fail> {
    let machine = stepped(rt.alloc(), &PLACES)?;
    for room in 0..THREE.len() + 1 {
        let mut narrow = Narrow {
            taken: Vec::with_capacity(rt.alloc(), 64)?,
            room,
        };
        let saved = save(rt.alloc(), &machine, &mut Counted::new(&mut narrow));
        if saved == Err(Fault::Memory) {
            assert!(rt; narrow.taken.is_empty(), "{room}");
            return Err(Fail::from(Fault::Memory));
        }
        assert!(rt; narrow.taken.as_slice() == &THREE[..room], "{room}");
        let expected = if room < THREE.len() {
            Err(Fault::WriteFailed)
        } else {
            Ok(())
        };
        assert_eq!(rt; saved, expected, "{room}");
    }
    Ok(())
}

/// A trace of one line, whose place is so many of these entries.
fn long_line(alloc: Global, entry: &[u8], count: usize, arm: &[u8]) -> Result<Vec<u8>, Fail> {
    let mut text = Vec::with_capacity(alloc, 200_000)?;
    text.extend_from_slice(b"balsadbg trace 2\nstep ")?;
    for _ in 0..count {
        text.extend_from_slice(entry)?;
    }
    text.extend_from_slice(arm)?;
    Ok(text)
}

#[test]
fn a_long_place_is_refused_for_what_it_is(rt: HostRuntime) -> Result<(), Fail> {
    let cases: [(&[u8], usize, &[u8], Fault); 7] = [
        (b"/0", 32_768, b" 0\n", Fault::NotAStep(2)),
        (b"/0", 32_769, b" 0\n", Fault::NotAStep(2)),
        (b".4294967295", 9_000, b" 0\n", Fault::NotAStep(2)),
        (b".4294967296", 9_000, b" 0\n", Fault::BadLine(2)),
        (b"/00", 30_000, b" 0\n", Fault::BadLine(2)),
        (b"/0", 40_000, b" 00\n", Fault::BadLine(2)),
        (b"/0", 40_000, b" 0", Fault::BadLine(2)),
    ];
    for (entry, count, arm, fault) in cases {
        let text = long_line(rt.alloc(), entry, count, arm)?;
        let loaded = load_text(rt.alloc(), BUFFER.checked(rt.alloc())?, text.as_slice());
        assert_eq!(rt; refused(&loaded)?, Some(fault), "{count} {fault:?}");
    }
    Ok(())
}
