// The first steps of two buffers, one behind the other, with their answers counted by hand.

use address::{Address, read};
use calculus::{Event, Kind};
use dependence::Live;
use std::alloc::Global;
use std::io;
use std::io::ErrorKind;
use syntax::Boxed;
use system::Variables;

/// An event in short: its kind, its places as texts, its channel, the variable that is written and the one that is read.
struct Told {
    kind: Kind,
    first: &'static [u8],
    second: Option<&'static [u8]>,
    channel: Option<u32>,
    written: Option<u32>,
    reads: Option<u32>,
}

/// Both loops turn, the first buffer receives, and hands its value on to the second.
const STEPS: [Told; 4] = [
    Told {
        kind: Kind::Turn,
        first: b"/0/0.0",
        second: None,
        channel: None,
        written: None,
        reads: None,
    },
    Told {
        kind: Kind::Turn,
        first: b"/0/1.0",
        second: None,
        channel: None,
        written: None,
        reads: None,
    },
    Told {
        kind: Kind::Meet,
        first: b"/1.0.0",
        second: Some(b"/0/0.1.0"),
        channel: Some(0),
        written: Some(0),
        reads: None,
    },
    Told {
        kind: Kind::Meet,
        first: b"/0/0.1.1",
        second: Some(b"/0/1.1.0"),
        channel: Some(2),
        written: Some(1),
        reads: Some(0),
    },
];

/// The answers after the four steps, and after the last of them is taken.
pub fn first_steps(alloc: Global) -> io::Result<()> {
    let mut live = Live::new(alloc);
    let mut ticket = 0;
    for told in &STEPS {
        ticket += 1;
        let event = Boxed::new(alloc, event(alloc, told)?)?;
        if live.add(ticket, event).is_err() {
            return Err(io::Error::from(ErrorKind::OutOfMemory));
        }
    }
    expect(
        alloc,
        live.followers(1) == [3].as_slice(),
        "followers(1) is [3]",
    )?;
    expect(
        alloc,
        live.first_dependent(1) == Some(3),
        "first_dependent(1) is 3",
    )?;
    expect(alloc, live.count(1) == 2, "count(1) is 2")?;
    expect(
        alloc,
        live.first_dependent(2) == Some(4),
        "first_dependent(2) is 4",
    )?;
    expect(alloc, live.count(2) == 1, "count(2) is 1")?;
    expect(
        alloc,
        live.first_dependent(4).is_none(),
        "first_dependent(4) is none",
    )?;
    live.take(4);
    expect(alloc, live.count(1) == 1, "count(1) is 1 without 4")?;
    expect(
        alloc,
        live.first_dependent(2).is_none(),
        "first_dependent(2) is none without 4",
    )
}

fn expect(alloc: Global, holds: bool, what: &str) -> io::Result<()> {
    if holds {
        return Ok(());
    }
    let text = format!(in alloc; "two buffers: not so: {what}")?;
    Err(io::Error::other(text.as_str()))
}

fn event(alloc: Global, told: &Told) -> io::Result<Event> {
    let mut read = Variables::none(alloc);
    if let Some(variable) = told.reads {
        read.insert(variable)?;
    }
    let second = match told.second {
        Some(text) => Some(place(alloc, text)?),
        None => None,
    };
    Ok(Event {
        kind: told.kind,
        first: place(alloc, told.first)?,
        second,
        arm: None,
        channel: told.channel,
        value: None,
        written: told.written,
        read,
    })
}

fn place(alloc: Global, text: &[u8]) -> io::Result<Address> {
    match read(alloc, text)? {
        Some(place) => Ok(place),
        None => Err(io::Error::from(ErrorKind::InvalidData)),
    }
}
