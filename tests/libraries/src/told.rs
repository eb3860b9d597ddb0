//! Events in short.

use address::{Address, read};
use calculus::{Event, Kind};
use std::alloc::{AllocError, Global};
use std::test::Fail;
use system::Variables;
use value::Value;

/// An event in short: its places as texts, its value as a number of eight bits, the variables that it reads.
#[derive(Clone, Copy)]
pub struct Told {
    kind: Kind,
    first: &'static [u8],
    second: Option<&'static [u8]>,
    arm: Option<u32>,
    channel: Option<u32>,
    value: Option<u64>,
    written: Option<u32>,
    reads: &'static [u32],
}

/// An event at one place.
fn alone(kind: Kind, place: &'static [u8]) -> Told {
    Told {
        kind,
        first: place,
        second: None,
        arm: None,
        channel: None,
        value: None,
        written: None,
        reads: &[],
    }
}

/// An event at two places, on the channel.
fn between(kind: Kind, first: &'static [u8], second: &'static [u8], channel: u32) -> Told {
    Told {
        second: Some(second),
        channel: Some(channel),
        ..alone(kind, first)
    }
}

pub fn turn(place: &'static [u8]) -> Told {
    alone(Kind::Turn, place)
}

/// A test that reads no variable.
pub fn choosing(place: &'static [u8], arm: Option<u32>) -> Told {
    Told {
        arm,
        ..alone(Kind::Test, place)
    }
}

/// A test that reads variable 0.
pub fn test(place: &'static [u8], arm: Option<u32>) -> Told {
    reading(&[0], choosing(place, arm))
}

/// An assignment of a constant.
pub fn assign(place: &'static [u8], variable: u32, value: u64) -> Told {
    Told {
        value: Some(value),
        written: Some(variable),
        ..alone(Kind::Assign, place)
    }
}

/// An assignment to variable 0 that reads it.
pub fn count(place: &'static [u8], value: u64) -> Told {
    reading(&[0], assign(place, 0, value))
}

/// A meeting that neither reads nor writes a variable.
pub fn meet(first: &'static [u8], second: &'static [u8], channel: u32, value: u64) -> Told {
    Told {
        value: Some(value),
        ..between(Kind::Meet, first, second, channel)
    }
}

/// The same, where the variable is written.
pub fn into(meeting: Told, variable: u32) -> Told {
    Told {
        written: Some(variable),
        ..meeting
    }
}

/// The same, where these variables are read.
pub fn reading(reads: &'static [u32], event: Told) -> Told {
    Told { reads, ..event }
}

/// An opening of an arm, with a value if there is one.
pub fn open(
    first: &'static [u8],
    second: &'static [u8],
    channel: u32,
    arm: u32,
    value: Option<u64>,
) -> Told {
    Told {
        arm: Some(arm),
        value,
        ..between(Kind::Open, first, second, channel)
    }
}

pub fn close(first: &'static [u8], second: &'static [u8], channel: u32) -> Told {
    between(Kind::Close, first, second, channel)
}

pub fn sync(first: &'static [u8], second: &'static [u8], channel: u32) -> Told {
    between(Kind::Sync, first, second, channel)
}

/// The event itself.
pub fn event(alloc: Global, told: Told) -> Result<Event, Fail> {
    let first = place(alloc, told.first)?;
    let second = second_place(alloc, told.second)?;
    let read = variables(alloc, told.reads)?;
    Ok(Event {
        kind: told.kind,
        first,
        second,
        arm: told.arm,
        channel: told.channel,
        value: value_of(told.value),
        written: told.written,
        read,
    })
}

/// The events themselves.
pub fn events(alloc: Global, told: &[Told]) -> Result<Vec<Event>, Fail> {
    let mut events = Vec::new(alloc);
    for told in told {
        events.push(event(alloc, *told)?)?;
    }
    Ok(events)
}

pub fn place(alloc: Global, text: &[u8]) -> Result<Address, Fail> {
    Ok(read(alloc, text)?.ok_or("an address")?)
}

fn second_place(alloc: Global, text: Option<&[u8]>) -> Result<Option<Address>, Fail> {
    match text {
        Some(text) => Ok(Some(place(alloc, text)?)),
        None => Ok(None),
    }
}

/// The value of eight bits, where the number is below 256.
fn value_of(bits: Option<u64>) -> Option<Value> {
    Value::new(bits?, 8)
}

/// The variables, in any order, each of them any number of times.
fn variables(alloc: Global, numbers: &[u32]) -> Result<Variables, AllocError> {
    let mut read = Variables::none(alloc);
    for number in numbers {
        read.insert(*number)?;
    }
    Ok(read)
}
