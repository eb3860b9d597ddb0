// The lists of events that are timed, each as it runs from its opening.

use address::{Address, Entry};
use runs::{Event, Kind};
use std::alloc::{AllocError, Global};
use system::Variables;

/// A list of events, of any length.
#[derive(Clone, Copy)]
pub enum Row {
    /// eight loops of four commands side by side, a step each in turn
    Loops,
    /// 64 such loops, each for 250 steps at a time
    ManyLoops,
    /// a loop over 4,000 commands
    Sequence,
    /// a parallel of 4,000 branches, begun again and again by a turn
    Parallel,
    /// a loop over two parallels of 200 branches, one after the other
    TwoParallels,
    /// a branch that meets another one at each hundredth step of it
    Meeting,
    /// a sequence in which one step of 2,000 writes a variable that all others read
    Readers,
    /// a sequence 100 parallels deep
    Deep,
    /// two sequences, of which the first is taken back before the other
    Middle,
    /// eight buffers in a row, one value after the other through all of them
    Buffers,
    /// a branch that makes one event and is then idle, until the last event of another branch meets it
    Idle,
}

/// All of them.
pub const ROWS: [Row; 11] = [
    Row::Loops,
    Row::ManyLoops,
    Row::Sequence,
    Row::Parallel,
    Row::TwoParallels,
    Row::Meeting,
    Row::Readers,
    Row::Deep,
    Row::Middle,
    Row::Buffers,
    Row::Idle,
];

impl Row {
    /// What it is, in short.
    pub fn name(self) -> &'static str {
        match self {
            Row::Loops => "8 loops of 4 in turn",
            Row::ManyLoops => "64 loops of 4",
            Row::Sequence => "loop over 4,000 commands",
            Row::Parallel => "parallel of 4,000 again and again",
            Row::TwoParallels => "two parallels of 200 in a loop",
            Row::Meeting => "a meeting each 100 steps",
            Row::Readers => "2,000 reads to a write",
            Row::Deep => "a sequence at depth 100",
            Row::Middle => "the first half taken first",
            Row::Buffers => "8 buffers in a row",
            Row::Idle => "an idle branch met at the end",
        }
    }

    /// The place among the live ones, of which there are one more than the index, of the event that is taken next.
    pub fn taken_at(self, index: u32, size: u32) -> u32 {
        match self {
            Row::Middle => index.checked_rem(size / 2).unwrap_or(0),
            _ => index,
        }
    }

    /// The event at this index, of so many.
    pub fn event(self, alloc: Global, index: u32, size: u32) -> Result<Event, AllocError> {
        match self {
            Row::Loops => step_of_four(alloc, index % 8, index / 8),
            Row::ManyLoops => {
                let block = index / 250;
                let step = (block / 64).wrapping_mul(250).wrapping_add(index % 250);
                step_of_four(alloc, block % 64, step)
            }
            Row::Sequence => step_of_many(alloc, index / 4_001, index % 4_001),
            Row::Parallel => step_of_all(alloc, index / 4_001, index % 4_001),
            Row::TwoParallels => step_of_two(alloc, index / 401, index % 401),
            Row::Meeting => step_or_meeting(alloc, index),
            Row::Readers => step_of_readers(alloc, index),
            Row::Deep => deep_step(alloc, index),
            Row::Middle => {
                let branch = if index < size / 2 { 0 } else { 1 };
                let entries = [Entry::Branch(branch), Entry::Ordered(index)];
                alone(alloc, &entries, Some(branch))
            }
            Row::Buffers => step_of_buffers(alloc, index / 17, index % 17),
            Row::Idle => step_or_first_meeting(alloc, index, size),
        }
    }
}

/// The place of these entries below the body.
fn place(alloc: Global, entries: &[Entry]) -> Result<Address, AllocError> {
    place_below(alloc, 0, entries)
}

/// The place of these entries below the branch, of which 0 is the body and the others are the ports.
fn place_below(alloc: Global, branch: u32, entries: &[Entry]) -> Result<Address, AllocError> {
    let mut all = Vec::new(alloc);
    all.push(Entry::Branch(branch))?;
    for entry in entries {
        all.push(*entry)?;
    }
    Ok(Address::from_vec(all))
}

/// An event at one place, which writes and reads the variable, if there is one.
fn alone(alloc: Global, entries: &[Entry], variable: Option<u32>) -> Result<Event, AllocError> {
    let first = place(alloc, entries)?;
    let mut read = Variables::none(alloc);
    if let Some(number) = variable {
        read.insert(number)?;
    }
    Ok(Event {
        kind: Kind::Assign,
        first,
        second: None,
        arm: None,
        channel: None,
        value: None,
        written: variable,
        read,
    })
}

/// A step of branch `number`, a loop over four assignments to its variable, each of which reads it.
fn step_of_four(alloc: Global, number: u32, step: u32) -> Result<Event, AllocError> {
    let turn = (step / 5).wrapping_mul(2);
    if step % 5 == 0 {
        let entries = [Entry::Branch(number), Entry::Ordered(turn)];
        return alone(alloc, &entries, None);
    }
    let entries = [
        Entry::Branch(number),
        Entry::Ordered(turn.wrapping_add(1)),
        Entry::Ordered(step % 5),
    ];
    alone(alloc, &entries, Some(number))
}

/// A step of a loop over 4,000 commands.
fn step_of_many(alloc: Global, turn: u32, step: u32) -> Result<Event, AllocError> {
    let turn = turn.wrapping_mul(2);
    if step == 0 {
        return alone(alloc, &[Entry::Ordered(turn)], None);
    }
    let entries = [Entry::Ordered(turn.wrapping_add(1)), Entry::Ordered(step)];
    alone(alloc, &entries, Some(step % 16))
}

/// A step of a loop over a parallel of 4,000 branches.
fn step_of_all(alloc: Global, turn: u32, step: u32) -> Result<Event, AllocError> {
    let turn = turn.wrapping_mul(2);
    if step == 0 {
        return alone(alloc, &[Entry::Ordered(turn)], None);
    }
    let entries = [Entry::Ordered(turn.wrapping_add(1)), Entry::Branch(step)];
    alone(alloc, &entries, Some(step))
}

/// A step of a loop over two parallels of 200 branches.
fn step_of_two(alloc: Global, turn: u32, step: u32) -> Result<Event, AllocError> {
    let turn = turn.wrapping_mul(2);
    if step == 0 {
        return alone(alloc, &[Entry::Ordered(turn)], None);
    }
    let entries = [
        Entry::Ordered(turn.wrapping_add(1)),
        Entry::Ordered(step / 201),
        Entry::Branch(step % 201),
    ];
    alone(alloc, &entries, Some(step))
}

/// A step of a sequence that reads variable 0 or, each 2,000 steps, writes it.
fn step_of_readers(alloc: Global, index: u32) -> Result<Event, AllocError> {
    let entries = [Entry::Branch(0), Entry::Ordered(index)];
    let mut event = alone(alloc, &entries, None)?;
    if index % 2_000 == 0 {
        event.written = Some(0);
    } else {
        event.read.insert(0)?;
    }
    Ok(event)
}

/// A step of a sequence below 100 parallels.
fn deep_step(alloc: Global, index: u32) -> Result<Event, AllocError> {
    let mut entries = Vec::new(alloc);
    for _ in 0..100 {
        entries.push(Entry::Branch(0))?;
    }
    entries.push(Entry::Ordered(index))?;
    alone(alloc, entries.as_slice(), Some(0))
}

/// A step of branch 0, at each hundredth with branch 1.
fn step_or_meeting(alloc: Global, index: u32) -> Result<Event, AllocError> {
    let first = place(alloc, &[Entry::Branch(0), Entry::Ordered(index)])?;
    if index % 100 != 99 {
        return meeting(alloc, first, None, None);
    }
    let second = place(alloc, &[Entry::Branch(1), Entry::Ordered(index / 100)])?;
    meeting(alloc, first, Some(second), Some(0))
}

/// The first step of branch 1, then steps of branch 0, of which the last, of so many, meets branch 1.
fn step_or_first_meeting(alloc: Global, index: u32, size: u32) -> Result<Event, AllocError> {
    let other = place(alloc, &[Entry::Branch(1), Entry::Ordered(index)])?;
    if index == 0 {
        return meeting(alloc, other, None, None);
    }
    let first = place(alloc, &[Entry::Branch(0), Entry::Ordered(index)])?;
    if index.wrapping_add(1) < size {
        return meeting(alloc, first, None, None);
    }
    meeting(alloc, first, Some(other), Some(0))
}

/// A meeting on the channel, which writes and reads no variable, or a step at one place on none.
fn meeting(
    alloc: Global,
    first: Address,
    second: Option<Address>,
    channel: Option<u32>,
) -> Result<Event, AllocError> {
    Ok(Event {
        kind: Kind::Meet,
        first,
        second,
        arm: None,
        channel,
        value: None,
        written: None,
        read: Variables::none(alloc),
    })
}

/// A step of eight buffers in a row: of each buffer its turn and the meeting that fills it, then the one that takes the value out.
fn step_of_buffers(alloc: Global, value: u32, step: u32) -> Result<Event, AllocError> {
    let turn = value.wrapping_mul(2);
    let number = step / 2;
    if step < 16 && step % 2 == 0 {
        let entries = [Entry::Branch(number), Entry::Ordered(turn)];
        return alone(alloc, &entries, None);
    }
    let body = turn.wrapping_add(1);
    let giver = if number == 0 {
        place_below(alloc, 1, &[Entry::Ordered(value), Entry::Ordered(0)])?
    } else {
        let before = number.wrapping_sub(1);
        sent(alloc, before, body)?
    };
    let taker = if number == 8 {
        place_below(alloc, 2, &[Entry::Ordered(value)])?
    } else {
        let entries = [
            Entry::Branch(number),
            Entry::Ordered(body),
            Entry::Ordered(0),
        ];
        place(alloc, &entries)?
    };
    let mut event = meeting(alloc, giver, Some(taker), Some(number))?;
    fill(&mut event, number)?;
    Ok(event)
}

/// Where the buffer sends in this turn.
fn sent(alloc: Global, number: u32, body: u32) -> Result<Address, AllocError> {
    let entries = [
        Entry::Branch(number),
        Entry::Ordered(body),
        Entry::Ordered(1),
    ];
    place(alloc, &entries)
}

/// The meeting reads the variable of the buffer that gives, and writes that of the one that takes.
fn fill(event: &mut Event, number: u32) -> Result<(), AllocError> {
    if number < 8 {
        event.written = Some(number);
    }
    if number > 0 {
        let before = number.wrapping_sub(1);
        event.read.insert(before)?;
    }
    Ok(())
}
