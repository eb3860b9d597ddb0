// How long the calls of a `Live` take.
ghost use Rattle.runs.specs.Live.{IsLive};

use crate::behind::comes_behind;
use crate::lists::Row;
use runs::Event;
use dependence::Live;
use std::io;
use std::io::ErrorKind;
use std::time::Instant;
use syntax::Boxed;

/// Of this many events one is asked about.
const ASK_EACH: u64 = 97;

/// The times of calls, in nanoseconds.
#[derive(Clone, Copy)]
struct Times {
    calls: u128,
    sum: u128,
    worst: u128,
    first: u128,
    last: u128,
}

impl Times {
    fn none() -> Times {
        Times {
            calls: 0,
            sum: 0,
            worst: 0,
            first: 0,
            last: 0,
        }
    }

    fn note(&mut self, time: u128) {
        if self.calls == 0 {
            self.first = time;
        }
        self.last = time;
        self.calls = self.calls.saturating_add(1);
        self.sum = self.sum.saturating_add(time);
        self.worst = self.worst.max(time);
    }

    fn mean(self) -> u128 {
        self.sum.checked_div(self.calls).unwrap_or(0)
    }
}

/// The times of all calls on one list.
#[derive(Clone, Copy)]
struct AllTimes {
    add: Times,
    first_dependent: Times,
    count: Times,
    mark: Times,
    marked: Times,
    take: Times,
}

/// Adds the events of the row, asks about some, takes them all from the last on, and prints how long that took.
pub fn time_row(rt: &HostRuntime, row: Row, size: u32) -> io::Result<()> {
    let mut live = Live::new(rt.alloc());
    let mut times = AllTimes {
        add: Times::none(),
        first_dependent: Times::none(),
        count: Times::none(),
        mark: Times::none(),
        marked: Times::none(),
        take: Times::none(),
    };
    for index in 0..size {
        let event = Boxed::new(rt.alloc(), row.event(rt.alloc(), index, size)?)?;
        time_add(rt, &mut live, u64::from(index), event, &mut times.add)?;
    }
    for index in 0..size {
        ask_at(rt, &mut live, u64::from(index), &mut times)?;
    }
    for index in (0..size).rev() {
        let place = u64::from(row.taken_at(index, size));
        time_take(rt, &mut live, place, &mut times.take)?;
    }
    tell(rt, row, size, times)
}

/// Adds the event behind so many others.
fn time_add(
    rt: &HostRuntime,
    live: &mut Live,
    count: u64,
    event: Boxed<Event>,
    times: &mut Times,
) -> io::Result<()> {
    let ticket = count.wrapping_add(1);
    if !comes_behind(live, count, ticket, event.get()) {
        return Err(io::Error::other("an event does not come behind the others"));
    }
    let start = Instant::now(rt)?;
    let is_refused = live.add(ticket, event).is_err();
    times.note(start.elapsed(rt)?.as_nanos());
    if is_refused {
        return Err(io::Error::from(ErrorKind::OutOfMemory));
    }
    Ok(())
}

/// Asks about the event at the place, where it is one to be asked about.
fn ask_at(rt: &HostRuntime, live: &mut Live, place: u64, times: &mut AllTimes) -> io::Result<()> {
    if place % ASK_EACH != 0 {
        return Ok(());
    }
    match live.pair_at(place) {
        Some(pair) => {
            let ticket = pair.0;
            ask(rt, live, ticket, times)
        }
        None => Ok(()),
    }
}

/// Asks about the live event of the ticket.
fn ask(rt: &HostRuntime, live: &mut Live, ticket: u64, times: &mut AllTimes) -> io::Result<()>
    requires { IsLive live.old.live ticket }
{
    let start = Instant::now(rt)?;
    let _ = live.first_dependent(ticket);
    times.first_dependent.note(start.elapsed(rt)?.as_nanos());
    let start = Instant::now(rt)?;
    let _ = live.count(ticket);
    times.count.note(start.elapsed(rt)?.as_nanos());
    let start = Instant::now(rt)?;
    let _ = live.mark_consequences(ticket);
    times.mark.note(start.elapsed(rt)?.as_nanos());
    let start = Instant::now(rt)?;
    let tickets = live.marked();
    times.marked.note(start.elapsed(rt)?.as_nanos());
    if tickets.is_err() {
        return Err(io::Error::from(ErrorKind::OutOfMemory));
    }
    Ok(())
}

/// Takes the event at the place, where no other depends on it.
fn time_take(rt: &HostRuntime, live: &mut Live, place: u64, times: &mut Times) -> io::Result<()> {
    match live.pair_at(place) {
        Some(pair) => {
            let ticket = pair.0;
            take(rt, live, ticket, times)
        }
        None => Ok(()),
    }
}

/// Takes the live event of the ticket, where no other depends on it.
fn take(rt: &HostRuntime, live: &mut Live, ticket: u64, times: &mut Times) -> io::Result<()>
    requires { IsLive live.old.live ticket }
{
    match live.first_dependent(ticket) {
        Some(_) => return Ok(()),
        None => {}
    }
    let start = Instant::now(rt)?;
    live.take(ticket);
    times.note(start.elapsed(rt)?.as_nanos());
    Ok(())
}

/// Prints the times: of each call the mean, and of what is done at one end of the list the one call there. The last event is the
/// last that is added and the first that is taken; the first event is the first that is asked about, a late one the last.
fn tell(rt: &HostRuntime, row: Row, size: u32, times: AllTimes) -> io::Result<()> {
    let name = row.name();
    print!(rt; "{name}, {size}: ")?;
    let add = times.add.mean();
    let worst = times.add.worst;
    let last = times.add.last;
    print!(rt; "add {add} (worst {worst}, last {last}), ")?;
    let take = times.take.mean();
    let newest = times.take.first;
    print!(rt; "take {take} (last {newest}), ")?;
    let dependent = times.first_dependent.mean();
    let of_first = times.first_dependent.first;
    print!(rt; "first_dependent {dependent} (first {of_first}), ")?;
    let count = times.count.mean();
    let count_first = times.count.first;
    print!(rt; "count {count} (first {count_first}), ")?;
    let mark = times.mark.mean();
    let mark_first = times.mark.first;
    let mark_last = times.mark.last;
    print!(rt; "mark {mark} (first {mark_first}, late {mark_last}), ")?;
    let marked = times.marked.mean();
    let marked_last = times.marked.last;
    println!(rt; "marked {marked} (late {marked_last})")
}
