// Who depends on whom, found by going through all live events.

use address::{Entry, compare};
use calculus::{Event, depends_directly, writes};
use std::alloc::{AllocError, Global};
use std::cmp::Ordering;

/// For each live event, whether it depends on the one at the place or is it.
pub fn dependents(
    alloc: Global,
    live: &[(u64, Event)],
    place: usize,
) -> Result<Vec<bool>, AllocError> {
    let mut found = Vec::new(alloc);
    for later in 0..live.len() {
        let is_one = later == place
            || (place..later).any(|k| found[k] && depends_directly(&live[k].1, &live[later].1));
        found.push(is_one)?;
    }
    Ok(found)
}

/// The tickets of the events that depend directly on the one at the place.
pub fn direct(alloc: Global, live: &[(u64, Event)], place: usize) -> Result<Vec<u64>, AllocError> {
    let mut found = Vec::new(alloc);
    for later in place + 1..live.len() {
        if depends_directly(&live[place].1, &live[later].1) {
            found.push(live[later].0)?;
        }
    }
    Ok(found)
}

/// Those of them that depend on no other event that depends on it.
pub fn followers(
    alloc: Global,
    live: &[(u64, Event)],
    place: usize,
    dependents: &[bool],
) -> Result<Vec<u64>, AllocError> {
    let mut found = Vec::new(alloc);
    for later in place + 1..live.len() {
        let is_direct = depends_directly(&live[place].1, &live[later].1);
        let is_further = (place + 1..later).any(|k| dependents[k]
            && depends_directly(&live[k].1, &live[later].1));
        if is_direct && !is_further {
            found.push(live[later].0)?;
        }
    }
    Ok(found)
}

/// The ticket of the last event that writes the variable.
pub fn last_writer(live: &[(u64, Event)], variable: u32) -> Option<u64> {
    let mut last = None;
    for entry in live {
        if writes(&entry.1, variable) {
            last = Some(entry.0);
        }
    }
    last
}

/// The event that acts at the first child of the place.
pub fn acting_at_first_child<'a>(live: &'a [(u64, Event)], place: &[Entry]) -> Option<&'a Event> {
    for entry in live {
        let acting = entry.1.acting_place().entries();
        let is_below = acting.len() == place.len() + 1 && acting[..place.len()] == place[..];
        if is_below && acting[place.len()] == Entry::Ordered(0) {
            return Some(&entry.1);
        }
    }
    None
}

/// The places of the events in their canonical order: of those that depend on none that is left the one of the least acting
/// address comes next.
pub fn canonical(alloc: Global, live: &[(u64, Event)]) -> Result<Vec<usize>, AllocError> {
    let mut order = Vec::new(alloc);
    let mut is_left = Vec::from_elem(alloc, true, live.len())?;
    for _ in 0..live.len() {
        if let Some(next) = next_of(live, is_left.as_slice()) {
            is_left[next] = false;
            order.push(next)?;
        }
    }
    Ok(order)
}

/// Of the events left that depend on none that is left, that of the least acting address.
fn next_of(live: &[(u64, Event)], is_left: &[bool]) -> Option<usize> {
    let mut next: Option<usize> = None;
    for place in 0..live.len() {
        let event = &live[place].1;
        if !is_left[place]
            || (0..place).any(|k| is_left[k] && depends_directly(&live[k].1, event))
        {
            continue;
        }
        next = match next {
            Some(found) if !acts_below(event, &live[found].1) => Some(found),
            _ => Some(place),
        };
    }
    next
}

/// Whether the acting address of the first is less than that of the other.
fn acts_below(event: &Event, other: &Event) -> bool {
    compare(event.acting_place(), other.acting_place()) == Ordering::Less
}
