// What the state of the slow replay allows, in the order in which a tree lists it.

use address::{Entry, compare};
use calculus::{Event, Kind, Plain};
use std::alloc::{AllocError, Global};
use std::cmp::Ordering;
use syntax::Items;

/// The events that are allowed in the state, each once, by acting address, then by arm, then by the other side's address.
pub fn allowed(alloc: Global, state: &Plain) -> Result<Items<Event>, AllocError> {
    let mut found = state.allowed(alloc)?.into_vec();
    found.sort_unstable_by(|one, other| order(one, other));
    let mut kept = Vec::new(alloc);
    for event in found {
        if !is_last(kept.as_slice(), &event) {
            kept.push(event)?;
        }
    }
    Ok(Items::from_vec(kept))
}

fn is_last(kept: &[Event], event: &Event) -> bool {
    match kept.last() {
        Some(last) => last.equals(event),
        None => false,
    }
}

fn order(one: &Event, other: &Event) -> Ordering {
    compare(one.acting_place(), other.acting_place())
        .then(one.arm_to_open().cmp(&other.arm_to_open()))
        .then(partner(one).cmp(partner(other)))
}

/// The place of the side that does not act.
fn partner(event: &Event) -> &[Entry] {
    match (event.kind, &event.second) {
        (Kind::Meet | Kind::Open | Kind::Close, _) => event.first.entries(),
        (Kind::Sync, Some(second)) => second.entries(),
        _ => &[],
    }
}

/// Whether both lists have the same events in the same order.
pub fn are_equal(one: &[Event], other: &[Event]) -> bool {
    if one.len() != other.len() {
        return false;
    }
    for (event, same) in one.iter().zip(other) {
        if !event.equals(same) {
            return false;
        }
    }
    true
}

/// Copies of those of the events that act at the place or below it.
pub fn below(alloc: Global, place: &[Entry], events: &[Event]) -> Result<Items<Event>, AllocError> {
    let mut kept = Vec::new(alloc);
    for event in events {
        if event.acting_place().entries().starts_with(place) {
            kept.push(event.copy(alloc)?)?;
        }
    }
    Ok(Items::from_vec(kept))
}
