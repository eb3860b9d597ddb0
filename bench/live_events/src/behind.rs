// Whether a new event comes behind the live ones as a run has it: what `Live::add` asks, tried on all of them.
ghost use Rattle.std.specs.Prelude.{◌≡◌, ◌⊎◌, ◌↔◌, ℕ, Some, IsTrue};
ghost use Rattle.address.specs.Places.{Before, Apart};
ghost use Rattle.syntax.specs.Lists.{In};
ghost use Rattle.runs.specs.Dependence.{SomeBefore, OnOneChannel};
ghost use Rattle.runs.specs.Events.{places};
ghost use Rattle.runs.specs.Moves.{Place};
ghost use Rattle.runs.specs.internal.Below.{apart};
ghost use Rattle.dependence_bench.specs.Pairs.{Follows, IsBehind};

use address::{Address, Entry, before};
use runs::Event;
use dependence::Live;

/// Whether the new event of this ticket comes behind the live ones, of which there are so many.
pub fn comes_behind(live: &Live, count: u64, ticket: u64, event: &Event) -> bool
    ensures { IsTrue result → IsBehind live.now.live ticket event.now }
{
    for place in 0..count {
        let Some(pair) = live.pair_at(place) else {
            return false;
        };
        if pair.0 >= ticket {
            return false;
        }
        if !follows(pair.1, event) {
            return false;
        }
    }
    match live.pair_at(count) {
        Some(_) => false,
        None => own_apart(event),
    }
}

/// Whether the later event may come after the earlier one.
fn follows(earlier: &Event, later: &Event) -> bool
    ensures { IsTrue result → Follows earlier.now later.now }
{
    let first = all_placed(&earlier.first, later);
    let second = match &earlier.second {
        Some(place) => all_placed(place, later),
        None => true,
    };
    let channel = channel_placed(earlier, later);
    first && second && channel
}

/// Whether the place is before each place of the event, or apart from it.
fn all_placed(place: &Address, event: &Event) -> bool
    ensures { IsTrue result → (b : Place) → In b (places event.now) → Before place.now b ⊎ Apart place.now b }
{
    let first = is_placed(place, &event.first);
    let second = match &event.second {
        Some(other) => is_placed(place, other),
        None => true,
    };
    first && second
}

/// Whether the place is before the other one, or apart from it.
fn is_placed(place: &Address, other: &Address) -> bool
    ensures { IsTrue result → Before place.now other.now ⊎ Apart place.now other.now }
{
    let is_before = before(place, other);
    let is_apart = are_apart(place.entries(), other.entries());
    is_before || is_apart
}

/// Whether the two places of the event are apart.
fn own_apart(event: &Event) -> bool
    ensures { IsTrue result → (b : Place) → event.now.second ≡ Some b → Apart event.now.first b }
{
    match &event.second {
        Some(second) => are_apart(event.first.entries(), second.entries()),
        None => true,
    }
}

/// Whether a place of the earlier event is before one of the later where both are on one channel.
fn channel_placed(earlier: &Event, later: &Event) -> bool
    ensures { IsTrue result → OnOneChannel earlier.now later.now → SomeBefore earlier.now later.now }
{
    let by_place = some_before(earlier, later);
    match (earlier.channel, later.channel) {
        (Some(a), Some(b)) => a != b || by_place,
        _ => true,
    }
}

/// Whether a place of the first event is before a place of the second.
fn some_before(earlier: &Event, later: &Event) -> bool
    ensures { IsTrue result ↔ SomeBefore earlier.now later.now }
{
    let first = before_some(&earlier.first, later);
    let second = match &earlier.second {
        Some(place) => before_some(place, later),
        None => false,
    };
    first || second
}

/// Whether the place is before a place of the event.
fn before_some(place: &Address, later: &Event) -> bool
    ensures { IsTrue result ↔ ((b : Place) × In b (places later.now) × Before place.now b) }
{
    let first = before(place, &later.first);
    let second = match &later.second {
        Some(other) => before(place, other),
        None => false,
    };
    first || second
}

/// Whether at the first place at which they differ both entries are branch numbers.
fn are_apart(a: &[Entry], b: &[Entry]) -> bool
    ensures { result ≡ apart a.now b.now }
{
    let Some((first, a_rest)) = a.split_first() else {
        return false;
    };
    let Some((second, b_rest)) = b.split_first() else {
        return false;
    };
    match first {
        Entry::Ordered(i) => match second {
            Entry::Ordered(j) => {
                if *i == *j {
                    are_apart(a_rest, b_rest)
                } else {
                    false
                }
            }
            Entry::Branch(_) => false,
        },
        Entry::Branch(i) => match second {
            Entry::Ordered(_) => false,
            Entry::Branch(j) => {
                if *i == *j {
                    are_apart(a_rest, b_rest)
                } else {
                    true
                }
            }
        },
    }
}
