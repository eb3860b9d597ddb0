// A tree with its store and its records, beside the list of its events.

use crate::numbered::numbers_of;
use crate::random::Random;
use crate::rows::{Rows, row_of};
use crate::states::{allowed, are_equal, below};
use allowed_events::{event_with, ready_below, ready_events};
use calculus::{Choice, Event, Plain, depends_directly, replay};
use channel_uses::ChannelUses;
use event_inverse::{Record, apply, invert};
use process_tree::{Tree, system_code};
use rendezvous::event_at;
use sharing_check::Checked;
use std::alloc::Global;
use std::io;
use store::Store;
use syntax::Items;
use system::System;

/// How many choices are looked at in each state.
const CHOICES: usize = 2;

/// A tree with its store, the events that were made on it and not taken back, and for each its record and its row.
#[derive(Drop)]
pub struct Session {
    alloc: Global,
    checked: Checked,
    uses: ChannelUses,
    tree: Tree,
    store: Store,
    events: Vec<Event>,
    records: Vec<Record>,
    rows: Vec<usize>,
    /// the state that the slow replay of the events gives; none where they do not run
    state: Option<Plain>,
    /// what was just done
    did: &'static str,
}

impl Session {
    /// The tree of the system before its first event.
    pub fn new(alloc: Global, checked: Checked) -> io::Result<Session> {
        let code = system_code(alloc, checked.system())?;
        let uses = ChannelUses::new(alloc, &code)?;
        let tree = Tree::new(alloc, checked.system())?;
        let store = Store::new(alloc, checked.system())?;
        let state = replay(alloc, &checked, &[])?;
        Ok(Session {
            alloc,
            checked,
            uses,
            tree,
            store,
            events: Vec::new(alloc),
            records: Vec::new(alloc),
            rows: Vec::new(alloc),
            state,
            did: "begin",
        })
    }

    pub fn system(&self) -> &System {
        self.checked.system()
    }

    /// How many events are made and not taken back.
    pub fn len(&self) -> usize {
        self.events.len()
    }

    /// Makes one of the events that are ready, at random. Whether there was one.
    pub fn step(&mut self, random: &mut Random, rows: &mut Rows) -> io::Result<bool> {
        let ready = ready_events(self.alloc, &self.tree, &self.store)?;
        if ready.is_empty() {
            return Ok(false);
        }
        let chosen = random.below(ready.len() as u64) as usize;
        let event = ready.as_slice()[chosen].copy(self.alloc)?;
        let made = event.copy(self.alloc)?;
        let record = apply(self.alloc, &mut self.tree, &mut self.store, made)?;
        let row = row_of(&self.tree, &event);
        rows.count_made(row);
        self.state = match &self.state {
            Some(state) => state.after(self.alloc, &event)?,
            None => None,
        };
        self.events.push(event)?;
        self.records.push(record)?;
        self.rows.push(row)?;
        self.did = "step";
        Ok(true)
    }

    /// Takes back one of the events that none needs, at random.
    pub fn undo(&mut self, random: &mut Random, rows: &mut Rows) -> io::Result<()> {
        let free = self.free()?;
        let place = free[random.below(free.len() as u64) as usize];
        let event = self.events.remove(place);
        let record = self.records.remove(place);
        let row = self.rows.remove(place);
        rows.count_undone(row, place < self.events.len());
        let undone = invert(&mut self.tree, &mut self.store, record);
        self.state = replay(self.alloc, &self.checked, self.events.as_slice())?;
        self.did = "undo";
        self.expect(undone.equals(&event), "what invert gives back")
    }

    /// The places of the events on which no later one depends.
    fn free(&self) -> io::Result<Vec<usize>> {
        let mut found = Vec::new(self.alloc);
        for place in 0..self.events.len() {
            if !self.is_needed(place) {
                found.push(place)?;
            }
        }
        Ok(found)
    }

    fn is_needed(&self, place: usize) -> bool {
        let events = self.events.as_slice();
        for later in &events[place + 1..] {
            if depends_directly(&events[place], later) {
                return true;
            }
        }
        false
    }

    /// Makes an event and takes it back at once: tree and store are to be as they were.
    pub fn step_and_undo(&mut self, random: &mut Random) -> io::Result<()> {
        let ready = ready_events(self.alloc, &self.tree, &self.store)?;
        if ready.is_empty() {
            return Ok(());
        }
        let chosen = random.below(ready.len() as u64) as usize;
        let event = &ready.as_slice()[chosen];
        let before = numbers_of(self.alloc, self.tree.root())?;
        let made = event.copy(self.alloc)?;
        let record = apply(self.alloc, &mut self.tree, &mut self.store, made)?;
        let undone = invert(&mut self.tree, &mut self.store, record);
        let after = numbers_of(self.alloc, self.tree.root())?;
        self.did = "step and undo";
        self.expect(undone.equals(event), "what invert gives back")?;
        self.expect(before.as_slice() == after.as_slice(), "the tree")
    }

    /// Compares tree and store with the state that the slow replay gives.
    pub fn look(&self, random: &mut Random) -> io::Result<()> {
        let Some(state) = &self.state else {
            return self.expect(false, "whether the list runs");
        };
        self.look_at_values(state)?;
        let expected = allowed(self.alloc, state)?;
        let ready = ready_events(self.alloc, &self.tree, &self.store)?;
        let is_same = are_equal(ready.as_slice(), expected.as_slice());
        self.expect(is_same, "ready_events")?;
        let plain = rendezvous::ready_events(self.alloc, &self.tree, &self.store)?;
        let is_same = are_equal(plain.as_slice(), expected.as_slice());
        self.expect(is_same, "the plain ready_events")?;
        self.look_at_choices(random, expected.as_slice())?;
        self.look_below(random, expected.as_slice())
    }

    fn look_at_values(&self, state: &Plain) -> io::Result<()> {
        let values = self.store.as_slice();
        for (number, value) in values.iter().enumerate() {
            let is_same = state.value(number as u32) == Some(*value)
                && self.store.get(number as u32) == *value;
            self.expect(is_same, "a value")?;
        }
        let past = values.len() as u32;
        self.expect(state.value(past).is_none(), "the number of variables")
    }

    /// For the choices of some events that are allowed, those events; for others, and of events that were made, none.
    fn look_at_choices(&self, random: &mut Random, expected: &[Event]) -> io::Result<()> {
        for _ in 0..expected.len().min(CHOICES) {
            let event = &expected[random.below(expected.len() as u64) as usize];
            let mut choice = event.choice(self.alloc)?;
            self.look_at_choice(&choice, expected)?;
            choice.arm += 1;
            self.look_at_choice(&choice, expected)?;
        }
        if self.events.is_empty() {
            return Ok(());
        }
        let made = random.below(self.events.len() as u64) as usize;
        let event = &self.events[made];
        self.look_at_choice(&event.choice(self.alloc)?, expected)?;
        let place = event.first.copy(self.alloc)?;
        self.look_at_choice(&Choice { place, arm: 0 }, expected)
    }

    fn look_at_choice(&self, choice: &Choice, expected: &[Event]) -> io::Result<()> {
        let same = first_with(expected, choice);
        let found = event_with(self.alloc, &self.uses, &self.tree, &self.store, choice)?;
        self.expect(is_that(&found, same), "event_with")?;
        let plain = event_at(self.alloc, &self.tree, &self.store, choice)?;
        self.expect(is_that(&plain, same), "event_at")
    }

    /// Compares the list of a part of the tree.
    fn look_below(&self, random: &mut Random, expected: &[Event]) -> io::Result<()> {
        if expected.is_empty() {
            return Ok(());
        }
        let chosen = random.below(expected.len() as u64) as usize;
        let entries = expected[chosen].acting_place().entries();
        let length = random.below(entries.len() as u64 + 1) as usize;
        let place = &entries[..length];
        let listed = ready_below(self.alloc, &self.uses, &self.tree, &self.store, place)?;
        let kept = below(self.alloc, place, expected)?;
        let is_same = are_equal(listed.as_slice(), kept.as_slice());
        self.expect(is_same, "ready_below")
    }

    /// Compares the tree with one on which the same events were made in order, one after the other.
    pub fn look_at_tree(&self) -> io::Result<()> {
        let mut tree = Tree::new(self.alloc, self.checked.system())?;
        let mut store = Store::new(self.alloc, self.checked.system())?;
        let mut records = Vec::new(self.alloc);
        for event in self.events.as_slice() {
            let made = event.copy(self.alloc)?;
            records.push(apply(self.alloc, &mut tree, &mut store, made)?)?;
        }
        let here = numbers_of(self.alloc, self.tree.root())?;
        let there = numbers_of(self.alloc, tree.root())?;
        self.expect(here.as_slice() == there.as_slice(), "the tree")?;
        let is_same = self.store.as_slice() == store.as_slice();
        self.expect(is_same, "the store")
    }

    /// Names what differs.
    fn expect(&self, agrees: bool, what: &str) -> io::Result<()> {
        if agrees {
            return Ok(());
        }
        let count = self.events.len();
        let did = self.did;
        let text = format!(in self.alloc; "{what} differs, behind {did}, at {count} events")?;
        Err(io::Error::other(text.as_str()))
    }
}

/// The first of the events that has the choice.
fn first_with<'a>(events: &'a [Event], choice: &Choice) -> Option<&'a Event> {
    for event in events {
        if event.acting_place().equals(&choice.place) && event.arm_to_open() == choice.arm {
            return Some(event);
        }
    }
    None
}

/// Whether the event is the one that is expected, or none is.
fn is_that(found: &Option<Event>, expected: Option<&Event>) -> bool {
    match (found, expected) {
        (Some(event), Some(same)) => event.equals(same),
        (None, None) => true,
        _ => false,
    }
}
