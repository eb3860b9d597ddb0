// A `Live` and the plain list of its events.

use crate::random::Random;
use crate::scan::{acting_at_first_child, canonical, dependents, direct, followers, last_writer};
use crate::threads::Threads;
use address::Entry;
use calculus::Event;
use trace_file::canonical_order;
use dependence::Live;
use std::alloc::Global;
use std::io;
use std::io::ErrorKind;
use syntax::Boxed;

/// A `Live`, the plain list of its events, and what may come next.
#[derive(Drop)]
pub struct Session {
    alloc: Global,
    seed: u64,
    random: Random,
    threads: Threads,
    live: Live,
    plain: Vec<(u64, Event)>,
    last: u64,
}

impl Session {
    /// No event is live.
    pub fn new(alloc: Global, seed: u64) -> io::Result<Session> {
        Ok(Session {
            alloc,
            seed,
            random: Random::new(seed),
            threads: Threads::new(alloc)?,
            live: Live::new(alloc),
            plain: Vec::new(alloc),
            last: 0,
        })
    }

    /// Adds an event, takes one on which no other depends, or takes one with all that depend on it.
    pub fn change(&mut self) -> io::Result<()> {
        match self.random.below(12) {
            0 if !self.plain.is_empty() => self.roll_one(),
            1..=3 if !self.plain.is_empty() => self.take_one(),
            _ => self.add_one(),
        }
    }

    fn add_one(&mut self) -> io::Result<()> {
        let event = self.threads.next_event(&mut self.random)?;
        let copy = event.copy(self.alloc)?;
        self.threads.advance(&event);
        self.last += 1 + self.random.below(2);
        self.plain.push((self.last, copy))?;
        let event = Boxed::new(self.alloc, event)?;
        match self.live.add(self.last, event) {
            Ok(()) => Ok(()),
            Err(_) => Err(io::Error::from(ErrorKind::OutOfMemory)),
        }
    }

    /// Takes an event at a random place, the last where another depends on that.
    fn take_one(&mut self) -> io::Result<()> {
        let chosen = self.random.below(self.plain.len() as u64) as usize;
        let place = match direct(self.alloc, self.plain.as_slice(), chosen)?.is_empty() {
            true => chosen,
            false => self.plain.len() - 1,
        };
        let (ticket, event) = self.plain.remove(place);
        self.threads.retreat(&event);
        let taken = self.live.take(ticket);
        self.expect(taken.equals(&event), "take", ticket)
    }

    /// Takes an event at a random place, of a long list one of the last, and all that depend on it.
    fn roll_one(&mut self) -> io::Result<()> {
        let back = self.random.below(self.plain.len().min(40) as u64) as usize;
        let chosen = self.plain.len() - 1 - back;
        let ticket = self.plain[chosen].0;
        let found = dependents(self.alloc, self.plain.as_slice(), chosen)?;
        self.live.mark_consequences(ticket);
        for place in (0..found.len()).rev() {
            if found[place] {
                self.take_last_marked(place)?;
            }
        }
        let is_left = self.listed()?.as_slice() == self.tickets()?.as_slice();
        self.expect(is_left, "take", ticket)?;
        self.expect(self.live.last_marked().is_none(), "last_marked", ticket)
    }

    /// Takes the marked event of the greatest ticket, which has to be the one at this place.
    fn take_last_marked(&mut self, place: usize) -> io::Result<()> {
        let (ticket, event) = self.plain.remove(place);
        self.threads.retreat(&event);
        let is_last = self.live.last_marked() == Some(ticket);
        self.expect(is_last, "last_marked", ticket)?;
        let taken = self.live.take(ticket);
        self.expect(taken.equals(&event), "take", ticket)
    }

    fn tickets(&self) -> io::Result<Vec<u64>> {
        let mut tickets = Vec::new(self.alloc);
        for entry in &self.plain {
            tickets.push(entry.0)?;
        }
        Ok(tickets)
    }

    /// The tickets of the live events, as `iter` gives them.
    fn listed(&self) -> io::Result<Vec<u64>> {
        let mut tickets = Vec::new(self.alloc);
        for (ticket, _) in self.live.iter() {
            tickets.push(ticket)?;
        }
        Ok(tickets)
    }

    /// Compares all answers.
    pub fn look_at_all(&mut self) -> io::Result<()> {
        let is_listed = self.listed()?.as_slice() == self.tickets()?.as_slice();
        self.expect(is_listed, "iter", self.last)?;
        for place in 0..self.plain.len() {
            self.look_at(place)?;
        }
        let past = self.live.pair_at(self.plain.len() as u64).is_none();
        self.expect(past, "pair_at", self.last)
    }

    /// Compares the canonical order of all events.
    pub fn look_at_order(&self) -> io::Result<()> {
        let order = canonical_order(self.alloc, &self.live)?;
        let scanned = canonical(self.alloc, self.plain.as_slice())?;
        let is_order = order.as_slice() == scanned.as_slice();
        self.expect(is_order, "canonical_order", self.last)
    }

    /// Compares the answers on so many of the last events.
    pub fn look_at_some(&mut self, count: u64, last: usize) -> io::Result<()> {
        for _ in 0..count {
            if self.plain.is_empty() {
                return Ok(());
            }
            let back = self.random.below(self.plain.len().min(last) as u64) as usize;
            self.look_at(self.plain.len() - 1 - back)?;
        }
        Ok(())
    }

    /// Compares the answers on one event.
    fn look_at(&mut self, place: usize) -> io::Result<()> {
        let plain = self.plain.as_slice();
        let ticket = plain[place].0;
        let found = dependents(self.alloc, plain, place)?;
        let directly = direct(self.alloc, plain, place)?;
        let next = followers(self.alloc, plain, place, found.as_slice())?;
        let least = (place + 1..plain.len())
            .find(|k| found[*k])
            .map(|k| plain[k].0);
        let last = (0..plain.len())
            .filter(|k| found[*k])
            .last()
            .map(|k| plain[k].0);
        let many = found.iter().filter(|is_one| **is_one).count() as u64;
        let is_pair = match self.live.pair_at(place as u64) {
            Some((held, event)) => held == ticket && event.equals(&plain[place].1),
            None => false,
        };
        self.expect(is_pair, "pair_at", ticket)?;
        let is_next = self.live.followers(ticket) == next.as_slice();
        self.expect(is_next, "followers", ticket)?;
        self.expect(self.is_led(ticket)?, "leads", ticket)?;
        let is_least = self.live.first_dependent(ticket) == least;
        self.expect(is_least, "first_dependent", ticket)?;
        let is_count = self.live.count(ticket) == directly.len() as u64;
        self.expect(is_count, "count", ticket)?;
        let is_writer = match plain[place].1.written {
            Some(variable) => self.live.last_writer(variable) == last_writer(plain, variable),
            None => true,
        };
        self.expect(is_writer, "last_writer", ticket)?;
        let acting = plain[place].1.acting_place().entries();
        let is_acting = (0..=acting.len()).all(|end| self.acts_alike(&acting[..end]));
        self.expect(is_acting, "acting_at_first_child", ticket)?;
        let is_many = self.live.mark_consequences(ticket) == many;
        self.expect(is_many, "mark_consequences", ticket)?;
        let is_last = self.live.last_marked() == last;
        self.expect(is_last, "last_marked", ticket)
    }

    /// Whether the event that acts at the first child of the place is the one that the scan finds.
    fn acts_alike(&self, place: &[Entry]) -> bool {
        let scanned = acting_at_first_child(self.plain.as_slice(), place);
        match (self.live.acting_at_first_child(place), scanned) {
            (Some(event), Some(other)) => event.equals(other),
            (None, None) => true,
            _ => false,
        }
    }

    /// Whether the event follows those of which it is a follower, and no others.
    fn is_led(&self, ticket: u64) -> io::Result<bool> {
        let mut leads = Vec::new(self.alloc);
        for (lead, _) in self.plain.iter().rev() {
            if self.live.followers(*lead).contains(&ticket) {
                leads.push(*lead)?;
            }
        }
        Ok(self.live.leads(ticket) == leads.as_slice())
    }

    /// Names the answer, where it differs.
    fn expect(&self, agrees: bool, answer: &str, ticket: u64) -> io::Result<()> {
        if agrees {
            return Ok(());
        }
        let seed = self.seed;
        let last = self.last;
        let text = format!(in self.alloc;
            "list {seed}, ticket {ticket} of {last}: {answer} differs"
        )?;
        Err(io::Error::other(text.as_str()))
    }
}
