// Branches of one parallel that take steps side by side. Each is a sequence in which every fourth child is a parallel of
// three branches of two steps.

use crate::random::Random;
use address::{Address, Entry};
use calculus::{Event, Kind};
use std::alloc::{AllocError, Global};
use std::io;
use system::Variables;

/// How many branches there are.
const THREADS: u32 = 5;
/// The number of steps in a branch of an inner parallel.
const STEPS: u32 = 2;
/// The first of the variables that all branches use.
const SHARED: u32 = 100;

/// How far one branch has come.
#[derive(Clone, Copy)]
struct Thread {
    /// the child of the sequence at which it is
    child: u32,
    /// where that child is a parallel, the steps that its branches have taken
    taken: [u32; 3],
}

/// How far all branches have come.
#[derive(Drop)]
pub struct Threads {
    alloc: Global,
    threads: Vec<Thread>,
}

/// Whether the child of a sequence is a parallel.
fn is_parallel(child: u32) -> bool {
    child % 4 == 3
}

impl Threads {
    /// No branch has taken a step.
    pub fn new(alloc: Global) -> Result<Threads, AllocError> {
        let mut threads = Vec::new(alloc);
        for _ in 0..THREADS {
            threads.push(Thread {
                child: 0,
                taken: [0; 3],
            })?;
        }
        Ok(Threads { alloc, threads })
    }

    /// An event that may come next.
    pub fn next_event(&self, random: &mut Random) -> io::Result<Event> {
        let one = random.below(u64::from(THREADS)) as u32;
        let other = random.below(u64::from(THREADS)) as u32;
        let first = self.next_place(one, random)?;
        let second = self.next_place(other, random)?;
        let meets = one != other && first.entries().len() == 3 && second.entries().len() == 3;
        let meets = meets && random.below(3) == 0;
        let written = match random.below(3) {
            0 => Some(any_variable(one, random)),
            _ => None,
        };
        let mut read = Variables::none(self.alloc);
        for _ in 0..random.below(3) {
            read.insert(any_variable(one, random))?;
        }
        Ok(Event {
            kind: if meets { Kind::Meet } else { Kind::Assign },
            first,
            second: if meets { Some(second) } else { None },
            arm: None,
            channel: if meets {
                Some(one * THREADS + other)
            } else {
                None
            },
            value: None,
            written,
            read,
        })
    }

    /// A place at which the branch takes its next step.
    fn next_place(&self, number: u32, random: &mut Random) -> Result<Address, AllocError> {
        let thread = self.threads[number as usize];
        let mut entries = Vec::new(self.alloc);
        entries.push(Entry::Branch(0))?;
        entries.push(Entry::Branch(number))?;
        let from = random.below(3) as usize;
        let open = (0..3)
            .map(|k| (from + k) % 3)
            .find(|k| thread.taken[*k] < STEPS);
        match open {
            Some(branch) if is_parallel(thread.child) => {
                entries.push(Entry::Ordered(thread.child))?;
                entries.push(Entry::Branch(branch as u32))?;
                entries.push(Entry::Ordered(thread.taken[branch]))?;
            }
            _ if is_parallel(thread.child) => entries.push(Entry::Ordered(thread.child + 1))?,
            _ => entries.push(Entry::Ordered(thread.child))?,
        }
        Ok(Address::from_vec(entries))
    }

    /// The event is taken.
    pub fn advance(&mut self, event: &Event) {
        self.move_at(&event.first, true);
        if let Some(second) = &event.second {
            self.move_at(second, true);
        }
    }

    /// The event, on which no other depends, is taken back.
    pub fn retreat(&mut self, event: &Event) {
        self.move_at(&event.first, false);
        if let Some(second) = &event.second {
            self.move_at(second, false);
        }
    }

    /// A step at the place is taken, or taken back.
    fn move_at(&mut self, place: &Address, is_taken: bool) {
        match place.entries() {
            [_, Entry::Branch(number), Entry::Ordered(child)] => {
                self.threads[*number as usize] = at_child(*child, is_taken);
            }
            [
                _,
                Entry::Branch(number),
                _,
                Entry::Branch(branch),
                Entry::Ordered(step),
            ] => {
                let taken = if is_taken { *step + 1 } else { *step };
                self.threads[*number as usize].taken[*branch as usize] = taken;
            }
            _ => {}
        }
    }
}

/// A branch that has taken its step at this child, or is to take it.
fn at_child(child: u32, is_taken: bool) -> Thread {
    if is_taken {
        return Thread {
            child: child + 1,
            taken: [0; 3],
        };
    }
    if child > 0 && is_parallel(child - 1) {
        return Thread {
            child: child - 1,
            taken: [STEPS; 3],
        };
    }
    Thread {
        child,
        taken: [0; 3],
    }
}

/// A variable of the branch, or one that all share.
fn any_variable(number: u32, random: &mut Random) -> u32 {
    match random.below(3) {
        0 => SHARED + random.below(2) as u32,
        _ => number,
    }
}
