// Deep and wide descriptions: made and taken back as a whole, on the stack that there is.

use crate::numbered::numbers_of;
use crate::states::{allowed, are_equal};
use allowed_events::ready_events;
use calculus::{Event, Kind, replay};
use event_inverse::{Record, apply, invert};
use local_actions::{LocalAction, ActionKind, actions_of};
use process_tree::Tree;
use sharing_check::Checked;
use std::alloc::{AllocError, Global};
use std::io;
use store::Store;

/// How many steps a deep description takes at most.
const STEPS: usize = 150;

/// A tree with its store, and what takes its events back.
#[derive(Drop)]
struct Run {
    alloc: Global,
    checked: Checked,
    tree: Tree,
    store: Store,
    events: Vec<Event>,
    records: Vec<Record>,
}

impl Run {
    fn new(alloc: Global, checked: Checked) -> Result<Run, AllocError> {
        let tree = Tree::new(alloc, checked.system())?;
        let store = Store::new(alloc, checked.system())?;
        Ok(Run {
            alloc,
            checked,
            tree,
            store,
            events: Vec::new(alloc),
            records: Vec::new(alloc),
        })
    }

    fn make(&mut self, event: Event) -> Result<(), AllocError> {
        let made = event.copy(self.alloc)?;
        let record = apply(self.alloc, &mut self.tree, &mut self.store, made)?;
        self.records.push(record)?;
        self.events.push(event)?;
        Ok(())
    }

    /// Makes the first event that is ready. Whether there is one.
    fn step(&mut self) -> Result<bool, AllocError> {
        let ready = ready_events(self.alloc, &self.tree, &self.store)?;
        match ready.get(0) {
            Some(event) => {
                let event = event.copy(self.alloc)?;
                self.make(event)?;
                Ok(true)
            }
            None => Ok(false),
        }
    }

    /// Compares the ready events with those of the slow replay.
    fn look(&self) -> io::Result<()> {
        let ready = ready_events(self.alloc, &self.tree, &self.store)?;
        match replay(self.alloc, &self.checked, self.events.as_slice())? {
            Some(state) => {
                let expected = allowed(self.alloc, &state)?;
                expect(
                    are_equal(ready.as_slice(), expected.as_slice()),
                    "ready_events",
                )
            }
            None => expect(false, "whether the list runs"),
        }
    }

    /// Takes all events back, and compares the tree with the one before the first of them.
    fn undo_all(&mut self, last_first: bool) -> io::Result<()> {
        while !self.records.is_empty() {
            let place = if last_first {
                self.records.len() - 1
            } else {
                0
            };
            let event = self.events.swap_remove(place);
            let undone = invert(
                &mut self.tree,
                &mut self.store,
                self.records.swap_remove(place),
            );
            expect(undone.equals(&event), "what invert gives back")?;
        }
        let first = Tree::new(self.alloc, self.checked.system())?;
        let there = numbers_of(self.alloc, first.root())?;
        let here = numbers_of(self.alloc, self.tree.root())?;
        expect(here.as_slice() == there.as_slice(), "the tree")
    }
}

fn expect(agrees: bool, what: &'static str) -> io::Result<()> {
    if agrees {
        Ok(())
    } else {
        Err(io::Error::other(what))
    }
}

/// Steps down a description as far as it goes, or for a while, and back.
pub fn deep(alloc: Global, checked: Checked) -> io::Result<()> {
    let mut run = Run::new(alloc, checked)?;
    while run.events.len() < STEPS && run.step()? {}
    run.look()?;
    run.undo_all(true)?;
    run.look()
}

/// Makes all steps of a sequence, and takes them back.
pub fn long(alloc: Global, checked: Checked) -> io::Result<()> {
    let mut run = Run::new(alloc, checked)?;
    while run.step()? {}
    run.undo_all(true)
}

/// Makes the assignments in the branches of a parallel, and takes them back in another order.
pub fn wide(alloc: Global, checked: Checked) -> io::Result<()> {
    let mut run = Run::new(alloc, checked)?;
    let sides = actions_of(alloc, &run.tree, &run.store)?;
    for side in sides.as_slice() {
        if let Some(event) = assigned(alloc, side)? {
            run.make(event)?;
        }
    }
    let left = actions_of(alloc, &run.tree, &run.store)?;
    expect(left.is_empty(), "sides_of")?;
    run.undo_all(false)?;
    let again = actions_of(alloc, &run.tree, &run.store)?;
    expect(again.len() == sides.len(), "sides_of")
}

/// The assignment that the side makes.
fn assigned(alloc: Global, side: &LocalAction) -> Result<Option<Event>, AllocError> {
    match &side.action {
        ActionKind::Assigns(variable, value, read) => Ok(Some(Event {
            kind: Kind::Assign,
            first: side.place.copy(alloc)?,
            second: None,
            arm: None,
            channel: None,
            value: Some(*value),
            written: Some(*variable),
            read: read.copy(alloc)?,
        })),
        _ => Ok(None),
    }
}
