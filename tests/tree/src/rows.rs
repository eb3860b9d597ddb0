// Which forms of the language the descriptions have, and which moves were made and taken back.

use crate::numbered::found_at;
use address::{Address, Entry};
use calculus::{Event, Kind};
use process_tree::{Proc, Tree};
use std::io;
use syntax::Items;
use system::{Action, Branch, Command, Decision, System};

/// The forms of commands, and of the environment's branches.
const FORMS: [&str; 18] = [
    "continue",
    "halt",
    "assignment",
    "send",
    "receive",
    "sync",
    "loop",
    "while",
    "if",
    "case",
    "enclosed input",
    "select",
    "arbitrate",
    "sequence",
    "parallel",
    "input port",
    "output port",
    "sync port",
];

/// The moves by the form that makes them.
const MOVES: [&str; 21] = [
    "assignment",
    "arm of an if",
    "no arm of an if",
    "arm of a case",
    "no arm of a case",
    "turn of a while",
    "end of a while",
    "turn of a loop",
    "send and receive",
    "receive of an input port's value",
    "send to an output port",
    "sync",
    "sync with a port",
    "open of the one arm, with a value",
    "open of the one arm, by a sync",
    "open of the first of several arms, with a value",
    "open of the first of several arms, by a sync",
    "open of a later arm",
    "open by a port",
    "close",
    "close of what a port sent",
];

/// How often each was met.
#[derive(Drop)]
pub struct Rows {
    forms: [u64; 18],
    made: [u64; 21],
    undone: [u64; 21],
    undone_in_the_middle: [u64; 21],
}

impl Rows {
    pub fn new() -> Rows {
        Rows {
            forms: [0; 18],
            made: [0; 21],
            undone: [0; 21],
            undone_in_the_middle: [0; 21],
        }
    }

    /// Counts the forms of the system.
    pub fn count_system(&mut self, system: &System) {
        self.count_command(&system.main);
        for branch in system.environment.as_slice() {
            let form = match branch {
                Branch::Feed(_, _, _) => 15,
                Branch::Drain(_) => 16,
                Branch::Syncs(_, _) => 17,
            };
            self.forms[form] += 1;
        }
    }

    fn count_command(&mut self, command: &Command) {
        let form = match command.action.get() {
            Action::Continue => 0,
            Action::Halt => 1,
            Action::Assign(_, _, _) => 2,
            Action::Send(_, _, _) => 3,
            Action::Receive(_, _) => 4,
            Action::Sync(_) => 5,
            Action::Loop(body) => {
                self.count_command(body);
                6
            }
            Action::While(_, body) => {
                self.count_command(body);
                7
            }
            Action::If(arms, last) => {
                for arm in arms.as_slice() {
                    self.count_command(&arm.body);
                }
                self.count_last(last);
                8
            }
            Action::Case(_, arms, last) => {
                for arm in arms.as_slice() {
                    self.count_command(&arm.body);
                }
                self.count_last(last);
                9
            }
            Action::Input(_, body) => {
                self.count_command(body);
                10
            }
            Action::Select(arms) => {
                for arm in arms.as_slice() {
                    self.count_command(&arm.body);
                }
                11
            }
            Action::Arbitrate(arms) => {
                for arm in arms.as_slice() {
                    self.count_command(&arm.body);
                }
                12
            }
            Action::Sequence(children) => {
                self.count_all(children);
                13
            }
            Action::Parallel(children) => {
                self.count_all(children);
                14
            }
        };
        self.forms[form] += 1;
    }

    fn count_all(&mut self, commands: &Items<Command>) {
        for command in commands.as_slice() {
            self.count_command(command);
        }
    }

    fn count_last(&mut self, last: &Option<Command>) {
        if let Some(command) = last {
            self.count_command(command);
        }
    }

    /// Counts a move that was made.
    pub fn count_made(&mut self, row: usize) {
        self.made[row] += 1;
    }

    /// Counts a move that was taken back; whether a later one was left.
    pub fn count_undone(&mut self, row: usize, in_the_middle: bool) {
        self.undone[row] += 1;
        self.undone_in_the_middle[row] += u64::from(in_the_middle);
    }

    /// Prints all, and says whether none is missing.
    pub fn print(&self, rt: &HostRuntime) -> io::Result<bool> {
        let mut whole = true;
        println!(rt; "{:>9}  form", "commands")?;
        for (form, count) in FORMS.iter().zip(&self.forms) {
            println!(rt; "{count:>9}  {form}")?;
            whole = whole && *count > 0;
        }
        println!(rt; "{:>9}{:>9}{:>9}  move", "made", "undone", "not last")?;
        for row in 0..MOVES.len() {
            let made = self.made[row];
            let undone = self.undone[row];
            let middle = self.undone_in_the_middle[row];
            let name = MOVES[row];
            println!(rt; "{made:>9}{undone:>9}{middle:>9}  {name}")?;
            whole = whole && made > 0 && undone > 0;
        }
        Ok(whole)
    }
}

/// The row of an event that was just made on the tree.
pub fn row_of(tree: &Tree, event: &Event) -> usize {
    let acting = event.acting_place().entries();
    match event.kind {
        Kind::Assign => 0,
        Kind::Test => row_of_test(found_at(tree.root(), acting), event.arm),
        Kind::Turn => 7,
        Kind::Meet => match (is_port(&event.first), is_at_port(&event.second)) {
            (false, false) => 8,
            (true, _) => 9,
            (false, true) => 10,
        },
        Kind::Sync => 11 + usize::from(is_port(&event.first) || is_at_port(&event.second)),
        Kind::Open => row_of_open(found_at(tree.root(), acting), event),
        Kind::Close => 19 + usize::from(is_port(&event.first)),
    }
}

fn row_of_test(at: Option<&Proc>, arm: Option<u32>) -> usize {
    let none = usize::from(arm.is_none());
    match at {
        Some(Proc::Test(decide, _)) => match &decide.get().decision {
            Decision::Guards(_, _) => 1 + none,
            Decision::Labels(_, _, _) => 3 + none,
        },
        _ => 5 + none,
    }
}

fn row_of_open(at: Option<&Proc>, event: &Event) -> usize {
    if is_port(&event.first) {
        return 18;
    }
    let by_sync = usize::from(event.value.is_none());
    match at {
        Some(Proc::Arms(waiting, _)) if waiting.get().channels.len() > 1 => {
            if event.arm_to_open() > 0 {
                17
            } else {
                15 + by_sync
            }
        }
        _ => 13 + by_sync,
    }
}

fn is_at_port(place: &Option<Address>) -> bool {
    match place {
        Some(place) => is_port(place),
        None => false,
    }
}

/// Whether it is a place of the environment.
fn is_port(place: &Address) -> bool {
    match place.entries().first() {
        Some(Entry::Branch(number)) => *number > 0,
        _ => false,
    }
}
