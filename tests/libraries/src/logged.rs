//! A desk that notes each call, and whether another desk answers the noted calls so, one by one.

ghost use Rattle.std.specs.Prelude.{◌<◌};

use calculus::{Choice, Refusal};
use debug_session::write_answer;
use locked_execution::{Command, Desk, Machine, Reply};
use locked_object::Object;
use object_workers::Branches;
use sharing_check::Checked;
use std::alloc::{AllocError, Global};

/// What was asked, but for the place of a step.
#[derive(Clone, Copy, PartialEq, Eq)]
enum Asked {
    /// the choice at this place of the list of choices
    Step(usize),
    Undo(u64),
    Roll(u64),
    Consequences(u64),
    Live,
    Ready,
    Branch(u32),
    /// a command that is not noted
    Other,
}

/// A call: who asked, what, and a number for the reply.
#[derive(Clone, Copy)]
struct Call {
    pass: u32,
    asked: Asked,
    told: u64,
}

/// A desk, its system, and the calls that it has answered, the first one first.
#[derive(Drop)]
pub struct Logged {
    alloc: Global,
    checked: Checked,
    desk: Desk,
    calls: Vec<Call>,
    choices: Vec<Choice>,
    /// a reply could not be noted for want of memory
    misses: bool,
}

/// A number for the bytes with which the reply is written, which other bytes have hardly ever; `None` without memory.
fn digest(alloc: Global, checked: &Checked, command: &Command, reply: &Reply) -> Option<u64> {
    let bytes = write_answer(alloc, checked, command, reply).ok()?;
    let mut number = 14_695_981_039_346_656_037u64;
    for byte in bytes.as_slice() {
        number = (number ^ u64::from(*byte)).wrapping_mul(1_099_511_628_211);
    }
    Some(number)
}

/// A number for a list of replies, from that of the list without its last one.
pub fn chained(before: u64, told: u64) -> u64 {
    before.rotate_left(1).wrapping_mul(31).wrapping_add(told)
}

impl Logged {
    pub fn new(alloc: Global, checked: Checked) -> Result<Logged, AllocError> {
        let machine = Machine::new(alloc, checked.clone()?)?;
        Ok(Logged {
            alloc,
            checked,
            desk: Desk::new(machine),
            calls: Vec::new(alloc),
            choices: Vec::new(alloc),
            misses: false,
        })
    }

    /// How many calls are noted.
    pub fn len(&self) -> u64 {
        self.calls.len() as u64
    }

    /// The number of the pass that made the call which is noted at this place.
    pub fn caller(&self, place: usize) -> Option<u32> {
        Some(self.calls.as_slice().get(place)?.pass)
    }

    /// How many calls of the pass are noted from this place on, and a number for the list of their replies.
    pub fn told_to(&self, pass: u32, from: u64) -> (u64, u64) {
        let mut count = 0;
        let mut number = 0;
        for call in self.calls.as_slice().iter().skip(from as usize) {
            if call.pass == pass {
                count += 1;
                number = chained(number, call.told);
            }
        }
        (count, number)
    }

    /// The command as it is noted, with its choice, if it has one, at the end of the list of choices.
    fn note(&mut self, command: &Command) -> Result<Asked, AllocError> {
        self.calls.reserve(1)?;
        Ok(match command {
            Command::Step(choice) => {
                self.choices.push(copy_of(self.alloc, choice)?)?;
                Asked::Step(self.choices.len() - 1)
            }
            Command::Undo(ticket) => Asked::Undo(*ticket),
            Command::Roll(ticket) => Asked::Roll(*ticket),
            Command::Consequences(ticket) => Asked::Consequences(*ticket),
            Command::Live => Asked::Live,
            Command::Ready => Asked::Ready,
            Command::Branch(branch) => Asked::Branch(*branch),
            _ => Asked::Other,
        })
    }

    /// The command that was noted.
    fn command(&self, asked: Asked) -> Result<Option<Command>, AllocError> {
        Ok(match asked {
            Asked::Step(place) => match self.choices.as_slice().get(place) {
                Some(choice) => Some(Command::Step(copy_of(self.alloc, choice)?)),
                None => None,
            },
            Asked::Undo(ticket) => Some(Command::Undo(ticket)),
            Asked::Roll(ticket) => Some(Command::Roll(ticket)),
            Asked::Consequences(ticket) => Some(Command::Consequences(ticket)),
            Asked::Live => Some(Command::Live),
            Asked::Ready => Some(Command::Ready),
            Asked::Branch(branch) => Some(Command::Branch(branch)),
            Asked::Other => None,
        })
    }

    /// Asks a new desk all that was noted, one call after another. The place of the first call that it answers otherwise, if
    /// there is one, and else whether both desks then have the same live events.
    pub fn differs(&mut self) -> Result<Option<usize>, AllocError> {
        if self.misses {
            return Err(AllocError);
        }
        let machine = Machine::new(self.alloc, self.checked.clone()?)?;
        let mut desk = Desk::new(machine);
        for (place, call) in self.calls.as_slice().iter().enumerate() {
            let Some(command) = self.command(call.asked)? else {
                return Ok(Some(place));
            };
            let reply = desk.perform(call.pass, &command);
            if let Reply::Refused(Refusal::Memory) = &reply {
                return Err(AllocError);
            }
            if digest(self.alloc, &self.checked, &command, &reply).ok_or(AllocError)? != call.told {
                return Ok(Some(place));
            }
        }
        let new = live_of(self.alloc, &self.checked, &mut desk)?;
        let same = new == live_of(self.alloc, &self.checked, &mut self.desk)?;
        Ok(if same { None } else { Some(self.calls.len()) })
    }
}

/// A number for the live events of the desk.
fn live_of(alloc: Global, checked: &Checked, desk: &mut Desk) -> Result<u64, AllocError> {
    let reply = desk.perform(0, &Command::Live);
    if let Reply::Refused(Refusal::Memory) = &reply {
        return Err(AllocError);
    }
    digest(alloc, checked, &Command::Live, &reply).ok_or(AllocError)
}

fn copy_of(alloc: Global, choice: &Choice) -> Result<Choice, AllocError> {
    Ok(Choice {
        place: choice.place.copy(alloc)?,
        arm: choice.arm,
    })
}

/// What a pass is told, and a number for that.
#[derive(Drop)]
pub struct Told {
    pub reply: Reply,
    pub number: u64,
}

impl Object<Command, Told> for Logged {
    ghost performs = { λ _ _ _ _ _. Unit {0} };

    ghost refuses = { λ _ _ _ _. Unit {0} };

    fn perform(&mut self, pass: u32, command: &Command) -> Result<Told, Told> {
        let wanting = Told {
            reply: Reply::Refused(Refusal::Memory),
            number: 0,
        };
        let Ok(asked) = self.note(command) else {
            return Err(wanting);
        };
        let reply = self.desk.perform(pass, command);
        if let Reply::Refused(Refusal::Memory) = &reply {
            return Err(wanting);
        }
        let number = match digest(self.alloc, &self.checked, command, &reply) {
            Some(number) => number,
            None => {
                self.misses = true;
                0
            }
        };
        self.calls.push_reserved(Call {
            pass,
            asked,
            told: number,
        });
        Ok(Told { reply, number })
    }
}

impl Branches<Command, Told> for Logged {
    ghost asks = { λ k. Command.Branch k };

    ghost steps = { λ _. true };

    fn ask(branch: u32) -> Command {
        Command::Branch(branch)
    }

    fn is_step(told: &Told) -> bool {
        matches!(&told.reply, Reply::Stepped(_, _))
    }
}
