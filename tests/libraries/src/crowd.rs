//! Workers and sessions, each in a thread of its own, on one desk that notes its calls.

ghost use Rattle.std.specs.Prelude.{◌≤◌, ◌^◌};

use crate::logged::{Logged, Told, chained};
use crate::random::Random;
use calculus::Event;
use locked_execution::{Command, Reply};
use locked_object::{Pass, Shared};
use object_workers::{Gate, run_workers};
use sharing_check::Checked;
use std::alloc::{AllocError, Global};
use std::sync::Wait;
use std::thread::{Threads, for_each_mut};

type Execution = Shared<Command, Told, Logged>;

type Seat = Pass<Logged, Command, Told>;

/// Nobody is told of calls.
struct Open;

impl Gate for Open {
    fn before(&self, _worker: u32, _turn: u64) {}

    fn after(&self, _worker: u32, _turn: u64) {}
}

/// How many work and play, how long, and how their play begins.
#[derive(Clone, Copy)]
pub struct Crowd {
    /// at most 16
    pub people: u32,
    /// the turns of each worker
    pub turns: u64,
    /// what each session then asks at random
    pub rounds: u64,
    pub seed: u64,
}

/// What was found.
#[derive(Clone, Copy, PartialEq, Eq)]
pub struct Found {
    /// how many turns of the workers were steps
    pub stepped: u64,
    /// how many were lost
    pub lost: u64,
    /// how many calls of the workers are noted
    pub worked: u64,
    /// how many calls are noted in all
    pub noted: u64,
    /// what each session was told, and no more, is noted under its number, in its order
    pub each_its_own: bool,
    /// all sessions find as many calls recorded as are noted
    pub lengths_agree: bool,
    /// the first noted call that a new desk answers otherwise
    pub differs: Option<usize>,
}

/// A session that asks at random.
#[derive(Drop)]
struct Player {
    pass: Seat,
    random: Random,
    /// the last ticket that it was told of
    ticket: u64,
    /// how often it was answered, and a number for the list of the replies
    answered: u64,
    number: u64,
}

impl Player {
    /// Asks, and goes on from what it is told. Nothing where that was not recorded.
    fn ask<W: Wait>(&mut self, rt: &W, shared: &Execution, command: &Command) -> Option<Reply> {
        let told = shared.call(rt, &mut self.pass, command).ok()?;
        self.answered += 1;
        self.number = chained(self.number, told.number);
        if let Reply::Stepped(ticket, _) = &told.reply {
            self.ticket = *ticket;
        }
        Some(told.reply)
    }

    /// One of the last so many tickets.
    fn some_ticket(&mut self, last: u64) -> u64 {
        self.ticket.saturating_sub(self.random.below(last))
    }

    /// Steps one of the events that are ready, at random: another session may have taken it since.
    fn step<W: Wait>(&mut self, rt: &W, alloc: Global, shared: &Execution) {
        let Some(Reply::Ready(events)) = self.ask(rt, shared, &Command::Ready) else {
            return;
        };
        let Some(event) = self.one_of(events.as_slice()) else {
            return;
        };
        if let Ok(choice) = event.choice(alloc) {
            self.ask(rt, shared, &Command::Step(choice));
        }
    }

    fn one_of<'a>(&mut self, events: &'a [Event]) -> Option<&'a Event> {
        if events.is_empty() {
            return None;
        }
        events.get(self.random.below(events.len() as u64) as usize)
    }

    /// Asks so often.
    fn play<W: Wait>(
        &mut self,
        rt: &W,
        alloc: Global,
        shared: &Execution,
        branches: u32,
        rounds: u64,
    ) {
        for _ in 0..rounds {
            match self.random.below(16) {
                0 => self.step(rt, alloc, shared),
                1 => {
                    let ticket = self.some_ticket(200);
                    self.ask(rt, shared, &Command::Roll(ticket));
                }
                2 => {
                    let ticket = self.some_ticket(50);
                    self.ask(rt, shared, &Command::Consequences(ticket));
                }
                3..=6 => {
                    let ticket = self.some_ticket(20);
                    self.ask(rt, shared, &Command::Undo(ticket));
                }
                _ => {
                    let branch = self.random.below(u64::from(branches)) as u32;
                    self.ask(rt, shared, &Command::Branch(branch));
                }
            }
        }
    }
}

/// A session for each pass, which has asked nothing yet.
fn players_of(
    alloc: Global,
    passes: Vec<Seat>,
    seed: u64,
    ticket: u64,
) -> Result<Vec<Player>, AllocError> {
    let mut players = Vec::with_capacity(alloc, passes.len())?;
    for pass in passes {
        let number = u64::from(pass.number());
        players.push_reserved(Player {
            pass,
            random: Random::new(seed * 100 + number),
            ticket,
            answered: 0,
            number: 0,
        });
    }
    Ok(players)
}

/// How many calls the sessions have made.
fn asked_by(players: &[Player]) -> u64 {
    let mut asked = 0;
    for player in players {
        asked += player.answered;
    }
    asked
}

/// Whether each session finds that so many calls are recorded.
fn have_seen(shared: &Execution, players: &mut [Player], calls: u64) -> bool {
    for player in players {
        if shared.length(&mut player.pass) != calls {
            return false;
        }
    }
    true
}

/// Whether what each session was told, and no more, is noted under its number, in its order, behind so many calls.
fn are_noted(logged: &Logged, players: &[Player], behind: u64) -> bool {
    for player in players {
        let told = (player.answered, player.number);
        if logged.told_to(player.pass.number(), behind) != told {
            return false;
        }
    }
    true
}

/// Lets workers take their turns, and then sessions ask at random, each in a thread of its own, and performs what was noted
/// once more on a new desk.
pub fn found<W: Threads + Wait + Sync>(
    rt: &W,
    alloc: Global,
    checked: Checked,
    crowd: Crowd,
) -> Result<Found, AllocError>
    requires people { crowd.people ≤ 16 }
    requires turns { crowd.turns ≤ 2 ^ 57 }
{
    let branches = checked.branches();
    let logged = Logged::new(alloc, checked)?;
    let (shared, passes) = Shared::new(alloc, logged, crowd.people)?;
    let Ok(ran) = run_workers(rt, alloc, &shared, branches, passes, &Open, crowd.turns) else {
        return Err(AllocError);
    };
    let mut players = players_of(alloc, ran.passes, crowd.seed, ran.stepped)?;
    let players = players.as_mut_slice();
    let execution = &shared;
    for_each_mut(
        rt,
        players,
        16,
        &|_, it: &mut Player| {
            it.play(rt, alloc, execution, branches, crowd.rounds);
        },
    );
    let worked = u64::from(crowd.people) * crowd.turns - ran.lost;
    let asked = worked + asked_by(players);
    let lengths_agree = have_seen(&shared, players, asked);
    let mut logged = shared.finish();
    Ok(Found {
        stepped: ran.stepped,
        lost: ran.lost,
        worked,
        noted: logged.len(),
        each_its_own: are_noted(&logged, players, worked),
        lengths_agree: lengths_agree && logged.len() == asked,
        differs: logged.differs()?,
    })
}
