"""States, and the events that are possible in them."""

from __future__ import annotations

from collections.abc import Iterator
from dataclasses import dataclass

from .elaboration import System
from .places import Address, branch, is_before, text_of
from .residuals import ALONE, Acting, Meeting, Move, Residual, moves_of, start
from .syntax import Choose, Command, Variable
from .values import Store


@dataclass(frozen=True)
class State:
    """What is left of the body and of each port's environment, and the values of the variables."""

    trees: tuple[Residual, ...]
    store: Store


@dataclass(frozen=True)
class Event:
    """One step: a move alone, or two that meet. The acting address and the arm are its choice."""

    text: str
    moves: tuple[Move, ...]
    acting: Address
    arm: int = 0
    meeting: Meeting = ALONE
    writes: Variable | None = None
    value: int | None = None

    @property
    def places(self) -> list[Address]:
        return [move.place for move in self.moves]

    @property
    def command(self) -> Command | None:
        """The command that acts; None where that is the environment."""
        [command] = [move.command for move in self.moves if move.place == self.acting]
        return command

    @property
    def line(self) -> int | None:
        """The line of the acting place. An arm's command is the one that was taken, since no other is left."""
        return None if self.command is None else self.command.line

    @property
    def opens_select(self) -> bool:
        return self.moves[-1].kind == "open" and isinstance(self.command, Choose) and self.command.word == "select"

    @property
    def channel(self) -> object:
        return self.moves[0].channel

    @property
    def reads(self) -> frozenset[Variable]:
        return self.moves[0].reads


def opening_state(system: System) -> State:
    environment = tuple(Acting(one) for one in system.environment)
    return State((start(system.body), *environment), [0] * len(system.variables))


def alone(move: Move) -> Event:
    place = text_of(move.place)
    if move.kind == "assign":
        text = f"assign {move.variable.name} {move.value} {place}"
        return Event(text, (move,), move.place, writes=move.variable, value=move.value)
    if move.kind == "turn":
        return Event(f"turn {place}", (move,), move.place)
    return Event(f"test {'none' if move.arm is None else move.arm} {place}", (move,), move.place)


def meeting(first: Move, second: Move) -> Event | None:
    """The event in which two moves on one channel meet, the offering one first; None where they do not meet so."""
    name, places = first.channel.name, f"{text_of(first.place)} {text_of(second.place)}"
    both, acting = (first, second), second.place
    match first.kind, second.kind:
        case "send", "receive":
            text = f"meet {name} {first.value} {places}"
            return Event(text, both, acting, writes=second.variable, value=first.value)
        case ("send" | "sync"), "open":
            value = "-" if first.value is None else first.value
            text = f"open {name} {value} {second.arm} {places}"
            return Event(text, both, acting, second.arm, Meeting(True, first.value))
        case "sync", "sync" if first.place < second.place:
            return Event(f"sync {name} {places}", both, first.place)
        case "release", "close":
            return Event(f"close {name} {places}", both, acting)
    return None


def possible_events(state: State) -> list[Event]:
    """In the order of acting addresses and arms."""
    moves = [
        move
        for number, tree in enumerate(state.trees)
        for move in moves_of(tree, branch((), number), state.store)
    ]
    return sorted(events_of(moves), key=lambda event: (event.acting, event.arm))


def events_of(moves: list[Move]) -> Iterator[Event]:
    for move in moves:
        if move.channel is None:
            yield alone(move)
        for other in moves:
            if move.channel is not None and other is not move and other.channel == move.channel:
                event = meeting(move, other)
                if event is not None:
                    yield event


def moved(tree: Residual, number: int, move: Move, event: Event, store: Store) -> Residual:
    """What the move leaves of a tree which the other move of the event has changed, so the move is looked up in it
    again."""
    found = [
        other
        for other in moves_of(tree, branch((), number), store)
        if (other.kind, other.place, other.arm) == (move.kind, move.place, move.arm)
    ]
    assert len(found) == 1
    return found[0].leaves(event.meeting)


def after(state: State, event: Event) -> State:
    """The state behind an event, which is one of its `possible_events`."""
    trees, store = list(state.trees), list(state.store)
    for move in event.moves:
        number = move.place[0].number
        tree = trees[number]
        if tree is state.trees[number]:
            trees[number] = move.leaves(event.meeting)
        else:
            trees[number] = moved(tree, number, move, event, state.store)
    if event.writes is not None:
        store[event.writes.number] = event.value
    return State(tuple(trees), store)


def depends_directly(earlier: Event, later: Event) -> bool:
    """Whether a later event of a run needs an earlier one directly."""
    if any(is_before(one, other) for one in earlier.places for other in later.places):
        return True
    if earlier.channel is not None and earlier.channel == later.channel:
        return True
    return clobbers(earlier, later) or clobbers(later, earlier)


def clobbers(writer: Event, other: Event) -> bool:
    """Whether one event writes a variable that the other reads or writes."""
    return writer.writes is not None and (writer.writes in other.reads or writer.writes == other.writes)
