"""Residuals, which are what is still to do, and the local moves that they offer. See docs/theory/runs.md.

A command that has not begun is its own residual. What is done is erased at once.
"""

from __future__ import annotations

from collections.abc import Callable, Iterator
from dataclasses import dataclass
from typing import Union

from .elaboration import Environment
from .places import Address, branch, ordered
from .syntax import (
    Assign, Case, Channel, ChannelArm, Choose, Command, Continue, If, Loop, Parallel, Receive, Send, Sequence, Sync,
    Variable, While,
)
from .values import Store, put, read_by, value_of


@dataclass(frozen=True)
class Done:
    pass


@dataclass(frozen=True)
class Held:
    """A send or sync whose partner has opened an arm and not closed it yet."""

    command: Send | Sync


@dataclass(frozen=True)
class Inside:
    """A sequence at one of its children."""

    children: tuple[Command, ...]
    child: int
    inside: Residual


@dataclass(frozen=True)
class Beside:
    """The children of a parallel, not all of them done."""

    children: tuple[Residual, ...]


@dataclass(frozen=True)
class Turning:
    """A loop before a turn or its test where nothing is inside, else in that turn."""

    loop: Loop | While
    turn: int
    inside: Residual | None = None


@dataclass(frozen=True)
class InArm:
    """The arm that a test chose."""

    inside: Residual


@dataclass(frozen=True)
class Opened:
    """An arm that a command opened on a channel; when it is done, it is to be closed."""

    command: Choose
    channel: Channel
    inside: Residual


@dataclass(frozen=True)
class Acting:
    """The environment of a port at one of its acts; held where its partner has opened an arm."""

    environment: Environment
    act: int = 0
    held: bool = False


Residual = Union[Command, Done, Held, Inside, Beside, Turning, InArm, Opened, Acting]
DONE = Done()


@dataclass(frozen=True)
class Meeting:
    """What a move is told of its event: whether an arm opens in it, and the value that goes into the arm."""

    opens: bool = False
    value: int | None = None


ALONE = Meeting()


@dataclass(slots=True, eq=False)
class Move:
    """A local move of a command, which is None for the environment. The kind is assign, turn, test, send, receive,
    sync, open, release or close. `leaves` gives the residual behind it. The value is what is assigned or sent, the arm
    what is opened or what a test takes."""

    kind: str
    command: Command | None
    place: Address
    leaves: Callable[[Meeting], Residual]
    channel: Channel | None = None
    variable: Variable | None = None
    value: int | None = None
    arm: int | None = None
    reads: frozenset[Variable] = frozenset()

    def within(self, rebuild: Callable[[Residual], Residual]) -> Move:
        """The move of a part as one of the whole, which `rebuild` makes of what is left of the part."""
        leaves = self.leaves
        return Move(
            self.kind, self.command, self.place, lambda meeting: rebuild(leaves(meeting)), self.channel, self.variable,
            self.value, self.arm, self.reads,
        )


Moves = Iterator[Move]


def within(moves: Moves, rebuild: Callable[[Residual], Residual]) -> Moves:
    """The moves of a part as moves of the whole, which `rebuild` makes of what is left of the part."""
    for move in moves:
        yield move.within(rebuild)


def start(command: Command) -> Residual:
    """The residual of a command, what has nothing to do passed over."""
    match command:
        case Continue():
            return DONE
        case Sequence(children):
            return sequence_at(children, 0, start(children[0]))
        case Parallel(children):
            return beside(tuple(start(child) for child in children))
        case Loop() | While():
            return Turning(command, 0)
    return command


def sequence_at(children: tuple[Command, ...], child: int, inside: Residual) -> Residual:
    while inside == DONE and child + 1 < len(children):
        child += 1
        inside = start(children[child])
    return DONE if inside == DONE else Inside(children, child, inside)


def beside(children: tuple[Residual, ...]) -> Residual:
    return DONE if all(child == DONE for child in children) else Beside(children)


def in_turn(loop: Loop | While, turn: int, inside: Residual) -> Residual:
    return Turning(loop, turn + 1) if inside == DONE else Turning(loop, turn, inside)


def in_arm(inside: Residual) -> Residual:
    return DONE if inside == DONE else InArm(inside)


def leaves_done(meeting: Meeting) -> Residual:
    return DONE


def moves_of(residual: Residual, place: Address, store: Store) -> Moves:
    """The local moves of a residual that stands at a place."""
    match residual:
        case Assign(use, expression):
            value, reads = value_of(expression, store), read_by(expression)
            yield Move("assign", residual, place, leaves_done, variable=use.variable, value=value, reads=reads)
        case Receive(channel, use):
            yield Move("receive", residual, place, leaves_done, channel, use.variable)
        case Send() | Sync():
            yield offer_of(residual, place, store)
        case Held(command):
            yield Move("release", command, ordered(place, 1), leaves_done, command.channel)
        case Acting():
            yield from environment_moves(residual, place)
        case If() | Case():
            yield test_of(residual, place, store)
        case Choose():
            for number, arm in enumerate(residual.arms):
                yield Move("open", residual, ordered(place, 0), opening(residual, arm), arm.channel, arm=number)
        case Inside() | Beside() | Turning() | InArm() | Opened():
            yield from inner_moves(residual, place, store)


def inner_moves(residual: Residual, place: Address, store: Store) -> Moves:
    """The moves of a residual that has begun, which are those of its parts or what stands between them."""
    match residual:
        case Inside(children, child, inside):
            moves = moves_of(inside, ordered(place, child), store)
            yield from within(moves, lambda left: sequence_at(children, child, left))
        case Beside(children):
            for number, inside in enumerate(children):
                yield from within(moves_of(inside, branch(place, number), store), replacing(children, number))
        case Turning(loop, turn, None):
            yield turn_of(loop, turn, ordered(place, 2 * turn), store)
        case Turning(loop, turn, inside):
            moves = moves_of(inside, ordered(place, 2 * turn + 1), store)
            yield from within(moves, lambda left: in_turn(loop, turn, left))
        case InArm(inside):
            yield from within(moves_of(inside, ordered(place, 1), store), in_arm)
        case Opened(command, channel, Done()):
            yield Move("close", command, ordered(place, 2), leaves_done, channel)
        case Opened(command, channel, inside):
            moves = moves_of(inside, ordered(place, 1), store)
            yield from within(moves, lambda left: Opened(command, channel, left))


def replacing(children: tuple[Residual, ...], number: int) -> Callable[[Residual], Residual]:
    return lambda left: beside(children[:number] + (left,) + children[number + 1 :])


def offer_of(command: Send | Sync, place: Address, store: Store) -> Move:
    """A send or sync, which is held where an arm opens."""
    channel = command.channel

    def leaves(meeting: Meeting) -> Residual:
        return Held(command) if meeting.opens else DONE

    if isinstance(command, Sync):
        return Move("sync", command, ordered(place, 0), leaves, channel)
    value, reads = value_of(command.expression, store), read_by(command.expression)
    return Move("send", command, ordered(place, 0), leaves, channel, value=value, reads=reads)


def environment_moves(acting: Acting, place: Address) -> Moves:
    environment, act = acting.environment, acting.act
    channel = environment.channel
    following = Acting(environment, act + 1)

    def leaves(meeting: Meeting) -> Residual:
        return Acting(environment, act, True) if meeting.opens else following

    here = ordered(place, act)
    if acting.held:
        yield Move("release", None, ordered(here, 1), lambda meeting: following, channel)
    elif channel.kind == "output":
        yield Move("receive", None, here, leaves, channel)
    elif channel.kind == "input" and act < len(environment.values):
        yield Move("send", None, ordered(here, 0), leaves, channel, value=environment.values[act])
    elif channel.kind == "sync" and act < environment.count:
        yield Move("sync", None, ordered(here, 0), leaves, channel)


def turn_of(loop: Loop | While, turn: int, place: Address, store: Store) -> Move:
    """A loop's turn, or the test of a while, whose only arm is 0."""

    def enters(meeting: Meeting) -> Residual:
        return in_turn(loop, turn, start(loop.body))

    if isinstance(loop, Loop):
        return Move("turn", loop, place, enters)
    holds, reads = value_of(loop.guard, store) != 0, read_by(loop.guard)
    return Move("test", loop, place, enters if holds else leaves_done, arm=0 if holds else None, reads=reads)


def test_of(command: If | Case, place: Address, store: Store) -> Move:
    """The first arm whose guard is 1 or whose labels have the value, else the else, which is the arm after the last."""
    if isinstance(command, If):
        reads = read_by(*(arm.guard for arm in command.arms))
        fitting = (value_of(arm.guard, store) != 0 for arm in command.arms)
    else:
        reads = read_by(command.expression)
        value = value_of(command.expression, store)
        fitting = (any(label.value == value for label in arm.labels) for arm in command.arms)
    bodies: list[Command | None] = [*(arm.body for arm in command.arms), command.otherwise]
    taken = next((number for number, fits in enumerate(fitting) if fits), len(command.arms))
    body = bodies[taken]
    if body is None:
        return Move("test", command, ordered(place, 0), leaves_done, reads=reads)
    return Move("test", command, ordered(place, 0), lambda meeting: in_arm(start(body)), arm=taken, reads=reads)


def opening(command: Choose, arm: ChannelArm) -> Callable[[Meeting], Residual]:
    """What is left where an arm opens: the arm with the value received put into it, if there is one."""

    def leaves(meeting: Meeting) -> Residual:
        body = arm.body if meeting.value is None else put(arm.body, arm.channel, meeting.value)
        return Opened(command, arm.channel, start(body))

    return leaves
