"""For whom what waits at the end of a run waits, and rings of such, by the second implementation. See docs/guide/waiting.md.

The other end of a channel stands nowhere, or behind one place, or it is there or may come from several branches. A place is deadlocked
where each of its actions, which nobody outside helps, waits for an end that never comes or stands behind a deadlocked place.
"""

from __future__ import annotations

from reference.machine import Machine
from reference.places import Address, Entry
from reference.residuals import (
    Acting, Beside, Done, Held, InArm, Inside, Move, Opened, Residual, Turning, start,
)
from reference.syntax import Assign, Case, Choose, Halt, If, Loop, Receive, Send, Sync, While

# what each action seeks on its channel: ends of these kinds
SOUGHT = {"send": ("receive", "open"), "receive": ("send",), "sync": ("sync", "open"), "open": ("send", "sync"), "release": ("close",)}
# and the uses of the channel that could be that
PARTNERS = {"send": ("receives", "opens"), "receive": ("sends",), "sync": ("syncs", "opens"), "open": ("sends", "syncs"),
            "release": ("opens",)}
OVER, NOWHERE, NEVER, HERE = "over", "nowhere", "never", "here"
Standing = str | Address
Own = Address | None


def is_found(standing: Standing) -> bool:
    return standing == HERE or isinstance(standing, tuple)


def below(own: Own, entry: Entry) -> Own:
    """The way on to the action that waits, where it goes through the entry."""
    return own[1:] if own and own[0] == entry else None


def after(entry: Entry, own: Own, first: Standing, rest: Standing) -> Standing:
    """Of a child at the entry, and of what comes behind it. Behind the action that waits there is no partner of it."""
    if first == OVER:
        return rest
    if first == NOWHERE:
        if below(own, entry) is not None:
            return NOWHERE
        return (entry,) if is_found(rest) else NEVER if rest == NEVER else NOWHERE
    return (entry, *first) if isinstance(first, tuple) else first


def together(standings: list[Standing]) -> Standing:
    """Of branches side by side."""
    found = [one for one in standings if is_found(one)]
    if found:
        return found[0] if len(found) == 1 else HERE
    rest = [one for one in standings if one != OVER]
    # what never ends beside what ends: a command behind both never comes
    return NEVER if NEVER in rest else rest[0] if rest else OVER


class Seeker:
    """Where the only end of these kinds on a channel stands in what is still to do."""

    def __init__(self, kinds: tuple[str, ...], channel: object) -> None:
        self.kinds, self.channel = kinds, channel

    def there(self, own: Own, kind: str, channel: object) -> Standing:
        return HERE if own is None and kind in self.kinds and channel == self.channel else NOWHERE

    def behind(self, found: bool) -> Standing:
        return () if found else NOWHERE

    def of(self, left: Residual, own: Own) -> Standing:
        match left:
            case Done():
                return OVER
            case Halt():
                return NEVER
            case Assign() | Held():
                return NOWHERE
            case Send(channel, _):
                return self.there(own, "send", channel)
            case Receive(channel, _):
                return self.there(own, "receive", channel)
            case Sync(channel):
                return self.there(own, "sync", channel)
            case If() | Case():
                bodies = [arm.body for arm in left.arms] + ([] if left.otherwise is None else [left.otherwise])
                return self.behind(any(is_found(self.of(start(body), None)) for body in bodies))
            case Choose():
                later = any(is_found(self.of(start(arm.body), None)) for arm in left.arms)
                if own is not None:
                    return NOWHERE
                return HERE if any(self.there(own, "open", arm.channel) == HERE for arm in left.arms) else self.behind(later)
            case Acting():
                return self.of_port(left, own)
        return self.of_parts(left, own)

    def of_parts(self, left: Residual, own: Own) -> Standing:
        match left:
            case Inside(children, child, inside):
                entry, rest = Entry(False, child), OVER
                for number in range(len(children) - 1, child, -1):
                    rest = after(Entry(False, number), None, self.of(start(children[number]), None), rest)
                return after(entry, own, self.of(inside, below(own, entry)), rest)
            case Beside(children):
                return together([self.in_branch(number, child, own) for number, child in enumerate(children)])
            case Turning(loop, turn, None):
                return self.in_turns(loop)
            case Turning(loop, turn, inside):
                entry = Entry(False, 2 * turn + 1)
                return after(entry, own, self.of(inside, below(own, entry)), self.in_turns(loop))
            case InArm(inside):
                entry = Entry(False, 1)
                return after(entry, own, self.of(inside, below(own, entry)), OVER)
            case Opened(_, channel, inside):
                entry, close = Entry(False, 1), Entry(False, 2)
                closing = after(close, own, self.there(below(own, close), "close", channel), OVER)
                return after(entry, own, self.of(inside, below(own, entry)), closing)
            case Loop() | While():
                return self.in_turns(left)
        return self.of(start(left), own)

    def in_branch(self, number: int, child: Residual, own: Own) -> Standing:
        entry = Entry(True, number)
        found = self.of(child, below(own, entry))
        return (entry, *found) if isinstance(found, tuple) else found

    def in_turns(self, loop: Loop | While) -> Standing:
        """A loop without a test never ends."""
        if is_found(self.of(start(loop.body), None)):
            return ()
        return NEVER if isinstance(loop, Loop) else NOWHERE

    def of_port(self, acting: Acting, own: Own) -> Standing:
        port, entry = acting.environment, Entry(False, acting.act)
        if port.channel.kind == "output":
            return self.there(own, "receive", port.channel)
        kind, count = ("send", len(port.values)) if port.channel.kind == "input" else ("sync", port.count)
        if acting.act >= count:
            return OVER
        rest = self.there(None, kind, port.channel) if acting.act + 1 < count else OVER
        first = NOWHERE if acting.held else self.there(below(own, entry), kind, port.channel)
        return after(entry, own, first, rest)


def partner(machine: Machine, move: Move) -> Standing:
    """Where the end stands for which the action waits: `here` also of what waits for none."""
    if move.kind not in SOUGHT:
        return HERE
    found = Seeker(SOUGHT[move.kind], move.channel).of(Beside(machine.state.trees), move.place)
    return found if is_found(found) else NOWHERE


def is_under(place: Address, other: Address) -> bool:
    """Whether the other place is this one or below it."""
    return other[:len(place)] == place


def is_outlet(move: Move) -> bool:
    """Whether it is the environment's at an output port."""
    return move.kind == "receive" and move.variable is None


def is_in_body(move: Move) -> bool:
    return move.place[0].number == 0


def is_starved(machine: Machine, move: Move, standing: Standing) -> bool:
    """Whether it stands in the body and waits for what the environment had some of, and has no more."""
    fed = {one.channel for one in machine.system.environment if one.channel.kind != "output"}
    return standing == NOWHERE and is_in_body(move) and move.kind in ("receive", "open", "sync") and move.channel in fed


def is_helped(machine: Machine, move: Move, standing: Standing) -> bool:
    """Whether somebody outside helps: who takes at an output, or who gives more where the environment has no more."""
    return is_outlet(move) or is_starved(machine, move, standing)


def deadlocked(machine: Machine, waiting: dict[Address, list[tuple[Move, Standing]]]) -> set[Address]:
    """The places of which none goes on before another one does."""
    left = set(waiting)

    def is_held_back(place: Address) -> bool:
        return all(
            not is_helped(machine, move, standing)
            and (standing == NOWHERE or standing != HERE and any(is_under(standing, other) for other in left))
            for move, standing in waiting[place]
        )

    while gone := {place for place in left if not is_held_back(place)}:
        left -= gone
    return left


def lacks_input(machine: Machine, waiting: dict[Address, list[tuple[Move, Standing]]]) -> bool:
    """Whether a run that is stuck lacks nothing but input."""
    stuck, moves = deadlocked(machine, waiting), [one for found in waiting.values() for one in found]
    if any(move.place in stuck and (is_in_body(move) or move.kind == "release") for move, _ in moves):
        return False
    if any(standing == HERE and not is_outlet(move) for move, standing in moves):
        return False
    return any(is_starved(machine, move, standing) for move, standing in moves)


def links(machine: Machine, waiting: dict[Address, list[tuple[Move, Standing]]]) -> dict[Address, set[Address]]:
    """For which deadlocked places each deadlocked place waits."""
    stuck = deadlocked(machine, waiting)
    return {
        place: {other for _, standing in waiting[place] if isinstance(standing, tuple) for other in stuck if is_under(standing, other)}
        for place in stuck
    }


def has_ring(found: dict[Address, set[Address]]) -> bool:
    left = dict(found)
    while ends := [place for place, others in left.items() if not others & set(left)]:
        for place in ends:
            del left[place]
    return bool(left)
