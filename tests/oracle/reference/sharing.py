"""The sharing rule: which branches may use a variable or a channel at one time."""

from __future__ import annotations

from collections import Counter
from dataclasses import dataclass

from .elaboration import System
from .faults import Number, Refused
from .syntax import (
    Assign, Channel, Choose, Command, Parallel, Receive, Send, Sync, Use, children_of, expressions_of, uses_in,
)


@dataclass(frozen=True)
class Access:
    """A use of a variable that is not shared, by the number of the variable."""

    variable: int
    writes: bool
    offset: int


def written_by(command: Command) -> list[Use]:
    return [command.variable] if isinstance(command, Assign | Receive) else []


class VariableRule:
    """Collects the offsets of all uses that race: one of a pair in different branches of a parallel, one of which
    writes."""

    def __init__(self) -> None:
        self.racing: list[int] = []

    def accesses(self, command: Command) -> list[Access]:
        """All uses of variables in a command. A shared variable may be used anywhere."""
        uses = [(use, True) for use in written_by(command)]
        uses += [(use, False) for expression in expressions_of(command) for use in uses_in(expression)]
        found = [Access(use.variable.number, writes, use.offset) for use, writes in uses if not use.variable.shared]
        branches = [self.accesses(child) for child in children_of(command)]
        if isinstance(command, Parallel):
            self.compare(branches)
        return found + [access for branch in branches for access in branch]

    def compare(self, branches: list[list[Access]]) -> None:
        users: dict[int, set[int]] = {}
        writers: dict[int, set[int]] = {}
        for number, branch in enumerate(branches):
            for access in branch:
                users.setdefault(access.variable, set()).add(number)
                if access.writes:
                    writers.setdefault(access.variable, set()).add(number)
        for number, branch in enumerate(branches):
            for access in branch:
                others = users if access.writes else writers
                if others.get(access.variable, set()) - {number}:
                    self.racing.append(access.offset)


# The uses of channels that can be at work at one time, counted by channel and side.
Widths = Counter[tuple[Channel, str]]
MOST_AT_A_TIME = {"send": 1, "receive": 1, "sync": 2}


def side_of_arm(channel: Channel) -> str:
    return "sync" if channel.kind == "sync" else "receive"


def channel_widths(command: Command) -> Widths:
    """The sum over the children of a parallel, and the greatest over the parts of any other command."""
    widths: Widths = Counter()
    match command:
        case Send(channel, _):
            widths[channel, "send"] = 1
        case Receive(channel, _):
            widths[channel, "receive"] = 1
        case Sync(channel):
            widths[channel, "sync"] = 1
        case Choose(_, arms):
            for arm in arms:
                widths[arm.channel, side_of_arm(arm.channel)] = 1
    for child in children_of(command):
        for use, width in channel_widths(child).items():
            widths[use] = widths[use] + width if isinstance(command, Parallel) else max(widths[use], width)
    return widths


def check_sharing(system: System) -> None:
    """Refuses the least offset of a use of a variable that races, else the least declaration of a channel with too
    many uses. The environment of each port counts as a branch beside the body."""
    rule = VariableRule()
    rule.accesses(system.body)
    if rule.racing:
        raise Refused(Number.SHARED_VARIABLE, min(rule.racing))
    widths = channel_widths(system.body)
    sides = {"input": "send", "output": "receive", "sync": "sync"}
    for environment in system.environment:
        widths[environment.channel, sides[environment.channel.kind]] += 1
    passed = [channel.offset for (channel, side), width in widths.items() if width > MOST_AT_A_TIME[side]]
    if passed:
        raise Refused(Number.SHARED_CHANNEL, min(passed))
