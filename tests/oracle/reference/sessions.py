"""Sessions on one machine, with their breakpoints, and the branches that they step."""

from __future__ import annotations

from .elaboration import System, lines_begun
from .events import Event
from .faults import Number, Refused
from .machine import Live, Machine
from .places import Address, branch
from .syntax import Parallel

SESSIONS = 16
MOST_BREAKPOINTS = 64


def branches_of(system: System) -> list[Address]:
    """The places of the branches: the children of the body where that is a parallel, else the body; then the ports."""
    body, command = branch((), 0), system.body
    inside = [body]
    if isinstance(command, Parallel):
        inside = [branch(body, number) for number in range(len(command.children))]
    return inside + [branch((), number) for number in range(1, 1 + len(system.environment))]


class Desk:
    """A machine over a source, and the breakpoints of each session by their lines. `session` is the one whose lines are
    answered. Each call answers or raises the refusal, and then nothing has changed."""

    def __init__(self, system: System, source: bytes) -> None:
        self.source = source
        self.machine = Machine(system)
        self.branches = branches_of(system)
        self.lines = lines_begun(system.body)
        self.breakpoints: list[set[int]] = [set() for _ in range(SESSIONS)]
        self.session = 0

    @property
    def stops(self) -> set[int]:
        """The lines on which the session stops."""
        return self.breakpoints[self.session]

    def set_breakpoint(self, line: int) -> None:
        if line not in self.lines:
            raise Refused(Number.NO_SUCH_LINE)
        if line not in self.stops and len(self.stops) == MOST_BREAKPOINTS:
            raise Refused(Number.BREAKS_FULL)
        self.stops.add(line)

    def clear_breakpoint(self, line: int) -> None:
        self.stops.discard(line)

    def ready_in(self, number: int) -> list[Event]:
        """The possible events that act in a branch; none where no branch has the number."""
        if number >= len(self.branches):
            return []
        place = self.branches[number]
        return [event for event in self.machine.ready() if event.acting[: len(place)] == place]

    def step_branch(self, number: int) -> Live | int | None:
        """The event that was taken, or the line on which the branch is stopped, or None where nothing is possible."""
        events = self.ready_in(number)
        free = [event for event in events if event.line not in self.stops]
        if free:
            return self.machine.step(free[0].acting, free[0].arm)
        return events[0].line if events else None
