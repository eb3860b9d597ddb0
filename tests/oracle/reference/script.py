"""The lines of a script and their answers. The form of both is in docs/reference/script.md."""

from __future__ import annotations

from collections.abc import Callable

from .faults import Refused
from .machine import Live, Machine
from .places import read_address
from .sessions import SESSIONS, Desk
from .syntax import Variable
from .tokens import plain_number
from .traces import trace_of
from .view import view


class BadLine(Exception):
    """The line has no form, or names no variable."""


def number(field: bytes, limit: int) -> int:
    found = plain_number(field, limit)
    if found is None:
        raise BadLine
    return found


def long_number(field: bytes) -> int:
    """A ticket or a line."""
    return number(field, 2**64)


def variable(desk: Desk, name: bytes) -> Variable:
    found = desk.machine.variable(name)
    if found is None:
        raise BadLine
    return found


def shown(entry: Live) -> str:
    return f"{entry.ticket} {entry.event.text}"


def step(desk: Desk, place: bytes, arm: bytes = b"0") -> list[str]:
    acting, taken = read_address(place), number(arm, 2**32)
    if acting is None:
        raise BadLine
    return [f"step {shown(desk.machine.step(acting, taken))}"]


def undo(desk: Desk, field: bytes) -> list[str]:
    return [f"undone {shown(desk.machine.undo(long_number(field)))}"]


def live_lines(machine: Machine) -> list[str]:
    return [f"live {len(machine.live)}", *(f"  {shown(entry)}" for entry in machine.live)]


def live(desk: Desk) -> list[str]:
    return live_lines(desk.machine)


def trace(desk: Desk) -> list[str]:
    return trace_of(desk.machine)


def value(desk: Desk, name: bytes) -> list[str]:
    found = variable(desk, name)
    return [f"value {found.name} {desk.machine.value(found)}"]


def ready(desk: Desk) -> list[str]:
    events = desk.machine.ready()
    return [f"ready {len(events)}", *(f"  {event.text}" for event in events)]


def roll(desk: Desk, field: bytes) -> list[str]:
    return [f"rolled {desk.machine.roll(long_number(field))}"]


def consequences(desk: Desk, field: bytes) -> list[str]:
    tickets = [str(entry.ticket) for entry in desk.machine.closure(long_number(field))]
    return [" ".join(["consequences", *tickets])]


def blame(desk: Desk, name: bytes) -> list[str]:
    return [f"blame {desk.machine.last_writer(variable(desk, name))}"]


def rollvalue(desk: Desk, name: bytes) -> list[str]:
    return [f"rolled {desk.machine.roll(desk.machine.last_writer(variable(desk, name)))}"]


def session(desk: Desk, field: bytes) -> list[str]:
    desk.session = number(field, SESSIONS)
    return [f"session {desk.session}"]


def branch(desk: Desk, field: bytes) -> list[str]:
    found = desk.step_branch(number(field, 2**32))
    if found is None:
        return ["idle"]
    return [f"step {shown(found)}" if isinstance(found, Live) else f"stopped {found}"]


def break_at(desk: Desk, field: bytes) -> list[str]:
    desk.set_breakpoint(long_number(field))
    return ["ok"]


def clear(desk: Desk, field: bytes) -> list[str]:
    desk.clear_breakpoint(long_number(field))
    return ["ok"]


# What answers a line of so many fields.
LINES: dict[tuple[bytes, int], Callable[..., list[str]]] = {
    (b"step", 2): step,
    (b"step", 3): step,
    (b"undo", 2): undo,
    (b"live", 1): live,
    (b"value", 2): value,
    (b"ready", 1): ready,
    (b"roll", 2): roll,
    (b"consequences", 2): consequences,
    (b"blame", 2): blame,
    (b"rollvalue", 2): rollvalue,
    (b"session", 2): session,
    (b"branch", 2): branch,
    (b"break", 2): break_at,
    (b"clear", 2): clear,
    (b"view", 1): view,
    (b"trace", 1): trace,
}


def answer(desk: Desk, line: bytes) -> list[str]:
    """The lines that answer a line, which is not empty. Raises BadLine where it asks for nothing."""
    word, *fields = line.split(b" ")
    command = LINES.get((word, 1 + len(fields)))
    if command is None or b"" in fields:
        raise BadLine
    try:
        return command(desk, *fields)
    except Refused as refused:
        return [refused.text()]
