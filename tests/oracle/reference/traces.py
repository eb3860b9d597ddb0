"""Traces: the choices of the live events as a text, and a machine that takes them again. See docs/reference/formats.md."""

from __future__ import annotations

from .elaboration import System
from .events import Event, depends_directly
from .faults import Number, Refused
from .machine import Machine
from .places import Address, read_address, text_of
from .tokens import plain_number

HEADERS = {b"balsadbg trace 1": 1, b"balsadbg trace 2": 2}


def canonical(events: list[Event]) -> list[Event]:
    """Again and again, of the events that are left and depend directly on no earlier one of these, the one with the least
    acting address."""
    left, order = list(events), []
    causes = {id(event): {id(one) for one in events[:at] if depends_directly(one, event)} for at, event in enumerate(events)}
    while left:
        waiting = {id(event) for event in left}
        following = min((event for event in left if not causes[id(event)] & waiting), key=lambda event: event.acting)
        left.remove(following)
        order.append(following)
    return order


def step_line(event: Event) -> str:
    return f"step {text_of(event.acting)} {event.arm}"


def trace_of(machine: Machine) -> list[str]:
    """The lines of the trace."""
    return ["balsadbg trace 2", *map(step_line, canonical([entry.event for entry in machine.live]))]


def choice_of(line: bytes) -> tuple[Address, int] | None:
    """The place and the arm of a line without its end; None where it has another form."""
    fields = line.split(b" ")
    if len(fields) != 3 or fields[0] != b"step":
        return None
    place, arm = read_address(fields[1]), plain_number(fields[2], 2**32)
    return None if place is None or arm is None else (place, arm)


def load(system: System, text: bytes) -> Machine:
    """A machine that has taken the steps of the trace, or the refusal of its first line with a fault."""
    first, end, rest = text.partition(b"\n")
    version = HEADERS.get(first)
    if version is None:
        raise Refused(Number.BAD_HEADER)
    if not end:
        raise Refused(Number.BAD_LINE, 1)
    machine, number = Machine(system), 2
    while rest:
        line, end, rest = rest.partition(b"\n")
        choice = choice_of(line) if end else None
        if choice is None:
            raise Refused(Number.BAD_LINE, number)
        try:
            machine.step(*choice)
        except Refused:
            raise Refused(Number.NOT_A_STEP, number) from None
        number += 1
    if version == 2:
        refuse_disorder(machine, text)
    return machine


def refuse_disorder(machine: Machine, text: bytes) -> None:
    """The text is refused at its first line that is not that of the trace of the same events."""
    lines = text.decode().split("\n")
    for number, (line, expected) in enumerate(zip(lines, trace_of(machine)), 1):
        if line != expected:
            raise Refused(Number.NOT_CANONICAL, number)
