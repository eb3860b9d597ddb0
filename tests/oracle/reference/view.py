"""The source with its marks."""

from __future__ import annotations

from collections import Counter

from .events import Event
from .sessions import Desk
from .tokens import lines_of


def lines_in_conflict(events: list[Event]) -> set[int | None]:
    """The lines of the selects of which two or more arms are possible."""
    opening = [event for event in events if event.opens_select]
    arms = Counter(event.acting for event in opening)
    return {event.line for event in opening if arms[event.acting] > 1}


def view(desk: Desk) -> list[str]:
    """The lines, in which each byte of the source is a character."""
    events = desk.machine.ready()
    acting, conflicts = {event.line for event in events}, lines_in_conflict(events)
    shown = []
    for number, line in enumerate(lines_of(desk.source), 1):
        holding = {">": number in acting, "*": number in desk.stops, "!": number in conflicts}
        marks = "".join(mark if holds else " " for mark, holds in holding.items())
        shown.append(f"{number:5} {marks} {line.decode('latin-1')}")
    return shown
