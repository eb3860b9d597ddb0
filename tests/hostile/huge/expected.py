"""What the program has to answer to a huge text. The second implementation answers two small texts of the same shape, one
with a unit more than the other. What both answers have alike stays; what grows with the unit grows on."""

from __future__ import annotations

from collections.abc import Iterator
from dataclasses import dataclass

from reference import debugger
from reference.debugger import Outcome

from .text import BLOCK, CIRCUIT, STIMULUS, Text

SCRIPTS = {"stimulus": b"live\n", "script": b""}


class NoShape(Exception):
    """The two small answers do not tell the large one."""


@dataclass(frozen=True)
class Expected:
    """The answer: the status, the line on standard error, and standard output, of which `unit` stands `count` times between
    a beginning and an end."""

    status: int
    error: bytes
    head: bytes
    unit: bytes
    count: int
    tail: bytes

    def blocks(self) -> Iterator[bytes]:
        yield self.head
        step = max(1, BLOCK // max(1, len(self.unit)))
        whole = self.unit * step
        for first in range(0, self.count if self.unit else 0, step):
            yield whole[: len(self.unit) * min(step, self.count - first)]
        yield self.tail


def answer(text: Text, count: int) -> Outcome:
    """What the second implementation answers with so many units."""
    whole = text.whole(count)
    match text.part:
        case "source":
            return debugger.check(whole)
        case "stimulus":
            return debugger.debug(CIRCUIT, whole, SCRIPTS["stimulus"])
        case "script":
            return debugger.debug(CIRCUIT, STIMULUS, whole)
    return debugger.replay(CIRCUIT, STIMULUS, lambda: whole)


def common(first: bytes, second: bytes) -> int:
    """How many bytes at the front are the same."""
    for at, (one, other) in enumerate(zip(first, second)):
        if one != other:
            return at
    return min(len(first), len(second))


def grown_error(text: Text, few: int, first: bytes, second: bytes, count: int) -> bytes:
    """Standard error with so many units. A field that grows does so by the unit's bytes or by its lines."""
    if first == second:
        return first
    (*front, field), (*other, more) = first.split(), second.split()
    grows = int(more) - int(field)
    if front != other or grows not in (text.unit_size(), text.unit.count(b"\n")):
        raise NoShape(f"{first!r} and {second!r}")
    return b" ".join([*front, b"%d\n" % (int(field) + (count - few) * grows)])


def expected(text: Text, size: int) -> Expected:
    """The answer to the text of that size."""
    count = text.count(size)
    few = min(text.small, count)
    first, second = answer(text, few), answer(text, few + 1)
    if first.status != second.status:
        raise NoShape(f"status {first.status} and {second.status}")
    at = common(first.output, second.output)
    more = len(second.output) - len(first.output)
    unit, tail = second.output[at : at + more], second.output[at + more :]
    if more < 0 or first.output[at:] != tail:
        raise NoShape(f"{first.output[-100:]!r} and {second.output[-100:]!r}")
    error = grown_error(text, few, first.error, second.error, count)
    return Expected(first.status, error, first.output[:at], unit, count - few, tail)
