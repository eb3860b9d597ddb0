"""The stimulus: what the environment does at the ports of the root."""

from __future__ import annotations

from dataclasses import dataclass

from .faults import Number, Refused
from .names_and_types import Port
from .tokens import is_name, lines_of, plain_number

MOST_SYNCS = 65_536


@dataclass(frozen=True)
class Given:
    """What a line says of a port: values for an input, or a count of syncs."""

    line: int
    name: str
    kind: str
    values: tuple[int, ...] = ()
    count: int = 0


def read_line(line: bytes, number: int) -> Given:
    """A line, which is not empty, or its refusal. Fields have one space between them."""
    fields = line.split(b" ")
    if is_name(fields[0]) and len(fields) > 1:
        name = fields[0].decode()
        if fields[1] == b"=":
            values = [plain_number(field, 2**64) for field in fields[2:]]
            if None not in values:
                return Given(number, name, "input", tuple(values))
        if fields[1] == b"*" and len(fields) == 3:
            count = plain_number(fields[2], MOST_SYNCS + 1)
            if count is not None:
                return Given(number, name, "sync", count=count)
    raise Refused(Number.BAD_STIMULUS, number)


def read_stimulus(text: bytes) -> list[Given]:
    """The lines that are not empty, or the refusal of the first one that has no form."""
    return [read_line(line, number) for number, line in enumerate(lines_of(text), 1) if line]


def fits(given: Given, ports: list[Port]) -> bool:
    return any(
        port.name == given.name
        and port.kind == given.kind
        and all(value < 2 ** (port.width or 0) for value in given.values)
        for port in ports
    )


def by_port(stimulus: list[Given], ports: list[Port]) -> dict[str, Given]:
    """The lines by their ports, or the refusal of the first one that fits no port or names one once more."""
    found: dict[str, Given] = {}
    for given in stimulus:
        if given.name in found or not fits(given, ports):
            raise Refused(Number.BAD_STIMULUS, given.line)
        found[given.name] = given
    return found
