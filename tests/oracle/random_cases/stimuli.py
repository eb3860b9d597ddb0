"""Random stimuli for the ports of a description, right ones and broken ones."""

from __future__ import annotations

from random import Random

from reference.faults import Refused
from reference.names_and_types import Port, typed
from reference.parser import Parser
from reference.tokens import tokens_of

from .mutations import mutate_bytes
from .words import NAMES

BROKEN_LINES = [
    "", "", "x", "=", " = 1", "i=1", "i = 01", "end = 1", "i * 01", "s * 65537", "i = 18446744073709551616",
    "i = 18446744073709551615", "a =", "a = ", "a  = 1", "a *", "a * ", "a * 1 2", "_a = 1", "1 = 1", "\r", "\t",
    "a =\t1", "a = -1", "a = +1", "a = 1,2",
]
BROKEN_ENDS = [" ", " 1", " 99999999", " x", "\r", "\0", " 1 ", " 256", " 4"]
ODD_FIELDS = [
    b"", b"0", b"1", b"x", b"=", b"*", b"-1", b"01", b"65536", b"65537", b"18446744073709551615",
    b"18446744073709551616", b"\r",
]


def ports_of(source: bytes) -> list[Port]:
    """The ports of the root; none where the source is refused."""
    try:
        return typed(Parser(tokens_of(source)).description()).root.ports
    except Refused:
        return []


def line_for(random: Random, port: Port) -> str:
    if port.kind == "sync":
        return f"{port.name} * {random.choice([0, 1, 2, 3, 65536])}"
    limit = 2 ** max(1, port.width or 8)
    values = [random.choice([0, limit - 1, random.randrange(limit)]) for _ in range(random.choice([0, 1, 1, 2, 3, 5]))]
    return " ".join([port.name, "=", *(str(value) for value in values)])


def break_lines(random: Random, lines: list[str]) -> list[str]:
    """The lines with one that is likely to be refused."""
    at = random.randrange(len(lines) + 1)
    match random.randrange(5):
        case 0:
            return lines + [random.choice(NAMES) + " = 1"]
        case 1 if lines:
            return lines + [random.choice(lines)]
        case 2 if lines:
            other = lines[at - 1].replace("=", random.choice(["*", ":=", "==", ""]))
            return lines[: at - 1] + [other] + lines[at:] if at else [other] + lines[:-1]
        case 3 if lines:
            return lines[:-1] + [lines[-1] + random.choice(BROKEN_ENDS)]
    return lines[:at] + [random.choice(BROKEN_LINES)] + lines[at:]


def with_too_much(random: Random, lines: list[str], ports: list[Port]) -> list[str]:
    """The lines with the least value or count that is too large for one of the ports."""
    fed = [port for port in ports if port.kind != "output"]
    if not fed:
        return lines
    port = random.choice(fed)
    line = f"{port.name} * 65537" if port.kind == "sync" else f"{port.name} = 0 {2 ** (port.width or 8)}"
    return [other for other in lines if not other.startswith(port.name + " ")] + [line]


def stimulus_for(random: Random, ports: list[Port], broken: float) -> bytes:
    """Lines for most of the ports, in any order. So often as `broken` says, something is wrong with them."""
    lines = [line_for(random, port) for port in ports if port.kind != "output" and random.random() < 0.85]
    random.shuffle(lines)
    wrong = random.choice(["bytes", "bytes", "line", "line", "value"]) if random.random() < broken else ""
    if wrong == "bytes":
        return mutate_bytes(random, "\n".join(lines).encode())
    if wrong:
        lines = break_lines(random, lines) if wrong == "line" else with_too_much(random, lines, ports)
    return ("\n".join(lines) + random.choice(["", "\n", "\n"])).encode("latin-1")


def twisted_stimulus(random: Random, stimulus: bytes) -> bytes:
    """A stimulus with bytes changed, a field more, or lines in another order and one of them twice."""
    chance, lines = random.random(), stimulus.split(b"\n")
    if chance < 0.5:
        return mutate_bytes(random, stimulus)
    if chance < 0.8:
        at = random.randrange(len(lines))
        fields = lines[at].split(b" ")
        fields.insert(random.randrange(len(fields) + 1), random.choice(ODD_FIELDS))
        lines[at] = b" ".join(fields)
        return b"\n".join(lines)
    random.shuffle(lines)
    return b"\n".join(lines + random.choice([[], [random.choice(lines)]]))
