"""Sources near the limits: 64 levels, 16,384 nodes, 1,024 commands around a command."""

from __future__ import annotations

from dataclasses import dataclass
from random import Random

from reference.elaboration import MOST_AROUND, MOST_NODES, procedure_sizes
from reference.faults import Refused
from reference.names_and_types import TypedDescription, TypedProcedure, typed
from reference.parser import LEVELS, Parser
from reference.tokens import tokens_of

from .commands import SourceWriter
from .rendering import render
from .sources import Style

HEAD = "procedure p (input i : 8 bits) is channel c : 8 bits variable x , y : 8 bits sync s begin"
# What opens a level, what closes it, and whether its arm is on a channel, which may be opened once only.
OPENERS = {
    "[": ("]", ""),
    "loop": ("end", ""),
    "loop while 1 = 1 then": ("end", ""),
    "if 1 then": ("end", ""),
    "if 1 then continue else": ("end", ""),
    "case 1 of 1 then": ("end", ""),
    "select s then": ("end", "s"),
    "i -> then": ("end", "i"),
}
WRAPPERS = [
    ("loop ", " end"), ("if 1 then ", " end"), ("if 1 then halt | 1 then ", " end"), ("case 1 of 0 then ", " end"),
    ("case 1 of 0 then halt else ", " end"), ("if 1 then halt else ", " end"), ("loop while 1 = 1 then ", " end"),
    ("[halt ; ", "]"), ("[halt || ", "]"),
]


def nested_commands(random: Random, count: int) -> tuple[list[str], list[str]]:
    """Words that open so many levels by commands, and what closes them, the innermost first."""
    opening: list[str] = []
    closing: list[str] = []
    free = ["s", "i"]
    for _ in range(count):
        opener = random.choice([one for one, (_, channel) in OPENERS.items() if channel in ("", *free)])
        closer, channel = OPENERS[opener]
        free = [one for one in free if one != channel]
        if random.random() < 0.2:
            opening += ["x := 1 and 1 ;"]
        opening.append(opener)
        closing.insert(0, closer if random.random() < 0.9 else "; continue " + closer)
    return opening, closing


def nested_expression(random: Random, count: int) -> list[str]:
    """An expression that opens so many levels."""
    opening: list[str] = []
    closing: list[str] = []
    for _ in range(count):
        match random.randrange(4):
            case 0:
                opening.append("(")
                closing.insert(0, random.choice([")", "as 8 bits )", ") - 1"]))
            case 1:
                opening.append("not")
            case _:
                opening.append(f"1 {random.choice(['-', 'and', 'or', 'xor', '='])}")
    return [*opening, "1", *closing]


def levels(random: Random) -> list[str]:
    """The words of a source that opens about 64 levels."""
    count = LEVELS + random.choice([-4, -2, -1, -1, 0, 0, 1, 2, 6])
    in_expression = random.choice([0, 0, 3, 10, 30, 63])
    opening, closing = nested_commands(random, max(0, count - in_expression))
    behind = random.choice(["", "; x := 1 - 1"])
    words = [HEAD, *opening, "x :=", *nested_expression(random, in_expression), behind, *closing, "end"]
    return " ".join(words).split()


@dataclass
class Called:
    """A procedure of a random source, with what a call of it needs."""

    text: str
    declared: str
    nodes: int
    around: int
    channels: int


def call_of(description: TypedDescription, procedure: TypedProcedure) -> Called:
    name = procedure.procedure.name.text
    size = procedure_sizes(description)[name]
    declared = [
        f"sync ch{number} " if port.kind == "sync" else f"channel ch{number} : {port.width} bits "
        for number, port in enumerate(procedure.ports)
    ]
    arguments = ", ".join(f"ch{number}" for number in range(len(declared)))
    return Called(f"{name} ({arguments})", "".join(declared), size.nodes, size.around, len(declared))


def near_limit(random: Random, by_nodes: bool) -> bytes:
    """A random source with a root behind it that calls one of its procedures, near one of the two limits."""
    writer = SourceWriter(random, Style(0, 0))
    source = render(random, writer.description(), True) + b"\n"
    try:
        description = typed(Parser(tokens_of(source)).description())
    except Refused:
        return source
    called = call_of(description, random.choice(description.procedures))
    root = near_most_nodes(random, called) if by_nodes else near_most_around(random, called)
    return source + root.encode()


def near_most_nodes(random: Random, called: Called) -> str:
    """Calls and `continue` one after another."""
    ports = random.choice([[], [], ["output zo : 1 bits"], ["output zo : 1 bits", "input zi : 1 bits"]])
    left = MOST_NODES + random.choice([-2, -1, 0, 0, 1, 1, 2]) - 1 - called.channels - len(ports)
    most = max(0, min(4000, (left - 2) // called.nodes))
    calls = random.choice([most, random.randrange(most + 1)])
    commands = [called.text] * calls + ["continue"] * (left - calls * called.nodes)
    head = f"({' ; '.join(ports)}) " if ports else ""
    return f"procedure zz {head}is {called.declared}begin {' ; '.join(commands)} end"


def near_most_around(random: Random, called: Called) -> str:
    """Procedures that call each other, each with some commands around the call."""
    left = MOST_AROUND + random.choice([-1, 0, 0, 1, 1, 2]) - called.around
    text, declared, inner, number = "", called.declared, called.text, 0
    while left > 0:
        count = min(left, random.choice([1, 5, 30, 62]))
        for opening, closing in random.choices(WRAPPERS, k=count):
            inner = opening + inner + closing
        text += f"procedure zz{number} is {declared}begin {inner} end\n"
        declared, inner = "", f"zz{number} ()"
        number, left = number + 1, left - count
    return text
