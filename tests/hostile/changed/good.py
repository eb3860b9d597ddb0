"""Small runs whose texts are all good: a circuit with a stimulus, a script and a trace."""

from __future__ import annotations

from collections.abc import Callable
from dataclasses import dataclass
from random import Random

from random_cases.circuits import circuits
from random_cases.commands import SourceWriter
from random_cases.rendering import render
from random_cases.scripts import ScriptWriter, desk_for
from random_cases.sources import Style
from random_cases.stimuli import ports_of, stimulus_for
from random_cases.threads import threads
from reference.traces import trace_of

MOST_BYTES = 600
MOST_LINES = 12


@dataclass(frozen=True)
class Good:
    source: bytes
    stimulus: bytes
    script: bytes
    trace: bytes


def any_form(random: Random) -> tuple[bytes, bytes]:
    """A source of any forms, which may be refused, with a stimulus for its ports."""
    source = render(random, SourceWriter(random, Style(0, random.choice([0, 0, 0.02]))).description())
    return source, stimulus_for(random, ports_of(source), 0)


MAKERS: list[Callable[[Random], tuple[bytes, bytes]]] = [threads, circuits, any_form, any_form]


def good(random: Random) -> Good:
    """The first that is accepted and small."""
    while True:
        source, stimulus = random.choice(MAKERS)(random)
        desk = desk_for(source, stimulus) if len(source) <= MOST_BYTES else None
        if desk is None:
            continue
        writer = ScriptWriter(random, desk)
        writer.add_some(random.randint(1, MOST_LINES), 0)
        for line in random.sample(["live", "ready", "view", "trace"], 2):
            writer.add(line)
        trace = "".join(line + "\n" for line in trace_of(desk.machine)).encode()
        return Good(source, stimulus, writer.script(), trace)
