"""The kinds of cases. A case is what its kind and its seed make of it."""

from __future__ import annotations

from collections.abc import Callable
from dataclasses import dataclass, replace
from random import Random

from .circuits import circuits
from .commands import SourceWriter
from .faulty_parts import faulty_parts
from .limits import levels, near_limit
from .mutations import mutate_bytes, mutate_names, mutate_numbers, mutate_words, twist
from .rendering import render
from .scripts import long_script, script_for, script_of_breakpoints, script_of_long_run, twisted_script
from .sources import Style, any_style
from .stimuli import ports_of, stimulus_for, twisted_stimulus
from .threads import threads
from .traces import trace_for, twisted_trace
from .words import ANY_WORD


@dataclass(frozen=True)
class Case:
    """A run of the program: check of a source, debug of a source and a stimulus with a script, or replay of a trace."""

    word: str
    source: bytes
    stimulus: bytes = b""
    script: bytes = b""
    trace: bytes = b""


def check(random: Random, words: list[str], plain: bool | None = None) -> Case:
    return Case("check", render(random, words, plain))


def written(random: Random, style: Style | None = None) -> list[str]:
    return SourceWriter(random, style or any_style(random)).description()


def well_formed(random: Random) -> Case:
    return check(random, written(random))


def wild(random: Random) -> Case:
    return check(random, written(random, Style(random.choice([0.1, 0.2, 0.4]), 0)))


def shared(random: Random) -> Case:
    return check(random, written(random, Style(0, random.choice([0.05, 0.3, 1.0]))))


def words_changed(random: Random) -> Case:
    return check(random, mutate_words(random, written(random)))


def names_changed(random: Random) -> Case:
    return check(random, mutate_names(random, written(random, Style(random.choice([0, 0, 0.02]), 0))))


def numbers_changed(random: Random) -> Case:
    return check(random, mutate_numbers(random, written(random)))


def bytes_changed(random: Random) -> Case:
    return Case("check", mutate_bytes(random, render(random, written(random))))


def twisted(random: Random) -> Case:
    writer = SourceWriter(random, Style(0, random.choice([0, 0, 0.2])))
    return check(random, twist(random, writer.description(), sorted(writer.elements)))


def soup(random: Random) -> Case:
    return check(random, [random.choice(ANY_WORD) for _ in range(random.choice([0, 1, 5, 20]))])


def with_faulty_parts(random: Random) -> Case:
    return Case("check", faulty_parts(random))


def near_levels(random: Random) -> Case:
    words = levels(random)
    return check(random, mutate_words(random, words) if random.random() < 0.2 else words, True)


def near_nodes(random: Random) -> Case:
    return Case("check", near_limit(random, by_nodes=True))


def near_depth(random: Random) -> Case:
    return Case("check", near_limit(random, by_nodes=False))


def debugged(random: Random, words: list[str], broken: float) -> Case:
    """Debug of a source with a stimulus, which is broken so often, and a script for it."""
    source = render(random, words)
    stimulus = stimulus_for(random, ports_of(source), broken)
    return Case("debug", source, stimulus, script_for(random, source, stimulus))


def any_debug(random: Random) -> Case:
    words = written(random)
    return debugged(random, mutate_words(random, words) if random.random() < 0.15 else words, 0.3)


def sound_debug(random: Random) -> Case:
    style = Style(random.choice([0, 0, 0, 0.01]), random.choice([0, 0, 0.02]))
    return debugged(random, written(random, style), random.choice([0, 0, 0.2]))


def stimulus_broken(random: Random) -> Case:
    source = render(random, written(random, Style(0, 0)), True)
    return Case("debug", source, stimulus_for(random, ports_of(source), 0.9), b"live\n")


def thread_run(random: Random) -> Case:
    source, stimulus = threads(random)
    return Case("debug", source, stimulus, long_script(random, source, stimulus, [10, 30, 60, 120]))


def circuit_run(random: Random) -> Case:
    source, stimulus = circuits(random)
    return Case("debug", source, stimulus, long_script(random, source, stimulus, [30, 80, 150, 300]))


def long_run(random: Random) -> Case:
    """A run of some hundred or thousand steps: of several circuits the first that goes on for so long."""
    for _ in range(20):
        source, stimulus = circuits(random)
        script = script_of_long_run(random, source, stimulus, random.choice([100, 300, 1000, 2000]))
        if script.count(b"step ") + script.count(b"branch ") > 400:
            break
    return Case("debug", source, stimulus, script)


def any_run(random: Random) -> Case:
    return thread_run(random) if random.random() < 0.5 else circuit_run(random)


def with_many_lines(random: Random, source: bytes) -> bytes:
    """The source with many commands on lines of their own where the body of its first or last procedure begins."""
    at = (source.index if random.random() < 0.3 else source.rindex)(b"begin") + len(b"begin")
    more = b"".join(random.choice([b"continue ;\n", b"continue\n||\n", b"\n[continue ;"]) for _ in range(5))
    closing = b" continue" + b"]" * more.count(b"[") + b" ;\n"
    return source[:at] + b"\n" + b"continue ;\n" * random.choice([20, 55, 60, 65]) + more + closing + source[at:]


def breakpoints(random: Random) -> Case:
    source, stimulus = threads(random) if random.random() < 0.3 else circuits(random)
    source = with_many_lines(random, source) if random.random() < 0.5 else source
    return Case("debug", source, stimulus, script_of_breakpoints(random, source, stimulus))


def script_changed(random: Random) -> Case:
    case = any_run(random)
    return replace(case, script=twisted_script(random, case.script))


def trace_run(random: Random) -> Case:
    source, stimulus = threads(random) if random.random() < 0.5 else circuits(random)
    return Case("replay", source, stimulus, trace=trace_for(random, source, stimulus))


def trace_changed(random: Random) -> Case:
    case = trace_run(random)
    return replace(case, trace=twisted_trace(random, case.trace))


def stimulus_changed(random: Random) -> Case:
    source, stimulus = threads(random) if random.random() < 0.5 else circuits(random)
    stimulus = twisted_stimulus(random, stimulus)
    return Case("debug", source, stimulus, long_script(random, source, stimulus, [8]))


KINDS: dict[str, Callable[[Random], Case]] = {
    "well-formed": well_formed,
    "wild": wild,
    "shared": shared,
    "words-changed": words_changed,
    "names-changed": names_changed,
    "numbers-changed": numbers_changed,
    "bytes-changed": bytes_changed,
    "twisted": twisted,
    "soup": soup,
    "faulty-parts": with_faulty_parts,
    "levels": near_levels,
    "nodes": near_nodes,
    "depth": near_depth,
    "any-debug": any_debug,
    "sound-debug": sound_debug,
    "stimulus-broken": stimulus_broken,
    "thread-run": thread_run,
    "circuit-run": circuit_run,
    "breakpoints": breakpoints,
    "script-changed": script_changed,
    "stimulus-changed": stimulus_changed,
    "long-run": long_run,
    "trace-run": trace_run,
    "trace-changed": trace_changed,
}

# Their cases are large, so they come at one seed of ten only, unless they are asked for.
LARGE = ("nodes", "depth")
# A case of these takes many seconds, so they come only where they are asked for.
LONG = ("long-run",)


def kinds_at(seed: int) -> list[str]:
    return [kind for kind in KINDS if kind not in LONG and (kind not in LARGE or seed % 10 == 1)]


def case_of(kind: str, seed: int) -> Case:
    return KINDS[kind](Random(f"{kind} {seed}"))
