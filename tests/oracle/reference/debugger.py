"""The program: its runs and its command line."""

from __future__ import annotations

import os
import sys
import threading
from collections.abc import Callable
from dataclasses import dataclass

from .elaboration import System, elaborate
from .faults import Number, Refused
from .names_and_types import typed
from .parser import Parser
from .script import BadLine, answer, live_lines
from .sessions import Desk
from .sharing import check_sharing
from .stimulus import read_stimulus
from .tokens import lines_of, tokens_of
from .traces import load

HELP = (
    "program check FILE, program debug FILE STIMULUS with a script on standard input, "
    "or program replay FILE STIMULUS TRACE"
)
DEEP_STACK = 1 << 29
DEEP_CALLS = 1_000_000


@dataclass(frozen=True)
class Outcome:
    """What a run of the program writes, and its status."""

    output: bytes
    error: bytes
    status: int


def outcome(lines: list[str], fault: str | None = None) -> Outcome:
    """A character of a line is a byte."""
    output = "".join(line + "\n" for line in lines).encode("latin-1")
    return Outcome(output, b"", 0) if fault is None else Outcome(output, f"balsadbg: {fault}\n".encode(), 1)


def accept(source: bytes, stimulus: bytes) -> System:
    """The system, or the refusal. Each pass speaks before the next."""
    description = typed(Parser(tokens_of(source)).description())
    system = elaborate(description, read_stimulus(stimulus))
    check_sharing(system)
    return system


def check(source: bytes) -> Outcome:
    try:
        accept(source, b"")
    except Refused as refused:
        return outcome([], refused.text())
    return outcome(["accepted"])


def debug(source: bytes, stimulus: bytes, script: bytes) -> Outcome:
    try:
        return debug_system(accept(source, stimulus), source, script)
    except Refused as refused:
        return outcome([], refused.text())


def debug_system(system: System, source: bytes, script: bytes) -> Outcome:
    """The answers over a system that was accepted."""
    desk, answers = Desk(system, source), []
    for number, line in enumerate(lines_of(script), 1):
        try:
            answers += answer(desk, line) if line else []
        except BadLine:
            return outcome(answers, Refused(Number.BAD_COMMAND, number).text())
    return outcome(answers)


def replay(source: bytes, stimulus: bytes, trace: Callable[[], bytes]) -> Outcome:
    """The trace is read once source and stimulus are accepted."""
    try:
        return replay_system(accept(source, stimulus), trace())
    except Refused as refused:
        return outcome([], refused.text())


def replay_system(system: System, trace: bytes) -> Outcome:
    """The live events behind the trace, over a system that was accepted."""
    try:
        return outcome(live_lines(load(system, trace)))
    except Refused as refused:
        return outcome([], refused.text())


def content(name: str) -> bytes:
    try:
        with open(name, "rb") as file:
            return file.read()
    except OSError:
        raise Refused(Number.READ_FAILED) from None


def run(words: list[str], script: Callable[[], bytes]) -> Outcome:
    """A run by its words. Source and stimulus are read before anything else is done."""
    if "--help" in words or "-h" in words:
        return outcome([HELP])
    words = words[:1] + words[2:] if words[1:2] == ["--"] else words
    if (words[:1], len(words)) not in ((["check"], 2), (["debug"], 3), (["replay"], 4)):
        return Outcome(b"", HELP.encode() + b"\n", 2)
    try:
        texts = [content(name) for name in words[1:3]]
    except Refused as refused:
        return outcome([], refused.text())
    if words[0] == "replay":
        return replay(*texts, lambda: content(words[3]))
    return check(*texts) if words[0] == "check" else debug(*texts, script())


def with_deep_stack(work: Callable[[], int]) -> int:
    """Does the work where calls may nest as deep as a description does."""
    sys.setrecursionlimit(DEEP_CALLS)
    threading.stack_size(DEEP_STACK)
    results: list[int] = []
    thread = threading.Thread(target=lambda: results.append(work()))
    thread.start()
    thread.join()
    return results[0] if results else 2


def written(done: Outcome) -> Outcome:
    """What comes of a run once its output is written, which may fail."""
    try:
        if done.output:
            sys.stdout.buffer.write(done.output)
            sys.stdout.flush()
    except OSError:
        # Else Python would try again at its end.
        os.dup2(os.open(os.devnull, os.O_WRONLY), sys.stdout.fileno())
        return outcome([], Refused(Number.WRITE_FAILED).text())
    return done


def main() -> int:
    done = written(run(sys.argv[1:], sys.stdin.buffer.read))
    sys.stderr.buffer.write(done.error)
    return done.status
