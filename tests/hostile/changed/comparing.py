"""Goes through changed texts in several processes, compares, and makes what differs small."""

from __future__ import annotations

import argparse
import multiprocessing
import os
import tempfile
import time
import traceback
from collections import Counter
from collections.abc import Iterator
from contextlib import redirect_stdout
from dataclasses import dataclass, field, replace
from io import StringIO
from pathlib import Path
from random import Random

from random_cases.cases import Case
from random_cases.comparing import Comparison, Difference, report

from .changes import changed
from .good import good
from .quick import Program, Reference

# So many changed texts are made of one good run, a quarter of them of each kind of text.
OF_ONE = 200
PARTS = ["source", "stimulus", "script", "trace"]
MOST_SHOWN = 3
# How often it is told how far things are, in seconds.
TELLING = 60


@dataclass
class Found:
    """What came of the changed texts of one good run."""

    kinds: Counter[str] = field(default_factory=Counter)
    failures: list[str] = field(default_factory=list)


def cases_of(seed: int) -> Iterator[tuple[str, Case]]:
    """The changed texts of one good run. One seed always makes the same."""
    random = Random(f"cuts {seed}")
    whole = good(random)
    run = {"stimulus": whole.stimulus, "script": whole.script, "trace": whole.trace}
    for at in range(OF_ONE):
        part = PARTS[at % len(PARTS)]
        text = changed(random, getattr(whole, part))
        match part:
            case "source":
                yield part, Case("check", text) if random.random() < 0.5 else Case("debug", text, whole.stimulus, whole.script)
            case "trace":
                yield part, replace(Case("replay", whole.source, **run), script=b"", trace=text)
            case _:
                yield part, replace(Case("debug", whole.source, **run), trace=b"", **{part: text})


class Worker:
    """What one process has: the program, the reference, and a folder for what differs."""

    def __init__(self, program: Path, folder: Path) -> None:
        own = Path(tempfile.mkdtemp(dir=folder))
        self.program, self.reference = Program(program, own), Reference()
        self.slow = Comparison(program, Path(tempfile.mkdtemp(dir=folder)))
        self.seen: Counter[tuple[str, str]] = Counter()

    def go_through(self, seed: int) -> Found:
        found = Found()
        for at, (part, case) in enumerate(cases_of(seed)):
            found.kinds[part] += 1
            try:
                wanted, got = self.reference.wanted(case), self.program.got(case)
            except Exception:
                found.failures.append(f"FAILED {part}, seed {seed}, {at}: {case}\n{traceback.format_exc(limit=-3)}")
                continue
            if got != wanted:
                found.failures.append(self.told(part, seed, case, Difference(got, wanted)))
        return found

    def told(self, part: str, seed: int, case: Case, difference: Difference) -> str:
        """The difference, made small where it is one of the first of its sort."""
        self.seen[difference.sort()] += 1
        if self.seen[difference.sort()] > MOST_SHOWN:
            return f"FAILED {part}, seed {seed}: {difference.sort()} once more"
        with redirect_stdout(StringIO()) as said:
            report(self.slow, f"changed {part}", seed, case, difference)
        return said.getvalue().rstrip()


WORKER: list[Worker] = []


def begin(program: Path, folder: Path) -> None:
    os.nice(15)
    WORKER.append(Worker(program, folder))


def go_through(seed: int) -> Found:
    return WORKER[0].go_through(seed)


class Count:
    """How many texts were tried so far, and how many failed."""

    def __init__(self, first: int) -> None:
        self.kinds: Counter[str] = Counter()
        self.failed, self.seed = 0, first
        self.begun = self.told = time.monotonic()

    def add(self, found: Found) -> None:
        for failure in found.failures:
            self.failed += 1
            print(failure, flush=True)
        self.kinds += found.kinds
        self.seed += 1
        if time.monotonic() > self.told + TELLING:
            self.told = time.monotonic()
            print(self.line(), flush=True)

    def line(self) -> str:
        each = ", ".join(f"{part} {number}" for part, number in self.kinds.items())
        rate = self.kinds.total() / max(0.001, time.monotonic() - self.begun)
        return f"{each}; {self.failed} differ; {rate:.0f} a second; go on with --seed {self.seed}"


def compare(asked: argparse.Namespace, folder: Path) -> int:
    seeds = range(asked.seed, asked.seed + -(-asked.cases // OF_ONE))
    count = Count(asked.seed)
    forks = multiprocessing.get_context("fork")
    with forks.Pool(asked.processes, begin, (asked.program, folder)) as pool:
        for found in pool.imap(go_through, seeds):
            count.add(found)
            if time.monotonic() > count.begun + asked.seconds:
                break
    print(count.line())
    print(f"{count.kinds.total() - count.failed} passed, {count.failed} failed")
    return 1 if count.failed or not count.kinds else 0


def asked_for() -> argparse.Namespace:
    parser = argparse.ArgumentParser(prog="cuts", description="Compares the answers to changed texts with the reference.")
    parser.add_argument("program", type=Path, help="path of the built program")
    parser.add_argument("--cases", type=int, default=2000, help="how many texts (2000)")
    parser.add_argument("--seed", type=int, default=1, help="the first seed (1); one seed makes 200 texts")
    parser.add_argument("--seconds", type=float, default=float("inf"), help="stop behind so many seconds")
    parser.add_argument("--processes", type=int, default=2, help="how many texts are tried at a time (2)")
    asked = parser.parse_args()
    asked.program = asked.program.resolve()
    if not os.access(asked.program, os.X_OK) or asked.program.is_dir():
        parser.error(f"no executable file {asked.program}")
    return asked


def main() -> int:
    try:
        asked = asked_for()
    except SystemExit as ended:
        return int(ended.code or 0)
    shared = "/dev/shm" if os.access("/dev/shm", os.W_OK) else None
    with tempfile.TemporaryDirectory(prefix="balsadbg-", dir=shared) as folder:
        return compare(asked, Path(folder))
