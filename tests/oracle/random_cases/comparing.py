"""Runs cases on a program and on the reference, compares, and makes what differs small."""

from __future__ import annotations

import argparse
import os
import re
import subprocess
import tempfile
import time
import traceback
from collections import Counter
from dataclasses import dataclass, field, replace
from itertools import count, islice
from pathlib import Path

from reference import debugger
from reference.debugger import Outcome

from .cases import KINDS, Case, case_of, kinds_at

# How long a case may take; a slow program or a busy machine wants more.
SECONDS_OF_A_CASE = int(os.environ.get("CASE_SECONDS", "30"))
SECONDS_TO_SHRINK = 60
MOST_SHOWN = 5
SHOWN = 2000

LINES = re.compile(rb"[^\n]*\n|[^\n]+")
WORDS = re.compile(rb"\s*(?:\w+|[^\w\s]+)|\s+")
BYTES = re.compile(rb".", re.DOTALL)
# How a case is made smaller: first by large pieces, of script and trace before the rest.
PASSES = [
    ("script", LINES), ("trace", LINES), ("source", WORDS), ("stimulus", WORDS), ("script", WORDS),
    ("source", BYTES), ("stimulus", BYTES), ("script", BYTES), ("trace", BYTES),
]


@dataclass(frozen=True)
class Difference:
    """What the program did, and what the reference did; None stands for a run that did not end in time."""

    got: Outcome | None
    wanted: Outcome

    def sort(self) -> tuple[str, str]:
        """Which outcomes differ, without the fields. A case is made small only as long as this stays."""
        return sort_of(self.got), sort_of(self.wanted)


def sort_of(outcome: Outcome | None) -> str:
    """The kind of outcome: the status and the beginning of the last line of standard error."""
    if outcome is None:
        return "no end"
    last = outcome.error.decode("latin-1").strip().split("\n")[-1].split(" ")
    return f"status {outcome.status} {' '.join(last[:3])}".strip()


class Comparison:
    """Compares one program with the reference, in a folder for the files of the cases."""

    def __init__(self, program: Path, folder: Path) -> None:
        self.program = program
        self.folder = folder

    def got(self, case: Case) -> Outcome | None:
        files = {"source.balsa": case.source}
        if case.word != "check":
            files["stimulus"] = case.stimulus
        if case.word == "replay":
            files["trace"] = case.trace
        for name, content in files.items():
            (self.folder / name).write_bytes(content)
        try:
            done = subprocess.run([self.program, case.word, *files], cwd=self.folder, input=case.script,
                                  capture_output=True, timeout=SECONDS_OF_A_CASE)
        except subprocess.TimeoutExpired:
            return None
        return Outcome(done.stdout, done.stderr, done.returncode)

    def wanted(self, case: Case) -> Outcome:
        if case.word == "check":
            return debugger.check(case.source)
        if case.word == "replay":
            return debugger.replay(case.source, case.stimulus, lambda: case.trace)
        return debugger.debug(case.source, case.stimulus, case.script)

    def difference(self, case: Case) -> Difference | None:
        got, wanted = self.got(case), self.wanted(case)
        return None if got == wanted else Difference(got, wanted)

    def smaller(self, case: Case, sort: tuple[str, str]) -> Case:
        """The case with pieces left out, as long as it differs in the same sort."""
        end = time.monotonic() + SECONDS_TO_SHRINK
        for part, piece in PASSES:
            size = len(piece.findall(getattr(case, part)))
            while size:
                size //= 2
                case = self.without_runs(case, part, piece, max(1, size), sort, end)
        return case

    def without_runs(
        self, case: Case, part: str, piece: re.Pattern[bytes], size: int, sort: tuple[str, str], end: float
    ) -> Case:
        """Leaves out each run of so many pieces that the difference does not need."""
        pieces, at = piece.findall(getattr(case, part)), 0
        while at < len(pieces) and time.monotonic() < end:
            fewer = pieces[:at] + pieces[at + size :]
            less = replace(case, **{part: b"".join(fewer)})
            found = self.difference(less)
            if found is not None and found.sort() == sort:
                case, pieces = less, fewer
            else:
                at += size
        return case


def shown(text: bytes) -> str:
    line = repr(text)[2:-1]
    return line if len(line) <= SHOWN else f"{line[:SHOWN]} .. ({len(text)} bytes)"


def outcome_lines(outcome: Outcome | None) -> list[str]:
    if outcome is None:
        return [f"    not ended after {SECONDS_OF_A_CASE} seconds"]
    written = {"standard output": outcome.output, "standard error": outcome.error}
    return [f"    {name}: {shown(text)}" for name, text in written.items()] + [f"    status: {outcome.status}"]


def report(comparison: Comparison, kind: str, seed: int, case: Case, found: Difference) -> None:
    """Prints the difference, made small where the program ends."""
    small = case if found.got is None else comparison.smaller(case, found.sort())
    found = comparison.difference(small) or found
    lines = [f"FAILED {kind}, seed {seed}: {case.word}"]
    texts = {"source": small.source, "stimulus": small.stimulus, "script": small.script, "trace": small.trace}
    lines += [f"  {name}: {shown(text)}" for name, text in texts.items() if text]
    lines += ["  wanted", *outcome_lines(found.wanted), "  got", *outcome_lines(found.got)]
    print("\n".join(lines), flush=True)


@dataclass
class Tally:
    """What was run so far: cases by kind, kinds with the outcomes of the reference, failures, sorts of differences."""

    kinds: Counter[str] = field(default_factory=Counter)
    outcomes: Counter[str] = field(default_factory=Counter)
    failed: int = 0
    seen: Counter[tuple[str, str]] = field(default_factory=Counter)


def judge(comparison: Comparison, kind: str, seed: int, tally: Tally) -> None:
    """Runs one case. The first few differences of each sort are printed. A reference that breaks down is a failure
    too."""
    tally.kinds[kind] += 1
    try:
        case = case_of(kind, seed)
        wanted = comparison.wanted(case)
    except Exception:
        tally.failed += 1
        print(f"FAILED {kind}, seed {seed}: the reference broke down\n{traceback.format_exc(limit=-3)}", flush=True)
        return
    tally.outcomes[f"{kind}: {sort_of(wanted)}"] += 1
    got = comparison.got(case)
    if got != wanted:
        found = Difference(got, wanted)
        tally.failed += 1
        tally.seen[found.sort()] += 1
        if tally.seen[found.sort()] <= MOST_SHOWN:
            report(comparison, kind, seed, case, found)


def compare(comparison: Comparison, asked: argparse.Namespace) -> int:
    """Goes through the kinds, seed after seed, until the time or the cases are used up."""
    end, tally = time.monotonic() + asked.seconds, Tally()
    places = ((seed, kind) for seed in count(asked.seed) for kind in asked.kinds or kinds_at(seed))
    for seed, kind in islice(places, asked.cases):
        if time.monotonic() > end:
            break
        judge(comparison, kind, seed, tally)
    if asked.outcomes:
        print("\n".join(f"{number:7} {outcome}" for outcome, number in sorted(tally.outcomes.items())))
    print(", ".join(f"{kind} {number}" for kind, number in tally.kinds.items()))
    print(f"{tally.kinds.total() - tally.failed} passed, {tally.failed} failed")
    return 1 if tally.failed or not tally.kinds else 0


def asked_for() -> argparse.Namespace:
    parser = argparse.ArgumentParser(prog="compare", description="Compares a program with the reference.")
    parser.add_argument("program", type=Path, help="path of the built program")
    parser.add_argument("--seconds", type=float, default=60, help="how long to go on (60)")
    parser.add_argument("--seed", type=int, default=1, help="the first seed (1)")
    parser.add_argument("--cases", type=int, default=None, help="stop after so many cases")
    parser.add_argument("--kinds", nargs="+", choices=list(KINDS), default=[], metavar="KIND",
                        help="of " + ", ".join(KINDS))
    parser.add_argument("--outcomes", action="store_true", help="print how often each kind had which outcome")
    asked = parser.parse_args()
    asked.program = asked.program.resolve()
    if not os.access(asked.program, os.X_OK) or asked.program.is_dir():
        parser.error(f"no executable file {asked.program}")
    return asked


def main() -> int:
    try:
        asked = asked_for()
    except SystemExit as ended:
        return int(ended.code or 0)
    with tempfile.TemporaryDirectory(prefix="balsadbg-") as folder:
        return compare(Comparison(asked.program, Path(folder)), asked)
