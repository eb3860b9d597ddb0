"""Runs the program on the huge texts, judges each run, and prints a row for each kind."""

from __future__ import annotations

import argparse
import hashlib
import json
import os
import tempfile
from collections.abc import Iterator
from dataclasses import asdict, dataclass
from itertools import groupby
from pathlib import Path

from .expected import Expected, NoShape, expected
from .limits import MB, OWN, PROMISED, most_times, without_text
from .running import Launcher, Took, beginning, files_of, is_file
from .scripts import scripts
from .sources import sources
from .stimuli import stimuli
from .text import Text
from .traces import traces

MOST_SECONDS = 10
# What else may be wanted of addresses than what is judged, so that the figure of a run that takes too much is known.
ADDRESSES = 256 * MB


@dataclass(frozen=True)
class Judged:
    """A run, with how many times its size it may take, and what is wrong with it."""

    text: str
    size: int
    seconds: float
    memory: int
    most: float
    faults: list[str]

    def times(self) -> float:
        return self.memory / self.size


def faults_of(took: Took, wanted: Expected, size: int, most: float, folder: Path) -> list[str]:
    """What a run did that it should not have done."""
    faults = []
    if took.status != wanted.status:
        faults.append(f"status {took.status} in place of {wanted.status}")
    if not is_file(folder / "error", [wanted.error]):
        faults.append(f"standard error is {beginning(folder / 'error')} in place of {wanted.error.decode().strip()}")
    if not is_file(folder / "output", wanted.blocks()):
        faults.append(f"standard output differs: {beginning(folder / 'output')}")
    if took.seconds > MOST_SECONDS:
        faults.append(f"{took.seconds:.1f} seconds")
    if took.memory > most * size + OWN:
        faults.append(f"{took.memory / size:.1f} times the memory of the text, where {most:g} are the most")
    return faults


def judge(launcher: Launcher, text: Text, asked: argparse.Namespace, folder: Path) -> Judged:
    count, most = text.count(asked.size), most_times(text, asked.times)
    size = text.size(count)
    try:
        wanted = expected(text, asked.size)
    except NoShape as found:
        return Judged(text.name, size, 0, 0, most, [f"no answer is known: {found}"])
    took = launcher.run(files_of(text, count, folder))
    faults = faults_of(took, wanted, size, most, folder)
    for name in ("output", text.part):
        (folder / name).unlink()
    return Judged(text.name, size, took.seconds, took.memory, most, faults)


class Kept:
    """The runs of this program that were judged before by the same limit, in a file with a line for each."""

    def __init__(self, program: Path, size: int, path: Path | None) -> None:
        self.path = path
        self.key = [hashlib.sha256(program.read_bytes()).hexdigest()[:16], size]
        self.runs: dict[tuple[str, ...], Judged] = {}
        if path is not None and path.exists():
            for line in path.read_text().splitlines():
                told = json.loads(line)
                if told["of"] == self.key:
                    self.runs[tuple(told["text"])] = Judged(**told["run"])

    def found(self, text: Text, most: float) -> Judged | None:
        judged = self.runs.get((text.kind, text.name))
        return judged if judged is not None and judged.most == most else None

    def keep(self, text: Text, judged: Judged) -> None:
        if self.path is not None:
            with open(self.path, "a") as file:
                file.write(json.dumps({"of": self.key, "text": [text.kind, text.name], "run": asdict(judged)}) + "\n")


def row(kind: str, runs: list[Judged]) -> str:
    """The figures of a kind: how many texts, how many failed, and the dearest by time and by memory."""
    slow, large = max(runs, key=lambda one: one.seconds), max(runs, key=Judged.times)
    failed = sum(bool(one.faults) for one in runs)
    seconds, times = f"{slow.seconds:.2f} | {slow.text}", f"{large.times():.1f} | {large.most:g} | {large.text}"
    return f"| {kind} | {len(runs)} | {failed} | {seconds} | {times} |"


def all_texts(size: int) -> list[Text]:
    return sources(size) + stimuli(size) + scripts(size) + traces(size)


def judged_texts(asked: argparse.Namespace, texts: list[Text], folder: Path) -> Iterator[tuple[Text, Judged]]:
    kept, launcher = Kept(asked.program, asked.size, asked.kept), Launcher(asked.program, folder, asked.room)
    for text in texts:
        judged = kept.found(text, most_times(text, asked.times))
        if judged is None:
            judged = judge(launcher, text, asked, folder)
            kept.keep(text, judged)
        yield text, judged


def go_through(asked: argparse.Namespace, folder: Path) -> int:
    passed = failed = 0
    texts = all_texts(asked.size)
    for kind, name in without_text(texts):
        failed += 1
        print(f"FAILED {kind}, {name}: there is no such text, and limits.py names it", flush=True)
    print("| Kind | Texts | Failed | Seconds | of | Times the size | allowed | of |\n|---|---|---|---|---|---|---|---|", flush=True)
    judged = judged_texts(asked, [text for text in texts if asked.only in text.kind or asked.only in text.name], folder)
    for kind, some in groupby(judged, key=lambda pair: pair[0].kind):
        runs = []
        for _, one in some:
            runs.append(one)
            if one.faults or asked.all:
                print(f"{'FAILED' if one.faults else 'passed'} {kind}, {one.text}: {one.size / MB:.0f} MB, {one.seconds:.2f} s, "
                      f"{one.times():.1f} times; {'; '.join(one.faults)}", flush=True)
        print(row(kind, runs), flush=True)
        failed += sum(bool(one.faults) for one in runs)
        passed += sum(not one.faults for one in runs)
    print(f"{passed} passed, {failed} failed")
    return 1 if failed or not passed else 0


def asked_for() -> argparse.Namespace:
    parser = argparse.ArgumentParser(prog="run", description="Gives the program huge texts.")
    parser.add_argument("program", type=Path, help="path of the built program")
    parser.add_argument("--size", type=float, default=100, help="of each text, in MB (100)")
    parser.add_argument("--only", default="", metavar="WORD", help="only texts whose kind or name has it")
    parser.add_argument("--kept", type=Path, metavar="FILE", help="take runs of this program from the file, and add new ones")
    parser.add_argument("--room", type=float, default=4000, help="the most memory that a run may ask for, in MB (4000)")
    parser.add_argument("--times", type=float, default=PROMISED, help="how many times its size a text may take of memory (8)")
    parser.add_argument("--all", action="store_true", help="print a line for each text")
    asked = parser.parse_args()
    asked.program = asked.program.resolve()
    if not os.access(asked.program, os.X_OK) or asked.program.is_dir():
        parser.error(f"no executable file {asked.program}")
    asked.size, asked.room = int(asked.size * MB), int(asked.room * MB) + ADDRESSES
    return asked


def main() -> int:
    try:
        asked = asked_for()
    except SystemExit as ended:
        return int(ended.code or 0)
    shared = "/dev/shm" if os.access("/dev/shm", os.W_OK) else None
    with tempfile.TemporaryDirectory(prefix="balsadbg-", dir=shared) as folder:
        return go_through(asked, Path(folder))
