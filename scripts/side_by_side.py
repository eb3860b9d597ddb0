"""Commands that test something, side by side: for scripts/quick and scripts/suites.

What a part prints comes when it has ended. The last line counts all of them.
"""

import os
import re
import signal
import subprocess
import sys
import tempfile
import time
from collections.abc import Callable
from contextlib import suppress
from dataclasses import dataclass
from pathlib import Path

TOP = Path(__file__).resolve().parent.parent
LOOK_EVERY = 0.2
STOP_SECONDS = 5
COUNTS = re.compile(r"^(\d+) passed, (\d+) failed$")
# The part that makes the trial program, and where it can the quick one. It counts as one test.
TRIAL = "trial program"


class Stopped(Exception):
    """This script is told to stop, by the signal with this number."""


def stop(number: int, _) -> None:
    raise Stopped(number)


@dataclass
class Part:
    """A command that tests something. Where its words come from a function, it needs the trial program, and waits until that
    stands: only then it is known what there is to be tested."""

    name: str
    words: list[str] | Callable[[], list[str]]
    began: float = 0.0
    output: Path | None = None
    process: subprocess.Popen | None = None

    @property
    def needs_trial(self) -> bool:
        return callable(self.words)

    def begin(self, room: Path, limits: dict[str, str]) -> None:
        self.began = time.monotonic()
        self.output = room / self.name.replace("/", "-")
        words = self.words() if callable(self.words) else self.words
        with open(self.output, "wb") as file:
            how = {"cwd": TOP, "stdin": subprocess.DEVNULL, "stdout": file, "stderr": subprocess.STDOUT}
            self.process = subprocess.Popen(words, env={**os.environ, **limits}, process_group=0, **how)

    def end(self) -> None:
        """Stops it, with what it has started. It gets some time to take away its files."""
        os.killpg(self.process.pid, signal.SIGINT)
        with suppress(subprocess.TimeoutExpired):
            self.process.wait(STOP_SECONDS)
        with suppress(ProcessLookupError):
            os.killpg(self.process.pid, signal.SIGKILL)
        self.process.wait()

    def counts(self) -> tuple[int, int]:
        """How much has passed and failed. Where that is not its last line, it has passed or failed as a whole."""
        lines = self.output.read_text(errors="replace").splitlines()
        if found := COUNTS.match(lines[-1] if lines else ""):
            passed, failed = int(found[1]), int(found[2])
            return passed, failed or int(self.process.returncode != 0)
        return (1, 0) if self.process.returncode == 0 and self.name == TRIAL else (0, 1)


def tell(part: Part) -> tuple[int, int]:
    """Prints what the part has printed, once it has ended."""
    print(f"== {part.name} ({time.monotonic() - part.began:.0f} s)", flush=True)
    sys.stdout.buffer.write(part.output.read_bytes())
    sys.stdout.flush()
    return part.counts()


def run(waiting: list[Part], room: Path, limits: dict[str, str]) -> dict[str, tuple[int, int]]:
    """Runs the parts side by side, one a processor, and counts what each has tested."""
    counts: dict[str, tuple[int, int]] = {}
    running: list[Part] = []
    try:
        while waiting or running:
            has_trial = counts.get(TRIAL) == (1, 0)
            for part in [it for it in waiting if has_trial or not it.needs_trial]:
                if len(running) < len(os.sched_getaffinity(0)):
                    waiting.remove(part)
                    part.begin(room, limits)
                    running.append(part)
            for part in [it for it in running if it.process.poll() is not None]:
                running.remove(part)
                counts[part.name] = tell(part)
            if counts.get(TRIAL, (1, 0)) != (1, 0):
                counts |= {it.name: (0, 1) for it in waiting if it.needs_trial}
                waiting = [it for it in waiting if not it.needs_trial]
            time.sleep(LOOK_EVERY)
    finally:
        for part in running:
            part.end()
    return counts


def summed(names: list[str], counts: dict[str, tuple[int, int]]) -> dict[str, tuple[int, int]]:
    """The counts in the order of the names, those of parts with the same first word as one."""
    found: dict[str, tuple[int, int]] = {}
    for name in names:
        word, (passed, failed) = name.split(" ")[0], counts[name]
        before = found.get(word, (0, 0))
        found[word] = before[0] + passed, before[1] + failed
    return found


def tell_all(parts: list[Part], limits: dict[str, str]) -> tuple[int, int]:
    """Runs the parts, prints a line with what each has counted, and answers how much has passed and failed in all of them. A
    signal ends this program, and its parts with it."""
    for number in (signal.SIGHUP, signal.SIGINT, signal.SIGTERM):
        if signal.getsignal(number) is not signal.SIG_IGN:
            signal.signal(number, stop)
    names = [it.name for it in parts]
    began = time.monotonic()
    try:
        with tempfile.TemporaryDirectory(prefix="balsadbg-tests-") as room:
            counts = summed(names, run(parts, Path(room), limits))
    except Stopped as stopped:
        number = stopped.args[0]
        signal.signal(number, signal.SIG_DFL)
        signal.raise_signal(number)
        raise
    told = ", ".join(f"{name} {passed} and {failed}" for name, (passed, failed) in counts.items())
    print(f"{time.monotonic() - began:.0f} seconds; passed and failed: {told}")
    return tuple(sum(it[at] for it in counts.values()) for at in (0, 1))
