"""Random lines of a shell: those of a script, the words that a shell has beside them, and both as people type them."""

from __future__ import annotations

from copy import copy
from random import Random

from reference.shell import Bench, Deed, Quit, Slip

from .circuits import circuits
from .scripts import BROKEN_LINES, ScriptWriter, desk_for
from .threads import threads

QUESTIONS = [
    "waiting", "outline", "vars", "list", "list 1", "list 3", "list 0", "list 99999", "list x", "show", "show 0", "why", "why zz",
    "help", "help step", "help run", "help zz", "help help", "waiting 1", "outline 1", "vars 1",
]
SLIPS = [
    "redy", "stp /0.0", "runn", "bak", "next x", "next 4294967296", "n -1", "run x", "run -1", "run 01", "back x", "back 1 2", "undo x",
    "00", "01", "18446744073709551616", "-1", "1 2", "quit now", "save", "load", "script", "save a b", "valu x", "?", "exit", "q",
    "value nobody", "blame nobody", "rollvalue nobody", "session 16", "break", "clear x", "load nowhere", "\t", "   ", "\r",
    "R 1", "ready 1", "save! ", "run 1 2", "help run run", "x" * 3000, "step " + "/0" * 3000,
]
# How often a session has which lines.
MIXES = [
    {"script": 30, "number": 25, "run": 6, "next": 12, "back": 8, "question": 6, "slip": 6, "file": 4, "blank": 3},
    {"script": 15, "number": 5, "run": 25, "next": 20, "back": 25, "question": 3, "slip": 3, "file": 4, "blank": 0},
    {"script": 60, "number": 5, "run": 4, "next": 6, "back": 6, "question": 6, "slip": 10, "file": 1, "blank": 2},
    {"script": 10, "number": 60, "run": 3, "next": 5, "back": 12, "question": 2, "slip": 2, "file": 6, "blank": 0},
]
FILES = ["one", "two", "three"]
# A run without a bound is typed where it ends after so many steps at most.
MOST_STEPS = 80
# Of a run of more steps than so many the first and the last are told, so many each, and of a way back the first.
MOST_TOLD, TOLD_AT_ENDS = 60, 20


class ShellWriter(ScriptWriter):
    """Writes lines, and does what each asks at a bench to know what is possible behind it."""

    def __init__(self, random: Random, bench: Bench) -> None:
        super().__init__(random, bench.desk)
        self.bench = bench

    def plain(self) -> str:
        """A line of a script."""
        mix = {"step": 40, "branch": 15, "undo": 12, "roll": 5, "tell": 14, "mark": 8, "session": 3, "view": 3}
        return getattr(self, self.kind(mix))()

    def number(self) -> str:
        """Mostly a number of a step that can still be taken, behind `ready` where none was numbered."""
        count = len(self.bench.numbered)
        if self.random.random() < 0.05:
            return str(self.random.randint(0, 3))
        ready = self.desk.machine.ready()
        able = [at for at, event in enumerate(self.bench.numbered, 1) if event in ready]
        if not able or self.random.random() < 0.1:
            return self.random.choice(["r", "ready", "r", str(self.random.randint(0, count + 2))])
        return str(self.random.choice(able))

    def ends_soon(self) -> bool:
        """Whether a run ends by itself after some steps."""
        bench = copy(self.bench)
        bench.desk = copy(self.desk)
        bench.desk.machine = copy(self.desk.machine)
        bench.desk.machine.live = list(self.desk.machine.live)
        return bench.run(MOST_STEPS).end != "enough"

    def run(self) -> str:
        if self.random.random() < 0.4 and self.ends_soon():
            return self.random.choice(["run", "run", f"run {2**64 - 1}"])
        return f"run {self.random.choice([0, 1, 1, 2, 3, 5, 20, 61, 70])}"

    def next(self) -> str:
        word = self.random.choice(["next", "n"])
        if self.random.random() < 0.5:
            return word
        return f"{word} {self.random.choice([*range(len(self.desk.branches) + 1), 2**32 - 1])}"

    def back(self) -> str:
        return self.random.choice(["undo", "back", "back 1", "back 2", "back 3", "back 0", "back 10", f"back {2**64 - 1}"])

    def question(self) -> str:
        word = self.random.choice(["why", "show", "any", "any"])
        if word == "why":
            return f"why {self.random.choice([self.name(), str(self.ticket())])}"
        return f"show {self.ticket()}" if word == "show" else self.random.choice(QUESTIONS)

    def slip(self) -> str:
        return self.random.choice(SLIPS if self.random.random() < 0.6 else [line for line in BROKEN_LINES if "\0" not in line])

    def file(self) -> str:
        word = self.random.choice(["save", "save!", "load", "load", "script", "script!"])
        return f"{word} {self.random.choice(FILES)}"

    def blank(self) -> str:
        return self.random.choice(["", " ", "\t", "\r"])

    def as_typed(self, line: str) -> str:
        """The line with blanks and capitals that are forgiven, now and then."""
        if self.random.random() > 0.15 or not line.strip() or not line.isascii():
            return line
        word, *fields = line.split(" ")
        word = self.random.choice([word, word.upper(), word.capitalize()])
        gaps = [self.random.choice([" ", "  ", "\t", " \t "]) for _ in fields]
        typed = word + "".join(gap + one for gap, one in zip(gaps, fields))
        return self.random.choice(["", " ", "\t"]) + typed + self.random.choice(["", " ", "\r", " \r"])

    def line(self, mix: dict[str, int]) -> bytes:
        kind = self.random.choices(list(mix), list(mix.values()))[0]
        line = self.plain() if kind == "script" else getattr(self, kind)()
        return self.as_typed(line).encode("latin-1")


def session_for(random: Random) -> tuple[bytes, bytes, Bench, ShellWriter]:
    """A source and a stimulus that are accepted, a bench on them, and who writes lines for it."""
    while True:
        source, stimulus = threads(random) if random.random() < 0.4 else circuits(random)
        desk = desk_for(source, stimulus)
        if desk is not None:
            bench = Bench(desk.machine.system, source)
            return source, stimulus, bench, ShellWriter(random, bench)


def done_at(bench: Bench, line: bytes) -> list[str]:
    """The lines of a script's answers that a line is answered by, before what is said in words."""
    try:
        deed = bench.perform(line)
    except (Slip, Quit):
        return []
    return told(deed)


def told(deed: Deed) -> list[str]:
    """The answers that are written: of many steps those of the first and the last, of many that are taken back those of the first."""
    answers = [answer for asked in deed.asked for answer in asked.answer]
    steps = sum(asked.has_stepped for asked in deed.asked)
    back = sum(asked.has_undone for asked in deed.asked)
    if back > MOST_TOLD:
        return [*answers[:TOLD_AT_ENDS], f"  .. {back - TOLD_AT_ENDS} more steps", *answers[back:]]
    if steps <= MOST_TOLD:
        return answers
    left_out = f"  .. {steps - 2 * TOLD_AT_ENDS} more steps, which `live` lists"
    return [*answers[:TOLD_AT_ENDS], left_out, *answers[steps - TOLD_AT_ENDS :]]
