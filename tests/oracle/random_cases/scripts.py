"""Random scripts, led by the reference: most of their steps are possible, and most of their tickets live."""

from __future__ import annotations

from random import Random

from reference.debugger import accept
from reference.events import depends_directly
from reference.faults import Refused
from reference.places import text_of
from reference.script import BadLine, answer
from reference.sessions import SESSIONS, Desk

from .mutations import mutate_bytes

ODD_NAMES = ["x", "1:x", "2:x", "1:1:x", "i", "zz"]
ODD_STEPS = [
    "/0", "/0.0", "/0/1", "/1.0", "/1.0.0", "/2.0", ".0", "/0.1", "/0/0.0", "/0/1.0", "/0/0", "/0/0.1"
]
ODD_LINES = [0, 1, 2, 3, 99, 100000, 2**64 - 1]
BROKEN_LINES = [
    "", "", "step", "step ", "step 0", "step /", "step /0.", "step /00", "step  /0", "step /0 ", "step /0 0 0",
    "step /0 x", "step /0 01", "step /4294967296", "step /4294967295", "step /0 4294967296", "step /0 4294967295",
    "undo", "undo 0", "undo 00", "undo x", "undo 1 1", "undo 18446744073709551616", "undo 18446744073709551615",
    "live ", "live 1", " live", "value", "value ", "value 1", "value x y", "value :x", "value 1:", "value 01:x",
    "ready", "ready 1", "roll 1", "roll", "rollvalue x", "blame x", "consequences 1", "consequences",
    "session", "session ", "session 1", "session 15", "session 16", "session 015", "session 00", "session -1",
    "session 1 1", "session x", "session 18446744073709551616", "branch", "branch 0", "branch 00", "branch -1",
    "branch 4294967295", "branch 4294967296", "branch 0 0", "branch /0", "break", "break 0", "break 1", "break 01",
    "break 18446744073709551615", "break 18446744073709551616", "break -1", "break 1 2", "clear", "clear 0", "clear 1",
    "clear 18446744073709551615", "clear 18446744073709551616", "clear x", "view", "view ", "view 1", "view x", "View",
    "trace", "trace 1", "Live", "live\r", "\r", "step ./0", "step /0/", "step /-1", "step /+1", "undo -1",
    "undo 1.0", "\0", "\xff", "step .0", "step 0/0", "value 1:x\r", "live\t", "step /0.0\t0", "value " + "x" * 300,
    "step /" + "0/" * 300 + "0", "step " + "/0" * 5000, "x" * 5000,
]
EDITS = [
    (b"0", b"00"), (b"1", b"2"), (b".", b"/"), (b"/", b"."), (b"0", b""), (b"1", b"4294967296"),
    (b"0", b"4294967295"), (b"/", b" "),
]
# Of what depends on one event, at most so many are undone one by one.
MOST_UNDOS = 60
ODD_FIELDS = [b"", b"0", b"1", b"x", b"live", b"-1", b"01"]

# How often a script has which lines: mostly steps, or more and more of the others.
MIXES = [
    {"step": 85, "undo": 6, "tell": 4, "view": 5},
    {"step": 60, "branch": 8, "undo": 10, "roll": 4, "tell": 8, "mark": 3, "session": 2, "view": 5},
    {"step": 12, "branch": 55, "undo": 5, "roll": 2, "tell": 4, "mark": 12, "session": 4, "view": 6},
    {"step": 30, "branch": 25, "undo": 14, "roll": 6, "tell": 8, "mark": 8, "session": 4, "view": 5},
]


def desk_for(source: bytes, stimulus: bytes) -> Desk | None:
    """A desk, if source and stimulus are accepted."""
    try:
        return Desk(accept(source, stimulus), source)
    except Refused:
        return None


class ScriptWriter:
    """Writes lines, and answers each on a desk to know what is possible behind it."""

    def __init__(self, random: Random, desk: Desk) -> None:
        self.random = random
        self.desk = desk
        self.names = [variable.name for variable in desk.machine.system.variables]
        self.begun = sorted(desk.lines)
        self.lines: list[bytes] = []

    # Lines of a kind

    def step(self) -> str:
        ready = self.desk.machine.ready()
        if not ready or self.random.random() > 0.95:
            return "step " + self.random.choice(ODD_STEPS)
        event = self.random.choice(ready)
        place = event.acting if self.random.random() < 0.96 else self.random.choice(event.places)
        arm = f" {event.arm}" if event.arm and self.random.random() < 0.95 else self.random.choice(["", "", "", " 0"])
        return f"step {text_of(place)}{arm}"

    def branch(self) -> str:
        """Mostly a branch that has something to do, at times one behind the last."""
        if self.random.random() < 0.3:
            return f"branch {self.random.choice([*range(len(self.desk.branches) + 2), 2**32 - 1])}"
        able = [number for number in range(len(self.desk.branches)) if self.desk.ready_in(number)]
        return f"branch {self.random.choice(able or [0])}"

    def ticket(self) -> int:
        live = self.desk.machine.live
        if not live or self.random.random() > 0.92:
            return self.random.choice([0, 1, 2, 3, 99])
        return self.random.choice(live).ticket

    def undo(self) -> str:
        """At times of an event that nothing needs."""
        live = self.desk.machine.live
        if self.random.random() < 0.5:
            needed = lambda at: any(depends_directly(live[at].event, later.event) for later in live[at + 1 :])
            free = [entry.ticket for at, entry in enumerate(live) if not needed(at)]
            return f"undo {self.random.choice(free or [1])}"
        return f"undo {self.ticket()}"

    def name(self) -> str:
        return self.random.choice(self.names if self.names and self.random.random() < 0.99 else ODD_NAMES)

    def roll(self) -> str:
        return f"rollvalue {self.name()}" if self.random.random() < 0.4 else f"roll {self.ticket()}"

    def tell(self) -> str:
        word = self.random.choice(["live", "ready", "trace", "value", "value", "blame", "consequences"])
        if word in ("live", "ready", "trace"):
            return word
        return f"{word} {self.ticket() if word == 'consequences' else self.name()}"

    def source_line(self) -> int:
        """Mostly a line with a command, often one on which something is possible now."""
        chance = self.random.random()
        acting = [event.line for event in self.desk.machine.ready() if event.line is not None]
        if acting and chance < 0.4:
            return self.random.choice(acting)
        if chance < 0.8:
            return self.random.choice(self.begun)
        return self.random.choice([*ODD_LINES, *range(self.begun[-1] + 3)])

    def mark(self) -> str:
        stops = sorted(self.desk.stops)
        if stops and self.random.random() < 0.3:
            return f"clear {self.random.choice(stops)}"
        return f"{self.random.choice(['break', 'break', 'break', 'clear'])} {self.source_line()}"

    def session(self) -> str:
        return f"session {self.random.choice([0, 0, 1, 2, SESSIONS - 1])}"

    def view(self) -> str:
        return "view"

    # Scripts

    def add(self, line: str) -> bool:
        """Adds the line; false where the program ends with it."""
        self.lines.append(line.encode("latin-1"))
        try:
            if line:
                answer(self.desk, self.lines[-1])
        except BadLine:
            return False
        return True

    def kind(self, mix: dict[str, int]) -> str:
        """A kind of the mix: mostly back where nothing is possible, and often the view where arms of selects are."""
        ready = self.desk.machine.ready()
        selects = [event.acting for event in ready if event.opens_select]
        if len(selects) > 1 and self.random.random() < 0.2 * len(set(selects)):
            return "view"
        if not ready and self.random.random() < 0.6:
            return self.random.choice(["undo", "undo", "roll"])
        return self.random.choices(list(mix), list(mix.values()))[0]

    def add_some(self, count: int, broken: float) -> None:
        """Adds lines until one ends the program, or now and then behind it too."""
        mix = self.random.choice(MIXES)
        for _ in range(count):
            line = getattr(self, self.kind(mix))()
            if self.random.random() < broken:
                line = self.random.choice(BROKEN_LINES)
            if not self.add(line) and self.random.random() < 0.8:
                return

    def step_often(self, count: int) -> None:
        """Steps of what is ready, by place or by branch, until so many were asked for or nothing is ready."""
        for _ in range(count):
            if not self.desk.machine.ready():
                return
            self.add(self.branch() if self.random.random() < 0.1 else self.step())

    def take_back(self) -> None:
        """An event and all that depend on it: by a rollback, or by an undo each, in a random order that respects dependence."""
        live = self.desk.machine.live
        from_last = self.random.choice([10, 100, 400, len(live)])
        chosen = self.random.choice(live[-from_last:])
        left = self.desk.machine.closure(chosen.ticket)
        if len(left) > MOST_UNDOS or self.random.random() < 0.3:
            self.add(f"consequences {chosen.ticket}")
            self.add(f"roll {chosen.ticket}")
            return
        self.add(f"undo {chosen.ticket}")
        while chosen in self.desk.machine.live:
            needed = lambda one: any(depends_directly(one.event, other.event) for other in left if other.ticket > one.ticket)
            gone = self.random.choice([one for one in left if not needed(one)])
            left.remove(gone)
            self.add(f"undo {gone.ticket}")

    def add_long_run(self, count: int) -> None:
        """Steps as often as `count` says, some taken back in between, in a few rounds."""
        for _ in range(self.random.choice([2, 4, 8])):
            self.step_often(count)
            for _ in range(self.random.choice([1, 5, 20])):
                if self.desk.machine.live:
                    self.take_back()
            self.add_ends()

    def add_many_breakpoints(self) -> None:
        """Breakpoints on lines with commands and some others, more than a session may have if there are so many."""
        lines = self.begun + self.random.sample(range(self.begun[-1] + 2), self.random.randint(1, self.begun[-1]))
        for line in self.random.sample(lines, min(len(lines), self.random.choice([3, 10, 40, 100]))):
            self.add(f"break {line}")

    def add_ends(self) -> None:
        """What stands at the end of a script, so that a state that is wrong shows."""
        for line in ["live", "ready", "view", "trace", *(f"value {name}" for name in self.names)]:
            self.add(line)

    def script(self) -> bytes:
        return b"".join(line + b"\n" for line in self.lines)


def script_for(random: Random, source: bytes, stimulus: bytes) -> bytes:
    """A short script, sometimes with broken lines, for any source."""
    desk = desk_for(source, stimulus)
    if desk is None:
        lines = [random.choice(BROKEN_LINES).encode("latin-1") for _ in range(random.choice([0, 0, 1, 2]))]
        return b"".join(line + b"\n" for line in lines)
    writer = ScriptWriter(random, desk)
    writer.add_some(random.choice([0, 2, 5, 10, 20, 30]), random.choice([0, 0, 0, 0.02, 0.1]))
    script = b"\n".join(writer.lines) + random.choice([b"", b"\n", b"\n", b"\n"])
    return mutate_bytes(random, script) if random.random() < 0.03 else script


def long_script(random: Random, source: bytes, stimulus: bytes, counts: list[int]) -> bytes:
    """A script of right lines, which ends with all that can be told."""
    desk = desk_for(source, stimulus)
    if desk is None:
        return b"live\n"
    writer = ScriptWriter(random, desk)
    writer.add_some(random.choice(counts), 0)
    writer.add_ends()
    return writer.script()


def script_of_long_run(random: Random, source: bytes, stimulus: bytes, count: int) -> bytes:
    """Rounds of so many steps, with undos and rollbacks between them."""
    desk = desk_for(source, stimulus)
    if desk is None:
        return b"live\n"
    writer = ScriptWriter(random, desk)
    writer.add_long_run(count)
    return writer.script()


def script_of_breakpoints(random: Random, source: bytes, stimulus: bytes) -> bytes:
    """Breakpoints in several sessions, steps of branches between them, and views."""
    desk = desk_for(source, stimulus)
    if desk is None:
        return b"live\n"
    writer = ScriptWriter(random, desk)
    for session in random.sample(range(SESSIONS), random.choice([1, 1, 2, 3])):
        writer.add(f"session {session}")
        writer.add_many_breakpoints()
        writer.add("view")
        writer.add_some(random.choice([5, 20]), 0)
    writer.add_ends()
    return writer.script()


def twisted_script(random: Random, script: bytes) -> bytes:
    """A script with one or two lines changed."""
    lines = script.split(b"\n")
    for _ in range(random.choice([1, 1, 2])):
        at = random.randrange(len(lines))
        match random.randrange(5):
            case 0:
                lines.insert(at, random.choice(BROKEN_LINES).encode("latin-1"))
            case 1:
                lines[at] = mutate_bytes(random, lines[at])
            case 2:
                lines[at] = lines[at].replace(*random.choice(EDITS), 1)
            case 3:
                fields = lines[at].split(b" ")
                fields.insert(random.randrange(len(fields) + 1), random.choice(ODD_FIELDS))
                lines[at] = b" ".join(fields)
            case 4:
                lines = lines[: at + 1]
                lines[at] = lines[at][: random.randrange(len(lines[at]) + 1)]
    return b"\n".join(lines)
