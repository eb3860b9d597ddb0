"""What a line of a shell asks of the desk: commands of a script, one after the other, and their answers.

The rules are those of the guide (docs/guide/shell.md): blanks around and between fields and capitals in the first word are
forgiven; each line of a script means what it means there; `ready` numbers the steps that it lists, and a bare number takes one of
them; `next` steps the branch that was stepped last, which of what the environment takes is that of the sender, `run` the branches
in turn, behind the one that acted last, and where the last one of the session ended at a breakpoint it goes on past that; `undo` and `back` take back the newest steps;
`save` writes the trace to a file that is not there yet, and `load` begins again behind one. What is said in words is not made here.
"""

from __future__ import annotations

from dataclasses import dataclass, field

from .elaboration import System
from .events import Event
from .faults import Refused
from .places import Address, text_of
from .script import LINES, BadLine, answer
from .sessions import Desk
from .tokens import plain_number
from .traces import load, trace_of

BLANKS = b" \t\r"
# So many steps a run takes at most where it is not said: one more than can be live.
MOST_STEPS = 65_537
# The words of which the desk knows nothing.
ASKS_NOTHING = (b"why", b"waiting", b"outline", b"vars", b"list", b"show", b"help")
# The answers behind which a run no longer goes on from its breakpoint.
MOVES = ("step", "undone", "rolled")
SAVES = (b"save", b"save!", b"script", b"script!")


class Quit(Exception):
    """The line ends the shell."""


class Slip(Exception):
    """The line is none of a shell's: it is told so, and nothing has changed."""


@dataclass
class Asked:
    """A command that was asked, as a line of a script, and its answer."""

    line: str
    answer: list[str]

    @property
    def has_stepped(self) -> bool:
        return self.answer[0].startswith("step ")

    @property
    def is_idle(self) -> bool:
        return self.answer == ["idle"]

    @property
    def has_undone(self) -> bool:
        return self.answer[0].startswith("undone ")


@dataclass
class Deed:
    """The commands of a line. `end` says how a run or a way back ended: "enough", "idle", "stopped", "refused", or "none" where
    there was nothing to take back; "unknown" where the line names what is not there."""

    asked: list[Asked] = field(default_factory=list)
    end: str = ""


def tidied(line: bytes) -> bytes:
    """The line with one space between its fields and small letters in the first. The name of a file keeps its blanks."""
    text = line.strip(BLANKS)
    word = text.replace(b"\t", b" ").replace(b"\r", b" ").partition(b" ")[0]
    if word.lower() in (*SAVES, b"load"):
        return b" ".join(one for one in (word.lower(), text[len(word) :].strip(BLANKS)) if one)
    for blank in BLANKS:
        line = line.replace(bytes([blank]), b" ")
    fields = [one for one in line.split(b" ") if one]
    return b" ".join([one.lower() if at == 0 else one for at, one in enumerate(fields)])


def number_of(text: bytes, limit: int) -> int:
    found = plain_number(text, limit)
    if found is None:
        raise Slip
    return found


class Bench:
    """A desk, the steps that were numbered last, the branch that acted last and the one that was stepped last, the line of the
    breakpoint at which a run ended and behind which nothing was stepped or taken back and no other session was at hand, and the
    files that were saved. The content of one that has the lines of the session so far is None: what it is worth is seen where it is
    run."""

    def __init__(self, system: System, source: bytes) -> None:
        self.system = system
        self.source = source
        self.desk = Desk(system, source)
        self.numbered: list[Event] = []
        self.turn: int | None = None
        self.branch: int | None = None
        self.stopped: int | None = None
        self.files: dict[bytes, bytes | None] = {}

    def perform(self, line: bytes) -> Deed:
        """What the line asks is done. Raises Slip where it asks nothing, and Quit where it ends the shell."""
        text = tidied(line)
        if not text:
            return Deed()
        word, _, rest = text.partition(b" ")
        fields = rest.split(b" ") if rest else []
        if (word, 1 + len(fields)) in LINES:
            return Deed([self.ask(text)])
        if word.isdigit() and not fields:
            return self.take(number_of(word, 2**64))
        return self.word(word, fields)

    def word(self, word: bytes, fields: list[bytes]) -> Deed:
        """A line that begins with a word which scripts have not, or not so."""
        match word, fields:
            case b"r", []:
                return Deed([self.ask(b"ready")])
            case (b"n" | b"next"), []:
                return Deed(end="unknown") if self.branch is None else Deed([self.step(self.branch)])
            case (b"n" | b"next"), [branch]:
                return Deed([self.step(number_of(branch, 2**32))])
            case b"run", []:
                return self.run(MOST_STEPS)
            case b"run", [steps]:
                return self.run(number_of(steps, 2**64))
            case (b"undo" | b"back"), []:
                return self.back(1)
            case b"back", [count]:
                return self.back(number_of(count, 2**64))
            case b"load", [_, *_]:
                return self.load(b" ".join(fields))
            case b"quit", []:
                raise Quit
        if word in SAVES and fields:
            return self.save(word, b" ".join(fields))
        if word in ASKS_NOTHING:
            return Deed()
        raise Slip

    def ask(self, line: bytes) -> Asked:
        """The answer to a line of a script."""
        before, session = self.desk.machine.live[-1:], self.desk.session
        try:
            asked = Asked(line.decode("latin-1"), answer(self.desk, line))
        except BadLine:
            raise Slip from None
        if asked.answer[0].startswith("ready "):
            self.numbered = self.desk.machine.ready()
        live = self.desk.machine.live
        if asked.has_stepped and live[-1:] != before:
            self.turn = self.branch_at(live[-1].event.acting, self.turn)
            self.branch = self.branch_at(self.stepped_at(live[-1].event), self.branch)
        if asked.answer[0].split(" ")[0] in MOVES or self.desk.session != session:
            self.stopped = None
        return asked

    def stepped_at(self, event: Event) -> Address:
        """Where the event is said to be stepped: where it acts, and of what the environment takes at the sender's place."""
        return event.moves[0].place if event.command is None else event.acting

    def branch_at(self, place: Address, otherwise: int | None) -> int | None:
        """The branch in which the place lies."""
        inside = [at for at, root in enumerate(self.desk.branches) if place[: len(root)] == root]
        return inside[0] if inside else otherwise

    def step(self, branch: int) -> Asked:
        return self.ask(b"branch %d" % branch)

    def take(self, number: int) -> Deed:
        if not 0 < number <= len(self.numbered):
            return Deed(end="unknown")
        event = self.numbered[number - 1]
        return Deed([self.ask(f"step {text_of(event.acting)} {event.arm}".encode())])

    def in_turn(self) -> Asked | None:
        """The first step that the branches have in turn, or what stops the branch whose turn it is; None where none has one."""
        count = len(self.desk.branches)
        first = 0 if self.turn is None else (self.turn + 1) % count
        for at in range(count):
            asked = self.step((first + at) % count)
            if not asked.is_idle:
                return asked
        return None

    def in_turn_past(self, line: int) -> Asked | None:
        """The same without the breakpoint on this line, which is set again."""
        self.ask(b"clear %d" % line)
        asked = self.in_turn()
        self.ask(b"break %d" % line)
        return asked

    def run(self, limit: int) -> Deed:
        done, passed = Deed(), self.stopped
        while len(done.asked) < limit:
            asked = self.in_turn_past(passed) if passed in self.desk.stops else self.in_turn()
            passed = None
            if asked is None:
                done.end = "idle"
                return done
            done.asked.append(asked)
            if not asked.has_stepped:
                done.end, _, line = asked.answer[0].partition(" ")
                if done.end == "stopped":
                    self.stopped = int(line)
                return done
        done.end = "enough"
        return done

    def back(self, count: int) -> Deed:
        done = Deed()
        while len(done.asked) < count:
            live = self.desk.machine.live
            if not live:
                done.end = "none"
                return done
            done.asked.append(self.ask(b"undo %d" % live[-1].ticket))
            if not done.asked[-1].has_undone:
                done.end = "refused"
                return done
        done.end = "enough"
        return done

    def save(self, word: bytes, name: bytes) -> Deed:
        """The trace or the lines so far are written, over a file that is there only where the word ends with `!`."""
        if name in self.files and not word.endswith(b"!"):
            return Deed(end="there already")
        trace = "".join(line + "\n" for line in trace_of(self.desk.machine)).encode()
        self.files[name] = trace if word.startswith(b"save") else None
        return Deed(end="written")

    def load(self, name: bytes) -> Deed:
        """Another desk behind the trace, with the same breakpoints; nothing where there is no such trace."""
        text = self.files.get(name)
        if text is None:
            return Deed(end="not loaded")
        try:
            machine = load(self.system, text)
        except Refused:
            return Deed(end="not loaded")
        self.desk.machine = machine
        self.numbered, self.turn, self.branch, self.stopped = [], None, None, None
        return Deed(end="loaded")
