"""What a program draws of a run, and what has to be so with drawings, waves, pages and refusals."""

from __future__ import annotations

import json
import re
import shutil
import subprocess
import tempfile
from functools import cached_property
from html.parser import HTMLParser
from pathlib import Path
from xml.etree import ElementTree

from cases import Case
from facts import Facts, ToldFacts
from lines import lane_line_faults
from marks import events_of, inks_of, marked_faults, plain_faults, quiet_faults, race_faults, taken_apart
from placed import Ground, bar_faults, column_faults, hatching_faults, placed_faults, point_faults
from reference.debugger import accept
from reference.traces import load
from standing import standing_faults
from texts import text_faults
from waves import changed_wave

TOOLS = {"vcd2fst": "the waves by GTKWave's reader", "fst2vcd": "the last values of waves", "xmllint": "whether drawings are well formed"}


def missing_tools() -> list[tuple[str, str]]:
    return [(tool, what) for tool, what in TOOLS.items() if shutil.which(tool) is None]


class Drawer:
    """Draws a run in a folder of its own."""

    def __init__(self, program: str, case: Case) -> None:
        self.program, self.case = program, case

    def __enter__(self) -> Drawer:
        self.folder = tempfile.TemporaryDirectory()
        self.room = Path(self.folder.name)
        for name, text in (("c.balsa", self.case.source), ("c.stimulus", self.case.stimulus), (self.case.trace_name, self.case.trace)):
            (self.room / name).parent.mkdir(exist_ok=True)
            (self.room / name).write_bytes(text)
        return self

    def __exit__(self, *_: object) -> None:
        self.folder.cleanup()

    def call(self, *words: str) -> subprocess.CompletedProcess:
        line = [self.program, "picture", "c.balsa", "c.stimulus", self.case.trace_name, *words]
        return subprocess.run(line, cwd=self.room, capture_output=True, check=False, timeout=300)

    def draw(self, *words: str) -> bytes:
        done = self.call(*words)
        if done.returncode or done.stderr:
            raise RuntimeError(f"{' '.join(words)}: status {done.returncode}, {done.stderr[:200]!r}")
        return done.stdout

    @cached_property
    def facts(self) -> Facts:
        return Facts(self.case)

    @cached_property
    def data(self) -> dict:
        return json.loads(self.draw("--json"))


# --- waves

SCOPE = re.compile(r"\$scope module (\S+?)(?:_(\d+))? \$end")
SIGNAL = re.compile(r"\$var (reg|wire) (\d+) (\S+) (\S+)(?: \[\S+\])? \$end")


def last_values(text: str) -> dict[str, int]:
    """The last value of each variable, under its whole name."""
    names, values, prefix = {}, {}, []
    for line in text.splitlines():
        if found := re.match(r"\$scope module (\S+) \$end", line):
            number = found[1].rpartition("_")[2]
            prefix.append(number if prefix else "")
        elif line.startswith("$upscope"):
            prefix.pop()
        elif found := SIGNAL.match(line):
            if found[1] == "reg":
                names[found[3]] = "".join(f"{number}:" for number in prefix[1:]) + found[4]
        elif found := re.match(r"b(\S+) (\S+)$", line):
            values[found[2]] = found[1]
        elif line and line[0] in "01z":
            values[line[1:]] = line[0]
    return {name: int(values[code], 2) for code, name in names.items()}


def wave_faults(case: Case, drawer: Drawer) -> list[str]:
    waves = drawer.draw("--vcd")
    if drawer.draw("--vcd") != waves:
        return ["two calls differ"]
    if not case.is_large and (fault := changed_wave(drawer.facts, waves.decode("latin-1"))):
        return [fault]
    if shutil.which("vcd2fst") is None:
        return []
    vcd, fst = drawer.room / "run.vcd", drawer.room / "run.fst"
    vcd.write_bytes(waves)
    done = subprocess.run(["vcd2fst", str(vcd), str(fst)], capture_output=True, check=False)
    if done.returncode or done.stderr:
        return [(done.stderr or done.stdout).decode()[:200]]
    if shutil.which("fst2vcd") is None or case.is_large:
        return []
    back = subprocess.run(["fst2vcd", str(fst)], capture_output=True, check=False).stdout.decode("latin-1")
    system = accept(case.source, case.stimulus)
    machine = load(system, case.trace)
    wanted = {one.name: machine.value(one) for one in system.variables}
    told = last_values(back)
    return [] if told == wanted else [f"last values {told}, wanted {wanted}"]


# --- drawings

# Behind the name of the trace, which `name_faults` reads.
HEAD = re.compile(rb">[^<>]*: (\d+ steps?, [^<;]*)[<;]")
STATE = re.compile(rb">(\d+ causes?)</tspan> and <tspan [^>]*>(\d+ consequences?)</tspan> \(dashed\)")
# a drawing of more bytes is not taken apart
MOST_READ = 8_000_000


def counted(count: int, word: str) -> str:
    return f"{count} {word}{'s' * (count != 1)}"


def head_faults(facts: Facts, drawing: bytes) -> list[str]:
    """Whether the line at the top counts the events, and says how the run stands."""
    ready = len(facts.all["ready"])
    taken = f"{ready} ready" if ready else ""
    stands = ", ".join(["deadlock"] * facts.all["has_ring"] + [taken] * bool(ready)) or facts.all["progress"]
    told, wanted = HEAD.search(drawing), f"{counted(len(facts.events), 'step')}, {stands}"
    return [] if told and told[1].decode() == wanted else [f"the line at the top is {told and told[1]}, wanted {wanted}"]


def well_formed(drawer: Drawer, drawing: bytes) -> list[str]:
    if any(byte > 126 or byte < 32 and byte != 10 for byte in drawing):
        return ["a byte that is no printable ASCII"]
    if shutil.which("xmllint") is None:
        return []
    done = subprocess.run(["xmllint", "--noout", "--huge", "-"], input=drawing, capture_output=True, check=False)
    return [done.stderr.decode()[:200]] if done.returncode or done.stderr else []


def name_faults(drawer: Drawer, drawing: bytes) -> list[str]:
    """Whether the title of the drawing is read back with the name of the trace as it is, and the line over it without its folders."""
    try:
        top = list(ElementTree.fromstring(drawing))
    except ElementTree.ParseError as fault:
        return [f"no XML: {fault}"]
    name, title, line = drawer.case.trace_name, "".join(top[0].itertext()), "".join(top[-1].itertext())
    if title != name or not line.startswith(f"{Path(name).name}: "):
        return [f"the trace {name!r} has the title {title!r} and the line {line!r}"]
    return []


def drawing_faults(case: Case, drawer: Drawer) -> list[str]:
    drawing = drawer.draw("--svg")
    if drawer.draw("--svg") != drawing:
        return ["two calls differ"]
    quiet = drawer.draw("--svg", "--quiet")
    found = [fault for one in (drawing, quiet) for fault in well_formed(drawer, one) + name_faults(drawer, one) + text_faults(one)]
    if found or len(drawing) > MOST_READ:
        return found
    try:
        return shown_faults(drawer, drawing, quiet) + ([] if case.is_large else all_marked_faults(drawer, drawing, quiet))
    except ValueError as fault:
        return [str(fault)]


def shown_faults(drawer: Drawer, drawing: bytes, quiet: bytes) -> list[str]:
    """Whether the events are drawn as they have to be, without turns and tests too."""
    facts = ToldFacts(drawer.case, drawer.data) if drawer.case.is_large else drawer.facts
    found = single_faults(facts, drawer.data, drawing, False)
    found += ["--quiet: " + fault for fault in single_faults(facts, drawer.data, quiet, True)]
    return found or quiet_faults(facts, taken_apart(facts, drawing, False), taken_apart(facts, quiet, True))


def single_faults(facts: Facts, data: dict, drawing: bytes, quiet: bool) -> list[str]:
    """Whether a drawing shows what the facts are, where none is asked for."""
    drawn, shown = taken_apart(facts, drawing, quiet), events_of(facts, quiet)
    ground = Ground(facts, drawn)
    found = head_faults(facts, drawing) + plain_faults(drawn) + hatching_faults(drawing) + race_faults(facts, drawn, shown)
    if not quiet and not facts.case.is_large:
        found += lane_line_faults(facts, drawn, shown)
    return found + (placed_faults(ground, shown, not quiet) or bar_faults(ground, shown) + standing_faults(ground, data))


def all_marked_faults(drawer: Drawer, drawing: bytes, quiet: bytes) -> list[str]:
    """Whether causes and consequences of some events are marked as they have to be, without turns and tests too."""
    facts, found = drawer.facts, []
    whole, less = taken_apart(facts, drawing, False), taken_apart(facts, quiet, True)
    for ticket in tickets(len(facts.events), drawer.case.name):
        for plain, words in ((whole, ()), (less, ("--quiet",))):
            marked = drawer.draw("--svg", "--event", str(ticket), *words)
            told, (causes, consequences) = STATE.search(marked), facts.cone_sizes(ticket - 1)
            wanted = counted(causes, "cause"), counted(consequences, "consequence")
            if told is None or (told[1].decode(), told[2].decode()) != wanted:
                return [f"--event {ticket}: told {told and told[0]}, wanted {wanted}"]
            drawn, shown = taken_apart(facts, marked, bool(words), ticket - 1), events_of(facts, bool(words), ticket - 1)
            faults = name_faults(drawer, marked) + marked_faults(facts, plain, drawn, marked, ticket - 1, shown) + text_faults(marked)
            ground = Ground(facts, drawn)
            faults += (placed_faults(ground, shown, False) if len(shown) > len(plain.marks) else column_faults(ground, shown)) \
                + point_faults(ground, shown, inks_of(facts, marked, ticket - 1))
            found += [f"--event {ticket} {' '.join(words)}: {fault}" for fault in faults] + well_formed(drawer, marked)
    return found


def tickets(count: int, name: str) -> list[int]:
    """The tickets of the events that are asked for: the first, the last, and one or a few between."""
    step = max(1, count // 2 if count > 400 or name.startswith("random_") else count // 4)
    return sorted({1, *range(step, count, step), count} & set(range(1, count + 1)))


# --- the page, and refusals

PARTS = (Path(__file__).resolve().parents[2] / "crates/picture_text/page/page.html").read_bytes()


class Scripts(HTMLParser):
    """The texts of the scripts of a page, by their `id`."""

    def __init__(self, page: str) -> None:
        super().__init__()
        self.found, self.name = {}, None
        self.feed(page)
        self.close()

    def handle_starttag(self, tag: str, attrs: list) -> None:
        self.name = dict(attrs).get("id", "") if tag == "script" else None

    def handle_data(self, data: str) -> None:
        if self.name is not None:
            self.found[self.name] = self.found.get(self.name, "") + data

    def handle_endtag(self, tag: str) -> None:
        self.name = None


def page_faults(drawer: Drawer) -> list[str]:
    """The page is page.html with the data in the place for them, and a reader of HTML finds them whole in their script."""
    page, data = drawer.draw(), drawer.draw("--json")
    before, mark, behind = PARTS.partition(b"/*RUN*/")
    if not mark or not data or page != before + data + behind:
        return ["the page is not page.html with the data"]
    read = json.loads(Scripts(page.decode()).found.get("run", "null"))
    return [] if read == json.loads(data) else [f"in the script `run` there is {str(read)[:80]}"]


def refusal_faults(case: Case, drawer: Drawer) -> list[str]:
    found = []
    count = max(0, case.trace.count(b"\n") - 1)
    for event, status, told in (
        (str(count + 1), 1, f"balsadbg: refused 23\nthe trace has no step {count + 1}: it has {counted(count, 'step')}\n"),
        ("0", 1, f"balsadbg: refused 23\nthe trace has no step 0: it has {counted(count, 'step')}\n"),
    ):
        done = drawer.call("--svg", "--event", event)
        if (done.returncode, done.stdout, done.stderr.decode()) != (status, b"", told):
            found.append(f"--event {event}: {done.returncode}, {done.stdout[:80]!r}, {done.stderr[:200]!r}")
    for words in (("--svg", "--vcd"), ("--json", "--vcd"), ("--quiet",), ("--event", "1"), ("--json", "--event", "1"), ("--svg", "--event", "x")):
        done = drawer.call(*words)
        if done.returncode != 2 or done.stdout or not done.stderr:
            found.append(f"{' '.join(words)}: {done.returncode}, {done.stdout[:80]!r}, {done.stderr[:80]!r}")
    return found
