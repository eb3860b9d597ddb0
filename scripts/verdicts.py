"""What a check of a crate with wrong bodies says of each function: read from the lines that `rt check` prints."""

import re
from dataclasses import dataclass, field

OPEN_GOAL = re.compile(r"note: (\S+?):(\d+):\d+: .*?not proved.*? \(`([^`]+)`\)")
ERROR = re.compile(r"(?:\./)?((?:src|specs|proofs)/\S+?):(\d+):\d+: error\b:? ?(.*)")
FUNCTION = re.compile(r"fn (\S+): (.*)")
OTHER = re.compile(r"((?:impl|struct|enum|trait) \S+): (.*)")
# The files of a function's own folder below proofs/.
OF_FUNCTION = ("Answers", "Invariants", "Proof")
# A proof file that names what an edit took away, and what cites such a proof.
NAMES_ALONE = re.compile(r"has no field|is not in scope|has no `|was not admitted")
# What stands on something that was refused elsewhere, and says nothing of its own.
RESTS = re.compile(r"was not admitted")
# A text that antt could not read, where an edit that only makes a statement false reads well.
UNREADABLE = re.compile(r"is not in scope|has no field|is no name|operand is missing|expected the end|cannot continue")


@dataclass(frozen=True)
class Error:
    """A line of the check that refuses something at a place."""

    file: str
    line: int
    text: str

    def goal(self) -> str:
        """The declaration that is refused, which has the name of its goal."""
        name = re.match(r"`([^`]+)`", self.text)
        return name[1] if name else "a line that the prover refuses"

    def says_little(self) -> bool:
        return bool(NAMES_ALONE.search(self.text))

    def rests(self) -> bool:
        return bool(RESTS.search(self.text))


@dataclass
class Told:
    """The line of the check on one function, or on an `impl` or a type, with the goals that were left open in it."""

    name: str
    text: str
    goals: list[str] = field(default_factory=list)

    def is_well(self) -> bool:
        return self.text.startswith(("proved", "no holes"))


@dataclass
class Check:
    """A check that has ended."""

    status: int
    lines: list[str]
    functions: dict[str, Told] = field(default_factory=dict)
    others: list[Told] = field(default_factory=list)
    errors: list[Error] = field(default_factory=list)

    def last(self) -> str:
        """The line with the verdict, or nothing where the check did not come to one."""
        return next((it for it in reversed(self.lines) if it.startswith(("logic=", "holes=", "only="))), "")

    def is_proved(self) -> bool:
        return self.status == 0 and self.last().startswith("logic=proved")


def read(status: int, said: str) -> Check:
    check, goals = Check(status, said.rstrip("\n").split("\n")), []
    for line in check.lines:
        if goal := OPEN_GOAL.match(line):
            goals.append(goal[3])
        elif error := ERROR.match(line):
            check.errors.append(Error(error[1], int(error[2]), error[3]))
        elif function := FUNCTION.match(line):
            check.functions[function[1]] = Told(function[1], function[2], goals)
            goals = []
        elif other := OTHER.match(line):
            check.others.append(Told(other[1], other[2], goals))
            goals = []
    return check


def unreadable(error: Error, changed: set[str]) -> bool:
    """Whether the text of src/ or specs/, or a file that the edit changes, cannot be read there."""
    if error.file not in changed and not error.file.startswith(("src/", "specs/")):
        return False
    name = re.match(r"`[^`]*`: ", error.text)
    said = re.sub(r"`[^`]*`", "", error.text[name.end() :] if name else error.text)
    return not name or bool(UNREADABLE.search(said))


def is_of_proof(file: str, function: str, cycle: str = "") -> bool:
    """Whether a file of proofs/ is of the function's own proof, of that of its cycle of calls or of one of its closures."""
    folder, _, name = file.rpartition("/")
    *above, own = ["proofs", *function.split("::")[1:]]
    folders = ["/".join([*above, own]), "/".join([*above, f"+{own}"])]
    is_cycle = bool(cycle) and folder.endswith(f"/+{cycle}")
    is_closure = "/fn/" in folder and folder.replace("/fn/", "/").startswith(f"{folders[0]}/")
    return name.removesuffix(".antt") in OF_FUNCTION and (folder in folders or is_cycle or is_closure)
