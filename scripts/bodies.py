"""The function bodies of a file of Rattle, and the names that the prover gives to the functions.

A file is cut into the bodies of its functions and what stands around them, so that the bodies of several functions can be
put in place of others at once.
"""

import json
import os
import re
import shutil
import subprocess
from dataclasses import dataclass
from functools import cache
from pathlib import Path

OPENS = {"(": 1, "[": 1, "{": 1, ")": -1, "]": -1, "}": -1}
# Words of the head of an `impl` that say nothing of its type or its trait.
NO_NAMES = {"mut", "const", "dyn", "fn", "as", "for", "where", "Self", "crate", "self", "super"}


@cache
def prover() -> str:
    """The prover, which stands beside `rt`."""
    return os.path.join(os.path.dirname(os.path.realpath(shutil.which("rt") or "rt")), "rattle")


@dataclass(frozen=True)
class Token:
    start: int
    end: int
    kind: str
    text: str


@dataclass(frozen=True)
class Function:
    """A function with a body, as its file has it."""

    name: str
    # The modules of the file that it stands in, inside the file's own.
    modules: tuple[str, ...]
    # The words of the head of the `impl` or `trait` that it stands in, none where it stands in a module.
    owner: tuple[str, ...]
    # The name of its cycle of calls, or nothing.
    cycle: str
    # Whether its body can matter to what is outside of it: it is run where the crate is compiled, or holds items of its own.
    is_open: bool


@dataclass(frozen=True)
class Cut:
    """A text, cut into what is around the bodies of its functions and these bodies."""

    around: tuple[bytes, ...]
    functions: tuple[Function, ...]
    bodies: tuple[bytes, ...]

    def with_bodies(self, others: dict[int, bytes]) -> bytes:
        text = self.around[0]
        for at, after in enumerate(self.around[1:]):
            text += others.get(at, self.bodies[at]) + after
        return text

    def lines(self, others: dict[int, bytes]) -> list[tuple[int, int]]:
        """The first and the last line of each body in the text that `with_bodies` gives."""
        found, line = [], 1
        for at, before in enumerate(self.around[:-1]):
            first = line + before.count(b"\n")
            line = first + others.get(at, self.bodies[at]).count(b"\n")
            found.append((first, line))
        return found


def tokens_of(file: Path) -> list[Token]:
    ran = subprocess.run([prover(), "fmt", "--tokens", str(file)], capture_output=True, encoding="utf-8")
    if ran.returncode:
        raise ValueError(f"the prover cannot read it: {(ran.stderr or ran.stdout).strip()[:200]}")
    rows = [it.split(" ", 4) for it in ran.stdout.split("\n")[1:] if it]
    return [Token(int(start), int(end), kind, json.loads(text)) for _, start, end, kind, text in rows]


class Cutter:
    """Walks through the tokens of a file and notes each function with a body."""

    def __init__(self, tokens: list[Token]) -> None:
        # The braces of clauses have kinds of their own, so those that are left are in pairs.
        self.tokens = [it for it in tokens if it.kind in ("Code", "Literal")]
        self.found: list[tuple[Function, int, int]] = []

    def text(self, at: int) -> str:
        return self.tokens[at].text if self.tokens[at].kind == "Code" else ""

    def past(self, at: int) -> int:
        """The place behind the bracket that closes what the bracket at this place opens."""
        depth = 0
        while True:
            depth += OPENS.get(self.text(at), 0)
            at += 1
            if depth == 0:
                return at

    def until(self, at: int, *ends: str) -> int:
        """The first of these words from here on that no bracket holds."""
        while self.text(at) not in ends:
            at = self.past(at)
        return at

    def items(self, at: int, end: int, modules: tuple[str, ...], owner: tuple[str, ...]) -> None:
        cycle, is_constant = "", False
        while at < end:
            word = self.text(at)
            if word == "#":
                opens = self.until(at + 1, "[") if self.text(at + 1) == "!" else at + 1
                cycle = self.text(opens + 3) if self.text(opens + 1) == "cycle" else cycle
                at = self.past(opens)
            elif word == "const" and self.text(at + 1) in ("fn", "unsafe", "extern"):
                is_constant, at = True, at + 1
            elif word in ("const", "static", "type", "use"):
                at = self.until(at, ";") + 1
            elif word in ("fn", "impl", "trait", "mod"):
                opens = self.until(at, "{", ";")
                at = self.past(opens)
                self.item(word, opens, at, modules, owner, cycle, is_constant)
                cycle, is_constant = "", False
            else:
                at = self.past(at)

    def item(
        self, word: str, opens: int, end: int, modules: tuple[str, ...], owner: tuple[str, ...], cycle: str, is_constant: bool
    ) -> None:
        first = opens
        while self.text(first) != word:
            first -= 1
        head = tuple(self.text(it) for it in range(first + 1, opens))
        match word:
            case _ if self.text(opens) == ";":
                pass
            case "fn":
                gives = head[head.index(")") :] if ")" in head else head
                inside = [self.text(it) for it in range(opens + 1, end)]
                is_open = is_constant or "fn" in inside or "impl" in gives
                here = Function(head[0], modules, owner, cycle, is_open)
                self.found.append((here, self.tokens[opens].start, self.tokens[end - 1].end))
            case "mod":
                self.items(opens + 1, end - 1, (*modules, head[0]), owner)
            case _:
                self.items(opens + 1, end - 1, modules, head)


def cut(file: Path) -> Cut:
    text = file.read_bytes()
    cutter = Cutter(tokens_of(file))
    cutter.items(0, len(cutter.tokens), (), ())
    around, bodies, at = [], [], 0
    for _, start, end in cutter.found:
        around.append(text[at:start])
        bodies.append(text[start:end])
        at = end
    return Cut((*around, text[at:]), tuple(it for it, _, _ in cutter.found), tuple(bodies))


def module_of(path: str) -> tuple[str, ...]:
    """The modules that lead to a file of src/."""
    parts = Path(path).with_suffix("").parts[1:]
    return parts[:-1] if parts[-1] in ("lib", "main", "mod") else parts


def owner_words(owner: tuple[str, ...]) -> tuple[list[str], list[str]]:
    """The names in the head of an `impl` or `trait` without its type parameters, and those that only lead to one of them."""
    depth, at, parameters = 0, 0, set()
    if owner[:1] == ("<",):
        for at, word in enumerate(owner):
            is_arrow = word == ">" and owner[at - 1] == "-"
            depth += 0 if is_arrow else {"<": 1, ">": -1}.get(word, 0)
            parameters |= {word} if depth == 1 and owner[at - 1] in ("<", ",", "const") else set()
            if depth == 0:
                break
    head = [it for it in owner[at:] if it not in parameters | NO_NAMES]
    leads = [a for a, b in zip(head, head[1:]) if b == ":" and re.fullmatch(r"\w+", a)]
    return [plain(it) for it in head if re.fullmatch(r"\w+", it) and it not in leads], [plain(it) for it in leads]


def plain(word: str) -> str:
    return re.sub(r"[\W_]", "", word).lower()


def name_of(crate: str, path: str, it: Function, names: list[str]) -> str | None:
    """The name that the prover gives to the function, of those that it printed, where one alone fits."""
    start = "::".join([crate, *module_of(path), *it.modules])
    if not it.owner:
        return f"{start}::{it.name}" if f"{start}::{it.name}" in names else None
    words, leads = owner_words(it.owner)
    words = [word for word in words if word != "drop"]
    owners = [name.rpartition("::")[0] for name in names if name.endswith(f"::{it.name}")]
    last = {owner: plain(owner.rpartition("::")[2]) for owner in owners}
    fitting = [owner for owner in owners if words and all(word in last[owner] for word in words)]
    # A method of a type is named by the module of its type, which may be another.
    chosen = [owner for owner in fitting if owner.rpartition("::")[0] == start] or fitting
    chosen = [owner for owner in chosen if all(word in last[owner] for word in leads)] or chosen
    # What has these words and no others goes before what has more.
    chosen = [owner for owner in chosen if len(last[owner]) == sum(map(len, words))] or chosen
    return f"{chosen[0]}::{it.name}" if len(chosen) == 1 else None
