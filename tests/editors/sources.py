"""The Balsa sources of the repository, and some that hold what is easily coloured wrong."""

from __future__ import annotations

import importlib.machinery
import importlib.util
import re
import tomllib
from collections.abc import Iterator
from dataclasses import dataclass
from pathlib import Path
from types import ModuleType

ROOT = Path(__file__).resolve().parents[2]
RESERVED = re.compile(r'\(b"([a-z]+)", Kind::\w+Word\)')
# What editors show or take as the end of a line in ways of their own.
CONTROL = re.compile(r"[\x00-\x08\x0b-\x1f\x7f\x85\u2028\u2029]")
# Each is a whole source for the lexer, though none for the parser.
EDGES = [
    "a<--b", "a<---b", "a <-- - b\nc", "a-->b\nc", "a->--b\nc", "a--b\nc", "a---b\nc", "a- -b", "a->-b", "a<-->b\nc",
    "---", "(--)--)a", "(----)a", "(-- (-- --) --)a", "(--(----)--)a", "(-- -- --)a", "(-- <- --)a", "-- (--\na",
    "-- --)\na", "--)\na", "( --)\na", "((-- x --))a", "<(-- x --)-a", "(-- a\n b (-- c\n --) d\n --)e",
    "(-- -->\n --)a", "f (-- x --) (a)", "f (--x--)", "a:=b", "a: =b", "a:b=c", "a::=b", "a<=b", "a< =b", "a/=b",
    "a||b|c", "a|||b", "a|| |b", "a>=b<-c->d", "a[b](c)", "a;b,c", "8bits", "8 bits", "0x1f", "007bond", "1end2end",
    "a8bits", "bits8", "end_", "end1", "x_end", "endend", "End", "END", "1procedure x", "procedure 1x",
    "procedure procedure", "procedure\nend", "procedure (-- x --) y", "procedure -- x\ny", "a : bits", "a :end",
    "a:8bits", "a :\n end", "a (b)", "end (b)", "a\n(b)", "a(--b--)", "type type", "type 1t", "typex y",
    "-- é → ü\na", "(-- é\n → --)a", "-- TODO x\na", "(-- FIXME --)a", "-- 'a' \"b\na", "a\t\tb\r\nc\r\n",
    "a\n\n\n b",
]
# Longer ones say nothing more, and editors take long for them.
LONGEST = 20_000


@dataclass
class Source:
    name: str
    text: str


def reserved_words() -> list[str]:
    """The words of the lexer's own table."""
    return RESERVED.findall((ROOT / "crates" / "lexer" / "src" / "table.rt").read_text())


def loaded(path: Path) -> ModuleType:
    """A script without an ending, as a module."""
    loader = importlib.machinery.SourceFileLoader("loaded_script", str(path))
    spec = importlib.util.spec_from_loader("loaded_script", loader)
    assert spec
    module = importlib.util.module_from_spec(spec)
    loader.exec_module(module)
    return module


def said_in(data: object) -> Iterator[object]:
    """Each value under the key `source`, at any depth."""
    if isinstance(data, dict):
        if "source" in data:
            yield data["source"]
        for value in data.values():
            yield from said_in(value)
    elif isinstance(data, list):
        for value in data:
            yield from said_in(value)


def files() -> Iterator[tuple[str, bytes]]:
    for file in sorted(ROOT.rglob("*.balsa")):
        if not {"out", ".git"} & set(file.relative_to(ROOT).parts):
            yield str(file.relative_to(ROOT)), file.read_bytes()


def runs() -> Iterator[tuple[str, bytes]]:
    """The sources of the runs and of the diagnosed cases."""
    module = loaded(ROOT / "tests" / "runs" / "run")
    for file in sorted(ROOT.glob("tests/*/*.toml")):
        name = str(file.relative_to(ROOT))
        for at, said in enumerate(said_in(tomllib.loads(file.read_text())), 1):
            if file.parent.name == "diagnosis":
                yield f"{name}, source {at}", str(said).replace("§", "").encode()
            else:
                yield f"{name}, source {at}", module.text(said)


def made() -> Iterator[tuple[str, bytes]]:
    """Each reserved word where a name could stand, and within names; and the edges."""
    forms = [
        "{0}", "{0} x", "x {0}", "{0}x", "x{0}", "{0}1", "1{0}", "1{0}x", "{0}_", "x_{0}", "{0}(", "{0} (x)", "{0}:",
        "x:{0}", "x : {0} y", "procedure {0}", "procedure {0}x", "type {0} is", "type {0}1 is", "[{0}]", "-- {0}\n",
        "(-- {0} --)", "{1}",
    ]
    for word in reserved_words():
        yield f"forms of {word}", "\n".join(form.format(word, word.upper()) for form in forms).encode()
    for edge in EDGES:
        yield f"edge {edge!r}", edge.encode()


def sources() -> tuple[list[Source], int]:
    """All, and how many were left out since they are long, are no text or hold control characters."""
    found, left = [], 0
    for name, given in [*files(), *runs(), *made()]:
        text = given.decode(errors="replace")
        if len(given) > LONGEST or text.encode() != given or CONTROL.search(text.replace("\r\n", "\n")):
            left += 1
        else:
            found.append(Source(name, text))
    return found, left
