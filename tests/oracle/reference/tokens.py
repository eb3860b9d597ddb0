"""Bytes to tokens, and the spelling of names and numbers."""

from __future__ import annotations

import re
from dataclasses import dataclass
from enum import Enum

from .faults import Number, Refused

RESERVED = frozenset(
    """and arbitrate as begin bits case channel continue else end enumeration halt if input is loop not of or output
    procedure select shared sync then type variable while xor""".split()
)

BLANKS = re.compile(rb"[\t\n\r ]+")
LINE_COMMENT = re.compile(rb"--[^\n]*")
COMMENT_MARK = re.compile(rb"\(--|--\)")
NAME = re.compile(rb"[A-Za-z][A-Za-z0-9_]*")
DIGITS = re.compile(rb"[0-9]+")
# The longer spellings stand first, so that the longest is found.
SYMBOL = re.compile(rb":=|<-|->|\|\||/=|<=|>=|[|;:,()\[\]+\-=<>]")


class Kind(Enum):
    NAME = "name"
    WORD = "reserved word"
    NUMBER = "number"
    SYMBOL = "symbol"
    END = "end of the source"


@dataclass(frozen=True)
class Token:
    kind: Kind
    text: str
    offset: int
    line: int
    number: int = 0


def behind_comment(source: bytes, start: int) -> int:
    """The offset behind the comment in brackets that begins at `start`. It may hold others of its kind."""
    depth, at = 1, start + 3
    while depth:
        mark = COMMENT_MARK.search(source, at)
        if mark is None:
            raise Refused(Number.OPEN_COMMENT, start)
        depth += 1 if mark.group() == b"(--" else -1
        at = mark.end()
    return at


def number_token(digits: bytes, offset: int, line: int) -> Token:
    significant = digits.lstrip(b"0") or b"0"
    if len(significant) > 20 or int(significant) >= 2**64:
        raise Refused(Number.NUMBER_TOO_LARGE, offset)
    return Token(Kind.NUMBER, digits.decode(), offset, line, int(significant))


def token_at(source: bytes, at: int, line: int) -> tuple[Token, int]:
    """The token that begins at the offset, on that line, and the offset behind it."""
    if found := NAME.match(source, at):
        text = found.group().decode()
        return Token(Kind.WORD if text in RESERVED else Kind.NAME, text, at, line), found.end()
    if found := DIGITS.match(source, at):
        return number_token(found.group(), at, line), found.end()
    if found := SYMBOL.match(source, at):
        return Token(Kind.SYMBOL, found.group().decode(), at, line), found.end()
    raise Refused(Number.BAD_CHARACTER, at)


def tokens_of(source: bytes) -> list[Token]:
    """All tokens, the end of the source last."""
    tokens, at, line = [], 0, 1
    while at < len(source):
        start = at
        if found := BLANKS.match(source, at) or LINE_COMMENT.match(source, at):
            at = found.end()
        elif source.startswith(b"(--", at):
            at = behind_comment(source, at)
        else:
            token, at = token_at(source, at, line)
            tokens.append(token)
        line += source.count(b"\n", start, at)
    tokens.append(Token(Kind.END, "", len(source), line))
    return tokens


def plain_number(text: bytes, limit: int) -> int | None:
    """The number below the limit (at most 2^64) that the decimal text spells; None where it is none, has a leading
    zero or is too large."""
    if not DIGITS.fullmatch(text) or len(text) > 20 or (len(text) > 1 and text.startswith(b"0")):
        return None
    number = int(text)
    return number if number < limit else None


def is_name(text: bytes) -> bool:
    return NAME.fullmatch(text) is not None and text.decode() not in RESERVED


def lines_of(text: bytes) -> list[bytes]:
    """The lines without their last byte. The last one may lack it."""
    lines = text.split(b"\n")
    return lines[:-1] if lines[-1] == b"" else lines
