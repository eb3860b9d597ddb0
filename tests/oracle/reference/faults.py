"""Refusals and their numbers, as in docs/reference/formats.md."""

from __future__ import annotations

from enum import IntEnum


class Number(IntEnum):
    BAD_CHARACTER = 2
    OPEN_COMMENT = 3
    NUMBER_TOO_LARGE = 4
    UNEXPECTED = 5
    TOO_DEEP = 6
    UNKNOWN_NAME = 7
    NAME_TWICE = 8
    WRONG_KIND = 9
    TOO_WIDE = 10
    GUARD_NOT_ONE_BIT = 11
    BAD_ARM = 12
    PORT_MISMATCH = 13
    TOO_MANY_NODES = 14
    SHARED_VARIABLE = 15
    SHARED_CHANNEL = 16
    ENCLOSED_TWICE = 17
    NOT_READY = 21
    HISTORY_FULL = 22
    NO_SUCH_EVENT = 23
    NEEDED_BY = 24
    NEVER_WRITTEN = 25
    BREAKS_FULL = 27
    NO_SUCH_LINE = 28
    BAD_HEADER = 31
    BAD_LINE = 32
    NOT_A_STEP = 33
    NOT_CANONICAL = 34
    READ_FAILED = 41
    WRITE_FAILED = 42
    BAD_STIMULUS = 51
    BAD_COMMAND = 61


class Refused(Exception):
    """A refusal: its number, and what stands behind it, if anything does."""

    def __init__(self, number: Number, field: int | None = None) -> None:
        super().__init__(number, field)
        self.number = number
        self.field = field

    def text(self) -> str:
        behind = "" if self.field is None else f" {self.field}"
        return f"refused {int(self.number)}{behind}"
