"""Huge traces, for `replay`."""

from __future__ import annotations

from .scripts import NUMBERS
from .text import Text, each_byte, of_kind, plain

FIRST = b"balsadbg trace 1\n"
SECOND = b"balsadbg trace 2\n"


def lines() -> list[Text]:
    return [
        plain("the header again and again", SECOND),
        plain("the header without an end", b"balsadbg trace 2"),
        plain("a long first line", b"2", b"balsadbg trace ", b"\n"),
        plain("one step again and again", b"step /0.0 0\n", SECOND),
        plain("another step again and again", b"step /9 0\n", FIRST),
        plain("steps of version 1", b"step /0.0 0\n", FIRST),
        plain("steps without a header", b"step /0.0 0\n"),
        plain("empty lines", b"\n", SECOND),
        plain("Windows line ends", b"step /0.0 0\r\n", SECOND),
        plain("arms of one digit", b"0", SECOND + b"step /0.0 ", b"\n"),
        plain("arms of many digits", b"1", SECOND + b"step /0.0 ", b"\n"),
        plain("a step without an arm", b"/0", SECOND + b"step ", b"\n"),
    ]


def places() -> list[Text]:
    entries = [b"/0", b".0", b"/4294967295", b"/4294967296", b"/", b".00", b"x", b" "]
    return [plain(f"one place of {entry.decode()}", entry, SECOND + b"step ", b" 0\n") for entry in entries] + [
        plain("one place without an end", b"/0", SECOND + b"step "),
        plain("one place of version 1", b"/0", FIRST + b"step ", b" 0\n"),
        plain("places of 80,000 numbers", b"step " + b"/0" * NUMBERS + b" 0\n", SECOND, small=3),
        plain("a good step and a long one", b"/0", SECOND + b"step /0.0 0\nstep ", b" 0\n"),
    ]


def traces(size: int) -> list[Text]:
    return (
        each_byte("trace: one byte", "trace")
        + each_byte("trace: one byte behind the header", "trace", SECOND)
        + each_byte("trace: one byte behind step", "trace", SECOND + b"step ")
        + of_kind("trace: lines", "trace", lines())
        + of_kind("trace: places", "trace", places())
    )
