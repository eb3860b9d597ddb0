"""Huge scripts, for `debug`."""

from __future__ import annotations

from .text import Text, each_byte, numbered, of_kind, plain

WORDS = [b"step", b"undo", b"roll", b"rollvalue", b"blame", b"consequences", b"branch", b"break", b"clear", b"session", b"value"]
# How many numbers a long address has.
NUMBERS = 80_000


def answered() -> list[Text]:
    """Lines that are answered, each by a line or two."""
    lines = [b"live", b"value x", b"undo 1", b"roll 1", b"consequences 1", b"blame x", b"rollvalue x", b"step /0.0", b"step /0.1 1",
             b"branch 9", b"break 1", b"break 2", b"clear 1", b"session 15", b"undo 18446744073709551615", b"step /4294967295"]
    rare = [b"ready", b"trace", b"view"]
    return (
        [plain(line.decode(), line + b"\n") for line in lines]
        + [plain(f"{line.decode()} behind empty lines", b"\n" * 200 + line + b"\n") for line in rare]
        + [plain("the last line", b"\n", tail=b"live"), plain("all sessions", b"".join(b"session %d\n" % k for k in range(16)))]
        + [plain("a step and its undo", b"step /0.0\nroll 1\nstep /0.0\n" + b"live\n" * 100, small=3)]
    )


def refused() -> list[Text]:
    lines = [b"halt", b"live ", b" live", b"live\r", b"undo 01", b"step", b"step 0", b"value y", b"undo -1", b"LIVE", b"undo 18446744073709551616"]
    return (
        [plain(repr(line)[2:-1], line + b"\n") for line in lines]
        + [plain("a bad line behind good ones", b"live\n", tail=b"x\n"), plain("a bad line behind empty ones", b"\n", tail=b"x")]
    )


def one_line() -> list[Text]:
    ends = [b"/0", b".0", b"/4294967295", b"0", b"1", b" ", b"x", b"\0", b"/", b"1:"]
    return [plain("live without an end", b"live")] + [
        plain(f"{word.decode()} and {repr(end)[2:-1]}", end, word + b" ", b"\n") for word in WORDS for end in ends
    ]


def addresses() -> list[Text]:
    return [
        plain("places of 80,000 numbers", b"step " + b"/0" * NUMBERS + b"\n", small=3),
        plain("places of 80,000 ordered numbers", b"step " + b".0" * NUMBERS + b" 1\n", small=3),
        plain("places of 80,000 large numbers", b"step " + b"/4294967295" * NUMBERS + b"\n", small=3),
        plain("a place with a wrong end", b"/0", b"step ", b"/00\nlive\n"),
        plain("a place with a wrong arm", b"/0", b"step ", b" x\nlive\n"),
        plain("a place with an arm", b"/0", b"step ", b" 1\nlive\n"),
    ]


def lines_of_names(size: int) -> list[Text]:
    long = b"n" * (size // 100)
    return [
        plain("long names of variables", b"value " + long + b"\n", small=3),
        plain("long words", long + b"\n", small=3),
        numbered("numbers that grow", b"undo 1%07d\n"),
    ]


def scripts(size: int) -> list[Text]:
    kinds = {
        "answered lines": answered(), "refused lines": refused(), "one line": one_line(), "places": addresses(),
        "names": lines_of_names(size),
    }
    texts = each_byte("script: one byte", "script")
    return texts + [text for kind, some in kinds.items() for text in of_kind(f"script: {kind}", "script", some)]
