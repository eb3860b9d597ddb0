"""Huge stimuli, for `debug` with one line of a script."""

from __future__ import annotations

from .text import Text, each_byte, numbered, of_kind, plain

# More values than nodes that a system may have.
MANY = 17_000


def lines() -> list[Text]:
    return [
        plain("values", b" 5", b"i =", b"\n", MANY),
        plain("values without an end of the line", b" 5", b"i =", b"", MANY),
        plain("values and one that is none", b" 5", b"i =", b" x\n"),
        plain("values and a blank", b" 5", b"i =", b" \n"),
        plain("values that are too great", b" 256", b"i ="),
        plain("long values", b" 18446744073709551615", b"i ="),
        plain("one value", b"5", b"i = "),
        plain("one value of zeros", b"0", b"i = "),
        plain("syncs", b"9", b"s * "),
        plain("one line again and again", b"i = 5\n"),
        plain("one line without values", b"i =\n"),
        plain("syncs again and again", b"s * 65536\n"),
        plain("another port again and again", b"q = 5\n"),
        numbered("other ports", b"q%07d =\n"),
        plain("lines of no form", b"i=5\n"),
        plain("a line of no form behind good ones", b"i = 5\n", tail=b"i = 05\n"),
        plain("a line of no form behind empty ones", b"\n", tail=b"x"),
        plain("a good line behind empty ones", b"\n", tail=b"i = 5 7"),
        plain("Windows line ends", b"i = 5\r\n"),
        plain("blanks in front", b" ", tail=b"i = 5\n"),
    ]


def names(size: int) -> list[Text]:
    long = b"n" * (size // 100)
    return [
        plain("one name", b"n", tail=b" = 5\n"),
        plain("long names", long + b" = 5\n", small=3),
        plain("long names of syncs", long + b" * 5\n", small=3),
        plain("a name without an end", b"i"),
    ]


def stimuli(size: int) -> list[Text]:
    return (
        each_byte("stimulus: one byte", "stimulus")
        + each_byte("stimulus: one byte behind i =", "stimulus", b"i = ")
        + of_kind("stimulus: lines", "stimulus", lines())
        + of_kind("stimulus: names", "stimulus", names(size))
    )
