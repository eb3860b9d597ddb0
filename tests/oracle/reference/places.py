"""Addresses: where something happens. See docs/theory/runs.md."""

from __future__ import annotations

from typing import NamedTuple

from .tokens import plain_number


class Entry(NamedTuple):
    """An ordered number `.n`, or a branch `/n`. By the order of tuples, ordered numbers come before branches."""

    is_branch: bool
    number: int


Address = tuple[Entry, ...]


def ordered(place: Address, number: int) -> Address:
    return place + (Entry(False, number),)


def branch(place: Address, number: int) -> Address:
    return place + (Entry(True, number),)


def text_of(place: Address) -> str:
    return "".join(("/" if entry.is_branch else ".") + str(entry.number) for entry in place)


def is_before(first: Address, second: Address) -> bool:
    """Whether the entries at which they differ first are two ordered numbers, the first one less."""
    for one, other in zip(first, second):
        if one != other:
            return not one.is_branch and not other.is_branch and one.number < other.number
    return False


def read_address(text: bytes) -> Address | None:
    """The address that the text spells, of at least one entry; None where it spells none."""
    if not text.startswith((b".", b"/")):
        return None
    place: list[Entry] = []
    for part in text.replace(b".", b"\n.").replace(b"/", b"\n/").split(b"\n")[1:]:
        number = plain_number(part[1:], 2**32)
        if number is None:
            return None
        place.append(Entry(part.startswith(b"/"), number))
    return tuple(place)
