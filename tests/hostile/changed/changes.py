"""Cuts and changed bytes."""

from __future__ import annotations

from collections.abc import Callable
from random import Random

from random_cases.mutations import mutate_bytes_once


def cut(random: Random, text: bytes) -> bytes:
    """The text up to any byte."""
    return text[: random.randrange(len(text) + 1)]


def cut_front(random: Random, text: bytes) -> bytes:
    return text[random.randrange(len(text) + 1) :]


def cut_middle(random: Random, text: bytes) -> bytes:
    first, last = sorted(random.randrange(len(text) + 1) for _ in range(2))
    return text[:first] + text[last:]


def one_byte(random: Random, text: bytes) -> bytes:
    at = random.randrange(len(text) + 1)
    return text[:at] + bytes([random.randrange(256)]) + text[at + 1 :]


def one_bit(random: Random, text: bytes) -> bytes:
    if not text:
        return text
    at = random.randrange(len(text))
    return text[:at] + bytes([text[at] ^ (1 << random.randrange(8))]) + text[at + 1 :]


def from_elsewhere(random: Random, text: bytes) -> bytes:
    """A byte of the text at another place of it, so that the change is likely to read."""
    if not text:
        return text
    at, other = random.randrange(len(text) + 1), random.randrange(len(text))
    return text[:at] + text[other : other + 1] + text[at + random.randrange(2) :]


def exchanged(random: Random, text: bytes) -> bytes:
    """Two parts that stand one behind the other, the other way round."""
    first, middle, last = sorted(random.randrange(len(text) + 1) for _ in range(3))
    return text[:first] + text[middle:last] + text[first:middle] + text[last:]


def doubled(random: Random, text: bytes) -> bytes:
    first, last = sorted(random.randrange(len(text) + 1) for _ in range(2))
    return text[:last] + text[first:]


CHANGES: list[Callable[[Random, bytes], bytes]] = [
    cut, cut, cut, cut_front, cut_middle, one_byte, one_byte, one_bit, from_elsewhere, from_elsewhere, exchanged, doubled,
    mutate_bytes_once, mutate_bytes_once,
]


def changed(random: Random, text: bytes) -> bytes:
    for _ in range(random.choice([1, 1, 1, 2, 3])):
        text = random.choice(CHANGES)(random, text)
    return text
