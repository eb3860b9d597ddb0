"""What a huge text is: a part that is repeated, between a beginning and an end."""

from __future__ import annotations

from collections.abc import Iterator
from dataclasses import dataclass, replace

BLOCK = 1 << 18

# The circuit under the stimuli, scripts and traces, and what comes in at its ports.
CIRCUIT = (
    b"procedure one (input i : 8 bits; sync s; output o : 8 bits) is variable x : 8 bits "
    b"begin loop i -> x ; o <- x end end\n"
)
STIMULUS = b"i = 5 7\n"


@dataclass(frozen=True)
class Text:
    """A text of a kind. It is the source of `check`, the stimulus or the script of `debug` or the trace of `replay`; the
    other parts of its run are small."""

    kind: str
    part: str
    name: str
    unit: bytes
    head: bytes = b""
    tail: bytes = b""
    # In a numbered unit `%07d` stands for how many units stand before it.
    numbered: bool = False
    # With so many units the answer is already that of many, but for what grows with them.
    small: int = 100

    def unit_size(self) -> int:
        return len(self.units(0, 1))

    def count(self, size: int) -> int:
        """How many units make a text of at most so many bytes; at least one."""
        return max(1, (size - len(self.head) - len(self.tail)) // self.unit_size())

    def units(self, first: int, count: int) -> bytes:
        if not self.numbered:
            return self.unit * count
        return b"".join(self.unit.replace(b"%07d", b"%07d" % at) for at in range(first, first + count))

    def size(self, count: int) -> int:
        return len(self.head) + count * self.unit_size() + len(self.tail)

    def blocks(self, count: int) -> Iterator[bytes]:
        """The text with so many units, block by block, so that no one has to hold it."""
        yield self.head
        step = max(1, BLOCK // self.unit_size())
        whole = self.units(0, step)
        for first in range(0, count, step):
            wanted = min(step, count - first)
            yield self.units(first, wanted) if self.numbered or wanted < step else whole
        yield self.tail

    def whole(self, count: int) -> bytes:
        return b"".join(self.blocks(count))


def each_byte(kind: str, part: str, head: bytes = b"") -> list[Text]:
    """One byte repeated, for each byte."""
    return [Text(kind, part, f"byte {byte}", bytes([byte]), head) for byte in range(256)]


def of_kind(kind: str, part: str, texts: list[Text]) -> list[Text]:
    return [replace(text, kind=kind, part=part) for text in texts]


def plain(name: str, unit: bytes, head: bytes = b"", tail: bytes = b"", small: int = 100) -> Text:
    """A text whose kind is given later."""
    return Text("", "", name, unit, head, tail, small=small)


def numbered(name: str, unit: bytes, head: bytes = b"", tail: bytes = b"", small: int = 100) -> Text:
    return Text("", "", name, unit, head, tail, numbered=True, small=small)
