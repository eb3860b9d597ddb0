"""Where the texts of a drawing stand: whether one leaves it, lies over another, or is covered by what is drawn later.

Letters are as wide and as high as in DejaVu Sans Mono, the first font that a drawing names.
"""

from __future__ import annotations

import re
from collections import defaultdict
from collections.abc import Iterator
from dataclasses import dataclass
from unicodedata import east_asian_width
from xml.etree import ElementTree

# how wide a letter is and how high it stands over its line, as parts of its size
LETTER, HIGH = 0.603, 0.73
# so much, in pixels, two may share, or one reach out
SLACK = 0.5
# a drawing may be wider than its texts and columns, by so much and by such a part of its width
SPARE, PART = 60, 1.2
# how far behind its line a column reaches at most
COLUMN = 200
# the sides of the squares in which it is looked for what meets
WIDE, TALL = 160, 24


@dataclass(frozen=True)
class Box:
    left: float
    top: float
    right: float
    bottom: float
    text: str = ""

    def meets(self, other: Box) -> bool:
        return (self.left + SLACK < other.right and other.left + SLACK < self.right
                and self.top + SLACK < other.bottom and other.top + SLACK < self.bottom)

    def leaves(self, width: float, height: float) -> bool:
        return self.left < -SLACK or self.top < -SLACK or self.right > width + SLACK or self.bottom > height + SLACK

    def told(self) -> str:
        return f"{self.text[:40]!r} {self.left:.1f}..{self.right:.1f}, {self.top:.1f}..{self.bottom:.1f}"


class Squares:
    """Boxes, each to be found in the squares that it touches."""

    def __init__(self) -> None:
        self.found: dict[tuple[int, int], list[Box]] = defaultdict(list)

    def touched(self, box: Box) -> Iterator[tuple[int, int]]:
        for row in range(int(box.top // TALL), int(box.bottom // TALL) + 1):
            for column in range(int(box.left // WIDE), int(box.right // WIDE) + 1):
                yield row, column

    def put(self, box: Box) -> None:
        for square in self.touched(box):
            self.found[square].append(box)

    def met(self, box: Box) -> Box | None:
        return next((other for square in self.touched(box) for other in self.found.get(square, ()) if box.meets(other)), None)


def text_width(text: str, size: float) -> float:
    return size * sum(1.0 if east_asian_width(letter) in "WF" else LETTER for letter in text)


def text_box(words: dict[str, str], text: str) -> Box:
    x, y, size = float(words["x"]), float(words["y"]), float(words["font-size"])
    width = text_width(text, size)
    left = x - {"middle": width / 2, "end": width}.get(words.get("text-anchor", "start"), 0)
    return Box(left, y - HIGH * size, left + width, y, text)


def area_box(words: dict[str, str]) -> Box:
    x, y = float(words["x"]), float(words["y"])
    return Box(x, y, x + float(words["width"]), y + float(words["height"]))


def texts_and_areas(top: list[ElementTree.Element]) -> Iterator[tuple[bool, Box]]:
    """The texts and the areas that hide what is under them, in the order in which they are drawn."""
    for one in top:
        match one.tag.rpartition("}")[2]:
            case "text":
                yield True, text_box(one.attrib, "".join(one.itertext()))
            case "rect" if "x" in one.attrib and one.get("fill") != "none":
                yield False, area_box(one.attrib)


def text_faults(drawing: bytes) -> list[str]:
    """Whether each text of the drawing lies within it, over no other, and under no area; and whether it is no wider than they need."""
    whole = ElementTree.fromstring(drawing)
    width, height, right, texts, found = float(whole.get("width")), float(whole.get("height")), 0.0, Squares(), []
    for is_text, box in texts_and_areas(list(whole)):
        other = texts.met(box)
        if other is not None:
            found.append(f"{other.told()} lies under {box.told() if is_text else 'an area ' + box.told()}")
        if is_text:
            right = max(right, box.right)
            if box.leaves(width, height):
                found.append(f"{box.told()} leaves the drawing, which is {width:.0f} wide and {height:.0f} high")
            texts.put(box)
    found += wide_faults(drawing, width, right)
    return [f"{found[0]}; {len(found)} such"] if found else []


def wide_faults(drawing: bytes, width: float, right: float) -> list[str]:
    """Whether the drawing is about as wide as its columns and its texts need."""
    columns = [float(x) for x in re.findall(rb'<line x1="([\d.]+)"', drawing)]
    needed = max([right, *(x + COLUMN for x in columns)])
    return [f"it is {width:.0f} wide, and {needed:.0f} are needed"] if width > PART * needed + SPARE else []
