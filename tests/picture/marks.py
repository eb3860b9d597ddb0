"""What a drawing shows of each event, read from its text: its mark, and in which colour it is drawn.

The text names no event. But events are drawn one behind the other in the order of the trace, each as a mark of its kind with its words
behind it, and these end or begin with its number (the end of an enclosed command is a dashed line without one). So the marks are read
in that order, and one too many, one too few or one with another number is a fault.
"""

from __future__ import annotations

import re
from dataclasses import dataclass, field, replace
from decimal import Decimal
from xml.etree import ElementTree

from facts import Facts

PAPER = "#ffffff"
NUMBERS = {"assign": r"(\d+)", "turn": r"(\d+)", "test": r"(\d+)", "meet": r"#(\d+)", "open": r"#(\d+)", "sync": r"#(\d+)"}
QUIET = ("turn", "test")
# how the edges of consequences are broken, and how those of all others
SIGNS = {"3 1.5": None, "1 2": "3 3"}


@dataclass(frozen=True)
class Piece:
    """A shape, or a text with the paper under it."""

    tag: str
    words: dict[str, str]
    text: str = ""
    under: str = ""

    def kind(self) -> str:
        words, path = self.words, self.words.get("d", "")
        if self.tag == "line":
            return "line " + words["stroke-width"] + (" broken" if self.unsigned().get("stroke-dasharray") else "")
        if self.tag == "circle":
            return "circle " + words["r"]
        if self.tag == "rect":
            return "area" if "rx" in words else "square"
        if self.tag == "path":
            return "curve" if words["fill"] == "none" else "diamond" if path.endswith("l4 4l-4 4l-4 -4z") else "arrow"
        return self.tag

    def is_bare(self) -> bool:
        """Whether it is a text with no paper under it, as those over and beside the rows."""
        return self.tag == "text" and not self.under

    def colours(self) -> set[str]:
        return {self.words[name] for name in ("fill", "stroke") if name in self.words} - {PAPER, "none"}

    def has_sign(self) -> bool:
        return self.words.get("stroke-dasharray") in SIGNS

    def unsigned(self) -> dict[str, str]:
        """Its words, with its edge as it is where it is none of a consequence."""
        dash = self.words.get("stroke-dasharray")
        return {name: word for name, word in {**self.words, "stroke-dasharray": SIGNS.get(dash, dash)}.items() if word is not None}

    def shape(self) -> tuple:
        """All of it but its colours, and the sign of a consequence. The line above what stands now goes as far as the drawing, which is
        wider where the line at the top is longer."""
        free = ("fill", "stroke", "x2") if self.tag == "line" and self.words["x1"] == "0" else ("fill", "stroke")
        return self.tag, sorted((name, word) for name, word in self.unsigned().items() if name not in free), self.text


# the pieces of the mark of each kind of event; the head of an arrow where a value passes, a second dot where none does
PAIR = ("line 1.7", "circle 3.2", "circle 3.2"), ("line 1.7", "circle 3.2", "arrow")
MARKS = {"assign": (("square",),), "turn": (("circle 3",),), "test": (("diamond",),), "close": (("line 1 broken",),),
         "meet": PAIR, "open": PAIR, "sync": PAIR[:1]}
# a turn or a test that is left out, and at which orders meet
POINT = "circle 2"
# what stands of a label behind the name
VALUE = re.compile(r" (:= )?\d+")
# what is drawn before the events
LANE = "line 2", "line 2 broken"
BEFORE = {*LANE, "area", "curve", POINT, "text"}


@dataclass
class Mark:
    """An event as it is drawn: the frame around it, its pieces, and its words, the number first."""

    kind: str
    frame: Piece | None
    pieces: list[Piece]
    words: list[Piece] = field(default_factory=list)

    def colours(self) -> set[str]:
        return set().union(*(piece.colours() for piece in self.pieces))

    def signs(self) -> set[bool]:
        """Whether its pieces have the sign of a consequence, and no piece is filled that has it; the head of an arrow has none."""
        return {piece.has_sign() and piece.words.get("fill", PAPER) == PAPER for piece in self.pieces if piece.kind() != "arrow"}

    def is_framed(self) -> bool:
        """Whether a frame is around its points."""
        if self.frame is None:
            return False
        x, y, width, height = (Decimal(self.frame.words[name]) for name in ("x", "y", "width", "height"))
        return all(x < across < x + width and y < down < y + height for across, down in self.points())

    def points(self) -> list[tuple[Decimal, Decimal]]:
        """Where it stands in each of its columns."""
        words = self.pieces[0].words
        match self.kind:
            case "assign":
                return [(Decimal(words["x"]) + 4, Decimal(words["y"]) + 4)]
            case "turn":
                return [(Decimal(words["cx"]), Decimal(words["cy"]))]
            case "test":
                x, y = words["d"].partition("l")[0][1:].split()
                return [(Decimal(x), Decimal(y) + 4)]
        return ends_of(words)


def ends_of(words: dict[str, str]) -> list[tuple[Decimal, Decimal]]:
    """The ends of a line."""
    return [(Decimal(words["x" + end]), Decimal(words["y" + end])) for end in "12"]


def cut_at(piece: Piece, heights: dict[Decimal, set[Decimal]]) -> list[Piece]:
    """The line down, in parts that end at these heights of its column."""
    (x, first), (_, last) = ends_of(piece.words)
    stops = [first, *sorted(y for y in heights.get(x, ()) if first < y < last), last]
    return [replace(piece, words={**piece.words, "y1": str(one), "y2": str(other)}) for one, other in zip(stops, stops[1:])]


def pieces_of(drawing: bytes) -> list[Piece]:
    """What is drawn, in order. The paper under a text is taken together with it."""
    found, under = [], None
    top = list(ElementTree.fromstring(drawing))
    if [one.tag.rpartition("}")[2] for one in top[:3]] != ["title", "rect", "defs"]:
        raise ValueError("a drawing begins with its title, its paper and the hatching")
    for one in top[3:]:
        tag, words = one.tag.rpartition("}")[2], dict(one.attrib)
        if "opacity" in words:
            under = words["fill"]
        else:
            text = "".join(one.itertext()) if tag == "text" else ""
            found.append(Piece(tag, words, text, under or ""))
            under = None
    return found


class Drawn:
    """A drawing, taken apart: what is under the events, the events of these kinds, what is behind them, and the line over all."""

    def __init__(self, drawing: bytes, kinds: list[str]) -> None:
        self.pieces, self.height = pieces_of(drawing), int(re.search(rb'height="(\d+)"', drawing)[1])
        self.title, self.at = self.pieces[-1], 0
        while self.at < len(self.pieces) - 1 and self.kind() in BEFORE and not self.pieces[self.at].is_bare() and not self.is_frame():
            self.at += 1
        first = self.at
        self.marks = [self.mark(number, kind) for number, kind in enumerate(kinds)]
        self.behind = self.pieces[self.at:-1]
        self.under = self.in_parts(self.pieces[:first])
        self.pieces = self.under + self.pieces[first:]
        if any(piece.kind() in ("circle 3", "circle 3.2", "line 1.7", "line 1 broken", "diamond") for piece in self.behind):
            raise ValueError("there are marks of more events")

    def kind(self) -> str:
        return self.pieces[self.at].kind()

    def is_frame(self) -> bool:
        """Whether a frame around a mark comes next: an area wider than any bar, over which a mark is drawn."""
        return self.kind() == "area" and self.pieces[self.at + 1].kind() not in BEFORE and Decimal(self.pieces[self.at].words["width"]) > 15

    def mark(self, number: int, kind: str) -> Mark:
        frame = None
        if self.is_frame():
            frame, self.at = self.pieces[self.at], self.at + 1
        for pieces in MARKS[kind]:
            taken = self.pieces[self.at:self.at + len(pieces)]
            if tuple(piece.kind() for piece in taken) == pieces:
                self.at += len(pieces)
                break
        else:
            raise ValueError(f"where the mark of the {number + 1}. event, {kind}, is wanted: {[piece.kind() for piece in taken]}")
        mark = Mark(kind, frame, taken)
        while self.pieces[self.at].tag == "text" and self.pieces[self.at].under:
            if self.pieces[self.at].text == "now" and self.pieces[self.at].words["x"] == "30":
                break
            mark.words.append(self.pieces[self.at])
            self.at += 1
        return mark

    # --- what is drawn beside the marks

    def in_parts(self, under: list[Piece]) -> list[Piece]:
        """The lines of the lanes from one place of an event to the next, in order, and behind them all else. They are drawn as one as far
        as they look alike."""
        places = [point for mark in self.marks for point in mark.points()]
        places += [(Decimal(piece.words["cx"]), Decimal(piece.words["cy"])) for piece in under if piece.kind() == POINT]
        heights: dict[Decimal, set[Decimal]] = {}
        for x, y in places:
            heights.setdefault(x, set()).add(y)
        lanes = [part for piece in under if piece.kind() in LANE for part in cut_at(piece, heights)]
        lanes.sort(key=lambda piece: ends_of(piece.words))
        return lanes + [piece for piece in under if piece.kind() not in LANE]

    def bars(self) -> int:
        return sum(piece.kind() == "area" for piece in self.under)

    def edge(self) -> int:
        """Where the line over what stands now is among what is behind the marks."""
        return next((at for at, piece in enumerate(self.behind) if piece.kind() == "line 1"), len(self.behind))

    def races(self) -> list[Piece]:
        """The names of variables that make an order."""
        return [piece for piece in self.under + self.behind[:self.edge()] if piece.tag == "text" and piece.under]

    def now(self) -> list[Piece]:
        """What stands under the rows, behind the line over it and its word."""
        pieces = self.behind[self.edge() + 2:]
        return pieces[:next((at for at, piece in enumerate(pieces) if piece.is_bare()), len(pieces))]

    def end(self) -> list[tuple[str, str]]:
        """What stands under the rows: the pieces of it, with their texts."""
        return [(piece.kind(), piece.text) for piece in self.now()]

    def points(self) -> list[Piece]:
        """The turns and tests that are left out, and at which orders meet."""
        return [piece for piece in self.under if piece.kind() == POINT]

    def heads(self) -> list[str]:
        """What stands over the columns, but for the numbers of rows."""
        return [piece.text for piece in self.behind if piece.is_bare() and piece.words.get("text-anchor") != "end"]


def numbers(drawn: Drawn) -> list[int | None]:
    """The numbers of the events that are drawn, or None where none stands beside the mark."""
    found = []
    for mark in drawn.marks:
        form = NUMBERS.get(mark.kind)
        if form is None:
            found.append(None if not mark.words else -1)
            continue
        text = mark.words[-1 if mark.kind in ("assign", "turn", "test") else 0].text if mark.words else ""
        number = re.fullmatch(form, text)
        found.append(int(number[1]) if number else -1)
    return found


def fits(text: str, whole: str) -> bool:
    """Whether the text is the whole, or a beginning of it with three dots, behind which the value of the whole stands."""
    name, value = named(whole)
    return text == whole or text.endswith("..." + value) and name.startswith(text.removesuffix("..." + value))


def named(label: str) -> tuple[str, str]:
    """A label, cut into the name and the value with what stands before it."""
    name, blank, value = label.partition(" ")
    return (name, blank + value) if VALUE.fullmatch(blank + value) else (label, "")


# --- what has to be so

COLOURS = re.compile(rb'<tspan fill="([^"]+)"[^>]*>\d+ causes?</tspan> and <tspan fill="([^"]+)"[^>]*>\d+ consequences?</tspan> \(dashed\)')


def events_of(facts: Facts, quiet: bool, asked: int | None = None) -> list[int]:
    """The indexes of the events that are to be drawn: that which is asked for in any case."""
    return [at for at, event in enumerate(facts.events) if at == asked or not (quiet and event["kind"] in QUIET)]


def taken_apart(facts: Facts, drawing: bytes, quiet: bool, asked: int | None = None) -> Drawn:
    """The drawing, in which exactly the events that are wanted are drawn, each under its number."""
    wanted = events_of(facts, quiet, asked)
    drawn = Drawn(drawing, [facts.events[at]["kind"] for at in wanted])
    told = [None if facts.events[at]["kind"] == "close" else at + 1 for at in wanted]
    if numbers(drawn) != told:
        raise ValueError(f"the numbers are {numbers(drawn)}, wanted {told}")
    return drawn


def plain_faults(drawn: Drawn) -> list[str]:
    """Where none is asked for, all marks are in one colour, and none has a frame or a sign."""
    found = {colour for mark in drawn.marks for colour in mark.colours()}
    if len(found) > 1 or any(mark.frame for mark in drawn.marks):
        return [f"colours {found}, frames {[mark.frame for mark in drawn.marks if mark.frame]}"]
    return ["signs of consequences"] if any(piece.has_sign() for piece in drawn.pieces) else []


def inks_of(facts: Facts, drawing: bytes, at: int) -> dict[int, str]:
    """The colours of the causes and of the consequences of an event, by the line at the top."""
    named = COLOURS.search(drawing)
    return {**dict.fromkeys(facts.causes(at), named[1].decode()), **dict.fromkeys(facts.consequences(at), named[2].decode())}


def marked_faults(facts: Facts, plain: Drawn, drawn: Drawn, drawing: bytes, at: int, shown: list[int]) -> list[str]:
    """Whether exactly the causes of an event are in the causes' colour, exactly the consequences in theirs, the event itself in its own
    and in a frame, and the rest in a fourth; whether exactly the consequences have the sign that is no colour; and whether all else is as
    in the drawing in which none is asked for, unless that leaves the event out."""
    named, chosen = COLOURS.search(drawing), drawn.marks[shown.index(at)]
    causes, consequences = set(facts.causes(at)), set(facts.consequences(at))
    wanted = inks_of(facts, drawing, at)
    own = (plain.marks or [chosen])[0].pieces[0].words["stroke"]
    rest, found = set(), []
    for index, mark in zip(shown, drawn.marks):
        told = mark.colours()
        words = {colour for word in mark.words for colour in word.colours()}
        if mark.signs() != {index in consequences}:
            found.append(f"event {index + 1}: signs {mark.signs()}")
        if index == at:
            if told != {own} or not mark.is_framed() or words & set(wanted.values()):
                found.append(f"event {index + 1} itself: {told}, words {words}, frame {mark.frame}")
        elif mark.frame is not None or words | told != {wanted.get(index, "")} and index in wanted or len(words | told) != 1:
            found.append(f"event {index + 1}: {told}, words {words}, frame {mark.frame}, wanted {wanted.get(index, 'the rest')}")
        elif index not in wanted:
            rest |= told
    if sum(piece.has_sign() for piece in drawn.pieces) != sum(piece.has_sign() for mark in drawn.marks for piece in mark.pieces):
        found.append("signs of consequences beside the marks")
    if len(rest) > 1 or rest & {own, *map(bytes.decode, named.groups())} or len({own, *map(bytes.decode, named.groups())}) != 3:
        found.append(f"the rest is in {rest}, the event in {own}, causes and consequences in {named.groups()}")
    frames = [mark.frame for mark in drawn.marks if mark.frame is not None]
    pieces = [piece.shape() for piece in drawn.pieces[:-1] if piece not in frames]
    if len(drawn.marks) == len(plain.marks) and pieces != [piece.shape() for piece in plain.pieces[:-1]]:
        found.append("more than colours differ")
    return found + lane_faults(drawn, shown, at, causes, named[1].decode()) + lane_faults(drawn, shown, at, consequences, named[2].decode())


def lane_faults(drawn: Drawn, shown: list[int], at: int, cone: set[int], colour: str) -> list[str]:
    """The line of a lane between two events is in a colour exactly where both are, or one of them and the event itself."""
    found: dict[tuple[Decimal, Decimal], set[int]] = {}
    for index, mark in zip(shown, drawn.marks):
        for point in mark.points():
            found.setdefault(point, set()).add(index)
    faults = []
    for piece in drawn.under:
        ends = [found.get(end, set()) for end in ends_of(piece.words)] if piece.tag == "line" else []
        if [len(end) for end in ends] != [1, 1]:
            continue
        both = ends[0] | ends[1]
        if (piece.words["stroke"] == colour) != (bool(both & cone) and both <= cone | {at}):
            faults.append(f"the lane between {sorted(one + 1 for one in both)} is in {piece.words['stroke']}")
    return faults


def race_faults(facts: Facts, drawn: Drawn, shown: list[int]) -> list[str]:
    """Whether over the row of each event, and under the one before, each variable is named that alone makes an order to it from an event
    with which it has no lane in common."""
    rows: dict[int, list[Decimal]] = {}
    depth = rows_of(facts, shown)
    for at, mark in zip(shown, drawn.marks):
        rows.setdefault(depth[at], []).append(mark.points()[0][1])
    wanted = {(depth[event], event, variable) for cause, event, variable in facts.all["races"]
              if {cause, event} <= set(shown) and not set(facts.events[cause]["lanes"]) & set(facts.events[event]["lanes"])}
    wanted = sorted((row, facts.all["variables"][variable][0]) for row, _, variable in wanted)
    told = sorted((min((row for row, heights in rows.items() if min(heights) > Decimal(piece.words["y"])), default=-1), piece.text)
                  for piece in drawn.races())
    good = len(told) == len(wanted) and all(one[0] == other[0] and fits(one[1], other[1]) for one, other in zip(told, wanted))
    return [] if good else [f"orders that only a variable makes: {told}, wanted {wanted}"]


def rows_of(facts: Facts, shown: list[int]) -> list[int]:
    """The row of each event: its depth, where some are left out the length of the longest chain of others before it."""
    rows, kept = [0] * len(facts.events), set(shown)
    for at, event in enumerate(facts.events):
        behind = rows[at] + (at in kept)
        for ahead in event["followers"]:
            rows[at + ahead] = max(rows[at + ahead], behind)
    return rows


def quiet_faults(facts: Facts, whole: Drawn, quiet: Drawn) -> list[str]:
    """Whether all but turns and tests is as in the whole drawing: the events' words, bars, what stands at the end, heads and title."""
    found = []
    kept = [mark for mark in whole.marks if mark.kind not in QUIET]
    for one, other in zip(quiet.marks, kept):
        told, wanted = [word.text for word in one.words], [word.text for word in other.words]
        if told != wanted and not (len(told) == len(wanted) and all(fits(a, b) or fits(b, a) for a, b in zip(told, wanted))):
            found.append(f"words {told}, with turns and tests {wanted}")
    for name in ("bars", "end"):
        one, other = getattr(quiet, name)(), getattr(whole, name)()
        if one != other:
            found.append(f"{name}: {one}, with turns and tests {other}")
    one, other = quiet.heads(), whole.heads()
    if len(one) != len(other) or not all(fits(a, b) or fits(b, a) for a, b in zip(one, other)):
        found.append(f"heads: {one}, with turns and tests {other}")
    if quiet.title.text != whole.title.text:
        found.append(f"title {quiet.title.text!r}, with turns and tests {whole.title.text!r}")
    return found
