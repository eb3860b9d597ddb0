"""Whether a drawing shows what stands at the end of a run: what can be taken, what waits for whom, and who waits in a ring."""

from __future__ import annotations

import re
from decimal import Decimal

from marks import Piece, ends_of
from placed import LEVEL, NEAR, Ground, is_cut_well

RING, WAITS, READY = "line 2.4", "line 1.3 broken", "line 1.6 broken"
VERBS = {"assign": "", "turn": "", "test": "", "close": "close"}
NEVER = {True: " (for ever)", False: " (none comes)"}


class Standing:
    """What is drawn under the rows, read from the top."""

    def __init__(self, ground: Ground) -> None:
        self.ground, self.all, self.found = ground, ground.facts.all, []
        self.x = {self.all["lanes"][lane][0]: x for lane, x in zip(ground.lanes, ground.x)}
        self.pieces = ground.drawn.now()
        self.y = Decimal(0)

    def fault(self, what: str) -> None:
        self.found.append(what[:400])

    def take(self, kind: str) -> Piece:
        """The next piece, which is one of this kind."""
        if not self.pieces or self.pieces[0].kind() != kind:
            raise ValueError(f"at the end {[piece.kind() for piece in self.pieces[:3]]} is drawn, wanted {kind}")
        return self.pieces.pop(0)

    def point(self, lane: str, point: tuple[Decimal, Decimal], what: str) -> None:
        """Whether it stands in the column of the lane, at the height of this line."""
        if point != (self.x[lane], self.y):
            self.fault(f"{what} is at {point}, wanted {lane} at {self.x[lane]}, {self.y}")

    def text(self, lanes: list[str]) -> str:
        """The words of this line, which begin right of the first of these lanes."""
        piece, left = self.take("text"), min(self.x[lane] for lane in lanes)
        x, y = Decimal(piece.words["x"]), Decimal(piece.words["y"])
        if abs(y - self.y) > LEVEL or not 0 < x - left <= NEAR or piece.words["text-anchor"] != "start":
            self.fault(f"{piece.text!r} stands at {x}, {y}, its line at {left}, {self.y}")
        return piece.text

    def next_line(self, y: Decimal) -> None:
        if y <= self.y:
            self.fault(f"a line at {y} is behind one at {self.y}")
        self.y = y


def centre_of(piece: Piece) -> tuple[Decimal, Decimal]:
    """The centre of a circle or a square, or the tip of an arrow."""
    match piece.tag:
        case "circle":
            return Decimal(piece.words["cx"]), Decimal(piece.words["cy"])
        case "path":
            x, y = re.findall(r"[\d.]+", piece.words["d"])[:2]
            return Decimal(x), Decimal(y)
    return Decimal(piece.words["x"]) + 4, Decimal(piece.words["y"]) + 4


def read_ready(standing: Standing, text: str, lanes: list[str]) -> None:
    """Reads an event that can be taken, in the columns of these lanes."""
    if len(lanes) == 2:
        start, end = ends_of(standing.take(READY).words)
        standing.next_line(start[1])
        standing.point(lanes[0], start, f"the line of {text!r}")
        standing.point(lanes[1], end, f"the line of {text!r}")
        standing.point(lanes[1], centre_of(standing.take("circle 4")), f"the second ring of {text!r}")
    ring = centre_of(standing.take("circle 4"))
    if len(lanes) == 1:
        standing.next_line(ring[1])
    standing.point(lanes[0], ring, f"the ring of {text!r}")
    verb, label = VERBS.get(text.split()[0], text.split()[0] + " "), standing.ground.label(text, lanes)
    told = standing.text(lanes)
    if not told.startswith(verb) or not is_cut_well(told[len(verb):], label):
        standing.fault(f"{told!r} can be taken, wanted {verb + label!r}")


def read_place(standing: Standing, place: list, partner: str | None) -> None:
    """Reads a place that waits, in a ring for the partner in this lane."""
    lane, address, _, role, wanted, _ = place
    kind = WAITS if partner is None else RING
    lanes = [one for _, lanes, _ in wanted for one in lanes if one in standing.x and one != lane] if partner is None else [partner]
    first = True
    told = []
    while standing.pieces and standing.pieces[0].kind() in (RING, WAITS):
        line, tip = standing.take(standing.pieces[0].kind()), standing.take("arrow")
        start, end = ends_of(line.words)
        if first:
            standing.next_line(start[1])
        first = False
        standing.point(lane, start, f"an arrow of {address}")
        if line.kind() != kind or centre_of(tip) != end or ("l-" in tip.words["d"]) != (end[0] > start[0]):
            standing.fault(f"an arrow of {address} is {line.kind()}, wanted {kind}, to {end}, its head {tip.words['d']}")
        told.append(end)
    square = standing.take("square")
    if first:
        standing.next_line(centre_of(square)[1])
    standing.point(lane, centre_of(square), f"the place {address}")
    if told != [(standing.x[one], standing.y) for one in lanes]:
        standing.fault(f"{address} has arrows to {told}, wanted {lanes}")
    if wanted:
        read_place_words(standing, lane, address, role == "held", wanted)


def read_place_words(standing: Standing, lane: str, address: str, is_held: bool, wanted: list) -> None:
    told = standing.text([lane])
    head, tail = "held " * is_held, "" if any(can for _, _, can in wanted) else NEVER[is_held]
    names = told[len(head):len(told) - len(tail)].split(" | ")
    channels = [standing.all["channels"][channel][0] for channel, _, _ in wanted]
    if not told.startswith(head) or not told.endswith(tail) or len(names) != len(channels) \
            or not all(is_cut_well(*both) for both in zip(names, channels)):
        standing.fault(f"of {address} stands {told!r}, wanted {head + ' | '.join(channels) + tail!r}")


def partners_of(data: dict) -> dict[str, str]:
    """For each place of the ring the lane of the next, which `ring_faults` holds against the second implementation."""
    found = {}
    for ring in data["rings"]:
        for one, other in zip(ring, ring[1:] + ring[:1]):
            found[data["places"][one][1]] = data["lanes"][data["places"][other][0]][0]
    return found


def standing_faults(ground: Ground, data: dict) -> list[str]:
    """Whether exactly what can be taken and what waits is drawn, line by line, each with its words and arrows."""
    standing, partners = Standing(ground), partners_of(data)
    kinds = {path: kind for path, _, _, kind, _ in ground.facts.all["lanes"]}
    try:
        for text, lanes, _, _ in ground.facts.all["ready"]:
            read_ready(standing, text, lanes)
        for place in ground.facts.all["places"]:
            if not place[5] and place[3] != "go" and kinds[place[0]] == "body":
                read_place(standing, place, partners.get(place[1]))
    except ValueError as fault:
        standing.fault(str(fault))
    if standing.pieces and not standing.found:
        standing.fault(f"at the end more is drawn: {[(piece.kind(), piece.text) for piece in standing.pieces[:4]]}")
    return standing.found[:1]
