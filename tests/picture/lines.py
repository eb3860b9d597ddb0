"""The lines of lanes in a drawing: from event to event of one lane where the branch went on, dotted over a row in between, and to the
end where it waits."""

from __future__ import annotations

from decimal import Decimal

from facts import Facts
from marks import LANE, Drawn, ends_of, rows_of
from reference.places import Address

# how far down the lanes begin
HEAD = Decimal(54)
Line = tuple[Decimal, Decimal, Decimal, bool]


def turn_of(place: Address) -> Address:
    """The part of the place that says in which turn of its branch it is: up to the last branch but the first of a parallel."""
    return place[: max((at for at, entry in enumerate(place, 1) if entry.is_branch and entry.number), default=0)]


def goes_on(facts: Facts, earlier: tuple[int, Address] | None, later: tuple[int, Address]) -> bool:
    """Whether the branch goes on from one event to the other: it stood there from the start, or the other needs it, or both are in one
    turn of the branch."""
    (index, place) = later
    if earlier is None:
        return all(entry.is_branch or not entry.number for entry in turn_of(place))
    before, other = earlier
    return index - before in facts.events[before]["followers"] or turn_of(other) == turn_of(place)


def wanted_lines(facts: Facts, drawn: Drawn, shown: list[int]) -> set[Line]:
    """The lines from event to event, by their columns."""
    rows, points = rows_of(facts, shown), {}
    for index, mark in zip(shown, drawn.marks):
        points |= {(index, side): point for side, point in enumerate(mark.points())}
    found: set[Line] = set()
    last: dict[str, tuple[int, Address]] = {}
    ends: dict[str, tuple[int, Decimal]] = {}
    for index, event in enumerate(facts.all["events taken"]):
        for side, (lane, place) in enumerate(zip(facts.events[index]["lanes"], event.places)):
            x, y = points[index, side]
            if goes_on(facts, last.get(lane), (index, place)):
                row, begin = ends.get(lane, (-1, HEAD))
                found.add((x, begin, y, rows[index] - row > 1))
            last[lane], ends[lane] = (index, place), (rows[index], y)
    return found


def lane_line_faults(facts: Facts, drawn: Drawn, shown: list[int]) -> list[str]:
    """Whether the lines are these, where all events are drawn, but for those to the end, which are dotted."""
    told, end = set(), Decimal(0)
    for piece in drawn.under:
        if piece.kind() in LANE:
            (x, first), (_, last) = ends_of(piece.words)
            told.add((x, first, last, piece.kind().endswith("broken")))
            end = max(end, last)
    wanted = wanted_lines(facts, drawn, shown)
    more = [line for line in told - wanted if not (line[3] and line[2] == end)]
    return [f"lines of lanes that are not wanted: {sorted(more)[:3]}"] * bool(more) + [f"not drawn: {sorted(wanted - told)[:3]}"] * bool(wanted - told)
