"""Whether a drawing shows what the second implementation knows of a run: each event in its columns and its row with its words, each order
as a curve or along a lane, what handshakes enclose, and what stands over the columns.
"""

from __future__ import annotations

import re
from collections import Counter
from decimal import Decimal

from facts import Facts
from marks import QUIET, Drawn, Mark, Piece, fits, rows_of

# a text of so many letters is never cut
SHORT = 12
HEADS = {"in": "input", "out": "output", "sync": "sync"}
# all rows are numbered, or each fifth
STEP = 5
# how far beside and how far over its mark a word stands at most, and how far from a mark a curve begins or ends, in pixels
NEAR, LEVEL, GAP = 12, 6, 5
# how far over the end of the drawing lanes and bars end
END = 8
DASHED = "5 4"
OPENED, HELD = ("#bfe5d8", None), ("url(#held)", "3 3")


def is_cut_well(text: str, whole: str) -> bool:
    """Whether it is the whole, or of a long one the beginning of the name with three dots, and the value."""
    return text == whole or len(whole) > SHORT and not text.startswith("...") and fits(text, whole)


class Ground:
    """The lanes that have a column, in order, and where a drawing has put them."""

    def __init__(self, facts: Facts, drawn: Drawn) -> None:
        self.facts, self.drawn = facts, drawn
        self.lanes = used_lanes(facts)
        self.of = {facts.all["lanes"][lane][0]: column for column, lane in enumerate(self.lanes)}
        self.first = [at for at in range(len(self.lanes)) if at == 0 or self.block(at) is None or self.block(at) != self.block(at - 1)]
        heads = [piece for piece in drawn.behind if piece.is_bare() and not is_row_number(piece)]
        self.titles = [piece for piece in heads if piece.words.get("font-weight") == "bold"]
        self.heads = [piece for piece in heads if piece not in self.titles]
        self.x: list[Decimal] = []

    def block(self, column: int) -> int | None:
        """The block of the lane of a column."""
        _, block, _, kind, _ = self.facts.all["lanes"][self.lanes[column]]
        return block if kind == "body" else None

    def prefix(self, lane: str) -> str:
        """What stands before the names of the block in which a lane lies."""
        block = self.block(self.of[lane])
        return "" if block is None else self.facts.all["instances"][block][1]

    def own(self, name: str, lane: str) -> str:
        """A name as it is written in a lane: its own alone where it is declared there or around."""
        before = name[:name.rfind(":") + 1]
        return name[len(before):] if self.prefix(lane).startswith(before) else name

    def label(self, text: str, lanes: list[str]) -> str:
        """What is written of an event beside its number."""
        kind, *words = text.split()
        if kind in ("turn", "close"):
            return "turn" if kind == "turn" else ""
        if kind == "test":
            return f"test {words[0]}"
        name = self.own(words[0], lanes[0] if kind == "sync" else lanes[-1])
        if kind == "assign":
            return f"{name} := {words[1]}"
        return name if kind == "sync" or words[1] == "-" else f"{name} {words[1]}"


def used_lanes(facts: Facts) -> list[int]:
    """Those in which something happens or stands, and of each block the first."""
    lanes, used = facts.all["lanes"], set()
    for row in facts.events:
        used.update(row["lanes"])
    for row in facts.all["ready"]:
        used.update(row[1])
    used.update(row[0] for row in facts.all["places"])
    before, found = None, []
    for at, (path, block, _, kind, _) in enumerate(lanes):
        if kind != "body" or block != before or path in used:
            found.append(at)
        before = block if kind == "body" else None
    return found


# --- columns and rows

def head_faults(ground: Ground) -> list[str]:
    """Whether over each column stands what its lane is, and over those of each block its name."""
    lanes, blocks = ground.facts.all["lanes"], ground.facts.all["instances"]
    wanted = []
    for column, lane in enumerate(ground.lanes):
        _, _, line, kind, _ = lanes[lane]
        wanted.append(HEADS.get(kind) or f"{'line' if column in ground.first else '||'} {line}")
    told = [piece.text for piece in ground.heads]
    if told != wanted:
        return [f"over the columns stands {told}, wanted {wanted}"]
    titles = []
    for column in ground.first:
        block, channel = ground.block(column), lanes[ground.lanes[column]][4]
        titles.append(ground.facts.all["channels"][channel][0] if block is None else blocks[block][1] + blocks[block][0])
    told = [piece.text for piece in ground.titles]
    good = len(told) == len(titles) and all(is_cut_well(*both) for both in zip(told, titles))
    return [] if good else [f"over the blocks stands {told}, wanted {titles}"]


def column_faults(ground: Ground, shown: list[int]) -> list[str]:
    """Whether the columns stand in the order of the lanes, each event in those of its lanes, and each name over its block."""
    lefts = [Decimal(piece.words["x"]) for piece in ground.heads]
    stands: dict[str, set[Decimal]] = {}
    for at, mark in zip(shown, ground.drawn.marks):
        for lane, (x, _) in zip(ground.facts.events[at]["lanes"], mark.points(), strict=True):
            stands.setdefault(lane, set()).add(x)
    beside = {x - lefts[ground.of[lane]] for lane, found in stands.items() for x in found} or {Decimal(14)}
    ground.x = [left + min(beside) for left in lefts]
    if len(beside) > 1 or not 0 <= min(beside) < 20:
        return [f"events stand beside the heads of their lanes: {sorted(beside)[:9]}, {stands}"]
    if any(one >= other for one, other in zip(ground.x, ground.x[1:])):
        return [f"the columns stand at {ground.x}"]
    titles = [Decimal(piece.words["x"]) for piece in ground.titles]
    ends = titles[1:] + [titles[-1] + 10 ** 9] if titles else []
    for number, column in enumerate(ground.first):
        inside = [x for x in ground.x if titles[number] < x <= ends[number]]
        last = ground.first[number + 1] if number + 1 < len(ground.first) else len(ground.x)
        if inside != ground.x[column:last]:
            return [f"{ground.titles[number].text!r} stands over {inside}, wanted {ground.x[column:last]}"]
    return []


def row_faults(ground: Ground, shown: list[int]) -> list[str]:
    """Whether each event stands in its row, a row under the one before it, and the numbers beside them."""
    wanted, rows = rows_of(ground.facts, shown), {}
    for at, mark in zip(shown, ground.drawn.marks):
        rows.setdefault(wanted[at], set()).update(y for _, y in mark.points())
        if len({y for _, y in mark.points()}) > 1:
            return [f"event {at + 1} stands at {mark.points()}"]
    order = sorted(rows)
    for one, other in zip(order, order[1:]):
        if max(rows[one]) >= min(rows[other]):
            return [f"row {other} begins at {min(rows[other])}, and row {one} goes to {max(rows[one])}"]
    numbers = [(int(piece.text), Decimal(piece.words["y"])) for piece in ground.drawn.behind if is_row_number(piece)]
    if [row for row, _ in numbers] not in (order, [row for row in order if row % STEP == 0]):
        return [f"the rows {numbers} have numbers, of {order}"]
    for row, y in numbers:
        if row and y <= max(rows[row - 1]) or row + 1 in rows and y >= min(rows[row + 1]):
            return [f"the number of row {row} stands at {y}, its events at {sorted(rows[row])}"]
    return []


def is_row_number(piece: Piece) -> bool:
    return piece.is_bare() and piece.words.get("text-anchor") == "end"


# --- words

def words_of(ground: Ground, at: int) -> list[str]:
    """The words beside an event, in the order in which they are drawn."""
    event, number = ground.facts.events[at], str(at + 1)
    label = ground.label(event["text"], event["lanes"])
    if event["kind"] in ("assign", *QUIET):
        return [label, number]
    if event["kind"] == "close":
        return []
    stored = ground.facts.all["variables"][event["written"]][0] if event["kind"] == "meet" and event["written"] >= 0 else ""
    return [f"#{number}", label] + [ground.own(stored, event["lanes"][-1])] * bool(stored)


def word_faults(ground: Ground, shown: list[int]) -> list[str]:
    """Whether beside each event stand its number, its name and value, and where the value goes; and whether an arrow says that one goes."""
    found = []
    for at, mark in zip(shown, ground.drawn.marks):
        told, wanted = [piece.text for piece in mark.words], words_of(ground, at)
        if len(told) != len(wanted) or not all(is_cut_well(*both) for both in zip(told, wanted)):
            found.append(f"beside event {at + 1} stands {told}, wanted {wanted}")
        elif not all(is_near(mark, piece) for piece in mark.words):
            found.append(f"words of event {at + 1} at {mark.points()} stand at {[piece.words for piece in mark.words]}")
        event = ground.facts.events[at]["text"].split()
        if len(mark.points()) == 2 and arrow_of(mark) != (event[0] in ("meet", "open") and event[2] != "-"):
            found.append(f"event {at + 1} has {[piece.kind() for piece in mark.pieces]}, and is {event}")
    return found[:1]


def arrow_of(mark: Mark) -> bool:
    """Whether there is an arrow, whose tip is at the second point."""
    tip = mark.pieces[-1]
    return tip.kind() == "arrow" and tuple(map(Decimal, re.findall(r"[\d.]+", tip.words["d"])[:2])) == mark.points()[1]


def is_near(mark: Mark, piece: Piece) -> bool:
    """Whether a word stands at the height of its mark, and begins or ends between its points or just outside."""
    xs, x, y = [x for x, _ in mark.points()], Decimal(piece.words["x"]), Decimal(piece.words["y"])
    return abs(y - mark.points()[0][1]) <= LEVEL and min(xs) - NEAR <= x <= max(xs) + NEAR


# --- orders


CURVE = re.compile(r"M([\d.]+) ([\d.]+)(?:V[\d.]+)?C[\d.]+ [\d.]+ [\d.]+ [\d.]+ ([\d.]+) ([\d.]+)(?:V([\d.]+))?")


def ends_of_curve(piece: Piece) -> tuple[tuple[Decimal, Decimal], tuple[Decimal, Decimal]]:
    """Where it begins and ends. Behind its beginning, and before its end, a line down may stand."""
    x, y, across, end, down = CURVE.fullmatch(piece.words["d"]).groups()
    return (Decimal(x), Decimal(y)), (Decimal(across), Decimal(down or end))


class Orders:
    """The curves of a drawing: from which point of which event to which of which other. A turn or a test that is left out, and at which
    orders meet, has an index behind those of the events."""

    def __init__(self, ground: Ground, shown: list[int]) -> None:
        self.ground, self.lost, self.shown = ground, [], shown
        lanes = {x: ground.facts.all["lanes"][lane][0] for x, lane in zip(ground.x, ground.lanes)}
        self.at = {point: (index, lane) for index, mark in zip(shown, ground.drawn.marks)
                   for lane, point in zip(ground.facts.events[index]["lanes"], mark.points())}
        for index, piece in enumerate(ground.drawn.points(), len(ground.facts.events)):
            x, y = Decimal(piece.words["cx"]), Decimal(piece.words["cy"])
            if x not in lanes:
                self.lost.append(f"a point at {x}, {y} is in no column")
            self.at[x, y] = index, lanes.get(x, "")
        self.told: list[tuple[int, int, str, str, bool]] = []
        for piece in ground.drawn.under:
            if piece.kind() == "curve":
                self.add(piece)

    def events_at(self, index: int) -> list[int]:
        """The event with this index, or those that may be at such a point: of those left out in its lane what is between the marks."""
        events = self.ground.facts.events
        if index < len(events):
            return [index]
        (_, y), lane = next((point, lane) for point, (at, lane) in self.at.items() if at == index)
        marks = [(point[1], at) for point, (at, other) in self.at.items() if other == lane and at < len(events)]
        first = max((at for height, at in marks if height < y), default=-1)
        last = min((at for height, at in marks if height > y), default=len(events))
        return [at for at in range(first + 1, last) if lane in events[at]["lanes"] and events[at]["kind"] in QUIET]

    def is_way(self, cause: int, event: int, ways: tuple[str, str], is_dashed: bool) -> bool:
        """Whether the line between them is whole between places of which the one is before the other, and broken where there are none."""
        known = self.ground.facts.ways(cause, event)
        return known is None or (not known if is_dashed else ways in known)

    def near(self, x: Decimal, y: Decimal, way: int) -> tuple[int, str] | None:
        """The event of which there is a mark there, or a little higher or lower."""
        return next((self.at[x, y + way * far] for far in range(GAP) if (x, y + way * far) in self.at), None)

    def add(self, piece: Piece) -> None:
        start, end = ends_of_curve(piece)
        cause, event = self.near(*start, -1), self.near(*end, 1)
        if cause is None or event is None or start[1] >= end[1]:
            self.lost.append(f"a curve from {start} to {end} joins no two events")
        else:
            self.told.append((cause[0], event[0], cause[1], event[1], piece.words.get("stroke-dasharray") == DASHED))

    def edges(self) -> list[tuple[int, int]]:
        """Which are joined by curves, and which stand in a lane one under the other."""
        found, last = [row[:2] for row in self.told], {}
        for (_, _), (index, lane) in sorted(self.at.items(), key=lambda one: one[0][1]):
            if lane in last:
                found.append((last[lane], index))
            last[lane] = index
        return found


def order_faults(ground: Ground, orders: Orders) -> list[str]:
    """Whether exactly those are joined of which one follows the other, and that have no lane in common."""
    events = ground.facts.events
    wanted = Counter((at, at + ahead) for at, row in enumerate(events) for ahead in row["followers"]
                     if not set(row["lanes"]) & set(events[at + ahead]["lanes"]))
    told = Counter(row[:2] for row in orders.told)
    more, less = sorted((told - wanted).elements()), sorted((wanted - told).elements())
    return [f"joined are also {more[:9]}, and not {less[:9]} (indexes)"] if more or less else []


def curve_faults(ground: Ground, orders: Orders) -> list[str]:
    """Whether no two are joined twice, each by a whole line between places of which the one is before the other, and by a broken one where
    there are none such; and whether there are no more curves than orders, also of what is left out."""
    found, twice = list(orders.lost), [pair for pair, count in Counter(row[:2] for row in orders.told).items() if count > 1]
    for cause, event, start, end, is_dashed in orders.told:
        pairs = [(one, other) for one in orders.events_at(cause) for other in orders.events_at(event)]
        if not any(orders.is_way(*pair, (start, end), is_dashed) for pair in pairs):
            found.append(f"{cause + 1} and {event + 1} are joined {'broken' if is_dashed else 'whole'} from {start} to {end}")
    count = sum(len(row["followers"]) for row in ground.facts.events)
    if len(orders.told) > count:
        found.append(f"there are {len(orders.told)} curves for {count} orders")
    return found[:1] + [f"joined twice are {twice[:9]} (indexes)"] * bool(twice)


def reached(order: list[int], edges: list[tuple[int, int]]) -> dict[int, int]:
    """For each the bits of those to which edges lead from it, which lead to later ones in this order."""
    ahead: dict[int, list[int]] = {one: [] for one in order}
    for one, other in edges:
        ahead[one].append(other)
    bits = dict.fromkeys(order, 0)
    for one in reversed(order):
        for other in ahead[one]:
            bits[one] |= bits[other] | 1 << other
    return bits


def closure_faults(ground: Ground, orders: Orders) -> list[str]:
    """Whether along the curves and down the lanes exactly those events are reached from each that depend on it, and whether at each point
    several orders meet that go on to several."""
    facts, found, edges = ground.facts, [], orders.edges()
    mask = sum(1 << at for at in orders.shown)
    down = [index for _, index in sorted((point[1], index) for point, (index, _) in orders.at.items())]
    told = reached(list(dict.fromkeys(down)), edges)
    follow = [(at, at + ahead) for at, row in enumerate(facts.events) for ahead in row["followers"]]
    wanted = reached(list(range(len(facts.events))), follow)
    for at in orders.shown:
        if differ := (told[at] ^ wanted[at]) & mask:
            other = differ.bit_length() - 1
            found.append(f"from event {at + 1} curves and lanes {'lead' if told[at] >> other & 1 else 'do not lead'} to {other + 1}")
    before, behind = Counter(other for _, other in edges), Counter(one for one, _ in edges)
    found += [f"at the point {point} {before[index]} meet, and {behind[index]} go on" for point, (index, _) in orders.at.items()
              if index >= len(facts.events) and min(before[index], behind[index]) < 2]
    return found[:1]


# --- what handshakes enclose

def bars_wanted(ground: Ground, shown: list[int]) -> Counter:
    """Of each bar its column, from where to where it goes, and how it is filled; None where it has no end."""
    height, opened, found = {at: mark.points()[0][1] for at, mark in zip(shown, ground.drawn.marks)}, {}, Counter()
    for at, event in enumerate(ground.facts.events):
        channel = event["text"].split()[1]
        if event["kind"] == "open":
            opened[channel] = at
        elif event["kind"] == "close":
            start = opened.pop(channel)
            found.update((lane, height[start], height[at], look) for lane, look in zip(ground.facts.events[start]["lanes"], (HELD, OPENED)))
    for start in opened.values():
        found.update((lane, height[start], None, look) for lane, look in zip(ground.facts.events[start]["lanes"], (HELD, OPENED)))
    return found


def bar_faults(ground: Ground, shown: list[int]) -> list[str]:
    """Whether exactly what handshakes enclose has bars, from the opening to the end, hatched on the side that is held."""
    bars, told = [piece for piece in ground.drawn.under if piece.kind() == "area"], Counter()
    columns = {x: ground.facts.all["lanes"][lane][0] for x, lane in zip(ground.x, ground.lanes)}
    for piece in bars:
        x, y, width, high = (Decimal(piece.words[name]) for name in ("x", "y", "width", "height"))
        end = None if abs(y + high + END - ground.drawn.height) <= 1 else y + high
        told[columns.get(x + width / 2), y, end, (piece.words["fill"], piece.words.get("stroke-dasharray"))] += 1
    wanted = bars_wanted(ground, shown)
    if told == wanted:
        return []
    return [f"bars are also {list((told - wanted).elements())[:4]}, and not {list((wanted - told).elements())[:4]}"]


def point_faults(ground: Ground, shown: list[int], inks: dict[int, str]) -> list[str]:
    """Whether each point has the colour of one of the turns and tests that it may be: these have one, and all others another."""
    orders, count, found = Orders(ground, shown), len(ground.facts.events), []
    for index, piece in enumerate(ground.drawn.points(), count):
        wanted, told = {inks.get(at, "") for at in orders.events_at(index)}, piece.words["fill"]
        if (told if told in inks.values() else "") not in wanted:
            found.append(f"a point at {piece.words['cx']}, {piece.words['cy']} is in {told}, wanted {wanted}")
    return found[:1]


def placed_faults(ground: Ground, shown: list[int], is_whole: bool) -> list[str]:
    """Whether these events stand in their columns and rows, with their words, and are joined as they have to be; where all are drawn, each
    order by a curve of its own."""
    found = head_faults(ground) or column_faults(ground, shown)
    if found:
        return found
    orders = Orders(ground, shown)
    found = row_faults(ground, shown) + word_faults(ground, shown) + curve_faults(ground, orders) + closure_faults(ground, orders)
    return found + (order_faults(ground, orders) if is_whole else [])


HATCHING = re.compile(rb'<pattern id="held".*<path d="M[^"]+" stroke="(#[0-9a-f]{6})" stroke-width="(0\.[1-9]\d*|[1-9][\d.]*)"/></pattern>')


def hatching_faults(drawing: bytes) -> list[str]:
    """Whether there is something to see of the hatching."""
    found = HATCHING.search(drawing)
    return [] if found and found[1] != b"#ffffff" else ["the hatching is blank"]
