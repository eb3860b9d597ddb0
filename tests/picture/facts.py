"""What the data of a picture must say of a run, by the second implementation: from docs/, not from the code. The nearest causes are found by
pairs, so this is slow and simple."""

from __future__ import annotations

import json
from dataclasses import replace
from random import Random

from cases import Case
from ground import Ground
from reference.debugger import accept
from reference.events import Event, depends_directly
from reference.machine import Machine
from reference.places import Address, branch, is_before, text_of
from reference.residuals import DONE, Move, moves_of
from reference.traces import load, step_line
from waits import NOWHERE, PARTNERS, Standing, has_ring, is_under, lacks_input, links, partner


def lane_of(place: Address) -> str:
    """The branch numbers, without zeros at the end but for the first."""
    numbers = [entry.number for entry in place if entry.is_branch]
    while len(numbers) > 1 and numbers[-1] == 0:
        numbers.pop()
    return "".join(f"/{number}" for number in numbers)


def nearest_causes(events: list[Event]) -> list[list[int]]:
    """For each event its nearest causes: those that it depends on directly, with no event between."""
    behind: list[int] = []  # as bits, the event itself among them
    causes = []
    for at, event in enumerate(events):
        direct = [one for one in range(at) if depends_directly(events[one], event)]
        kept, seen = [], 0
        for one in reversed(direct):
            if not seen >> one & 1:
                kept.append(one)
            seen |= behind[one]
        behind.append(seen | 1 << at)
        causes.append(kept[::-1])
    return causes


def stands_since(events: list[Event], depth: list[int], at: int, place: Address) -> int:
    """One more than the greatest depth of an earlier event with a place before this one."""
    before = [depth[one] for one in range(at) if any(is_before(other, place) for other in events[one].places)]
    return 1 + max(before, default=-1)


def race(earlier: Event, later: Event) -> bool:
    """Whether only a variable relates the two."""
    if any(is_before(one, other) for one in earlier.places for other in later.places):
        return False
    return earlier.channel is None or earlier.channel != later.channel


def orders_by(earlier: Event, later: Event) -> int:
    """The number of the variable that orders the two: where the later reads what the earlier wrote, that one."""
    if earlier.writes is not None and earlier.writes in later.reads:
        return earlier.writes.number
    return later.writes.number


def ways_between(earlier: Event, later: Event) -> list[tuple[str, str]]:
    """The lanes of each two places of the events of which the one is before the other."""
    return [(lane_of(one), lane_of(other)) for one in earlier.places for other in later.places if is_before(one, other)]


def lines_of(event: Event) -> list[int]:
    return [move.command.line if move.command is not None else 0 for move in event.moves]


ROLES = {"release": "held"} | dict.fromkeys(("assign", "turn", "test"), "go")


class End:
    """What stands at the end of a run."""

    def __init__(self, machine: Machine, ground: Ground) -> None:
        self.machine, self.ground, self.ready = machine, ground, machine.ready()
        taken = {place for event in self.ready for place in event.places}
        offered: dict[Address, list[Move]] = {}
        for number, tree in enumerate(machine.state.trees):
            for move in moves_of(tree, branch((), number), machine.state.store):
                offered.setdefault(move.place, []).append(move)
        self.waiting = {
            place: [(move, partner(machine, move)) for move in offered[place]] for place in sorted(offered) if place not in taken
        }
        self.standing = [*self.waiting, *taken]

    def places(self) -> list[list]:
        """The places that wait, in order, and behind them those of the events that can be taken, each once, on the channel of each."""
        waiting = [
            self.shown([move for move, _ in moves], False, [self.want(*one) for one in moves if one[0].channel is not None])
            for moves in self.waiting.values()
        ]
        met: dict[Address, list[Move]] = {}
        for event in self.ready:
            for move in event.moves:
                met.setdefault(move.place, []).append(move)
        return waiting + [
            self.shown(moves, True, [[move.channel.number, [], 1] for move in moves if move.channel is not None]) for moves in met.values()
        ]

    def addresses(self) -> list[Address]:
        """Where these places are."""
        return [*self.waiting, *dict.fromkeys(move.place for event in self.ready for move in event.moves)]

    def shown(self, moves: list[Move], is_ready: bool, wanted: list[list]) -> list:
        """A place where these moves are offered: its lane, its text, its line, what stands there, and on which channels, for whom."""
        first = moves[0]
        line = first.command.line if first.command is not None else 0
        return [lane_of(first.place), text_of(first.place), line, ROLES.get(first.kind, first.kind), wanted, int(is_ready)]

    def want(self, move: Move, standing: Standing) -> list:
        """The channel, the lanes of what stands where the other end is behind, or else of all that could be it, and whether it can come."""
        own, lanes = lane_of(move.place), set()
        if isinstance(standing, tuple):
            lanes = {lane_of(place) for place in self.standing if is_under(standing, place)}
        if not lanes:
            ways = PARTNERS.get(move.kind, ())
            lanes = {lane for channel, way, lane in self.ground.uses if channel == move.channel.number and way in ways and lane != own}
        return [move.channel.number, sorted(lanes), int(standing != NOWHERE)]

    def progress(self) -> str:
        if self.ready:
            return "goes on"
        if self.machine.state.trees[0] == DONE:
            return "done"
        return "out of input" if lacks_input(self.machine, self.waiting) else "stuck"

    def links(self) -> dict[str, list[str]]:
        """For which places those of a deadlock wait."""
        found = links(self.machine, self.waiting)
        return {text_of(place): sorted(map(text_of, others)) for place, others in found.items()}

    def has_ring(self) -> bool:
        return has_ring(links(self.machine, self.waiting))


def facts(case: Case) -> dict:
    """The parts of the data that follow from the rules alone."""
    system = accept(case.source, case.stimulus)
    machine: Machine = load(system, case.trace)
    ground, events = Ground(case.source, system), [entry.event for entry in machine.live]
    end = End(machine, ground)
    causes, depth = nearest_causes(events), []
    for kept in causes:
        depth.append(1 + max((depth[one] for one in kept), default=-1))
    followers: list[list[int]] = [[] for _ in events]
    for at, kept in enumerate(causes):
        for one in kept:
            followers[one].append(at - one)
    rows = []
    for at, event in enumerate(events):
        lanes, lines = [lane_of(place) for place in event.places], lines_of(event)
        row = {
            "kind": event.text.split()[0],
            "text": event.text,
            "lanes": lanes,
            "lines": lines,
            "depth": depth[at],
            "written": event.writes.number if event.writes is not None else -1,
            "reads": sorted(one.number for one in event.reads),
            "followers": followers[at],
        }
        if len(lanes) == 2:
            row["since"] = [stands_since(events, depth, at, place) for place in event.places]
        rows.append(row)
    # the second places of handshakes without data that can be taken
    seconds = {event.places[1] for event in machine.ready() if event.text.startswith("sync ")}
    return {
        "variables": [[one.name, one.width, int(one.shared)] for one in system.variables],
        "channels": [[one.name, one.width or 0] for one in system.channels],
        "feeds": sorted(
            [f"/{number}", len(one.values) if one.channel.width else one.count]
            for number, one in enumerate(system.environment, 1) if one.channel.kind != "output"
        ),
        "lanes": ground.lanes,
        "instances": ground.blocks,
        "events": rows,
        "races": [[one, at, orders_by(events[one], events[at])] for at, kept in enumerate(causes) for one in kept
                  if race(events[one], events[at])],
        "events taken": events,
        "ready": [[event.text, [lane_of(place) for place in event.places], lines_of(event), step_line(event)] for event in machine.ready()],
        "places": end.places(),
        "stood": [[row[3], [one[0] for one in row[4]], stands_since(events, depth, len(events), place), place in seconds]
                  for row, place in zip(end.places(), end.addresses(), strict=True)],
        "progress": end.progress(),
        "links": end.links(),
        "has_ring": end.has_ring(),
    }


def told(data: dict) -> dict:
    """The same parts of the data that a program has written."""
    paths = [lane[0] for lane in data["lanes"]]

    def lanes(row: list) -> list[str]:
        return [paths[one] for one in row[1:3] if one >= 0]

    rows = []
    for row in data["events"]:
        shown = lanes(row)
        made = {"kind": row[0].split()[0], "text": row[0], "lanes": shown, "lines": row[3:3 + len(shown)], "depth": row[5],
                "written": row[6], "reads": row[7], "followers": row[8]}
        if len(shown) == 2:
            made["since"] = row[9]
        rows.append(made)
    return {
        "variables": data["variables"],
        "channels": data["channels"],
        "feeds": sorted([paths[lane], count] for lane, count in data["feeds"]),
        "lanes": data["lanes"],
        "instances": data["instances"],
        "events": rows,
        "races": data["races"],
        "ready": [[row[0], lanes(row), row[3:3 + len(lanes(row))], row[5]] for row in data["ready"]],
        "places": [
            [paths[row[0]], *row[1:4], [[channel, sorted(paths[lane] for lane in wanted), can] for channel, wanted, can in row[4]], row[5]]
            for row in data["places"]
        ],
        "progress": data["progress"],
    }


def faults_of(data: dict) -> list[str]:
    """What is wrong with the data in itself: indexes, and names of blocks."""
    found = []
    blocks, lanes, places = len(data["instances"]), len(data["lanes"]), len(data["places"])
    for lane in data["lanes"]:
        if (lane[3] == "body") != (0 <= lane[1] < blocks):
            found.append(f"lane {lane}")
    for number, block in enumerate(data["instances"]):
        if not -1 <= block[2] < number or (block[2] < 0) != (number == 0):
            found.append(f"block {block}")
    for place in data["places"]:
        if not 0 <= place[0] < lanes or any(not 0 <= lane < lanes for one in place[4] for lane in one[1]):
            found.append(f"place {place}")
    for ring in data["rings"]:
        if any(not 0 <= one < places for one in ring):
            found.append(f"ring {ring}")
    return found


def ring_faults(data: dict, wanted: dict) -> list[str]:
    """Whether a ring is told exactly where there is one, of which each place waits for the next, and the last for the first."""
    rings = data["rings"]
    if len(rings) != int(wanted["has_ring"]):
        return [f"{len(rings)} rings are told, and there is {'one' if wanted['has_ring'] else 'none'}"]
    for ring in rings:
        places = [data["places"][one][1] for one in ring]
        if len(set(places)) != len(places):
            return [f"a place is twice in the ring {places}"]
        for place, other in zip(places, places[1:] + places[:1]):
            if other not in wanted["links"].get(place, []):
                return [f"of the ring {places} {place} does not wait for {other}"]
    return []


class Facts:
    """The facts of a run."""

    def __init__(self, case: Case) -> None:
        self.case, self.all = case, facts(case)
        self.events, self.cones = self.all["events"], {}

    def ways(self, one: int, other: int) -> list[tuple[str, str]] | None:
        """The lanes of each two places of events at these indexes of which the one is before the other."""
        events = self.all["events taken"]
        return ways_between(events[one], events[other]) if max(one, other) < len(events) else None

    def other_order(self) -> Case:
        """The same events in another order that respects dependence, as a trace of version 1, which may stand in any."""
        machine = load(accept(self.case.source, self.case.stimulus), self.case.trace)
        lines = [step_line(entry.event) for entry in machine.live]
        waits = [0] * len(lines)
        for at, row in enumerate(self.events):
            for ahead in row["followers"]:
                waits[at + ahead] += 1
        random, free, order = Random(len(lines)), [at for at, count in enumerate(waits) if not count], []
        while free:
            at = free.pop(random.randrange(len(free)))
            order.append(at)
            for ahead in self.events[at]["followers"]:
                waits[at + ahead] -= 1
                if not waits[at + ahead]:
                    free.append(at + ahead)
        trace = "balsadbg trace 1\n" + "".join(lines[at] + "\n" for at in order)
        return replace(self.case, trace=trace.encode())

    def cone(self, at: int) -> set[int]:
        """The indexes of the events that depend on this one, but for itself, found once."""
        if at not in self.cones:
            found, work = set(), [at]
            while work:
                one = work.pop()
                for ahead in self.events[one]["followers"]:
                    if one + ahead not in found:
                        found.add(one + ahead)
                        work.append(one + ahead)
            self.cones[at] = found
        return self.cones[at]

    def consequences(self, at: int) -> list[int]:
        """They in order."""
        return sorted(self.cone(at))

    def causes(self, at: int) -> list[int]:
        """The indexes of the events on which this one depends, but for itself."""
        return [one for one in range(at) if at in self.cone(one)]

    def values_behind(self, indexes: list[int]) -> list[int]:
        """The values of the variables where these events are taken, and no others."""
        system = accept(self.case.source, self.case.stimulus)
        events = [entry.event for entry in load(system, self.case.trace).live]
        machine = Machine(system)
        for at in indexes:
            machine.step(events[at].acting, events[at].arm)
        return [machine.value(one) for one in system.variables]

    def cone_sizes(self, at: int) -> tuple[int, int]:
        """How many causes the event has, and how many consequences."""
        return len(self.causes(at)), len(self.consequences(at))


class ToldFacts(Facts):
    """Those that the data tell of a run for which the second implementation takes too long."""

    def __init__(self, case: Case, data: dict) -> None:
        self.case, self.all = case, {**told(data), "has_ring": bool(data["rings"]), "events taken": []}
        self.events, self.cones = self.all["events"], {}


def difference(told_data: object, wanted: object, way: str = "") -> str:
    """Where both differ first."""
    if isinstance(wanted, dict) and isinstance(told_data, dict):
        for key in wanted:
            if told_data.get(key) != wanted[key]:
                return difference(told_data.get(key), wanted[key], f"{way}.{key}")
    if isinstance(wanted, list) and isinstance(told_data, list) and len(wanted) == len(told_data):
        for number, (one, other) in enumerate(zip(told_data, wanted)):
            if one != other:
                return difference(one, other, f"{way}[{number}]")
    return f"{way}: told {told_data!r}, wanted {wanted!r}"


def data_faults(case: Case, drawer: object) -> list[str]:
    """What is wrong with the data that a program has written of the run."""
    text = drawer.draw("--json")
    if drawer.draw("--json") != text:
        return ["two calls differ"]
    if any(not 32 <= byte < 127 or byte == 60 for byte in text):
        return ["a byte that is no plain ASCII, or `<`"]
    data = json.loads(text)
    if data["picture"] != 1 or data["tickets"] != 1 or data["source"] != case.source.decode("utf-8", "replace"):
        return ["version, tickets or source"]
    if data["files"] != ["c.balsa", "c.stimulus", case.trace_name]:
        return [f"files {data['files']}"]
    if found := faults_of(data):
        return found
    if case.is_large:
        return []
    shown, known = told(data), drawer.facts.all
    wanted = {name: part for name, part in known.items() if name in shown}
    return ring_faults(data, known) if shown == wanted else [difference(shown, wanted)]


def by_event(data: dict) -> dict:
    """What the data say of each event, by its text: all but its number."""
    texts = [row[0] for row in data["events"]]
    told_of = {row[0]: [row[1:8], sorted(texts[at + ahead] for ahead in row[8]), row[9:]] for at, row in enumerate(data["events"])}
    races = sorted([texts[cause], texts[event], variable] for cause, event, variable in data["races"])
    rest = {name: part for name, part in data.items() if name not in ("events", "races", "tickets")}
    return {"events": told_of, "races": races, "rest": rest}


def order_faults(drawer: object, other: object) -> list[str]:
    """Whether the run in another order has the same picture but for the numbers of its events, and the same waves."""
    found = []
    if drawer.draw("--vcd") != other.draw("--vcd"):
        found.append("the waves differ")
    one, two = by_event(json.loads(drawer.draw("--json"))), by_event(json.loads(other.draw("--json")))
    return found if one == two else found + [difference(two, one)]
