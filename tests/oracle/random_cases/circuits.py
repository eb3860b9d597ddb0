"""Descriptions that run far through every form: parties that talk to each other in one order, in loops and choices,
inside enclosed inputs and beside one another. Each is a branch of the root."""

from __future__ import annotations

from collections.abc import Callable, Iterator
from contextlib import contextmanager
from dataclasses import dataclass, field
from random import Random

from .rendering import on_lines

Said = dict[str, list[str]]
"""The commands of each party, by its name, in order."""

COUNTER = "3 bits"
COUNT = f"variable k : {COUNTER} begin k := (k + 1 as {COUNTER}) end "
CELLS = {
    "cell": "procedure cell (input i : {0} ; output o : {0}) is variable x : {0} begin loop i -> x ; o <- x end end ",
    "pass": "procedure pass (input i : {0} ; output o : {0}) is begin loop i -> then o <- i end end end ",
}
UNREACHED = "procedure unreached is variable x : 1 bits begin x := 1 ; continue || halt end "


@dataclass
class Party:
    """One that acts: a branch of the root, or a branch within it. `inside` are the channels on which arms are open
    around what is written, `received` those of them that have a value. `uses` has the directions of the channels and
    ports of the whole branch."""

    name: str
    variables: list[str]
    uses: dict[str, str]
    inside: list[str] = field(default_factory=list)
    received: list[str] = field(default_factory=list)
    counters: set[str] = field(default_factory=set)

    def part(self, letter: str, variables: list[str]) -> Party:
        """A branch within this one, which has some of its variables."""
        return Party(self.name + letter, variables, self.uses, list(self.inside), list(self.received), self.counters)


def sequence(commands: list[str]) -> str:
    return " ; ".join(commands) if commands else "continue"


class CircuitWriter:
    """Writes one description. An item is something that parties do together; `block` writes some items one after
    another. So there is an order in which all can be done, mostly, and each party's commands stand in it."""

    def __init__(self, random: Random) -> None:
        self.random = random
        self.width = random.choice([1, 2, 3, 8, 8, 64])
        self.only_read = ["g0"] if random.random() < 0.3 else []
        self.shared = ["h0", "h1"][: random.choice([0, 0, 0, 1, 2])]
        self.channels: set[str] = set()
        self.syncs: set[str] = set()
        self.ports: dict[str, str] = {}
        self.cells: dict[str, str] = {}
        self.variables: dict[str, list[str]] = {}
        self.parties = [self.party(str(number)) for number in range(random.choice([1, 2, 3, 3, 4]))]

    def party(self, name: str) -> Party:
        self.variables[name] = [f"v{name}{letter}" for letter in "abcd"[: self.random.choice([1, 2, 2, 3])]]
        return Party(name, self.variables[name], {})

    def chance(self, probability: float) -> bool:
        return self.random.random() < probability

    # What a party says alone

    def expression(self, party: Party) -> str:
        """An expression of the common width."""
        names = party.variables + party.received * 2 + self.only_read + self.shared * 2
        left, right = self.random.choice(names), self.random.choice(names)
        match self.random.randrange(6):
            case 0:
                return str(self.random.randrange(2 ** min(self.width, 8)))
            case 1 | 2:
                return left
            case 3 if self.width < 64:
                return f"({left} + {self.random.choice([right, '1'])} as {self.width} bits)"
            case 4:
                return f"not {left}"
        return f"{left} {self.random.choice(['-', 'and', 'or', 'xor'])} {right}"

    def variable(self, party: Party) -> str:
        """One that the party may read and write."""
        return self.random.choice(party.variables + self.shared)

    def guard(self, party: Party) -> str:
        signs = ["<", ">", "=", "/=", "<=", ">="]
        return f"({self.expression(party)}) {self.random.choice(signs)} {self.variable(party)}"

    def assignment(self, party: Party) -> str:
        return f"{self.variable(party)} := {self.expression(party)}"

    def some_alone(self, party: Party) -> list[str]:
        count = self.random.choice([0, 1, 1, 2])
        return ["count ()" if self.chance(0.15) else self.assignment(party) for _ in range(count)]

    # Channels

    def channel(self, sender: Party, receiver: Party) -> tuple[str, str]:
        """The names of a channel for its sender and its receiver, which differ where a cell stands between."""
        name = f"c{sender.name}_{receiver.name}"
        if name not in self.channels and self.chance(0.12):
            self.cells[name] = self.random.choice(list(CELLS))
        behind = name + "b" if name in self.cells else name
        self.channels |= {name, behind}
        sender.uses[name], receiver.uses[behind] = "output", "input"
        return name, behind

    def sync(self, one: Party, other: Party) -> str:
        name = f"s{one.name}_{other.name}"
        self.syncs.add(name)
        one.uses[name] = other.uses[name] = "sync"
        return name

    def port(self, party: Party, kind: str) -> str:
        name = f"{kind[0]}p{party.name}"
        party.uses[name] = self.ports[name] = kind
        return name

    @contextmanager
    def arm(self, party: Party, channel: str, has_value: bool) -> Iterator[None]:
        """An arm of the party is open on the channel."""
        party.inside.append(channel)
        party.received += [channel] * has_value
        yield
        party.inside.pop()
        del party.received[len(party.received) - has_value :]

    # Items

    def block(self, parties: list[Party], depth: int, counts: list[int]) -> Said:
        said: Said = {party.name: [] for party in parties}
        for _ in range(self.random.choice(counts)):
            for name, commands in self.item(parties, depth).items():
                said[name] += commands
        return said

    def item(self, parties: list[Party], depth: int) -> Said:
        """One thing that some of the parties do. Those with others inside are left out at depth 0, and those between
        two where there is one party."""
        items: list[Callable[[list[Party], int], Said]] = [self.alone, self.at_port]
        items += [self.transfer] * 2 * (len(parties) > 1)
        if depth > 0:
            items += [self.tested, self.port_enclosed, self.port_enclosed, self.counted, self.beside]
            items += [self.enclosed, self.enclosed, self.enclosed, self.chosen, self.chosen] * (len(parties) > 1)
        return self.random.choice(items)(parties, depth - 1)

    def alone(self, parties: list[Party], depth: int) -> Said:
        party = self.random.choice(parties)
        return {party.name: self.some_alone(party)}

    def at_port(self, parties: list[Party], depth: int) -> Said:
        party = self.random.choice(parties)
        kind = self.random.choice(["input", "output", "output", "sync"])
        name = self.port(party, kind)
        if name in party.inside:
            return {}
        forms = {"input": f"{name} -> {self.variable(party)}",
                 "output": f"{name} <- {self.expression(party)}", "sync": f"sync {name}"}
        return {party.name: [forms[kind]]}

    def transfer(self, parties: list[Party], depth: int) -> Said:
        sender, receiver = self.random.sample(parties, 2)
        if self.chance(0.25):
            name = self.sync(sender, receiver)
            return {sender.name: [f"sync {name}"], receiver.name: [f"sync {name}"]}
        name, behind = self.channel(sender, receiver)
        received = f"{behind} -> {self.variable(receiver)}"
        return {sender.name: [f"{name} <- {self.expression(sender)}"], receiver.name: [received]}

    def inner_first(self, parties: list[Party]) -> list[Party]:
        """In any order, but mostly one first that is inside an arm."""
        parties = self.random.sample(parties, len(parties))
        return sorted(parties, key=lambda party: not party.inside) if self.chance(0.7) else parties

    def around(self, party: Party, others: list[Party], depth: int, channel: str, has_value: bool) -> Said:
        """What the party and others do while an arm of the party is open, the party's part as that arm."""
        with self.arm(party, channel, has_value):
            said = self.block([party, *others], depth, [0, 1, 1, 2])
        body = sequence(said[party.name])
        form = "{} -> then {} end" if has_value and self.chance(0.6) else "select {} then {} end"
        return {**said, party.name: [form.format(channel, body)]}

    def enclosed(self, parties: list[Party], depth: int) -> Said:
        """An enclosed input, in which the receiver and the others go on and the sender is held."""
        receiver, sender, *others = self.inner_first(parties)
        if self.chance(0.3):
            name = self.sync(sender, receiver)
            return {**self.around(receiver, others, depth, name, False), sender.name: [f"sync {name}"]}
        name, behind = self.channel(sender, receiver)
        sent = f"{name} <- {self.expression(sender)}"
        return {**self.around(receiver, others, depth, behind, True), sender.name: [sent]}

    def port_enclosed(self, parties: list[Party], depth: int) -> Said:
        party, *others = self.inner_first(parties)
        kind = self.random.choice(["input", "input", "sync"])
        name = self.port(party, kind)
        return {} if name in party.inside else self.around(party, others, depth, name, kind == "input")

    def chosen(self, parties: list[Party], depth: int) -> Said:
        """A `select` or `arbitrate` over what some others send, as often as there are senders."""
        receiver, *others = self.random.sample(parties, len(parties))
        senders, listeners = others[:2], others[2:]
        said: Said = {party.name: [] for party in parties}
        arms = [self.sent_arm(sender, receiver, said) for sender in senders]
        if len(arms) == 1 or self.chance(0.2):
            arms += [self.port_arm(receiver)] * (f"ip{receiver.name}" not in receiver.inside)
        written = []
        for name, has_value in arms:
            with self.arm(receiver, name, has_value):
                commands = self.some_alone(receiver) + self.told(receiver, listeners)
            written.append(f"{name} then {sequence(commands)}")
        for listener in listeners[:1]:
            heard = f"{self.channel(receiver, listener)[1]} -> {self.variable(listener)}"
            said[listener.name] += [heard] * len(arms)
        word = "arbitrate" if len(arms) == 2 and self.chance(0.5) else "select"
        self.random.shuffle(written)
        said[receiver.name] += [f"{word} {' | '.join(written)} end"] * len(arms)
        return said

    def sent_arm(self, sender: Party, receiver: Party, said: Said) -> tuple[str, bool]:
        """The channel of an arm, for which the sender sends once, and whether it has a value."""
        if self.chance(0.3):
            name = self.sync(sender, receiver)
            said[sender.name].append(f"sync {name}")
            return name, False
        name, behind = self.channel(sender, receiver)
        said[sender.name].append(f"{name} <- {self.expression(sender)}")
        return behind, True

    def port_arm(self, party: Party) -> tuple[str, bool]:
        return self.port(party, "input"), True

    def told(self, party: Party, listeners: list[Party]) -> list[str]:
        return [f"{self.channel(party, one)[0]} <- {self.expression(party)}" for one in listeners[:1]]

    def tested(self, parties: list[Party], depth: int) -> Said:
        """An `if` or a `case`, in each arm of which the same is sent, if anything is."""
        party, *others = self.random.sample(parties, len(parties))
        others = others[:1] if self.chance(0.6) else []
        count = self.random.choice([1, 2, 2, 3])
        bodies = [sequence(self.some_alone(party) + self.told(party, others)) for _ in range(count)]
        has_else = others or self.chance(0.6)
        last = f" else {sequence(self.some_alone(party) + self.told(party, others))} end" if has_else else " end"
        heard = [f"{self.channel(party, one)[1]} -> {self.variable(one)}" for one in others]
        if self.chance(0.5):
            arms = " | ".join(f"{self.guard(party)} then {body}" for body in bodies)
            text = f"if {arms}{last}"
        else:
            labels = self.random.sample(range(2 ** min(self.width, 2)), min(count, 2 ** min(self.width, 2)))
            arms = " | ".join(f"{label} then {body}" for label, body in zip(labels, bodies))
            text = f"case {self.variable(party)} of {arms}{last}"
        return {party.name: [text], **{one.name: heard for one in others}}

    def counted(self, parties: list[Party], depth: int) -> Said:
        """Some parties do a block a few times, each with a counter of its own."""
        some = self.random.sample(parties, self.random.randint(1, len(parties)))
        said, turns = self.block(some, depth, [1, 1, 2]), self.random.choice([1, 2, 2, 3])
        for party in some:
            if said[party.name]:
                name = f"n{party.name}_{depth}"
                party.counters.add(name)
                body = f"{sequence(said[party.name])} ; {name} := ({name} + 1 as {COUNTER})"
                said[party.name] = [f"{name} := 0", f"loop while {name} < {turns} then {body} end"]
        return said

    def beside(self, parties: list[Party], depth: int) -> Said:
        """A party does two things side by side, each with half of its variables and perhaps with another party."""
        party, *others = self.random.sample(parties, len(parties))
        if len(party.variables) < 2:
            return self.alone([party], depth)
        halves = [party.part("l", party.variables[:1]), party.part("r", party.variables[1:])]
        said: Said = {}
        written = []
        for half in halves:
            found = self.item([half, *others[:1]], depth)
            written.append(sequence(found.pop(half.name, [])))
            for name, commands in found.items():
                said[name] = said.get(name, []) + commands
            others = others[1:] or others
        return {**said, party.name: ["[" + " || ".join(f"[{one}]" for one in written) + "]"]}

    # The whole description

    def commands(self) -> Said:
        """What each party does, mostly with a loop for ever at its end."""
        depth = self.random.choice([1, 2, 2, 3, 3])
        said = self.block(self.parties, depth, [1, 3, 5, 8])
        if self.chance(0.75):
            some = self.random.sample(self.parties, self.random.randint(1, len(self.parties)))
            for name, commands in self.block(some, depth, [1, 2, 3]).items():
                said[name] += [f"loop {sequence(commands)} end"] if commands else []
        return said

    def procedure(self, party: Party, body: str, declared: str) -> tuple[str, str]:
        """A procedure for a branch, and its call."""
        text = f"procedure p{party.name} {self.declared_ports(party.uses)}is {declared}begin {body} end "
        return text, f"p{party.name} ({', '.join(party.uses)})"

    def declared_ports(self, ports: dict[str, str]) -> str:
        behind = {"input": f" : {self.width} bits", "output": f" : {self.width} bits", "sync": ""}
        declared = [f"{kind} {name}{behind[kind]}" for name, kind in ports.items()]
        return f"({' ; '.join(declared)}) " if declared else ""

    def locals_of(self, party: Party) -> str:
        shared = "shared " * self.chance(0.1)
        declared = f"{shared}variable {', '.join(self.variables[party.name])} : {self.width} bits "
        return declared + (f"variable {', '.join(sorted(party.counters))} : {COUNTER} " if party.counters else "")

    def branches(self) -> tuple[str, str, list[str]]:
        """The procedures, the locals of the root, and its branches."""
        procedures, declared, branches = "", "", []
        for party, commands in zip(self.parties, self.commands().values()):
            body, own = sequence(commands), self.locals_of(party)
            of_root = self.only_read + self.shared
            if not any(name in body for name in of_root) and self.chance(0.4):
                text, call = self.procedure(party, body, own)
                procedures, branches = procedures + text, [*branches, call]
            else:
                declared, branches = declared + own, [*branches, f"[{body}]"]
        branches += [f"{cell} ({name}, {name}b)" for name, cell in self.cells.items()]
        return procedures, declared, branches

    def description(self) -> str:
        procedures, declared, branches = self.branches()
        before = [text.format(f"{self.width} bits") for name, text in CELLS.items() if name in self.cells.values()]
        before += ["procedure count is " + "shared " * self.chance(0.3) + COUNT] + [UNREACHED] * self.chance(0.3)
        self.random.shuffle(branches)
        body = " || ".join(branches)
        if self.chance(0.2):
            body = f"continue ; {body}" if self.chance(0.5) else f"[{body}] ; continue"
        declared += f"channel {', '.join(sorted(self.channels))} : {self.width} bits " if self.channels else ""
        declared += f"sync {', '.join(sorted(self.syncs))} " if self.syncs else ""
        declared += f"variable {', '.join(self.only_read)} : {self.width} bits " if self.only_read else ""
        declared += f"shared variable {', '.join(self.shared)} : {self.width} bits " if self.shared else ""
        head = f"procedure root {self.declared_ports(self.ports)}is {declared}"
        return "".join(before) + procedures + head + f"begin {body} end"

    def stimulus(self) -> str:
        """Values and syncs for a while."""
        lines = ""
        for name, kind in self.ports.items():
            count = self.random.choice([0, 2, 8, 8, 20, 20])
            values = [str(self.random.randrange(2 ** min(self.width, 8))) for _ in range(count)]
            given = {"input": " ".join([name, "=", *values]), "sync": f"{name} * {count}", "output": ""}
            lines += given[kind] + "\n"
        return lines


def circuits(random: Random) -> tuple[bytes, bytes]:
    """A description, on some lines, and its stimulus."""
    writer = CircuitWriter(random)
    description = writer.description()
    return on_lines(random, description), writer.stimulus().encode()
