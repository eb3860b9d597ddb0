"""Descriptions that run far: threads that compute, with sends and receives that match."""

from __future__ import annotations

from dataclasses import dataclass, field
from random import Random

from .rendering import on_lines


@dataclass
class Thread:
    """One branch of the root: its variables, its commands in order, and its channels with their directions."""

    number: int
    variables: list[str]
    commands: list[str] = field(default_factory=list)
    channels: dict[str, str] = field(default_factory=dict)


@dataclass
class Parts:
    """The declarations and commands of which the root is made."""

    types: str
    type_name: str
    procedures: str = ""
    branches: list[str] = field(default_factory=list)
    variables: list[str] = field(default_factory=list)


class ThreadWriter:
    def __init__(self, random: Random) -> None:
        self.random = random
        self.width = random.choice([1, 2, 3, 8, 64])
        count = random.choice([1, 2, 2, 3, 3, 4])
        self.threads = [
            Thread(number, [f"v{number}{place}" for place in range(random.choice([1, 2, 2, 3]))])
            for number in range(count)
        ]
        self.only_read = ["g0", "g1"] if random.random() < 0.3 else []
        self.shared = ["h0", "h1"][: random.choice([0, 0, 0, 1, 2])]
        self.channels: set[str] = set()
        self.ports: dict[str, str] = {}
        self.feeds: dict[str, list[int]] = {}

    def some_value(self) -> int:
        return self.random.randrange(2 ** min(self.width, 8))

    def expression(self, thread: Thread) -> str:
        """An expression of the common width."""
        names = thread.variables + self.only_read + self.shared * 2
        left, right = self.random.choice(names), self.random.choice(names)
        match self.random.randrange(6):
            case 0:
                return str(self.some_value())
            case 1:
                return left
            case 2:
                return f"{left} {self.random.choice(['-', 'and', 'or', 'xor'])} {right}"
            case 3 if self.width < 64:
                return f"({left} + {self.random.choice([right, '1'])} as {self.width} bits)"
            case 4:
                return f"not {left}"
        return f"({left} {self.random.choice(['<', '>', '=', '/=', '<=', '>='])} {right} as {self.width} bits)"

    def variable(self, thread: Thread) -> str:
        """One that the thread may read and write."""
        return self.random.choice(thread.variables + self.shared)

    # Commands of the threads

    def fill(self) -> None:
        for _ in range(self.random.choice([4, 8, 15, 25])):
            chance, thread = self.random.random(), self.random.choice(self.threads)
            if chance < 0.35:
                thread.commands.append(f"{self.variable(thread)} := {self.expression(thread)}")
            elif chance < 0.7 and len(self.threads) > 1:
                self.transfer(thread)
            elif chance < 0.85:
                self.receive_from_port(thread)
            else:
                self.send_to_port(thread)

    def transfer(self, sender: Thread) -> None:
        """A send in one thread and its receive in another."""
        receiver = self.random.choice([thread for thread in self.threads if thread is not sender])
        first = "c" if self.random.random() < 0.9 else "d"
        channel = f"{first}{sender.number}{receiver.number}"
        self.channels.add(channel)
        sender.channels[channel] = "output"
        receiver.channels[channel] = "input"
        sender.commands.append(f"{channel} <- {self.expression(sender)}")
        receiver.commands.append(f"{channel} -> {self.variable(receiver)}")

    def receive_from_port(self, thread: Thread) -> None:
        port = f"i{thread.number}"
        thread.channels[port] = self.ports[port] = "input"
        thread.commands.append(f"{port} -> {self.variable(thread)}")
        fed = self.feeds.setdefault(port, [])
        if self.random.random() < 0.95:
            fed.append(self.some_value())

    def send_to_port(self, thread: Thread) -> None:
        port = f"o{thread.number}"
        thread.channels[port] = self.ports[port] = "output"
        thread.commands.append(f"{port} <- {self.expression(thread)}")

    def grouped(self, commands: list[str]) -> str:
        """The commands in order, some in brackets, and some neighbours that share nothing side by side."""
        groups: list[str] = []
        while commands:
            chance, taken = self.random.random(), 1
            group = commands[0]
            if chance < 0.15 and len(commands) > 1:
                taken = self.random.choice([2, 3, 4])
                group = "[" + self.grouped(commands[:taken]) + "]"
            elif chance < 0.4 and len(commands) > 1 and are_apart(commands[0], commands[1]):
                taken = 2
                inner = f"{commands[0]} || {commands[1]}", f"[{commands[0]} || [{commands[1]}]]"
                group = self.random.choice(inner)
            groups.append(group)
            commands = commands[taken:]
        return " ; ".join(groups)

    # The whole description

    def add_thread(self, thread: Thread, parts: Parts) -> None:
        """The thread as a branch of the root, or as a procedure that it calls, or one that calls that."""
        body = self.grouped(thread.commands)
        if any(name in body for name in self.only_read + self.shared) or self.random.random() < 0.6:
            parts.variables += thread.variables
            parts.branches.append("[" + body + "]")
            return
        ports = declared_ports(thread.channels, parts.type_name)
        variables = f"variable {', '.join(thread.variables)} : {parts.type_name}"
        arguments = f"({', '.join(thread.channels)})"
        name = f"p{thread.number}"
        parts.procedures += f"procedure {name} {ports}is {variables} begin {body} end "
        if self.random.random() < 0.3:
            outer = f"q{thread.number}"
            parts.procedures += f"procedure {outer} {ports}is begin {name} {arguments} end "
            name = outer
        parts.branches.append(f"{name} {arguments}")

    def root_body(self, parts: Parts) -> str:
        branches = parts.branches
        self.random.shuffle(branches)
        if self.random.random() < 0.3 and len(branches) > 2:
            branches = [f"[{branches[0]} || {branches[1]}]", *branches[2:]]
        body = " || ".join(branches)
        if self.random.random() < 0.4:
            parts.variables.append("pre")
            around = ["pre := 1 ; [{}]", "pre := 1 ; [{}] ; pre := not pre", "[{}] ; pre := 1", "pre := 1 ; {}"]
            body = self.random.choice(around).format(body)
        return body

    def description(self) -> str:
        self.fill()
        parts = Parts("", f"{self.width} bits")
        if self.random.random() < 0.3:
            parts = Parts(f"type word is {self.width} bits ", "word")
        for thread in self.threads:
            if thread.commands:
                self.add_thread(thread, parts)
        body = self.root_body(parts)
        declared = f"channel {', '.join(sorted(self.channels))} : {parts.type_name} " if self.channels else ""
        if parts.variables + self.only_read:
            declared += f"variable {', '.join(parts.variables + self.only_read)} : {parts.type_name} "
        declared += f"shared variable {', '.join(self.shared)} : {parts.type_name} " if self.shared else ""
        root = f"procedure root {declared_ports(self.ports, parts.type_name)}is {declared}begin {body} end"
        return parts.types + parts.procedures + root

    def stimulus(self) -> str:
        return "".join(" ".join([port, "=", *map(str, fed)]) + "\n" for port, fed in self.feeds.items())


def are_apart(first: str, second: str) -> bool:
    """Whether both are assignments and neither names the other's variable."""
    if ":=" not in first or ":=" not in second:
        return False
    return first.split(" ")[0] not in second and second.split(" ")[0] not in first


def declared_ports(channels: dict[str, str], type_name: str) -> str:
    ports = " ; ".join(f"{direction} {name} : {type_name}" for name, direction in channels.items())
    return f"({ports}) " if ports else ""


def threads(random: Random) -> tuple[bytes, bytes]:
    """A description, on some lines, and its stimulus."""
    writer = ThreadWriter(random)
    description = writer.description()
    return on_lines(random, description), writer.stimulus().encode()
