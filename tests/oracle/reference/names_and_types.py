"""Names, kinds, widths, arms and calls.

All faults are collected, and the one at the least offset is the answer, and at one offset that with the least number.
A construct whose parts have a fault has none of its own; a width is None behind a fault.
"""

from __future__ import annotations

from collections.abc import Callable
from dataclasses import dataclass
from typing import Union

from .faults import Number, Refused
from .syntax import (
    Assign, Binary, BitsDeclaration, BitsType, Call, Case, Cast, ChannelArm, Choose, Command, Declaration, Description,
    Enumeration, Expression, If, Name, Not, Numeral, Parentheses, Procedure, Receive, Send, Sync, Type, While,
    children_of,
)

WIDEST = 64
CHANNEL_KINDS = ("input", "output", "channel", "sync")


@dataclass
class TypeEntry:
    width: int | None


@dataclass
class ElementEntry:
    value: int
    width: int


@dataclass
class LocalEntry:
    """A port or a local. The kind is input, output, sync, variable or channel, the offset that of its declaration."""

    kind: str
    offset: int
    width: int | None = None


@dataclass
class Port:
    name: str
    kind: str
    width: int | None


@dataclass
class TypedProcedure:
    """A procedure with its ports in order, and its ports and locals by their names."""

    procedure: Procedure
    ports: list[Port]
    scope: dict[str, LocalEntry]


Entry = Union[TypeEntry, ElementEntry, LocalEntry, TypedProcedure]
Arms = frozenset[str]


@dataclass
class TypedDescription:
    description: Description
    entries: dict[str, Entry]
    procedures: list[TypedProcedure]

    @property
    def root(self) -> TypedProcedure:
        return self.procedures[-1]


def least_width(value: int) -> int:
    """The least width of at least 1 that holds the value."""
    return max(1, value.bit_length())


def is_kind(*kinds: str) -> Callable[[Entry], bool]:
    return lambda entry: isinstance(entry, LocalEntry) and entry.kind in kinds


is_variable = is_kind("variable")
is_sender = is_kind("output", "channel")
is_receiver = is_kind("input", "channel")


class Typing:
    """The pass over a description. `entries` has the visible types, elements and procedures, `scope` the ports and
    locals of the procedure at hand. Arms are the names of the channels whose arms are around a place."""

    def __init__(self, description: Description) -> None:
        self.faults: list[tuple[int, Number]] = []
        self.entries: dict[str, Entry] = {}
        self.scope: dict[str, LocalEntry] = {}
        self.procedures: list[TypedProcedure] = []
        for declared in description.types:
            self.declare_type(declared)
        for procedure in description.procedures:
            self.declare_procedure(procedure)
        if self.faults:
            offset, number = min(self.faults)
            raise Refused(number, offset)

    def fault(self, number: Number, offset: int) -> None:
        self.faults.append((offset, number))

    # Declarations

    def declare(self, name: Name, entry: Entry) -> None:
        """Makes a type, element or procedure visible. Of two with one name the first one stands."""
        if name.text in self.entries:
            self.fault(Number.NAME_TWICE, name.offset)
        else:
            self.entries[name.text] = entry

    def declare_type(self, declared: BitsDeclaration | Enumeration) -> None:
        if isinstance(declared, BitsDeclaration):
            self.declare(declared.name, TypeEntry(self.checked_width(declared.width.offset, declared.width.value)))
            return
        width = least_width(len(declared.elements) - 1)
        self.declare(declared.name, TypeEntry(width))
        for value, element in enumerate(declared.elements):
            self.declare(element, ElementEntry(value, width))

    def declare_procedure(self, procedure: Procedure) -> None:
        """The procedure's own name is visible behind its end only, so its body is looked at first."""
        self.scope = {}
        declared = procedure.ports + procedure.locals
        own = {name: self.declare_local(name, group) for group in declared for name in group.names}
        for group in declared:
            width = None if group.type is None else self.type_width(group.type, frozenset())
            for name in group.names:
                own[name].width = width
        ports = [Port(name.text, group.kind, own[name].width) for group in procedure.ports for name in group.names]
        self.command(procedure.body, frozenset())
        typed = TypedProcedure(procedure, ports, self.scope)
        self.declare(procedure.name, typed)
        self.procedures.append(typed)

    def declare_local(self, name: Name, group: Declaration) -> LocalEntry:
        entry = LocalEntry(group.kind, name.offset)
        if name.text in self.entries or name.text in self.scope:
            self.fault(Number.NAME_TWICE, name.offset)
        else:
            self.scope[name.text] = entry
        return entry

    # Types and names

    def checked_width(self, offset: int, width: int) -> int | None:
        if 1 <= width <= WIDEST:
            return width
        self.fault(Number.TOO_WIDE, offset)
        return None

    def type_width(self, type_: Type, arms: Arms) -> int | None:
        if isinstance(type_, BitsType):
            return self.checked_width(type_.offset, type_.width)
        entry = self.used(Name(type_.offset, type_.name), arms, lambda entry: isinstance(entry, TypeEntry))
        return entry.width if isinstance(entry, TypeEntry) else None

    def lookup(self, name: str) -> Entry | None:
        return self.entries.get(name) or self.scope.get(name)

    def used(self, name: Name, arms: Arms, fits: Callable[[Entry], bool]) -> Entry | None:
        """What a name stands for at a place that needs something that fits; None after a fault."""
        entry = self.lookup(name.text)
        if name.text in arms:
            self.fault(Number.ENCLOSED_TWICE, name.offset)
        elif entry is None:
            self.fault(Number.UNKNOWN_NAME, name.offset)
        elif not fits(entry):
            self.fault(Number.WRONG_KIND, name.offset)
        else:
            return entry
        return None

    def used_local(self, name: Name, arms: Arms, fits: Callable[[Entry], bool]) -> LocalEntry | None:
        entry = self.used(name, arms, fits)
        return entry if isinstance(entry, LocalEntry) else None

    # Commands

    def command(self, command: Command, arms: Arms) -> bool:
        """Whether there is no fault in the command."""
        before = len(self.faults)
        match command:
            case Assign(variable, expression):
                self.fits_target(self.used_local(variable, arms, is_variable), expression, arms)
            case Send(channel, expression):
                self.fits_target(self.used_local(channel, arms, is_sender), expression, arms)
            case Receive():
                self.receive(command, arms)
            case Sync(channel):
                self.used(channel, arms, is_kind("sync"))
            case While():
                self.while_loop(command, arms)
            case If():
                self.conditional(command, arms)
            case Case():
                self.case(command, arms)
            case Choose():
                self.choose(command, arms)
            case Call():
                self.call(command, arms)
            case _:
                self.bodies(children_of(command), arms)
        return len(self.faults) == before

    def bodies(self, commands: list[Command], arms: Arms) -> bool:
        return all([self.command(command, arms) for command in commands])

    def fits_target(self, target: LocalEntry | None, expression: Expression, arms: Arms) -> None:
        """What is assigned or sent may be narrower than its target and not wider."""
        width = self.width(expression, arms)
        if target is not None and target.width is not None and width is not None and width > target.width:
            self.fault(Number.TOO_WIDE, expression.offset)

    def receive(self, command: Receive, arms: Arms) -> None:
        channel = self.used_local(command.channel, arms, is_receiver)
        variable = self.used_local(command.variable, arms, is_variable)
        widths = [None if entry is None else entry.width for entry in (channel, variable)]
        if None not in widths and widths[0] > widths[1]:
            self.fault(Number.TOO_WIDE, command.variable.offset)

    def while_loop(self, command: While, arms: Arms) -> None:
        width = self.width(command.guard, arms)
        if self.command(command.body, arms) and width not in (None, 1):
            self.fault(Number.GUARD_NOT_ONE_BIT, command.guard.offset)

    def conditional(self, command: If, arms: Arms) -> None:
        widths = [self.width(arm.guard, arms) for arm in command.arms]
        if self.bodies(children_of(command), arms) and None not in widths:
            for arm, width in zip(command.arms, widths):
                if width != 1:
                    self.fault(Number.GUARD_NOT_ONE_BIT, arm.guard.offset)

    def case(self, command: Case, arms: Arms) -> None:
        width = self.width(command.expression, arms)
        labels = [(label, self.label(label, arms)) for arm in command.arms for label in arm.labels]
        sound = self.bodies(children_of(command), arms)
        if not sound or width is None or any(meaning is None for _, meaning in labels):
            return
        seen: set[int] = set()
        for label, (value, label_width) in labels:
            if value in seen or label_width > width:
                self.fault(Number.BAD_ARM, label.offset)
            seen.add(value)

    def label(self, label: Numeral | Name, arms: Arms) -> tuple[int, int] | None:
        """Value and width of a case label."""
        if isinstance(label, Numeral):
            return label.value, least_width(label.value)
        entry = self.used(label, arms, lambda entry: isinstance(entry, ElementEntry))
        return (entry.value, entry.width) if isinstance(entry, ElementEntry) else None

    def choose(self, command: Choose, arms: Arms) -> None:
        fits = is_receiver if command.word == "enclose" else is_kind("input", "channel", "sync")
        sound = all([self.channel_arm(arm, arms, fits) for arm in command.arms])
        seen: set[str] = set()
        for arm in command.arms:
            if sound and arm.channel.text in seen:
                self.fault(Number.BAD_ARM, arm.channel.offset)
            seen.add(arm.channel.text)

    def channel_arm(self, arm: ChannelArm, arms: Arms, fits: Callable[[Entry], bool]) -> bool:
        channel = self.used(arm.channel, arms, fits)
        return self.command(arm.body, arms | {arm.channel.text}) and channel is not None

    def call(self, command: Call, arms: Arms) -> None:
        called = self.used(command.procedure, arms, lambda entry: isinstance(entry, TypedProcedure))
        arguments = [self.used_local(name, arms, is_kind(*CHANNEL_KINDS)) for name in command.arguments]
        if not isinstance(called, TypedProcedure) or None in arguments:
            return
        different = len({name.text for name in command.arguments}) == len(arguments)
        fits = len(called.ports) == len(arguments) and different
        if not fits or not all(fits_port(port, given) for port, given in zip(called.ports, arguments)):
            self.fault(Number.PORT_MISMATCH, command.procedure.offset)

    # Expressions

    def width(self, expression: Expression, arms: Arms) -> int | None:
        match expression:
            case Numeral(_, value):
                return least_width(value)
            case Name():
                return self.name_width(expression, arms)
            case Parentheses(_, inside) | Not(_, inside):
                return self.width(inside, arms)
            case Cast(_, operand, type_):
                inside, width = self.width(operand, arms), self.type_width(type_, arms)
                return None if inside is None else width
            case Binary():
                return self.binary_width(expression, arms)
        raise AssertionError(expression)

    def name_width(self, name: Name, arms: Arms) -> int | None:
        """Inside an arm on a data channel the channel's name is the value received."""
        entry = self.lookup(name.text)
        if name.text in arms and entry is not None and is_receiver(entry):
            return entry.width
        used = self.used(name, arms, lambda entry: isinstance(entry, ElementEntry) or is_variable(entry))
        return None if used is None else used.width

    def binary_width(self, expression: Binary, arms: Arms) -> int | None:
        left, right = self.width(expression.left, arms), self.width(expression.right, arms)
        if left is None or right is None:
            return None
        wider = max(left, right)
        if expression.operator == "+":
            return self.checked_width(expression.offset, wider + 1)
        return wider if expression.operator in ("-", "and", "or", "xor") else 1


def fits_port(port: Port, given: LocalEntry) -> bool:
    """Whether a port takes a channel: a local one, or a port of its own direction, of its width."""
    if port.kind == "sync" or given.kind == "sync":
        return port.kind == given.kind
    return given.kind in ("channel", port.kind) and given.width == port.width


def typed(description: Description) -> TypedDescription:
    """The description with its names, or the refusal of its first fault."""
    typing = Typing(description)
    return TypedDescription(description, typing.entries, typing.procedures)
