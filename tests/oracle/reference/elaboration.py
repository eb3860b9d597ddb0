"""From a typed description and a stimulus to one system: calls replaced, names made variables and channels."""

from __future__ import annotations

from dataclasses import dataclass, replace
from typing import Union

from .faults import Number, Refused
from .names_and_types import ElementEntry, Port, TypedDescription, TypedProcedure, TypeEntry, least_width
from .stimulus import Given, by_port
from .syntax import (
    Assign, Binary, BitsType, Call, Case, Cast, Channel, ChannelArm, Choose, Command, Declaration, Expression, GuardedArm,
    If, LabelledArm, Literal, Loop, Name, NamedType, Not, Numeral, Parallel, Parentheses, Receive, Received, Send,
    Sequence, Sync, Use, Variable, While, children_of, expressions_of, operands_of,
)

MOST_NODES = 16_384
MOST_AROUND = 1_024

Local = Union[Variable, Channel]


@dataclass(frozen=True)
class Environment:
    """What the environment does at one port: it sends the values, receives for ever, or syncs so many times."""

    channel: Channel
    values: tuple[int, ...]
    count: int


@dataclass(frozen=True)
class System:
    body: Command
    environment: tuple[Environment, ...]
    variables: tuple[Variable, ...]
    channels: tuple[Channel, ...]


@dataclass(frozen=True)
class Size:
    """Nodes, and the greatest number of commands around a command."""

    nodes: int
    around: int


def expression_nodes(expression: Expression) -> int:
    own = 0 if isinstance(expression, Parentheses) else 1
    return own + sum(expression_nodes(operand) for operand in operands_of(expression))


def command_size(command: Command, procedures: dict[str, Size]) -> Size:
    """A call has the size of the procedure's body, and is no command around it."""
    if isinstance(command, Call):
        return procedures[command.procedure.text]
    inside = [command_size(child, procedures) for child in children_of(command)]
    own = 1 + sum(expression_nodes(expression) for expression in expressions_of(command))
    around = max((1 + size.around for size in inside), default=0)
    return Size(own + sum(size.nodes for size in inside), around)


def procedure_sizes(description: TypedDescription) -> dict[str, Size]:
    """The sizes of the bodies with their locals, without building anything."""
    sizes: dict[str, Size] = {}
    for typed in description.procedures:
        size = command_size(typed.procedure.body, sizes)
        declared = sum(len(group.names) for group in typed.procedure.locals)
        sizes[typed.procedure.name.text] = replace(size, nodes=size.nodes + declared)
    return sizes


def check_size(description: TypedDescription, given: dict[str, Given]) -> None:
    root = description.root
    size = procedure_sizes(description)[root.procedure.name.text]
    fed = sum(len(line.values) for line in given.values())
    if size.nodes + len(root.ports) + fed > MOST_NODES or size.around > MOST_AROUND:
        raise Refused(Number.TOO_MANY_NODES)


class Scope:
    """The body of one procedure for one call: what its names stand for, the text before the names of its locals, and
    how many calls have been met in it."""

    def __init__(
        self, elaboration: Elaboration, procedure: TypedProcedure, channels: dict[str, Channel], before: str
    ) -> None:
        self.elaboration = elaboration
        self.names: dict[str, Local] = dict(channels)
        self.before = before
        self.calls = 0
        for group in procedure.procedure.locals:
            for name in group.names:
                entry = procedure.scope[name.text]
                self.names[name.text] = elaboration.new_local(before + name.text, group, entry.width, name.offset)

    def command(self, command: Command) -> Command:
        """The command of the system, on its own line; of a call the body, on the lines of the procedure."""
        match command:
            case Sequence(children) | Parallel(children):
                return replace(command, children=tuple(self.command(child) for child in children))
            case Assign(variable, expression):
                return replace(command, variable=self.use(variable), expression=self.expression(expression))
            case Send(channel, expression):
                return replace(command, channel=self.names[channel.text], expression=self.expression(expression))
            case Receive(channel, variable):
                return replace(command, channel=self.names[channel.text], variable=self.use(variable))
            case Sync(channel):
                return replace(command, channel=self.names[channel.text])
            case Loop(body):
                return replace(command, body=self.command(body))
            case While(guard, body):
                return replace(command, guard=self.expression(guard), body=self.command(body))
            case If() | Case() | Choose():
                return self.command_with_arms(command)
            case Call():
                return self.call(command)
        return command

    def command_with_arms(self, command: If | Case | Choose) -> Command:
        if isinstance(command, Choose):
            arms = [ChannelArm(self.names[arm.channel.text], self.command(arm.body)) for arm in command.arms]
            return replace(command, arms=tuple(arms))
        if isinstance(command, If):
            arms = tuple(GuardedArm(self.expression(arm.guard), self.command(arm.body)) for arm in command.arms)
            return replace(command, arms=arms, otherwise=self.otherwise(command))
        arms = tuple(
            LabelledArm(tuple(self.expression(label) for label in arm.labels), self.command(arm.body))
            for arm in command.arms
        )
        expression = self.expression(command.expression)
        return replace(command, expression=expression, arms=arms, otherwise=self.otherwise(command))

    def otherwise(self, command: If | Case) -> Command | None:
        return None if command.otherwise is None else self.command(command.otherwise)

    def call(self, command: Call) -> Command:
        self.calls += 1
        called = self.elaboration.procedures[command.procedure.text]
        arguments = [self.names[name.text] for name in command.arguments]
        channels = {port.name: given for port, given in zip(called.ports, arguments)}
        inner = Scope(self.elaboration, called, channels, f"{self.before}{self.calls}:")
        return inner.command(called.procedure.body)

    def use(self, name: Name) -> Use:
        return Use(name.offset, self.names[name.text])

    def expression(self, expression: Expression) -> Expression:
        match expression:
            case Numeral(offset, value):
                return Literal(offset, value, least_width(value))
            case Name():
                return self.named(expression)
            case Parentheses(_, inside):
                return self.expression(inside)
            case Not(offset, operand):
                return Not(offset, self.expression(operand))
            case Cast(offset, operand, type_):
                return Cast(offset, self.expression(operand), self.elaboration.resolved(type_))
            case Binary(offset, operator, left, right):
                return Binary(offset, operator, self.expression(left), self.expression(right))
        raise AssertionError(expression)

    def named(self, name: Name) -> Expression:
        local = self.names.get(name.text)
        if isinstance(local, Variable):
            return Use(name.offset, local)
        if isinstance(local, Channel):
            return Received(name.offset, local)
        element = self.elaboration.elements[name.text]
        return Literal(name.offset, element.value, element.width)


class Elaboration:
    """What the whole system has in common: its variables and channels so far, and what is visible everywhere."""

    def __init__(self, description: TypedDescription) -> None:
        entries = description.entries
        self.types = {name: entry for name, entry in entries.items() if isinstance(entry, TypeEntry)}
        self.elements = {name: entry for name, entry in entries.items() if isinstance(entry, ElementEntry)}
        self.procedures = {typed.procedure.name.text: typed for typed in description.procedures}
        self.variables: list[Variable] = []
        self.channels: list[Channel] = []

    def new_channel(self, name: str, kind: str, width: int | None, offset: int) -> Channel:
        channel = Channel(len(self.channels), name, width, kind, offset)
        self.channels.append(channel)
        return channel

    def new_local(self, name: str, group: Declaration, width: int | None, offset: int) -> Local:
        if group.kind != "variable":
            return self.new_channel(name, group.kind, width, offset)
        variable = Variable(len(self.variables), name, width or 0, group.shared)
        self.variables.append(variable)
        return variable

    def resolved(self, type_: NamedType | BitsType) -> BitsType:
        if isinstance(type_, BitsType):
            return type_
        return BitsType(type_.offset, self.types[type_.name].width or 0)


def lines_begun(command: Command) -> set[int]:
    """The lines on which the command or one within it begins."""
    lines, left = set(), [command]
    while left:
        one = left.pop()
        lines.add(one.line)
        left += children_of(one)
    return lines


def environment_of(port: Port, channel: Channel, given: Given | None) -> Environment:
    return Environment(channel, (), 0) if given is None else Environment(channel, given.values, given.count)


def elaborate(description: TypedDescription, stimulus: list[Given]) -> System:
    """The system, or a refusal: of the stimulus first, then of the size."""
    root = description.root
    given = by_port(stimulus, root.ports)
    check_size(description, given)
    elaboration = Elaboration(description)
    channels = {
        port.name: elaboration.new_channel(port.name, port.kind, port.width, root.scope[port.name].offset)
        for port in root.ports
    }
    environment = [environment_of(port, channels[port.name], given.get(port.name)) for port in root.ports]
    body = Scope(elaboration, root, channels, "").command(root.procedure.body)
    return System(body, tuple(environment), tuple(elaboration.variables), tuple(elaboration.channels))
