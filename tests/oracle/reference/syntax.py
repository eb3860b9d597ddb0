"""The trees of a description.

One set of classes serves twice. As it is parsed, a command has a `Name` wherever a variable or channel stands. In the
system that elaboration makes, it has a `Use` or a `Channel` there, and an expression has `Literal`, `Use` and
`Received` for numbers and names, no `Parentheses`, and a `BitsType` in each cast.
"""

from __future__ import annotations

from dataclasses import dataclass, field
from typing import Union


@dataclass(frozen=True)
class Node:
    """A part of a command or an expression."""


@dataclass(frozen=True, eq=False)
class Variable:
    """A variable of the system, under the name that the debugger shows. There is one object for each."""

    number: int
    name: str
    width: int
    shared: bool = False


@dataclass(frozen=True, eq=False)
class Channel:
    """A channel of the system. Its kind is input, output, channel or sync; a sync has no width. The offset is that of
    its name in its declaration. There is one object for each."""

    number: int
    name: str
    width: int | None
    kind: str
    offset: int


# Types


@dataclass(frozen=True)
class NamedType:
    offset: int
    name: str


@dataclass(frozen=True)
class BitsType:
    offset: int
    width: int


Type = Union[NamedType, BitsType]

# Expressions. The offset is that of the first token.


@dataclass(frozen=True)
class Numeral(Node):
    offset: int
    value: int


@dataclass(frozen=True)
class Name(Node):
    offset: int
    text: str


@dataclass(frozen=True)
class Literal(Node):
    offset: int
    value: int
    width: int


@dataclass(frozen=True)
class Use(Node):
    """A variable where it is used, to be read or to be written."""

    offset: int
    variable: Variable


@dataclass(frozen=True)
class Received(Node):
    """The value received, by the name of the channel inside an arm opened on it."""

    offset: int
    channel: Channel


@dataclass(frozen=True)
class Not(Node):
    offset: int
    operand: Expression


@dataclass(frozen=True)
class Cast(Node):
    offset: int
    operand: Expression
    type: Type


@dataclass(frozen=True)
class Parentheses(Node):
    offset: int
    inside: Expression


@dataclass(frozen=True)
class Binary(Node):
    offset: int
    operator: str
    left: Expression
    right: Expression


Expression = Union[Numeral, Name, Literal, Use, Received, Not, Cast, Parentheses, Binary]

# Commands


@dataclass(frozen=True)
class Form(Node):
    """A command, on the line of its first token, any `[` not counted."""

    line: int = field(default=0, kw_only=True)


@dataclass(frozen=True)
class Continue(Form):
    pass


@dataclass(frozen=True)
class Halt(Form):
    pass


@dataclass(frozen=True)
class Sequence(Form):
    children: tuple[Command, ...]


@dataclass(frozen=True)
class Parallel(Form):
    children: tuple[Command, ...]


@dataclass(frozen=True)
class Assign(Form):
    variable: Name | Use
    expression: Expression


@dataclass(frozen=True)
class Send(Form):
    channel: Name | Channel
    expression: Expression


@dataclass(frozen=True)
class Receive(Form):
    channel: Name | Channel
    variable: Name | Use


@dataclass(frozen=True)
class Sync(Form):
    channel: Name | Channel


@dataclass(frozen=True)
class Loop(Form):
    body: Command


@dataclass(frozen=True)
class While(Form):
    guard: Expression
    body: Command


@dataclass(frozen=True)
class GuardedArm(Node):
    guard: Expression
    body: Command


@dataclass(frozen=True)
class If(Form):
    arms: tuple[GuardedArm, ...]
    otherwise: Command | None


@dataclass(frozen=True)
class LabelledArm(Node):
    """Numbers and names of elements; in the system their values as literals."""

    labels: tuple[Numeral | Name | Literal, ...]
    body: Command


@dataclass(frozen=True)
class Case(Form):
    expression: Expression
    arms: tuple[LabelledArm, ...]
    otherwise: Command | None


@dataclass(frozen=True)
class ChannelArm(Node):
    channel: Name | Channel
    body: Command


@dataclass(frozen=True)
class Choose(Form):
    """An enclosed input, a select or an arbitrate: `word` is enclose, select or arbitrate."""

    word: str
    arms: tuple[ChannelArm, ...]


@dataclass(frozen=True)
class Call(Form):
    procedure: Name
    arguments: tuple[Name, ...]


Command = Union[
    Continue, Halt, Sequence, Parallel, Assign, Send, Receive, Sync, Loop, While, If, Case, Choose, Call
]

# Descriptions


@dataclass(frozen=True)
class BitsDeclaration:
    name: Name
    width: Numeral


@dataclass(frozen=True)
class Enumeration:
    name: Name
    elements: tuple[Name, ...]


@dataclass(frozen=True)
class Declaration:
    """Ports or locals that are declared together. The kind is input, output, sync, variable or channel; a sync has no
    type, and of the others only variables are shared."""

    kind: str
    names: tuple[Name, ...]
    type: Type | None
    shared: bool = False


@dataclass(frozen=True)
class Procedure:
    name: Name
    ports: tuple[Declaration, ...]
    locals: tuple[Declaration, ...]
    body: Command


@dataclass(frozen=True)
class Description:
    types: tuple[BitsDeclaration | Enumeration, ...]
    procedures: tuple[Procedure, ...]


def children_of(command: Command) -> list[Command]:
    """The commands that stand directly in a command."""
    match command:
        case Sequence(children) | Parallel(children):
            return list(children)
        case Loop(body) | While(_, body):
            return [body]
        case If(arms, otherwise) | Case(_, arms, otherwise):
            return [arm.body for arm in arms] + ([] if otherwise is None else [otherwise])
        case Choose(_, arms):
            return [arm.body for arm in arms]
    return []


def expressions_of(command: Command) -> list[Expression]:
    """The expressions that stand directly in a command."""
    match command:
        case Assign(_, expression) | Send(_, expression) | Case(expression, _, _) | While(expression, _):
            return [expression]
        case If(arms, _):
            return [arm.guard for arm in arms]
    return []


def operands_of(expression: Expression) -> list[Expression]:
    """The expressions that stand directly in an expression."""
    match expression:
        case Not(_, inside) | Cast(_, inside, _) | Parentheses(_, inside):
            return [inside]
        case Binary(_, _, left, right):
            return [left, right]
    return []


def uses_in(expression: Expression) -> list[Use]:
    """The variables that an expression of the system reads, where it reads them."""
    if isinstance(expression, Use):
        return [expression]
    return [use for operand in operands_of(expression) for use in uses_in(operand)]
