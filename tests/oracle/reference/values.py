"""Expressions of the system: their values and widths, what they read, and what an arm received put into it."""

from __future__ import annotations

import operator
from collections.abc import Callable
from dataclasses import fields, replace
from typing import Any

from .syntax import Binary, Cast, Channel, Expression, Literal, Node, Not, Received, Use, Variable, uses_in

Store = list[int]
"""The values of the variables, by their numbers."""

COMPARE: dict[str, Callable[[int, int], bool]] = {
    "=": operator.eq, "/=": operator.ne, "<": operator.lt, ">": operator.gt, "<=": operator.le, ">=": operator.ge,
}
BITWISE: dict[str, Callable[[int, int], int]] = {"and": operator.and_, "or": operator.or_, "xor": operator.xor}


def evaluate(expression: Expression, store: Store) -> tuple[int, int]:
    """Value and width."""
    match expression:
        case Literal(_, value, width):
            return value, width
        case Use(_, variable):
            return store[variable.number], variable.width
        case Not(_, operand):
            value, width = evaluate(operand, store)
            return 2**width - 1 - value, width
        case Cast(_, operand, type_):
            return evaluate(operand, store)[0] % 2**type_.width, type_.width
        case Binary():
            return evaluate_binary(expression, store)
    raise AssertionError(expression)


def evaluate_binary(expression: Binary, store: Store) -> tuple[int, int]:
    """A sum is never cut; a difference wraps at the wider width."""
    left, left_width = evaluate(expression.left, store)
    right, right_width = evaluate(expression.right, store)
    wider = max(left_width, right_width)
    if expression.operator == "+":
        return left + right, wider + 1
    if expression.operator == "-":
        return (left - right) % 2**wider, wider
    if expression.operator in BITWISE:
        return BITWISE[expression.operator](left, right), wider
    return int(COMPARE[expression.operator](left, right)), 1


def value_of(expression: Expression, store: Store) -> int:
    return evaluate(expression, store)[0]


def read_by(*expressions: Expression) -> frozenset[Variable]:
    return frozenset(use.variable for expression in expressions for use in uses_in(expression))


def put(tree: Any, channel: Channel, value: int) -> Any:
    """The command or expression with the value wherever it reads what was received on the channel."""
    if isinstance(tree, Received):
        return Literal(tree.offset, value, channel.width or 0) if tree.channel == channel else tree
    if isinstance(tree, tuple):
        return tuple(put(part, channel, value) for part in tree)
    if isinstance(tree, Node):
        return replace(tree, **{part.name: put(getattr(tree, part.name), channel, value) for part in fields(tree)})
    return tree
