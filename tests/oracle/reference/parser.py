"""Tokens to the tree of a description. The grammar is in docs/reference/language.md."""

from __future__ import annotations

from dataclasses import replace
from typing import NoReturn

from .faults import Number, Refused
from .syntax import (
    Assign, Binary, BitsDeclaration, BitsType, Call, Case, Cast, ChannelArm, Choose, Command, Continue, Declaration,
    Description, Enumeration, Expression, GuardedArm, Halt, If, LabelledArm, Loop, Name, NamedType, Not, Numeral,
    Parallel, Parentheses, Procedure, Receive, Send, Sequence, Sync, Type, While,
)
from .tokens import Kind, Token

LEVELS = 64
COMPARISONS = ("=", "/=", "<", ">", "<=", ">=")


class Parser:
    """Reads one description. A level is open from the token that opens it to the end of what it begins."""

    def __init__(self, tokens: list[Token]) -> None:
        self.tokens = tokens
        self.at = 0
        self.levels = 0

    # Tokens

    @property
    def token(self) -> Token:
        return self.tokens[self.at]

    def fail(self) -> NoReturn:
        raise Refused(Number.UNEXPECTED, self.token.offset)

    def stands(self, *texts: str) -> bool:
        """Whether one of these words or symbols stands here."""
        return self.token.kind in (Kind.WORD, Kind.SYMBOL) and self.token.text in texts

    def accept(self, text: str) -> bool:
        found = self.stands(text)
        self.at += found
        return found

    def take(self, text: str) -> None:
        if not self.accept(text):
            self.fail()

    def take_kind(self, kind: Kind) -> Token:
        token = self.token
        if token.kind is not kind:
            self.fail()
        self.at += 1
        return token

    def name(self) -> Name:
        token = self.take_kind(Kind.NAME)
        return Name(token.offset, token.text)

    def numeral(self) -> Numeral:
        token = self.take_kind(Kind.NUMBER)
        return Numeral(token.offset, token.number)

    def names(self) -> tuple[Name, ...]:
        names = [self.name()]
        while self.accept(","):
            names.append(self.name())
        return tuple(names)

    # Levels

    def open_level(self) -> None:
        if self.levels == LEVELS:
            raise Refused(Number.TOO_DEEP, self.token.offset)
        self.levels += 1

    def take_opening(self, text: str) -> None:
        if not self.stands(text):
            self.fail()
        self.open_level()
        self.at += 1

    def take_closing(self, text: str) -> None:
        self.take(text)
        self.levels -= 1

    # Descriptions

    def description(self) -> Description:
        types = []
        while self.stands("type"):
            types.append(self.type_declaration())
        procedures = [self.procedure()]
        while self.stands("procedure"):
            procedures.append(self.procedure())
        if self.token.kind is not Kind.END:
            self.fail()
        return Description(tuple(types), tuple(procedures))

    def type_declaration(self) -> BitsDeclaration | Enumeration:
        self.take("type")
        name = self.name()
        self.take("is")
        if self.accept("enumeration"):
            elements = self.names()
            self.take("end")
            return Enumeration(name, elements)
        width = self.numeral()
        self.take("bits")
        return BitsDeclaration(name, width)

    def type(self) -> Type:
        if self.token.kind is Kind.NAME:
            name = self.name()
            return NamedType(name.offset, name.text)
        width = self.numeral()
        self.take("bits")
        return BitsType(width.offset, width.value)

    def procedure(self) -> Procedure:
        self.take("procedure")
        name = self.name()
        ports = []
        if self.accept("("):
            ports.append(self.declaration("input", "output"))
            while self.accept(";"):
                ports.append(self.declaration("input", "output"))
            self.take(")")
        self.take("is")
        locals_ = []
        while self.stands("shared", "variable", "channel", "sync"):
            locals_.append(self.local())
        self.take("begin")
        body = self.command()
        self.take("end")
        return Procedure(name, tuple(ports), tuple(locals_), body)

    def local(self) -> Declaration:
        if self.accept("shared"):
            if not self.stands("variable"):
                self.fail()
            return replace(self.declaration("variable"), shared=True)
        return self.declaration("variable", "channel")

    def declaration(self, *kinds: str) -> Declaration:
        """Names with a type, of one of these kinds, or syncs."""
        if self.accept("sync"):
            return Declaration("sync", self.names(), None)
        if not self.stands(*kinds):
            self.fail()
        kind = self.token.text
        self.at += 1
        names = self.names()
        self.take(":")
        return Declaration(kind, names, self.type())

    # Commands

    def command(self) -> Command:
        children = [self.parallel()]
        while self.accept(";"):
            children.append(self.parallel())
        return children[0] if len(children) == 1 else Sequence(tuple(children), line=children[0].line)

    def parallel(self) -> Command:
        children = [self.simple()]
        while self.accept("||"):
            children.append(self.simple())
        return children[0] if len(children) == 1 else Parallel(tuple(children), line=children[0].line)

    def simple(self) -> Command:
        if self.stands("["):
            return self.brackets()
        line = self.token.line
        return replace(self.form(), line=line)

    def form(self) -> Command:
        forms = {"loop": self.loop, "if": self.conditional, "case": self.case, "select": self.select,
                 "arbitrate": self.arbitrate}
        if self.token.kind is Kind.NAME:
            return self.command_of_name()
        if self.stands(*forms):
            return forms[self.token.text]()
        if self.accept("continue"):
            return Continue()
        if self.accept("halt"):
            return Halt()
        if self.accept("sync"):
            return Sync(self.name())
        self.fail()

    def command_of_name(self) -> Command:
        """An assignment, a send, a receive, an enclosed input or a call."""
        name = self.name()
        if self.accept(":="):
            return Assign(name, self.expression())
        if self.accept("<-"):
            return Send(name, self.expression())
        if self.accept("->"):
            if not self.stands("then"):
                return Receive(name, self.name())
            self.take_opening("then")
            body = self.command()
            self.take_closing("end")
            return Choose("enclose", (ChannelArm(name, body),))
        self.take("(")
        arguments = () if self.stands(")") else self.names()
        self.take(")")
        return Call(name, arguments)

    def brackets(self) -> Command:
        self.take_opening("[")
        inside = self.command()
        self.take_closing("]")
        return inside

    def loop(self) -> Command:
        self.take_opening("loop")
        guard = None
        if self.accept("while"):
            guard = self.expression()
            self.take("then")
        body = self.command()
        self.take_closing("end")
        return Loop(body) if guard is None else While(guard, body)

    def conditional(self) -> Command:
        self.take_opening("if")
        arms = [self.guarded_arm()]
        while self.accept("|"):
            arms.append(self.guarded_arm())
        otherwise = self.command() if self.accept("else") else None
        self.take_closing("end")
        return If(tuple(arms), otherwise)

    def guarded_arm(self) -> GuardedArm:
        guard = self.expression()
        self.take("then")
        return GuardedArm(guard, self.command())

    def case(self) -> Command:
        self.take_opening("case")
        expression = self.expression()
        self.take("of")
        arms = [self.labelled_arm()]
        while self.accept("|"):
            arms.append(self.labelled_arm())
        otherwise = self.command() if self.accept("else") else None
        self.take_closing("end")
        return Case(expression, tuple(arms), otherwise)

    def labelled_arm(self) -> LabelledArm:
        labels = [self.label()]
        while self.accept(","):
            labels.append(self.label())
        self.take("then")
        return LabelledArm(tuple(labels), self.command())

    def label(self) -> Numeral | Name:
        return self.numeral() if self.token.kind is Kind.NUMBER else self.name()

    def channel_arm(self) -> ChannelArm:
        channel = self.name()
        self.take("then")
        return ChannelArm(channel, self.command())

    def select(self) -> Command:
        self.take_opening("select")
        arms = [self.channel_arm()]
        while self.accept("|"):
            arms.append(self.channel_arm())
        self.take_closing("end")
        return Choose("select", tuple(arms))

    def arbitrate(self) -> Command:
        self.take_opening("arbitrate")
        first = self.channel_arm()
        self.take("|")
        second = self.channel_arm()
        self.take_closing("end")
        return Choose("arbitrate", (first, second))

    # Expressions. Each operator opens a level until the end of the whole expression.

    def expression(self) -> Expression:
        levels = self.levels
        found = self.conjunct()
        while operator := self.operator("or", "xor"):
            found = Binary(found.offset, operator, found, self.conjunct())
        self.levels = levels
        return found

    def operator(self, *operators: str) -> str | None:
        if not self.stands(*operators):
            return None
        self.open_level()
        operator = self.token.text
        self.at += 1
        return operator

    def conjunct(self) -> Expression:
        found = self.comparison()
        while operator := self.operator("and"):
            found = Binary(found.offset, operator, found, self.comparison())
        return found

    def comparison(self) -> Expression:
        found = self.sum()
        if operator := self.operator(*COMPARISONS):
            found = Binary(found.offset, operator, found, self.sum())
        return found

    def sum(self) -> Expression:
        found = self.factor()
        while operator := self.operator("+", "-"):
            found = Binary(found.offset, operator, found, self.factor())
        return found

    def factor(self) -> Expression:
        offset = self.token.offset
        if self.token.kind is Kind.NUMBER:
            return self.numeral()
        if self.token.kind is Kind.NAME:
            return self.name()
        if self.stands("not"):
            self.take_opening("not")
            operand = self.factor()
            self.levels -= 1
            return Not(offset, operand)
        self.take_opening("(")
        inside = self.expression()
        cast = self.type() if self.accept("as") else None
        self.take_closing(")")
        return Parentheses(offset, inside) if cast is None else Cast(offset, inside, cast)
