"""Random descriptions, mostly well formed and well typed, with few names and small widths so that names, widths and
branches clash often."""

from __future__ import annotations

from collections import Counter
from dataclasses import dataclass, field
from random import Random

from reference.names_and_types import least_width

from .words import EDGE_NUMBERS, NAMES

ODD_WIDTHS = [0, 65, 64, 1, 66, 2**32, 2**64 - 1]
WIDTH_SETS = [[1, 2], [2, 3], [8], [1, 8], [3, 63, 64], [64], [4, 4, 8]]


@dataclass
class Rights:
    """What a branch may use without breaking the sharing rule. A shared variable is any branch's."""

    write: set[str] = field(default_factory=set)
    read: set[str] = field(default_factory=set)
    send: set[str] = field(default_factory=set)
    receive: set[str] = field(default_factory=set)
    sync: Counter[str] = field(default_factory=Counter)


@dataclass
class Declared:
    name: str
    kind: str
    width: int
    shared: bool = False


@dataclass
class Style:
    """How often something goes wrong on purpose."""

    wild: float
    breaks_sharing: float


def any_style(random: Random) -> Style:
    return Style(random.choice([0, 0, 0, 0.01, 0.03, 0.1]), random.choice([0, 0, 0, 0.05, 0.3]))


class Writer:
    """Writes declarations as words. Expressions and commands are written by the classes that build on this one."""

    def __init__(self, random: Random, style: Style) -> None:
        self.random = random
        self.style = style
        self.words: list[str] = []
        self.types: dict[str, int] = {}
        self.elements: dict[str, tuple[int, int]] = {}
        self.procedures: dict[str, list[Declared]] = {}
        self.scope: dict[str, Declared] = {}
        self.arms: list[str] = []
        self.widths = random.choice(WIDTH_SETS)

    def wildly(self) -> bool:
        return self.random.random() < self.style.wild

    def chance(self, probability: float) -> bool:
        return self.random.random() < probability

    def write(self, *words: str) -> None:
        self.words.extend(words)

    def separated(self, number: int, separator: str) -> None:
        """Writes the separator before all but the first of a list."""
        if number:
            self.write(separator)

    def visible(self) -> set[str]:
        return set(self.types) | set(self.elements) | set(self.procedures)

    def fresh(self, taken: set[str]) -> str:
        if self.wildly():
            return self.random.choice(NAMES)
        free = [name for name in NAMES if name not in taken]
        return self.random.choice(free) if free else f"v{len(taken)}"

    def width(self) -> int:
        return self.random.choice(ODD_WIDTHS if self.wildly() else self.widths)

    def width_of(self, name: str) -> int:
        return self.scope[name].width if name in self.scope else 8

    def description(self) -> list[str]:
        for _ in range(self.random.choice([0, 0, 1, 1, 2, 3])):
            self.type_declaration()
        for _ in range(self.random.choice([1, 1, 2, 2, 3, 4, 5])):
            self.procedure()
        return self.words

    def type_declaration(self) -> None:
        name = self.fresh(self.visible())
        self.write("type", name, "is")
        if self.chance(0.5):
            width = self.width()
            self.write(str(width), "bits")
            self.types.setdefault(name, width)
            return
        count = self.random.choice([1, 1, 2, 2, 3, 4, 5, 9])
        width = least_width(count - 1)
        self.types.setdefault(name, width)
        self.write("enumeration")
        for value in range(count):
            element = self.fresh(self.visible())
            self.separated(value, ",")
            self.write(element)
            self.elements.setdefault(element, (value, width))
        self.write("end")

    def type(self, width: int | None = None) -> int:
        """Writes a type, of the width if one is given, and answers its width."""
        if self.wildly():
            name = self.random.choice(NAMES)
            self.write(name)
            return self.types.get(name, 8)
        fitting = [name for name, own in self.types.items() if width in (None, own)]
        if fitting and self.chance(0.5):
            name = self.random.choice(fitting)
            self.write(name)
            return self.types[name]
        width = self.width() if width is None else width
        self.write(str(width), "bits")
        return width

    def declaration(self, kinds: list[str], counts: list[int]) -> list[Declared]:
        """Writes ports or locals of one kind."""
        kind = self.random.choice(kinds + ["sync"])
        shared = kind == "variable" and self.chance(0.25) or self.wildly()
        self.write(*["shared"] * shared, kind)
        names: list[str] = []
        for number in range(self.random.choice(counts)):
            names.append(self.fresh(self.visible() | set(self.scope) | set(names)))
            self.separated(number, ",")
            self.write(names[-1])
        if kind != "sync":
            self.write(":")
        width = 0 if kind == "sync" else self.type()
        declared = [Declared(name, kind, width, shared) for name in names]
        for one in declared:
            self.scope.setdefault(one.name, one)
        return declared

    def ports(self) -> list[Declared]:
        ports: list[Declared] = []
        self.write("(")
        for number in range(self.random.choice([1, 1, 2, 2, 3])):
            self.separated(number, ";")
            ports += self.declaration(["input", "output"] * 2, [1, 1, 1, 2])
        self.write(")")
        return ports

    def procedure(self) -> None:
        name = self.fresh(self.visible())
        self.scope, self.arms = {}, []
        self.write("procedure", name)
        ports = self.ports() if self.chance(0.75) else []
        self.write("is")
        for _ in range(self.random.choice([0, 1, 1, 2, 2, 3])):
            self.declaration(["variable", "variable", "channel"], [1, 1, 2, 3])
        self.write("begin")
        self.body(self.rights({port.name for port in ports}))
        self.write("end")
        self.procedures.setdefault(name, ports)

    def rights(self, ports: set[str]) -> Rights:
        """All that a whole body may use."""
        named = lambda *kinds: {name for name, one in self.scope.items() if one.kind in kinds}
        syncs = Counter({name: 1 if name in ports else 2 for name in named("sync")})
        variables = named("variable")
        return Rights(variables, set(variables), named("channel", "output"), named("channel", "input"), syncs)

    def split(self, rights: Rights, count: int) -> list[Rights]:
        """Rights for so many branches, which now and then have all of them and so break the sharing rule."""
        if self.chance(self.style.breaks_sharing):
            return [rights] * count
        branches = [Rights() for _ in range(count)]
        for name in sorted(rights.read | rights.write):
            owner = self.random.choice(branches)
            shared = name in self.scope and self.scope[name].shared
            alone = not shared and name in rights.write and self.chance(0.85)
            for branch in [owner] if alone else branches:
                branch.read.add(name)
            for branch in [owner] * alone + branches * (shared and name in rights.write):
                branch.write.add(name)
        for name in sorted(rights.send):
            self.random.choice(branches).send.add(name)
        for name in sorted(rights.receive):
            self.random.choice(branches).receive.add(name)
        for name in sorted(rights.sync.elements()):
            self.random.choice(branches).sync[name] += 1
        return branches

    def body(self, rights: Rights) -> None:
        raise NotImplementedError


class ExpressionWriter(Writer):
    """Writes expressions; each call answers the width of what it wrote."""

    def expression_for(self, rights: Rights, target: int) -> None:
        """An expression that mostly fits a target of that width, with a cast where it would be wider."""
        start = len(self.words)
        width = self.expression(rights, self.random.choice([0, 0, 1, 1, 2, 3]))
        if width > target and not self.chance(2 * self.style.wild):
            words = self.words[start:]
            del self.words[start:]
            self.write("(", *words, "as")
            self.type(target)
            self.write(")")

    def guard(self, rights: Rights) -> None:
        if self.wildly():
            self.expression(rights, 2)
        elif self.chance(0.3):
            self.write("(")
            self.comparison(rights, 1, True)
            self.write(")")
        else:
            self.comparison(rights, 1, True)

    def expression(self, rights: Rights, depth: int) -> int:
        width = self.conjunct(rights, depth)
        while depth > 0 and self.chance(0.15):
            self.write(self.random.choice(["or", "xor"]))
            width = max(width, self.conjunct(rights, depth - 1))
        return width

    def conjunct(self, rights: Rights, depth: int) -> int:
        width = self.comparison(rights, depth)
        while depth > 0 and self.chance(0.15):
            self.write("and")
            width = max(width, self.comparison(rights, depth - 1))
        return width

    def comparison(self, rights: Rights, depth: int, always: bool = False) -> int:
        width = self.sum(rights, depth)
        if not always and not (depth > 0 and self.chance(0.2)):
            return width
        self.write(self.random.choice(["=", "/=", "<", ">", "<=", ">="]))
        self.sum(rights, depth - 1)
        return 1

    def sum(self, rights: Rights, depth: int) -> int:
        width = self.factor(rights, depth)
        while depth > 0 and self.chance(0.4):
            sign = self.random.choice("+-") if width < 64 or self.wildly() else "-"
            self.write(sign)
            width = max(width, self.factor(rights, depth - 1))
            width = min(width + 1, 64) if sign == "+" else width
        return width

    def factor(self, rights: Rights, depth: int) -> int:
        chance = self.random.random()
        if depth > 0 and chance < 0.15:
            self.write("not")
            return self.factor(rights, depth - 1)
        if depth > 0 and chance < 0.45:
            return self.parentheses(rights, depth, chance < 0.3)
        names = self.readable(rights)
        if chance < 0.75 and names:
            return self.named(self.random.choice(names))
        return self.numeral()

    def parentheses(self, rights: Rights, depth: int, plain: bool) -> int:
        self.write("(")
        width = self.expression(rights, depth - 1)
        if not plain:
            self.write("as")
            width = self.type()
        self.write(")")
        return width

    def readable(self, rights: Rights) -> list[str]:
        if self.wildly():
            return NAMES
        received = [name for name in self.arms if name in self.scope and self.scope[name].kind in ("input", "channel")]
        return sorted(rights.read) + received * 2 + sorted(self.elements)

    def named(self, name: str) -> int:
        self.write(name)
        return self.elements[name][1] if name in self.elements else self.width_of(name)

    def numeral(self) -> int:
        if self.wildly():
            self.write(self.random.choice(EDGE_NUMBERS))
            return 8
        width = max(1, min(64, self.random.choice([1, 1, 2, 3, *self.widths])))
        some = self.random.randrange(2**width)
        value = self.random.choice([0, 1, 2**width - 1, some, some])
        self.write(("0" if self.chance(0.03) else "") + str(value))
        return least_width(value)
