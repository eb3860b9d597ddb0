"""Random commands."""

from __future__ import annotations

from .sources import Declared, ExpressionWriter, Rights
from .words import EDGE_NUMBERS, NAMES

SIMPLE_FORMS = ["assign"] * 4 + ["send"] * 3 + ["receive"] * 3 + ["call"] * 2 + ["continue", "halt", "sync", "sync"]
NESTING_FORMS = ["brackets"] * 2 + ["loop", "while", "if", "case", "arbitrate"] + ["select", "enclose"] * 2
MOST_LABELS = 900


class SourceWriter(ExpressionWriter):
    """Writes whole descriptions. A method that writes a form answers whether it could."""

    depth = 3
    budget = 60

    def body(self, rights: Rights) -> None:
        self.depth = self.random.choice([1, 2, 3, 3, 4])
        self.budget = self.random.choice([5, 20, 40, 80])
        self.command(rights, self.depth)

    def command(self, rights: Rights, depth: int) -> None:
        for number in range(1 if depth <= 0 else self.random.choice([1, 1, 2, 2, 3, 4])):
            self.separated(number, ";")
            self.parallel(rights, depth)

    def parallel(self, rights: Rights, depth: int) -> None:
        count = 1 if depth <= 0 else self.random.choice([1, 1, 1, 2, 2, 3])
        branches = [rights] if count == 1 else self.split(rights, count)
        for number, branch in enumerate(branches):
            self.separated(number, "||")
            self.simple(branch, depth - 1)

    def simple(self, rights: Rights, depth: int) -> None:
        self.budget -= 1
        depth = depth if self.budget >= 0 else 0
        forms = SIMPLE_FORMS + (NESTING_FORMS if depth > 0 else [])
        for _ in range(8):
            if self.form(self.random.choice(forms), rights, depth):
                return
        self.write(self.random.choice(["continue", "continue", "halt"]))

    def form(self, form: str, rights: Rights, depth: int) -> bool:
        match form:
            case "continue" | "halt":
                self.write(form)
                return True
            case "select" | "arbitrate":
                return self.choose(form, rights, depth)
            case "brackets":
                return self.nested(["["], rights, depth, "]")
            case "loop":
                return self.nested(["loop"], rights, depth, "end")
        # The others are methods by the name of the form.
        by_name = {"assign": self.assign, "send": self.send, "receive": self.receive, "sync": self.sync,
                   "call": self.call, "while": self.while_loop, "if": self.conditional, "case": self.case,
                   "enclose": self.enclose}
        return by_name[form](rights, depth)

    def pick(self, names: set[str]) -> str | None:
        """One of the names, hardly ever one whose arm is open; None where there is none, or wildly."""
        if self.wildly():
            return None
        free = [name for name in sorted(names) if name not in self.arms or self.chance(0.02)]
        return self.random.choice(free) if free else None

    def pick_or_wild(self, names: set[str]) -> str | None:
        """One of the names, or wildly any name."""
        return self.pick(names) or (self.random.choice(NAMES) if self.wildly() else None)

    # Forms without commands inside

    def assign(self, rights: Rights, depth: int) -> bool:
        name = self.pick_or_wild(rights.write)
        if name is not None:
            self.write(name, ":=")
            self.expression_for(rights, self.width_of(name))
        return name is not None

    def send(self, rights: Rights, depth: int) -> bool:
        name = self.pick_or_wild(rights.send)
        if name is not None:
            self.write(name, "<-")
            self.expression_for(rights, self.width_of(name))
        return name is not None

    def receive(self, rights: Rights, depth: int) -> bool:
        name = self.pick_or_wild(rights.receive)
        if name is None:
            return False
        wide = {variable for variable in rights.write if self.width_of(variable) >= self.width_of(name)}
        variable = self.pick_or_wild(wide)
        if variable is not None:
            self.write(name, "->", variable)
        return variable is not None

    def sync(self, rights: Rights, depth: int) -> bool:
        name = self.pick_or_wild(set(rights.sync))
        if name is not None:
            self.write("sync", name)
        return name is not None

    def call(self, rights: Rights, depth: int) -> bool:
        if not self.procedures:
            return False
        name = self.random.choice(sorted(self.procedures))
        arguments: list[str] = []
        for port in self.procedures[name]:
            argument = self.pick_or_wild(self.fitting(port, rights) - set(arguments))
            if argument is None:
                return False
            arguments.append(argument)
        if self.wildly():
            arguments = self.random.choice([arguments[:-1], arguments + [self.random.choice(NAMES)]])
        self.write(self.random.choice(NAMES) if self.wildly() else name, "(")
        for number, argument in enumerate(arguments):
            self.separated(number, ",")
            self.write(argument)
        self.write(")")
        return True

    def fitting(self, port: Declared, rights: Rights) -> set[str]:
        if port.kind == "sync":
            return set(rights.sync)
        channels = rights.receive if port.kind == "input" else rights.send
        return {name for name in channels if self.width_of(name) == port.width}

    # Forms with commands inside

    def nested(self, opening: list[str], rights: Rights, depth: int, closing: str) -> bool:
        self.write(*opening)
        self.command(rights, depth - 1)
        self.write(closing)
        return True

    def while_loop(self, rights: Rights, depth: int) -> bool:
        self.write("loop", "while")
        self.guard(rights)
        return self.nested(["then"], rights, depth, "end")

    def otherwise(self, rights: Rights, depth: int) -> bool:
        """The end of an `if` or `case`, often with an else."""
        if self.chance(0.4):
            return self.nested(["else"], rights, depth, "end")
        self.write("end")
        return True

    def conditional(self, rights: Rights, depth: int) -> bool:
        self.write("if")
        for number in range(self.random.choice([1, 1, 2, 3])):
            self.separated(number, "|")
            self.guard(rights)
            self.write("then")
            self.command(rights, depth - 1)
        return self.otherwise(rights, depth)

    def case(self, rights: Rights, depth: int) -> bool:
        self.write("case")
        width = max(1, min(64, self.expression(rights, self.random.choice([0, 0, 1, 1, 2, 3]))))
        self.write("of")
        used: set[int] = set()
        for number in range(self.random.choice([1, 1, 2, 3])):
            if number and self.no_label_left(width, used):
                break
            self.separated(number, "|")
            self.labels(width, used)
            self.write("then")
            self.command(rights, depth - 1)
        return self.otherwise(rights, depth)

    def no_label_left(self, width: int, used: set[int]) -> bool:
        return len(used) >= min(2**width, MOST_LABELS) and not self.wildly()

    def labels(self, width: int, used: set[int]) -> None:
        for number in range(self.random.choice([1, 1, 2])):
            if number and self.no_label_left(width, used):
                return
            self.separated(number, ",")
            self.label(width, used)

    def label(self, width: int, used: set[int]) -> None:
        """A number or an element that fits and was not used, or wildly anything."""
        if self.wildly():
            self.write(self.random.choice(NAMES + EDGE_NUMBERS + ["0", "1", "01"]))
            return
        elements = [
            (name, value)
            for name, (value, own) in sorted(self.elements.items())
            if own <= width and value not in used
        ]
        if elements and self.chance(0.5):
            name, value = self.random.choice(elements)
            self.write(name)
        else:
            values = [value for value in range(min(2**width, MOST_LABELS + 10)) if value not in used] or [0]
            value = self.random.choice(values)
            self.write(self.random.choice(["", "", "", "0", "00"]) + str(value))
        used.add(value)

    def arm(self, channel: str, rights: Rights, depth: int) -> None:
        """What stands behind the `then` of an arm."""
        self.arms.append(channel)
        self.command(rights, depth - 1)
        self.arms.pop()

    def enclose(self, rights: Rights, depth: int) -> bool:
        name = self.pick_or_wild(rights.receive)
        if name is None:
            return False
        self.write(name, "->", "then")
        self.arm(name, rights, depth)
        self.write("end")
        return True

    def choose(self, word: str, rights: Rights, depth: int) -> bool:
        names: list[str] = []
        for _ in range(2 if word == "arbitrate" else self.random.choice([1, 2, 2, 3])):
            name = self.pick_or_wild((rights.receive | set(rights.sync)) - set(names))
            if name is None:
                return False
            names.append(name)
        if self.wildly():
            names[-1] = self.random.choice(names)
        self.write(word)
        for number, name in enumerate(names):
            self.separated(number, "|")
            self.write(name, "then")
            self.arm(name, rights, depth)
        self.write("end")
        return True
