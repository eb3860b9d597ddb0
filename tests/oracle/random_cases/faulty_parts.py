"""Nested constructs with faults in their parts, for the rules on which of several faults is the answer."""

from __future__ import annotations

from random import Random

HEAD = """type e is enumeration a0, a1, a2 end type f is enumeration b0 end
type g is enumeration c0, c1, c2, c3, c4 end
procedure q (input k : 8 bits) is begin halt end
procedure p (input i : 8 bits ; output o : 8 bits) is
variable x1 : 1 bits variable x8 : 8 bits variable w64 : 64 bits channel c : 8 bits channel d : 2 bits sync s, s2
begin """
SOUND = ["halt", "x1 := 1", "x8 := x1"]
MAYBE_FAULTY = [
    "halt", "zz := 1", "x1 := 2", "x1 := 1", "if 2 then halt end", "case x1 of 0 then halt | 0 then halt end",
    "case x1 of a0 then halt end", "sync s", "select s then halt | s then halt end", "loop while x8 then halt end",
    "q (c)", "q (d)", "q ()", "c -> x1", "x8 := w64 + w64", "c -> then c := 1 end",
    "select c then x8 := c | d then x8 := c end", "d <- c0",
]
EXPRESSIONS = [
    "x1", "x8", "1", "2", "c0", "a0", "b0", "zz", "w64 + w64", "(w64 + w64 as 1 bits)", "not x1", "x1 = x8", "c", "p",
    "e", "(x1 as 65 bits)", "(x1 as zz)", "(1)", "c4 - c4", "x1 and 1",
]
LABELS = ["0", "1", "00", "2", "a0", "a1", "a2", "b0", "c4", "c0", "zz", "x1", "e", "7", "255", "256"]
CHANNELS = ["c", "d", "s", "s2", "i"]
ANY_CHANNELS = CHANNELS + ["o", "zz"]


class PartsWriter:
    def __init__(self, random: Random) -> None:
        self.random = random

    def one(self, texts: list[str]) -> str:
        return self.random.choice(texts)

    def arms(self, depth: int, heads: list[str]) -> str:
        return " | ".join(f"{head} then {self.command(depth)}" for head in heads)

    def some(self, texts: list[str], most: int = 3) -> list[str]:
        return [self.one(texts) for _ in range(self.random.randint(1, most))]

    def otherwise(self, depth: int) -> str:
        return f" else {self.command(depth)}" if self.random.random() < 0.5 else ""

    def command(self, depth: int) -> str:
        form = self.random.randrange(8) if depth else 0
        depth -= 1
        match form:
            case 2:
                return f"if {self.arms(depth, self.some(EXPRESSIONS))}{self.otherwise(depth)} end"
            case 3:
                labels = [", ".join(self.some(LABELS, 2)) for _ in range(self.random.randint(1, 3))]
                return f"case {self.one(EXPRESSIONS)} of {self.arms(depth, labels)}{self.otherwise(depth)} end"
            case 4:
                return f"loop while {self.arms(depth, [self.one(EXPRESSIONS)])} end"
            case 5:
                channels = ANY_CHANNELS if self.random.random() < 0.3 else CHANNELS
                return f"select {self.arms(depth, self.some(channels))} end"
            case 6:
                return f"arbitrate {self.arms(depth, [self.one(CHANNELS), self.one(CHANNELS)])} end"
            case 7:
                return f"[{self.command(depth)} {self.one([';', '||'])} {self.command(depth)}]"
        return self.one(MAYBE_FAULTY if self.random.random() < 0.4 else SOUND)


def faulty_parts(random: Random) -> bytes:
    return (HEAD + PartsWriter(random).command(3) + " end").encode()
