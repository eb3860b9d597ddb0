"""Words to bytes, with blanks and comments between them."""

from __future__ import annotations

from random import Random

COMMENTS = [
    "-- c\n", "--\n", "(-- x --)", "(---- --)", "(-- (-- y --) -- --)", "(-- procedure --)", "-- (-- \n", "(--\n--)",
    "-- @$~\r\n", "(-- \xe9 @ --)",
]
BLANKS = ["\n", "\r\n", "\t", "  ", "\r", "\n\n", " \n "]
LINE_ENDS = ["\n"] * 6 + ["\r\n", "\n\n", " -- c\n", "\n(-- \xe9 @\n--) "]
JOINED = (":=", "<-", "->", "||", "/=", "<=", ">=", "--", "(-")


def is_letter_like(character: str) -> bool:
    return character.isalnum() or character == "_"


def would_join(random: Random, before: str, behind: str) -> bool:
    """Whether two words without a blank would be read as something else. Now and then a number and the name behind it
    are joined, which is allowed."""
    if is_letter_like(before[-1]) and is_letter_like(behind[0]):
        return not (before.isdigit() and not behind[0].isdigit() and random.random() < 0.3)
    return before[-1] + behind[0] in JOINED


def between(random: Random, before: str, behind: str) -> str:
    chance = random.random()
    if chance < 0.45:
        return " "
    if chance < 0.6:
        return random.choice(BLANKS)
    if chance < 0.65:
        return " " + random.choice(COMMENTS) + random.choice(["", " "])
    return " " if would_join(random, before, behind) else ""


def render(random: Random, words: list[str], plain: bool | None = None) -> bytes:
    """The source. A plain one has one space between any two words."""
    if plain is None:
        plain = random.random() < 0.5
    parts = words[:1]
    for before, behind in zip(words, words[1:]):
        parts += [" " if plain else between(random, before, behind), behind]
    return ("".join(parts) + random.choice(["", "\n"])).encode("latin-1")


def on_lines(random: Random, text: str) -> bytes:
    """The source, whose words have one space between them, on few lines or on many."""
    often = random.choice([0, 0.05, 0.2, 0.4, 0.8])
    words = text.replace("[", "[ ").split(" ")
    parts = [word + (random.choice(LINE_ENDS) if random.random() < often else " ") for word in words[:-1]]
    return ("".join(parts) + words[-1] + random.choice(["", "\n", "\r\n"])).encode("latin-1")
