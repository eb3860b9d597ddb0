"""How much memory a text may take."""

from __future__ import annotations

from .text import Text

MB = 1_000_000
# What is promised: so many times the size of the text.
PROMISED = 8
# What the program takes for itself, whatever the text is.
OWN = 16 * MB

# What takes more than is promised, by kind and name: what it took at 1 MB (lists on 2026-12-01, else on 2026-11-26), and a tenth.
# docs/development/STATUS.md says what would help.
LARGER: dict[tuple[str, str], float] = {
    # One procedure is read at once: all its tokens, and trees of 32 to 130 bytes for a few bytes of text.
    ("source: lists", "assignments one after another"): 62,
    ("source: lists", "assignments side by side"): 57,
    ("source: lists", "halts one after another"): 64,
    ("source: lists", "halts side by side"): 54,
    ("source: lists", "a list that does not end"): 64,
    ("source: lists", "calls"): 109,
    ("source: lists", "variables of one name"): 98,
    ("source: lists", "variables"): 33,
    ("source: lists", "declarations"): 41,
    ("source: lists", "ports"): 37,
    ("source: lists", "elements"): 27,
    ("source: lists", "elements of one name"): 98,
    ("source: lists", "arguments"): 98,
    ("source: lists", "labels"): 103,
    ("source: lists", "arms of a case"): 61,
    ("source: lists", "arms of an if"): 48,
    ("source: lists", "arms of a select"): 41,
    ("source: comments", "a comment behind each word"): 28,
    # A list too, but no tree is made of it; at 100 MB it takes 1.1 times its size.
    ("source: odd bytes", "a good list and one odd byte"): 17,
    # All types stand before the first procedure, and are read at once.
    ("source: good text", "a type"): 35,
    ("source: good text", "types with names of their own"): 26,
    # What stands of each procedure until the last was read: its name in scope, its tree, its list of the kinds of ports.
    ("source: good text", "procedures with names of their own"): 13,
    ("source: good text", "procedures that call one"): 13,
    ("source: good text", "procedures that call one another"): 14,
    # The first 65,536 entries stand while all are read anew. At 100 MB these take 1.1 times their size.
    ("stimulus: lines", "one line again and again"): 12,
    ("stimulus: lines", "another port again and again"): 12,
    ("stimulus: lines", "other ports"): 15,
    ("stimulus: lines", "a line of no form behind good ones"): 12,
}


def most_times(text: Text, promised: float) -> float:
    """The most memory that the text may take, in multiples of its size."""
    return LARGER.get((text.kind, text.name), promised)


def without_text(texts: list[Text]) -> list[tuple[str, str]]:
    """What stands above and is no text any more."""
    return sorted(LARGER.keys() - {(text.kind, text.name) for text in texts})
