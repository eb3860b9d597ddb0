"""The words that random sources are made of."""

from __future__ import annotations

from reference.tokens import RESERVED

NAMES = ["a", "b", "c", "d", "i", "o", "s", "x", "y", "z", "t", "p", "q", "r", "e", "X", "a_1", "ends", "i2"]
SYMBOLS = [
    ":=", "<-", "->", "||", "|", ";", ":", ",", "(", ")", "[", "]", "+", "-", "=", "/=", "<", ">", "<=", ">="
]
EDGE_NUMBERS = [
    "18446744073709551615", "18446744073709551616", "00", "007", "65", "64", "63", "255", "256",
    "99999999999999999999999", "0000000000000000000000000000001", "9223372036854775808", "4294967296",
]
SMALL_NUMBERS = ["0", "1", "2", "3", "4", "7", "8", "15", "16"]
ANY_WORD = NAMES + sorted(RESERVED) + SYMBOLS + EDGE_NUMBERS


def is_name(word: str) -> bool:
    return word[0].isalpha() and word not in RESERVED


def is_number(word: str) -> bool:
    return word.isdigit()
