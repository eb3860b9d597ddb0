"""Small changes to words and bytes."""

from __future__ import annotations

from collections.abc import Callable
from random import Random

from .words import ANY_WORD, EDGE_NUMBERS, NAMES, SMALL_NUMBERS, is_name, is_number

ODD_BYTES = b"@$\xff\x00\x0b\x0c\"'#&*./_-()|:=<>[]; \r\n\t09aZ{}\xc3"
ODD_RUNS = [
    b"(--", b"--)", b"--", b"(", b"-", b"->", b"<-", b"||", b"(--)", b"(----)", b"-->", b"<--", b"(-", b"/", b"_",
    b"\r", b"\xef\xbb\xbf", b"999999999999999999999",
]


def places_of(words: list[str], wanted: Callable[[str], bool]) -> list[int]:
    return [place for place, word in enumerate(words) if wanted(word)]


def change_name(random: Random, words: list[str]) -> list[str]:
    """One name becomes another, mostly one that stands in the source."""
    places = places_of(words, is_name)
    if not places:
        return words
    other = random.choice(NAMES + [words[random.choice(places)]] * 5)
    at = random.choice(places)
    return words[:at] + [other] + words[at + 1 :]


def mutate_words_once(random: Random, words: list[str]) -> list[str]:
    if not words:
        return words
    at, other, word = random.randrange(len(words)), random.randrange(len(words)), random.choice(ANY_WORD)
    match random.randrange(7):
        case 0:
            return words[:at] + words[at + 1 :]
        case 1:
            return words[:at] + [words[at]] + words[at:]
        case 2:
            swapped = list(words)
            swapped[at], swapped[other] = swapped[other], swapped[at]
            return swapped
        case 3:
            return words[:at] + [word] + words[at + 1 :]
        case 4:
            return words[:at] + [word] + words[at:]
        case 5:
            return words[:at] + words[at + random.choice([1, 2, 5, 10]) :]
    return change_name(random, words)


def mutate_words(random: Random, words: list[str]) -> list[str]:
    for _ in range(random.choice([1, 1, 1, 2, 3])):
        words = mutate_words_once(random, words)
    return words


def mutate_names(random: Random, words: list[str]) -> list[str]:
    """Names become others of the same source, or now and then any name."""
    words, places = list(words), places_of(words, is_name)
    for _ in range(random.choice([1, 1, 2, 3])):
        other = words[random.choice(places)] if random.random() < 0.9 else random.choice(NAMES)
        words[random.choice(places)] = other
    return words


def mutate_numbers(random: Random, words: list[str]) -> list[str]:
    words, places = list(words), places_of(words, is_number)
    for _ in range(random.choice([1, 1, 2]) if places else 0):
        words[random.choice(places)] = random.choice(EDGE_NUMBERS + SMALL_NUMBERS)
    return words


def mutate_bytes_once(random: Random, text: bytes) -> bytes:
    at = random.randrange(len(text) + 1)
    end = at + random.choice([1, 3, 10, 40])
    match random.randrange(8):
        case 0:
            return text[:at] + text[at + 1 :]
        case 1:
            return text[:at] + bytes([random.choice(ODD_BYTES)]) + text[at:]
        case 2:
            return text[:at] + bytes([random.randrange(256)]) + text[at + 1 :]
        case 3:
            return text[:at]
        case 4:
            return text[:at] + random.choice(ODD_RUNS) + text[at:]
        case 5:
            return text[:at] + text[end:]
        case 6:
            return text[:end] + text[at:]
    return text.replace(b"\n", random.choice([b"\r\n", b"\r", b" "]))


def mutate_bytes(random: Random, text: bytes) -> bytes:
    for _ in range(random.choice([1, 1, 2, 4])):
        text = mutate_bytes_once(random, text)
    return text


def twist_once(random: Random, words: list[str], elements: list[str]) -> list[str]:
    """Changes a name or number in the body of one procedure to another that is likely to be visible there."""
    starts = places_of(words, lambda word: word == "procedure")
    first = random.choice(starts)
    last = next((place for place in starts if place > first), len(words))
    body = range(words.index("begin", first), last)
    visible = [word for word in words[first + 2 : last] if is_name(word)] + elements
    names = [place for place in body if is_name(words[place])]
    numbers = [place for place in body if is_number(words[place])]
    twisted, chance = list(words), random.random()
    if chance < 0.6 and names:
        twisted[random.choice(names)] = random.choice(visible)
    elif chance < 0.9 and numbers:
        twisted[random.choice(numbers)] = random.choice(SMALL_NUMBERS + ["00", "01", "255", "256", "64"])
    elif names:
        at = random.choice(names)
        twisted[at] = words[random.choice([place for place in names if abs(place - at) < 8])]
    return twisted


def twist(random: Random, words: list[str], elements: list[str]) -> list[str]:
    for _ in range(random.choice([1, 1, 2])):
        words = twist_once(random, words, elements)
    return words
