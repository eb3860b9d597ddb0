"""What a TextMate grammar colours: the part of such engines that our grammar needs, line by line as editors go."""

from __future__ import annotations

import json
import re
from dataclasses import dataclass
from pathlib import Path

LINE = re.compile(r"[^\n]*\n|[^\n]+")


@dataclass
class Rule:
    """A pattern of the grammar: a match, or what begins and ends a range that has patterns of its own."""

    regex: re.Pattern[str]
    name: str
    captures: dict[int, str]
    end: re.Pattern[str] | None
    patterns: list[dict]


class Grammar:
    """A grammar, of which each pattern is read once."""

    def __init__(self, file: Path) -> None:
        said = json.loads(file.read_text())
        self.patterns: list[dict] = said["patterns"]
        self.repository: dict[str, dict] = said["repository"]
        self.known: dict[int, list[Rule]] = {}
        self.alone: dict[str, list[dict]] = {}

    def rules(self, patterns: list[dict]) -> list[Rule]:
        """The rules of some patterns, those that they include in their place."""
        if id(patterns) not in self.known:
            found = self.known[id(patterns)] = []
            for pattern in patterns:
                include = pattern.get("include")
                found += self.rules(self.included(include)) if include else [rule_of(pattern)]
        return self.known[id(patterns)]

    def included(self, name: str) -> list[dict]:
        """The patterns under a name. A range that stands there by itself is the one pattern."""
        part = self.repository[name.removeprefix("#")]
        return self.alone.setdefault(name, [part]) if "begin" in part else part["patterns"]

    def scopes(self, text: str) -> list[str]:
        """The innermost scope of each character."""
        found: list[str] = []
        ranges: list[Rule] = []
        for line in LINE.findall(text):
            found += self.scopes_of_line(line, ranges)
        return found

    def scopes_of_line(self, line: str, ranges: list[Rule]) -> list[str]:
        """The scopes of a line. `ranges` are those that are open before it, and then those that are open behind it."""
        scopes = [""] * len(line)
        at = 0
        while at < len(line):
            inside = ranges[-1] if ranges else None
            rule, match, is_end = self.first(line, at, inside)
            begin = match.start() if match else len(line)
            fill(scopes, at, begin, inside.name if inside else "")
            if match is None:
                break
            fill(scopes, begin, match.end(), rule.name)
            for group, name in rule.captures.items():
                fill(scopes, *match.span(group), name)
            if is_end:
                ranges.pop()
            elif rule.end:
                ranges.append(rule)
            if match.end() == at:
                raise ValueError(f"the rule {rule.regex.pattern} takes nothing")
            at = match.end()
        return scopes

    def first(self, line: str, at: int, inside: Rule | None) -> tuple[Rule, re.Match[str] | None, bool]:
        """The leftmost match, and whether it ends the range.

        Of two at the same place that of the first rule goes before, and the end of the range before all.
        """
        rules = self.rules(inside.patterns if inside else self.patterns)
        tried = [(inside, inside.end.search(line, at), True)] if inside and inside.end else []
        tried += [(rule, rule.regex.search(line, at), False) for rule in rules]
        return min(tried, key=lambda one: one[1].start() if one[1] else len(line) + 1)


def rule_of(pattern: dict) -> Rule:
    """A rule as it stands in the grammar. A word that this engine does not know is an error."""
    unknown = set(pattern) - {"name", "match", "captures", "begin", "end", "patterns"}
    if unknown:
        raise ValueError(f"the engine of the test knows no {unknown}")
    captures = {int(group): said["name"] for group, said in pattern.get("captures", {}).items()}
    end = re.compile(pattern["end"]) if "end" in pattern else None
    regex = re.compile(pattern.get("match") or pattern["begin"])
    return Rule(regex, pattern.get("name", ""), captures, end, pattern.get("patterns", []))


def fill(scopes: list[str], start: int, stop: int, name: str) -> None:
    scopes[start:stop] = [name] * (stop - start)
