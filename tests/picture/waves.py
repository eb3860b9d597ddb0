"""What waves must say of a run: when a channel is active and with which value, when each of its two sides has come to its place, and what
each variable has; and what a dump says."""

from __future__ import annotations

import re
from collections import defaultdict

from facts import Facts

# units of time for each row, and how many of them an event lasts
ROW, LASTS = 10, 8
GIVES, TAKES = ("send", "sync"), ("receive", "open")
SCOPE = re.compile(r"\$scope module (\S+) \$end")
SIGNAL = re.compile(r"\$var (?:reg|wire) \d+ (\S+) (\S+)(?: \[\S+\])? \$end")
Wave = list[tuple[int, str]]


def waves_of(dump: str) -> dict[str, Wave]:
    """The changes of each signal under its whole name, the first at 0."""
    names, changes, prefix, now = {}, defaultdict(dict), [], 0
    for line in dump.splitlines():
        if found := SCOPE.match(line):
            prefix.append(found[1].rpartition("_")[2] if prefix else "")
        elif line.startswith("$upscope"):
            prefix.pop()
        elif found := SIGNAL.match(line):
            names[found[1]] = "".join(f"{number}:" for number in prefix[1:]) + found[2]
        elif found := re.fullmatch(r"#(\d+)", line):
            now = int(found[1])
        elif found := re.fullmatch(r"b(\w+) (\S+)|([01z])(\S+)", line):
            level = found[1] or found[3]
            changes[found[2] or found[4]][now] = level if level == "z" else str(int(level, 2))
    return {names[code]: shortened(found) for code, found in changes.items()}


def shortened(levels: dict[int, str]) -> Wave:
    """The levels by their times, without those that change nothing."""
    wave: Wave = []
    for time, level in sorted(levels.items()):
        if not wave or wave[-1][1] != level:
            wave.append((time, level))
    return wave


def wanted_waves(facts: Facts) -> dict[str, Wave]:
    """The waves of a run."""
    variables, channels = facts.all["variables"], facts.all["channels"]
    changes: dict[str, dict[int, str]] = {name: {0: "0"} for name, _, _ in variables}
    for name, width in channels:
        changes |= {name: {0: "z" if width else "0"}, f"{name}_A": {0: "0"}, f"{name}_B": {0: "0"}}
    rest = {name: changes[name][0] for name, _ in channels}
    for row in facts.events:
        kind, *words = row["text"].split()
        begin = ROW * row["depth"]
        end = begin + LASTS
        if row["written"] >= 0:
            changes[variables[row["written"]][0]][end] = words[1]
        if kind in ("assign", "turn", "test"):
            continue
        name = words[0]
        if kind != "close":
            changes[name][begin] = words[1] if words[1].isdigit() else "1"
            for side, since in zip("AB", row["since"], strict=True):
                changes[f"{name}_{side}"][ROW * since] = "1"
        if kind != "open":
            changes[name][end] = rest[name]
            changes[f"{name}_A"][end] = changes[f"{name}_B"][end] = "0"
    for role, numbers, since, is_second in facts.all["stood"]:
        side = "B" if role in TAKES or role == "sync" and is_second else "A" if role in GIVES else None
        for number in numbers if side else []:
            changes[f"{channels[number][0]}_{side}"][ROW * since] = "1"
    return {name: shortened(levels) for name, levels in changes.items()}


def changed_wave(facts: Facts, dump: str) -> str | None:
    """The first signal that has another wave than is wanted."""
    told, wanted = waves_of(dump), wanted_waves(facts)
    for name in sorted(told.keys() | wanted.keys()):
        if told.get(name) != wanted.get(name):
            return f"the wave of {name} is {told.get(name)}, wanted {wanted.get(name)}"[:500]
    return None
