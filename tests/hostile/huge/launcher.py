"""Starts programs and tells what they took, in a small process of its own: the system counts what the process that starts another
one holds as if the other one had held it.

A line on standard input is a list of the program's words, its folder and the bytes of addresses that it may have, as JSON; the line
that answers it has the status (or null), the seconds of a processor and the most memory at one time, in bytes.
"""

from __future__ import annotations

import json
import os
import resource
import sys

# Where a program is stopped, in seconds of a processor.
MOST_SECONDS = 120
FILES = [("script", os.O_RDONLY), ("output", os.O_WRONLY | os.O_CREAT | os.O_TRUNC), ("error", os.O_WRONLY | os.O_CREAT | os.O_TRUNC)]


def in_child(words: list[str], folder: str, room: int) -> None:
    """What the new process does. It never comes back."""
    try:
        os.chdir(folder)
        for handle, (name, flags) in enumerate(FILES):
            os.dup2(os.open(name, flags, 0o600), handle)
        resource.setrlimit(resource.RLIMIT_AS, (room, room))
        resource.setrlimit(resource.RLIMIT_CPU, (MOST_SECONDS, MOST_SECONDS + 1))
        os.execv(words[0], words)
    finally:
        os._exit(127)


def run(words: list[str], folder: str, room: int) -> list[float | None]:
    child = os.fork()
    if child == 0:
        in_child(words, folder, room)
    _, ended, usage = os.wait4(child, 0)
    status = os.WEXITSTATUS(ended) if os.WIFEXITED(ended) else None
    return [status, usage.ru_utime + usage.ru_stime, usage.ru_maxrss * 1024]


if __name__ == "__main__":
    for line in sys.stdin:
        print(json.dumps(run(*json.loads(line))), flush=True)
