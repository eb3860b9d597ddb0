"""One run of the program, with what it took."""

from __future__ import annotations

import json
import os
import subprocess
import sys
from collections.abc import Iterable
from dataclasses import dataclass
from pathlib import Path

from .text import CIRCUIT, STIMULUS, Text

LAUNCHER = Path(__file__).with_name("launcher.py")
SCRIPT = b"live\n"


@dataclass(frozen=True)
class Took:
    """How a run ended, with seconds of a processor and the most memory at one time, in bytes."""

    status: int | None
    seconds: float
    memory: int


def files_of(text: Text, count: int, folder: Path) -> list[str]:
    """Writes the files of a run, and gives its words. Standard input is the file `script`."""
    small = {"source": CIRCUIT, "stimulus": STIMULUS, "script": b"" if text.part != "stimulus" else SCRIPT}
    for name, content in small.items():
        (folder / name).write_bytes(content)
    with open(folder / text.part, "wb") as file:
        for block in text.blocks(count):
            file.write(block)
    match text.part:
        case "source":
            return ["check", "source"]
        case "trace":
            return ["replay", "source", "stimulus", "trace"]
    return ["debug", "source", "stimulus"]


class Launcher:
    """Runs programs in a folder, where standard input is the file `script`, and output and error are files too."""

    def __init__(self, program: Path, folder: Path, room: int) -> None:
        self.program, self.folder, self.room = str(program), str(folder), room
        self.process = subprocess.Popen([sys.executable, "-I", "-S", LAUNCHER], stdin=subprocess.PIPE, stdout=subprocess.PIPE, text=True)

    def run(self, words: list[str]) -> Took:
        assert self.process.stdin and self.process.stdout
        self.process.stdin.write(json.dumps([[self.program, *words], self.folder, self.room]) + "\n")
        self.process.stdin.flush()
        return Took(*json.loads(self.process.stdout.readline()))


def is_file(path: Path, blocks: Iterable[bytes]) -> bool:
    """Whether the file has exactly the bytes of the blocks."""
    with open(path, "rb") as file:
        for block in blocks:
            if file.read(len(block)) != block:
                return False
        return file.read(1) == b""


def beginning(path: Path, most: int = 120) -> str:
    with open(path, "rb") as file:
        text = file.read(most)
    return repr(text)[2:-1] + (" .." if os.path.getsize(path) > most else "")
