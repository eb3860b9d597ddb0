"""The answers of both sides, as fast as can be: the program's from a process whose files stay open, those of the second
implementation with what it found out about a source kept for the next case."""

from __future__ import annotations

import os
import signal
import threading
import time
from pathlib import Path

from random_cases.cases import Case
from reference import debugger
from reference.debugger import Outcome, outcome
from reference.elaboration import System
from reference.faults import Refused

SECONDS_OF_A_CASE = int(os.environ.get("CASE_SECONDS", "30"))
NAMES = ["source", "stimulus", "script", "trace", "output", "error"]
WORDS = {"check": ["source"], "debug": ["source", "stimulus"], "replay": ["source", "stimulus", "trace"]}


class Program:
    """Runs the program on cases, in a folder that no one else uses."""

    def __init__(self, program: Path, folder: Path) -> None:
        self.program, self.watch = str(program), Watch()
        self.paths = {name: str(folder / name) for name in NAMES}
        self.files = {name: os.open(path, os.O_RDWR | os.O_CREAT) for name, path in self.paths.items()}
        self.written: dict[str, bytes] = {}
        self.handles = [(os.POSIX_SPAWN_DUP2, self.files[name], at) for at, name in enumerate(["script", "output", "error"])]

    def write(self, name: str, content: bytes) -> None:
        if self.written.get(name) != content:
            os.ftruncate(self.files[name], 0)
            os.pwrite(self.files[name], content, 0)
            self.written[name] = content

    def took(self, name: str) -> bytes:
        """What was written to a file, which is empty from then on."""
        file = self.files[name]
        size = os.lseek(file, 0, os.SEEK_CUR)
        if size == 0:
            return b""
        text = os.pread(file, size, 0)
        os.ftruncate(file, 0)
        os.lseek(file, 0, os.SEEK_SET)
        return text

    def got(self, case: Case) -> Outcome | None:
        for name in [*WORDS[case.word], "script"]:
            self.write(name, getattr(case, name))
        os.lseek(self.files["script"], 0, os.SEEK_SET)
        words = [self.program, case.word, *(self.paths[name] for name in WORDS[case.word])]
        child = os.posix_spawn(self.program, words, {}, file_actions=self.handles)
        status = self.watch.status(child)
        output, error = self.took("output"), self.took("error")
        return None if status is None else Outcome(output, error, status)


class Watch(threading.Thread):
    """Stops a process that takes too long."""

    def __init__(self) -> None:
        super().__init__(daemon=True)
        self.lock = threading.Lock()
        self.child, self.end, self.stopped = 0, 0.0, False
        self.start()

    def run(self) -> None:
        while True:
            time.sleep(1)
            with self.lock:
                if self.child and time.monotonic() > self.end:
                    self.stopped = True
                    os.kill(self.child, signal.SIGKILL)

    def status(self, child: int) -> int | None:
        """The status of the process, once it has ended; None where it had to be stopped."""
        self.child, self.end, self.stopped = child, time.monotonic() + SECONDS_OF_A_CASE, False
        os.waitid(os.P_PID, child, os.WEXITED | os.WNOWAIT)
        with self.lock:
            self.child = 0
        status = os.waitstatus_to_exitcode(os.waitpid(child, 0)[1])
        return None if self.stopped else status


class Reference:
    """Answers cases as the second implementation does. The last systems are kept."""

    def __init__(self) -> None:
        self.systems: dict[tuple[bytes, bytes], System] = {}

    def accepted(self, source: bytes, stimulus: bytes) -> System:
        key = (source, stimulus)
        if key not in self.systems:
            if len(self.systems) >= 8:
                self.systems.clear()
            self.systems[key] = debugger.accept(source, stimulus)
        return self.systems[key]

    def wanted(self, case: Case) -> Outcome:
        try:
            system = self.accepted(case.source, case.stimulus)
        except Refused as refused:
            return outcome([], refused.text())
        match case.word:
            case "check":
                return outcome(["accepted"])
            case "debug":
                return debugger.debug_system(system, case.source, case.script)
        return debugger.replay_system(system, case.trace)
