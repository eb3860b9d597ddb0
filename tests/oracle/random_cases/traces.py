"""Random traces: of runs that the reference has made, as they are or with something wrong."""

from __future__ import annotations

from random import Random

from reference.traces import trace_of

from .scripts import ScriptWriter, desk_for, twisted_script

HEADERS = [
    b"", b"balsadbg trace 1", b"balsadbg trace 3", b"balsadbg trace 2 ", b"balsadbg trace 1 ", b"balsadbg trace 1\r", b"Balsadbg trace 1", b"balsadbg trace",
    b"balsadbg trace 1\n", b"\nbalsadbg trace 1", b"balsadbg trace 1\nbalsadbg trace 1",
]
BROKEN_STEPS = [
    b"step /0.0", b"step /0.0 00", b"step /00.0 0", b"step /4294967296 0", b"step /4294967295 0", b"step  0",
    b"step /0.0 0 ", b"step /0.0 0\r", b"step 0", b"step", b"", b"live", b"trace", b"undo 1",
    b"step /0.0 4294967296", b"step /0.0 4294967295", b"step /0.0 1", b"step / 0", b"step /0. 0", b"step 0/0 0", b"step \xff 0", b"step /0.0 -1", b"step /0.0  0",
    b"step " + b"/0" * 40_000 + b" 0", b"step " + b"/0" * 40_000 + b" 00", b"step " + b".01" * 30_000 + b" 0",
]


def trace_for(random: Random, source: bytes, stimulus: bytes) -> bytes:
    """The trace behind some lines of a script, which may undo and roll back."""
    desk = desk_for(source, stimulus)
    if desk is None:
        return b"balsadbg trace 2\n"
    writer = ScriptWriter(random, desk)
    writer.add_some(random.choice([0, 5, 30, 100]), 0)
    return "".join(line + "\n" for line in trace_of(desk.machine)).encode()


def twisted_trace(random: Random, trace: bytes) -> bytes:
    """A trace with another header, with lines exchanged, left out, doubled or broken, or cut."""
    lines = trace.split(b"\n")
    at, other = random.randrange(len(lines)), random.randrange(len(lines))
    match random.randrange(8):
        case 0:
            lines[0] = random.choice(HEADERS)
        case 1:
            lines[at], lines[other] = lines[other], lines[at]
        case 2:
            del lines[at]
        case 3:
            lines.insert(at, lines[other])
        case 4:
            lines.insert(at, random.choice(BROKEN_STEPS))
        case 5:
            return trace[: random.randrange(len(trace) + 1)]
        case _:
            return twisted_script(random, trace)
    return b"\n".join(lines)
