"""What scripts/keep_trial and scripts/keep_quick share: the programs that are kept in out/, what they are made of, and what
they are tried on. scripts/kept.sh says what stands beside each."""

import os
import shutil
import signal
import subprocess
from collections.abc import Iterator
from contextlib import contextmanager, suppress
from pathlib import Path

TOP = Path(__file__).resolve().parent.parent
TRIAL = TOP / "out" / "balsadbg-trial"
QUICK = TOP / "out" / "balsadbg-quick"
# What a program is tried on, and what it has to answer.
SOURCE = b"procedure p is begin continue end\n"
ANSWER = b"accepted\n"
# How long a program may take for that.
RUN_SECONDS = 300
# What lets a script stop, and take with it what it has begun.
STOPS = (signal.SIGHUP, signal.SIGINT, signal.SIGTERM)


class Stopped(Exception):
    """This script is told to stop, by the signal with this number."""


def stop(number: int, _) -> None:
    """Once is enough: what a script takes away when it is stopped, a further signal does not interrupt."""
    for it in STOPS:
        signal.signal(it, signal.SIG_IGN)
    raise Stopped(number)


def heed_stops() -> None:
    """Lets each signal that is not ignored stop this script."""
    for number in STOPS:
        if signal.getsignal(number) is not signal.SIG_IGN:
            signal.signal(number, stop)


def end_by(stopped: Stopped) -> None:
    """Ends this script as the signal would have done at once."""
    number = stopped.args[0]
    signal.signal(number, signal.SIG_DFL)
    os.kill(os.getpid(), number)


def end(started: subprocess.Popen) -> None:
    """Ends what was started, if it has not ended. It takes away what it has made."""
    if started.poll() is None:
        started.terminate()
        started.wait()


@contextmanager
def begun(words: list, **how) -> Iterator[subprocess.Popen]:
    """A process that ends with this block. A signal that stops this script while it starts the process waits until the process
    is known: else nobody would end it."""
    before = signal.pthread_sigmask(signal.SIG_BLOCK, STOPS)
    started = None
    try:
        as_before = lambda: signal.pthread_sigmask(signal.SIG_SETMASK, before)  # noqa: E731
        started = subprocess.Popen(words, preexec_fn=as_before, **how)
        as_before()
        yield started
    finally:
        signal.pthread_sigmask(signal.SIG_SETMASK, before)
        if started:
            end(started)


def beside(program: Path, ending: str) -> Path:
    """The file with this ending that stands beside a kept program."""
    return program.with_name(program.name + ending)


def write(file: Path, text: str) -> None:
    """Writes the file whole, or not at all."""
    new = file.with_name(file.name + ".new")
    new.write_text(text)
    new.replace(file)


def toolchain() -> Path | None:
    """The folder of the toolchain on the PATH."""
    rt = shutil.which("rt")
    return Path(rt).resolve().parent.parent if rt else None


def lines_of(texts: str) -> str:
    """The lines that stand beside what is made of the texts by the toolchain on the PATH."""
    folder, known_by = toolchain(), ""
    with suppress(OSError):
        known_by = (folder / "KIT-ID").read_text().strip() if folder else ""
    return f"{texts}\n{known_by}\n"


def texts_now() -> str:
    """The sum of the texts, as scripts/kept.sh has it."""
    words = ["bash", "-euc", ". scripts/kept.sh; texts"]
    return subprocess.run(words, cwd=TOP, capture_output=True, text=True, check=True).stdout.strip()


def is_of(file: Path, of: str) -> bool:
    """Whether the file has the lines of these texts and this toolchain."""
    try:
        return file.read_text() == of
    except OSError:
        return False


def is_kept(program: Path, of: str) -> bool:
    return program.exists() and is_of(beside(program, ".texts"), of)


def keep(new: Path, program: Path, of: str, stale: tuple[str, ...]) -> None:
    """Keeps the new program, which was made of what `of` names, and takes away what was said of the one before. At no time
    does one stand beside the texts of another."""
    for ending in (".texts", *stale):
        beside(program, ending).unlink(missing_ok=True)
    new.replace(program)
    write(beside(program, ".texts"), of)
