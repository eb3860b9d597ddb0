"""Whether a program answers as the examples of the pages of refusals tell.

An example is one of these, by its lines:

    > LINE            a script of `debug` on the source of the page, or on examples/one.balsa, and its answers
    > NAME {JSON}     of a request of an editor (101 and above): the request, and the number and message of its response
    $ balsadbg ..     a command in the folder of the examples, and what it prints
    ^ refused N L     under a line of a trace of examples/adder.balsa, or of a stimulus of examples/one.balsa
    ^ refused N B     under a source, or `refused N` alone
"""

import json
import re
import shlex
import subprocess
import tempfile
from pathlib import Path

EXAMPLES = Path(__file__).resolve().parent.parent.parent / "examples"

# Of these nothing is tried: 1 and 26 need what no test can give, and 65,536 steps are taken in tests/runs.
UNTRIED = {1, 22, 26}
# The source and the lines before the example of 27, which needs 64 breakpoints.
LONG = "procedure p is begin continue" + "\n; continue" * 64 + " end"
MANY_BREAKS = "".join(f"break {line}\n" for line in range(1, 65))
# What an editor has sent before the request of an example.
INITIALIZE = "initialize {}"
LAUNCH = 'launch {"program":"one.balsa"}'
BEGIN = "configurationDone"
BEGINNINGS: list[list[str]] = [[], [INITIALIZE], [INITIALIZE, LAUNCH], [INITIALIZE, LAUNCH, BEGIN]]
MARK = re.compile(r"^ *\^ +(refused \d+(?: \d+)?)(?::.*)?\n?", re.M)


def printed(words: list[str | Path], given: str = "") -> str:
    """What a program prints, standard error behind standard output."""
    run = subprocess.run(words, input=given.encode(), capture_output=True, cwd=EXAMPLES, check=False)
    return run.stdout.decode() + run.stderr.decode()


def typed(told: str) -> tuple[list[str], str]:
    """The lines behind `> `, and all others."""
    lines = told.splitlines(keepends=True)
    return [line[2:] for line in lines if line.startswith("> ")], "".join(line for line in lines if not line.startswith("> "))


def script_is_right(program: Path, page: dict[str, str], room: Path) -> bool:
    """Whether a script is answered so."""
    asked, answers = typed(page["told"] + "\n")
    files = [EXAMPLES / "one.balsa", EXAMPLES / "one.stimulus"]
    before = ""
    source = page["source"]
    if page["number"] == "27":
        before, source = MANY_BREAKS, LONG
    if source:
        files = [room / "p.balsa", Path("/dev/null")]
        files[0].write_text(source)
    return printed([program, "debug", *files], before + "".join(asked)) == before.count("\n") * "ok\n" + answers


def response(program: Path, requests: list[str]) -> str:
    """The refusal with which the last request is answered."""
    sent = ""
    for number, request in enumerate(requests, 1):
        name, _, arguments = request.partition(" ")
        body = json.dumps({"seq": number, "type": "request", "command": name, "arguments": json.loads(arguments or "{}")})
        sent += f"Content-Length: {len(body)}\r\n\r\n{body}"
    for body in re.findall(r"\{.*?\}(?=Content-Length|\s*$)", printed([program, "dap"], sent), re.S):
        message = json.loads(body)
        if message.get("request_seq") == len(requests) and not message["success"]:
            return f"refused {message['body']['error']['id']}: {message['message']}"
    return ""


def request_is_right(program: Path, told: str) -> bool:
    """Whether a request is refused so, behind one of the beginnings."""
    asked, answer = typed(told)
    return any(response(program, [*beginning, asked[0].strip()]) == answer for beginning in BEGINNINGS)


def text_is_right(program: Path, page: dict[str, str], refusal: str, room: Path) -> bool:
    """Whether the text above and below the mark is refused so."""
    text = room / "text"
    if page["source"]:
        text.write_text(page["source"])
        words = ["check", text]
    else:
        text.write_text(MARK.sub("", page["told"] + "\n"))
        words = ["replay", "adder.balsa", "adder.stimulus", text] if int(page["number"]) < 51 else ["debug", "one.balsa", text]
    return printed([program, *words]) == f"balsadbg: {refusal}\n"


def is_right(name: str, page: dict[str, str]) -> bool:
    """Whether the program answers as the example of the page tells."""
    program, told, number = Path(name).resolve(), page["told"], int(page["number"])
    mark = MARK.search(told)
    if number in UNTRIED:
        return True
    if told.startswith("$ "):
        command, _, answer = told.removeprefix("$ balsadbg ").partition("\n")
        return printed(["sh", "-c", f"{shlex.quote(str(program))} {command}"]) == answer + "\n"
    if number > 100:
        return request_is_right(program, told)
    with tempfile.TemporaryDirectory() as folder:
        if told.startswith("> "):
            return script_is_right(program, page, Path(folder))
        return text_is_right(program, page, mark[1] if mark else told, Path(folder))
