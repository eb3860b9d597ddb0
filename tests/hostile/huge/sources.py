"""Huge sources, for `check`."""

from __future__ import annotations

from pathlib import Path

from reference.tokens import RESERVED

from .text import Text, each_byte, numbered, of_kind, plain

EXAMPLES = Path(__file__).resolve().parents[3] / "examples"
SYMBOLS = b":= <- -> || | ; : , ( ) [ ] + - = /= < > <= >=".split()
# More than the nodes that a system may have.
MANY = 17_000

BODY = b"procedure p is variable x : 8 bits sync s begin "
ARMS = b"procedure p (sync s) is begin "
CASE = b"procedure p is begin case 0 of 0 then halt"


def words() -> list[Text]:
    signs = [plain(f"{sign.decode()}", sign + b" ") for sign in SYMBOLS]
    return signs + [plain(word, word.encode() + b" ") for word in sorted(RESERVED)]


def joined_signs() -> list[Text]:
    runs = [b"->", b"<-", b":=", b"||", b"/=", b"<=", b"[]", b"()", b"][", b")(", b"-", b"|;", b"(-", b"a(", b"[a", b"a,", b"a;"]
    return [plain(run.decode(), run) for run in runs]


def good_texts() -> list[Text]:
    files = sorted(EXAMPLES.glob("*.balsa"))
    return [plain(f"{path.name} repeated", path.read_bytes()) for path in files] + [
        plain("a short procedure", b"procedure p is begin halt end\n"),
        numbered("procedures with names of their own", b"procedure p%07d is begin halt end\n"),
        numbered("procedures that call one", b"procedure q%07d is begin p () end ", b"procedure p is begin halt end "),
        numbered("procedures that call one another", b"procedure a%07d is begin p () end procedure b%07d is begin a%07d () ; a%07d () end ",
                 b"procedure p is begin halt end "),
        plain("a type", b"type t is 8 bits "),
        numbered("types with names of their own", b"type t%07d is 8 bits ", tail=b"procedure p is begin halt end"),
    ]


def lists() -> list[Text]:
    return [
        plain("assignments one after another", b"x := 1 ; ", BODY, b"halt end", MANY),
        plain("assignments side by side", b"x := 1 || ", BODY, b"halt end", MANY),
        plain("halts one after another", b"halt;", BODY, b"halt end", MANY),
        plain("halts side by side", b"halt||", BODY, b"halt end", MANY),
        plain("a list that does not end", b"halt;", BODY, b"", MANY),
        plain("calls", b"p();", b"procedure p is begin halt end procedure q is begin ", b"halt end", MANY),
        plain("variables of one name", b"x,", b"procedure p is variable ", b"x : 8 bits begin halt end"),
        numbered("variables", b"x%07d,", b"procedure p is variable ", b"x : 8 bits begin halt end", MANY),
        numbered("declarations", b"sync s%07d ", b"procedure p is ", b"begin halt end", MANY),
        numbered("ports", b"sync s%07d ; ", b"procedure p (", b"sync s) is begin halt end", MANY),
        numbered("elements", b"e%07d,", b"type t is enumeration ", b"e end procedure p is begin halt end"),
        plain("elements of one name", b"e,", b"type t is enumeration ", b"e end procedure p is begin halt end"),
        plain("arguments", b"s,", b"procedure p (sync s) is begin halt end procedure q (sync s) is begin p (", b"s) end"),
        plain("labels", b"0,", b"procedure p is begin case 0 of ", b"0 then halt end end"),
        plain("arms of a case", b"|0 then halt ", CASE, b"end end"),
        plain("arms of an if", b"|0 then halt ", b"procedure p is begin if 0 then halt ", b"end end", MANY),
        plain("arms of a select", b"|s then halt ", ARMS + b"select s then halt ", b"end end"),
        plain("operands", b"+1", b"procedure p is variable x : 8 bits begin x := 1", b" end"),
        plain("operands in parentheses", b"+(1)", b"procedure p is variable x : 8 bits begin x := (1)", b" end"),
    ]


def deep() -> list[Text]:
    opened = [b"[", b"loop ", b"loop while 1 then ", b"if 1 then ", b"case 1 of 0 then ", b"select s then ", b"arbitrate s then ",
              b"s -> then ", b"[[", b"[halt;", b"[halt||"]
    values = [b"(", b"not ", b"(not ", b"1+(", b"(1 as 8 bits) + (", b"1 + ", b"1 and "]
    return (
        [plain(f"{opening.decode()}in a body", opening, BODY) for opening in opened]
        + [plain(f"{opening.decode()}in an expression", opening, BODY + b"x := ") for opening in values]
        + [plain("if ( in a body", b"if (", BODY), plain("loop in one line", b"loop end ", BODY)]
    )


def comments() -> list[Text]:
    good = b" procedure p is begin halt end"
    return [
        plain("(-- that never ends", b"x", b"(--"),
        plain("(-- in one another that never end", b"(--"),
        plain("(--)", b"(--)"),
        plain("(-- and --) and one more", b"(----)", tail=b"(--"),
        plain("whole comments", b"(----)", tail=good),
        plain("a whole comment in another", b"(----)", b"(--", b"--)" + good),
        plain("one comment", b"x", b"(--", b"--)" + good),
        plain("closing marks", b"--)"),
        plain("a line comment", b"x", b"--", b"\n" + good),
        plain("line comments", b"--\n", tail=good),
        plain("line comments with Windows line ends", b"-- x\r\n", tail=good),
        plain("dashes and blanks", b"- ", tail=good),
        plain("a comment behind each word", b"halt (-- x --) ; ", BODY, b"halt end", MANY),
    ]


def numbers(size: int) -> list[Text]:
    long = size // 100
    return [
        plain("a digit and a blank", b"1 "),
        plain("zeros and a one", b"0", b"procedure p is variable x : 8 bits begin x := ", b"1 end"),
        plain("zeros and a one that is too large", b"0", b"type t is ", b"18446744073709551616 bits"),
        plain("the greatest number", b"18446744073709551615 "),
        plain("one too large, behind good ones", b"18446744073709551615 ", tail=b"18446744073709551616"),
        plain("zeros, a hundredth of the text each", b"0" * long + b" ", small=3),
    ]


def names(size: int) -> list[Text]:
    long = b"n" * (size // 100)
    body = b"procedure p is begin "
    return [
        plain("one name", b"n", b"procedure ", b" is begin halt end"),
        plain("one name in use", b"n", b"procedure p is begin ", b" () end"),
        plain("long names", long + b" ", small=3),
        plain("long names with commas", long + b",", b"procedure p is variable ", b"x : 8 bits begin halt end", small=3),
        plain("long names that are called", long + b"();", body, b"halt end", small=3),
        numbered("long names that differ at the end", b"procedure " + long + b"%07d is begin halt end ", small=3),
        plain("a name of each letter", b"a "),
        plain("underscores behind a letter", b"_", b"procedure p", b" is begin halt end"),
    ]


def odd_bytes() -> list[Text]:
    return [
        plain("a byte order mark and a good text", b"procedure p is begin halt end\n", b"\xef\xbb\xbf"),
        plain("a good text and one odd byte", b"procedure p is begin halt end\n", tail=b"@"),
        plain("a good list and one odd byte", b"halt;", BODY, b"@"),
        plain("brackets and one odd byte", b"[", tail=b"@"),
        plain("blanks and one odd byte", b" ", tail=b"\0"),
        plain("UTF-8", "é".encode()),
        plain("UTF-16", "procedure".encode("utf-16-le")),
        plain("all bytes", bytes(range(256))),
        plain("a blank text with a good end", b" \t\r\n", tail=b"procedure p is begin halt end"),
    ]


def sources(size: int) -> list[Text]:
    kinds = {
        "a word or sign": words(), "signs without blanks": joined_signs(), "good text": good_texts(), "lists": lists(),
        "deep": deep(), "comments": comments(), "numbers": numbers(size), "names": names(size), "odd bytes": odd_bytes(),
    }
    texts = each_byte("source: one byte", "source")
    return texts + [text for kind, some in kinds.items() for text in of_kind(f"source: {kind}", "source", some)]
