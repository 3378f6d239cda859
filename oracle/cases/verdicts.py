"""What a module of rules says of a case: the line that the rules give, and what the Rust has to answer there."""

from collections.abc import Callable
from dataclasses import dataclass

from casefile import Unreadable, read_line

# What the Rust does where 01 refuses; any other word is the name of a recorded difference, under which it answers.
PANICS = "panics"
CANNOT = "cannot be asked"


@dataclass
class Verdict:
    """The line that 01 gives, or None where the Rust's is to be taken, and what the Rust has to answer:
    `answer`, `panic`, `none` or `unreadable`. `difference` names the recorded one, where there is one.
    `answer` is the whole line of an answer of the Rust's, where the rules can tell it; where they can only tell whether it
    is one of several, `fits` does. `rest` is what the rules add to a line of the Rust's."""

    line: str | None
    rust: str
    difference: str | None = None
    answer: str | None = None
    fits: Callable[[str], bool] | None = None
    rest: str = ""


def verdict_of(line, calls):
    """A case's call, and the verdict on it, by the one of the calls that it names."""
    call = ""
    try:
        call, fields = read_line(line)
        if call not in calls:
            raise Unreadable
        return call, calls[call](fields)
    except Unreadable:
        return call, Verdict("unreadable", "unreadable")


def judged(reasons, texts, answer=None, askable=True):
    """The verdict on a call: its refusals in the rules' order, each with what the Rust does there, the texts that the Rust is
    handed, whose `str` cannot hold bytes that are no UTF-8, the answer if the rules tell it, and whether the Rust can be
    asked apart from all that."""
    line = reasons[0][0] if reasons else None
    does = [rust for _, rust in reasons]
    if CANNOT in does or not askable or not all(map(_is_utf8, texts)):
        return Verdict(line or answer, "none")
    if PANICS in does:
        return Verdict(line, "panic")
    return Verdict(line, "answer", does[0] if does else None, answer)


def _is_utf8(raw):
    try:
        raw.decode("utf-8")
    except UnicodeDecodeError:
        return False
    return True
