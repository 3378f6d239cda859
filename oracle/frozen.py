#!/usr/bin/env python3
"""Prints the frozen answers to one file of cases: oracle/frozen.py SUBJECT

With ANSWERS behind the subject, puts the lines of that file in their place. The program `answers` runs on the files that
crates/answers/args names, and crates/answers/stdout has its answers to all of them, one file after the other.
"""

import sys
from pathlib import Path

sys.dont_write_bytecode = True
sys.path.insert(0, str(Path(__file__).parent / "cases"))
import casefile  # noqa: E402

CRATE = Path(__file__).parent.parent / "crates" / "answers"


def count(name):
    """How many cases a file has."""
    return len(casefile.lines((CRATE / "data" / name).read_bytes()))


def main(subject, answers=None):
    names = (CRATE / "args").read_text().split()
    place = names.index(f"{subject}.cases")
    lines = (CRATE / "stdout").read_bytes().splitlines(keepends=True)
    # Counted from both ends, so that the subject's own file may be new.
    start = sum(map(count, names[:place]))
    end = len(lines) - sum(map(count, names[place + 1 :]))
    if answers is None:
        sys.stdout.buffer.write(b"".join(lines[start:end]))
        return
    lines[start:end] = Path(answers).read_bytes().splitlines(keepends=True)
    (CRATE / "stdout").write_bytes(b"".join(lines))


if __name__ == "__main__":
    if not 2 <= len(sys.argv) <= 3:
        sys.exit("usage: oracle/frozen.py SUBJECT [ANSWERS]")
    main(*sys.argv[1:])
