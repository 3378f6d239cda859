#!/usr/bin/env python3
"""Writes the answers to the cases on constraint sheets: oracle/sheets.py CASES ANSWERS

The Rust has no sheets, so each line is that of the rules (cases/sheets_rules.py). How many answers of each kind there are
goes to standard error.
"""

import sys
from collections import Counter
from pathlib import Path

sys.dont_write_bytecode = True
sys.path.insert(0, str(Path(__file__).parent / "cases"))
import casefile  # noqa: E402
import sheets_rules  # noqa: E402


def main(cases, answers):
    out = [sheets_rules.answer(line) for line in casefile.lines(Path(cases).read_bytes())]
    counts = Counter(" ".join(line.split()[:2]) if line.startswith("refused") else line.split()[0] for line in out)
    for what, count in sorted(counts.items()):
        print(f"{count:8} {what}", file=sys.stderr)
    print(f"{len(out):8} cases", file=sys.stderr)
    Path(answers).write_text("".join(line + "\n" for line in out), "ascii")


if __name__ == "__main__":
    if len(sys.argv) != 3:
        sys.exit("usage: oracle/sheets.py CASES ANSWERS")
    main(*sys.argv[1:])
