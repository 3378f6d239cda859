#!/usr/bin/env python3
"""Prints what became of each grid in the hands of each tool: oracle/sheets/observed.py

Of each file the way, the grid, and `same` where the lists read are those that the tool was given, else the refusal, or
`other lists` and the bays whose lists differ, from 0, row by row.
"""

import sys
from pathlib import Path

sys.dont_write_bytecode = True
HERE = Path(__file__).parent
sys.path[:0] = [str(HERE), str(HERE.parent / "cases")]
from make import GRIDS  # noqa: E402
from sheets_rules import first_fault, numbers_in, records  # noqa: E402


def observed(text, rows):
    found = records(text)
    fault = first_fault(len(rows), len(rows[0]), found)
    if fault:
        return "refused 19 {} {}".format(*fault)
    read = [numbers_in(content) for record in found for content in record]
    given = [tiles for row in rows for tiles in row]
    others = [str(bay) for bay, (one, two) in enumerate(zip(read, given)) if one != two]
    return f"other lists: {' '.join(others)}" if others else "same"


if __name__ == "__main__":
    for file in sorted(HERE.glob("*/*.csv")):
        grid = file.stem.rpartition("_")[0]
        print(file.parent.name, grid, observed(file.read_bytes(), GRIDS[grid]))
