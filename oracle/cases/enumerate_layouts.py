#!/usr/bin/env python3
"""Holds frozen runs against every legal filling there is: oracle/cases/enumerate_layouts.py CASES ANSWERS

No ledger is made here. Of each case that is answered, or refused with 10, and has few legal layouts, all of them are
listed, with their scan sums bay by bay. Then 10 has to stand exactly where one of these sums is NaN or minus infinity; each
row's energy has to be the least sum of a filling that ends in its choice, and its note the lowest leaving strand of those;
the layout the one that the notes lead back to from the first least row.
"""

import sys
from itertools import product
from math import inf, prod
from pathlib import Path

sys.dont_write_bytecode = True
from casefile import lines, read_float, read_floats, read_line, read_numbers, write_float
from energy_rules import edge, site
from systems_rules import EAST, NORTH, R, SOUTH, WEST, System, legal_sets, read_constraints, scan

# Of more layouts not all are listed.
MOST_LAYOUTS = 3000


def sums(s, order, strands):
    """The scan sums of a filling after each bay, strands in scan order."""
    layout, total, totals = dict(zip(order, strands)), 0.0, []
    for bay in order:
        row, col = divmod(bay, s.cols)
        north = [edge(s, layout[bay - s.cols], layout[bay], SOUTH, NORTH)] if row > 0 else []
        west = [edge(s, layout[bay - 1], layout[bay], EAST, WEST)] if col > 0 else []
        energy = site(s, bay, layout[bay])
        for bond in north + west if s.cols <= s.rows else west + north:
            energy = energy + bond
        total = total + energy
        totals.append(total)
    return totals


def rows_of(s, strands, fillings):
    """Each row by its block and choice, in the ledger's order: its least energy, the lowest leaving strand that has it."""
    short = min(s.rows, s.cols)
    rows = {}
    for end in range(1, len(strands) + 1):
        for choice in product(*strands[max(0, end - short) : end]):
            rows[end, choice] = (inf, 99)
    for filling, totals in fillings:
        for end, total in enumerate(totals, 1):
            start = max(0, end - short)
            key = end, filling[start:end]
            rows[key] = min(rows[key], (total, filling[start - 1] if start > 0 else 0))
    return rows


def traced(s, order, rows):
    """The layout from the first least row of the last block, row by row."""
    last = [(row[0], place, key) for place, (key, row) in enumerate(rows.items()) if key[0] == s.bays]
    end, choice = min(last)[2]
    layout = {}
    while end > 0:
        layout[order[end - 1]] = choice[-1]
        leaver = [rows[end, choice][1]] if end > min(s.rows, s.cols) else []
        end, choice = end - 1, (*leaver, *choice[:-1])
    return [layout[bay] for bay in range(s.bays)]


def fault_of(fields, answer):
    """What is wrong with an answer, `None` if nothing; or that the case is passed over."""
    s = System(fields)
    order, sets = scan(s), legal_sets(s, *read_constraints(fields))
    strands = [sorted(sets[bay]) for bay in order]
    if prod(map(len, strands)) > MOST_LAYOUTS:
        return "passed over"
    fillings = [(filling, sums(s, order, filling)) for filling in product(*strands)]
    bad = any(not totals[-1] > -inf for _, totals in fillings)
    if bad or answer.startswith("refused"):
        return None if bad and answer == "refused 10 cleared" else "10 is wrong"
    rows = rows_of(s, strands, fillings)
    given = read_line(answer.replace("least ", "least energy=").encode())[1]
    least = min(totals[-1] for _, totals in fillings)
    if write_float(read_float(given, "energy")) != write_float(least * (R * s.kelvin)):
        return f"the least energy is {least * (R * s.kelvin)}"
    if read_numbers(given, "layout") != traced(s, order, rows):
        return "the layout is another"
    if read_numbers(given, "need") != [len(rows)]:
        return f"the need is {len(rows)}"
    if b"energies" in given:
        if list(map(write_float, read_floats(given, "energies"))) != [write_float(energy) for energy, _ in rows.values()]:
            return "an energy of the ledger is wrong"
        if read_numbers(given, "leaving") != [leaver for _, leaver in rows.values()]:
            return "a leaving strand is wrong"
    return None


def main(cases, answers):
    counts = {}
    given = Path(answers).read_text("ascii").splitlines()
    for case, answer in zip(lines(Path(cases).read_bytes()), given, strict=True):
        if answer.startswith(("least ", "refused 10 ")):
            fault = fault_of(read_line(case)[1], answer)
            counts[fault or "held"] = counts.get(fault or "held", 0) + 1
            if fault not in (None, "passed over"):
                print(f"{fault}: {case.decode()}\n  {answer}")
    print(*(f"{count} {what}" for what, count in sorted(counts.items())), sep=", ")
    sys.exit(0 if set(counts) <= {"held", "passed over"} else 1)


if __name__ == "__main__":
    main(*sys.argv[1:])
