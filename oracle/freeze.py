#!/usr/bin/env python3
"""Writes the answers that the port has to give: oracle/freeze.py CASES RUSTANSWERS ANSWERS

Where the rules answer, the line is the Rust's, unchanged, and behind it what only the port has (a run's ledger); where
it refuses, where the Rust has no such call, and where its layout is one of several that tie, the line is the rules' (the
modules of RULES). Every line of the Rust's is held against what the rules expect of it, also where it is not used. If one
differs, the differences are told, nothing is written, and the exit status is 1.
"""

import re
import sys
from collections import Counter
from pathlib import Path

sys.dont_write_bytecode = True
sys.path.insert(0, str(Path(__file__).parent / "cases"))
import casefile  # noqa: E402
import energy_rules  # noqa: E402
import keys_rules  # noqa: E402
import layouts_rules  # noqa: E402
import names_rules  # noqa: E402
import rules  # noqa: E402
import systems_rules  # noqa: E402
from verdicts import verdict_of  # noqa: E402

# The rules of each call, and the form of an answer where they do not tell all of it.
RULES = [rules, names_rules, keys_rules, systems_rules, energy_rules, layouts_rules]
CALLS = {call: verdict for module in RULES for call, verdict in module.CALLS.items()}
FINITE = "(?![7f]ff)[0-9a-f]{16}"
FORM = {
    "string_dna_dg_ds": re.compile(f"base_energy {FINITE} {FINITE}"),
    "string_dna_delta_g": re.compile(f"energy {FINITE}"),
    "sequence_pair_str_dg_ds": re.compile(f"base_energy {FINITE} {FINITE}"),
}


def fault_of(call, verdict, rust):
    """What is wrong with the Rust's line beside the verdict, or None."""
    got = rust if rust in ("panic", "none", "unreadable") else "answer"
    if got != verdict.rust:
        return f"the rules expect {verdict.rust} of the Rust"
    if verdict.answer is not None and rust != verdict.answer:
        return f"the rules expect {verdict.answer} of the Rust"
    if verdict.fits is not None and not verdict.fits(rust):
        return "none of the answers that the rules take of the Rust"
    if verdict.line is None and verdict.answer is None and not FORM[call].fullmatch(rust):
        return "an answer that is not of the call's form, or not finite"
    return None


def main(cases, answers, frozen):
    lines = casefile.lines(Path(cases).read_bytes())
    given = Path(answers).read_text("ascii").splitlines()
    if len(lines) != len(given):
        sys.exit(f"freeze: {len(lines)} cases, {len(given)} answers")
    out, faults, taken, counts = [], 0, 0, Counter()
    for number, (line, rust) in enumerate(zip(lines, given), 1):
        call, verdict = verdict_of(line, CALLS)
        fault = fault_of(call, verdict, rust)
        if fault:
            faults += 1
            if faults <= 20:
                told = f"01 gives {verdict.line or 'an answer'}, the Rust {rust}: {fault}"
                print(f"freeze: case {number}: {line.decode('latin-1')}\n  {told}", file=sys.stderr)
        out.append(verdict.line or rust + verdict.rest)
        taken += verdict.line is None
        words = out[-1].split()
        counts[" ".join(words[:2]) if words[0] == "refused" else words[0]] += 1
        if verdict.difference:
            counts[f"recorded difference: {verdict.difference}, where the Rust answers"] += 1
    for what, count in sorted(counts.items()):
        print(f"{count:8} {what}", file=sys.stderr)
    print(f"{len(out):8} cases, {taken} with the Rust's line, {faults} inconsistent", file=sys.stderr)
    if faults:
        sys.exit(1)
    Path(frozen).write_text("".join(line + "\n" for line in out), "ascii")


if __name__ == "__main__":
    if len(sys.argv) != 4:
        sys.exit("usage: oracle/freeze.py CASES RUSTANSWERS ANSWERS")
    main(*sys.argv[1:])
