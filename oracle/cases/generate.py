"""The command line that the generators of case files share."""

import argparse
import sys
from itertools import count, islice


def generate(name, sections, any_case, make_draw, belongs=lambda line: True):
    """Writes the cases of each section under its description, or as many cases at random as are asked for. Where two files
    share sections each writes the cases that belong to it; all are drawn, so that a case is the same whatever is left out."""
    options = argparse.ArgumentParser(usage=f"{name}.py [--large N --seed S]")
    options.add_argument("--large", type=int)
    options.add_argument("--seed", type=int, default=1)
    chosen = options.parse_args()
    draw = make_draw(chosen.seed)
    if chosen.large is not None:
        for line in islice(filter(belongs, (any_case(draw) for _ in count())), chosen.large):
            print(line)
        return
    print(f"# Written by oracle/cases/{name}.py: add a case there. oracle/README.md says where the answers come from.")
    total = 0
    for section in sections:
        cases = list(filter(belongs, section(draw)))
        if not cases:
            continue
        print(f"# {' '.join(section.__doc__.split())}", *cases, sep="\n")
        print(f"{len(cases):8} {section.__name__}", file=sys.stderr)
        total += len(cases)
    print(f"{total:8} cases", file=sys.stderr)
