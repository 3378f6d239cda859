#!/usr/bin/env python3
"""Writes the case file for energy keys to standard output, the same bytes each time.

    oracle/cases/keys.py                      the cases of crates/answers/data/keys.cases
    oracle/cases/keys.py --large N --seed S   N cases of all kinds at random, for comparisons by hand

How many cases each kind has goes to standard error. What is drawn stands in names.py, since a system's names and the keys
over them go by the same text; here are those of its cases that ask for keys.
"""

import sys

sys.dont_write_bytecode = True
from draw_names import NameDraw
from generate import generate
from names import SECTIONS, any_case, on_keys

if __name__ == "__main__":
    generate("keys", SECTIONS, any_case, NameDraw, on_keys)
