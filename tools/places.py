#!/usr/bin/env python3
"""Counts, in the src/ of every crate, the places that an older form of the language left (docs/DESIGN-PASS.md).

usage: python3 tools/places.py [-v] [POINT]     -v names each place; POINT is one of the letters below alone

It goes by text and knows no meaning: a line of the list is a place to read, not a fault.
"""
import collections
import os
import re
import sys

ROOT = os.path.dirname(os.path.dirname(os.path.abspath(__file__)))


def files():
    for crate in sorted(os.listdir(os.path.join(ROOT, "crates"))):
        src = os.path.join(ROOT, "crates", crate, "src")
        for folder, dirs, names in os.walk(src):
            for name in sorted(names):
                if name.endswith(".rt"):
                    path = os.path.join(folder, name)
                    yield os.path.relpath(path, ROOT), open(path, encoding="utf-8").read()


FILES = list(files())


def lines(pattern, after=None):
    """Each line that the pattern fits; with `after`, only where the line that follows fits it too."""
    for path, text in FILES:
        rows = text.split("\n")
        for i, row in enumerate(rows):
            if re.search(pattern, row) and (after is None or (i + 1 < len(rows) and re.search(after, rows[i + 1]))):
                yield f"{path}:{i + 1}: {row.strip()}"


def functions():
    """Path, line, name, parameters, clauses, body of each function."""
    for path, text in FILES:
        for m in re.finditer(r"^( *)(pub(?:\([a-z]+\))? )?(?:unsafe )?(?:extern \"C\" )?fn (\w+)", text, re.M):
            end = text.find("\n" + m.group(1) + "}", m.end())
            whole = text[m.start() : end if 0 <= end else len(text)]
            open_at, depth = text.index("(", m.end()), 0
            for at in range(open_at, len(text)):
                depth += {"(": 1, ")": -1}.get(text[at], 0)
                if depth == 0:
                    break
            inside = re.sub(r"\([^()]*\)|<[^<>]*>|\[[^\[\]]*\]", "", text[open_at + 1 : at])
            parameters = [p.strip() for p in inside.split(",") if p.strip()]
            body_at = whole.find("\n" + m.group(1) + "{\n")
            body = whole[body_at:] if 0 <= body_at else whole[whole.find("{") :]
            yield path, text.count("\n", 0, m.start()) + 1, m.group(3), parameters, whole[: body_at if 0 <= body_at else 0], body


def enums():
    """1a: enums of the repository's own with one variant that says none, passed or refused."""
    for path, text in FILES:
        for m in re.finditer(r"enum (\w+)[^{]*\{([^}]*)\}", text):
            variants = re.findall(r"^\s*(\w+)[,({ ]", m.group(2), re.M)
            if re.search(r"\b(Refused|Passed|None|Nothing|NoValue|NoLoopValue|Absent|Free|Shown|Bad|Not\w*|No\w*|Large|Over\w*)\b", m.group(2)) and len(variants) <= 3:
                yield f"{path}:{text.count(chr(10), 0, m.start()) + 1}: enum {m.group(1)} {{ {', '.join(variants)} }}"


def sentinels():
    """1d: functions that answer a place, or a length or a count where there is none."""
    for path, text in FILES:
        for m in re.finditer(r"((?:^ *//.*\n)+) *(?:pub(?:\([a-z]+\))? )?fn (\w+)[^{;]*?-> (usize|u32|u8)", text, re.M):
            if re.search(r"where (there is none|none is|all (are|may)|it is not)|or the (length|count|number of|end)|or `count`|0 (past|behind|where)", m.group(1)):
                yield f"{path}:{text.count(chr(10), 0, m.end()) + 1}: fn {m.group(2)}"


def flagged():
    """1e: structs with a flag that says whether another field counts."""
    for path, text in FILES:
        for m in re.finditer(r"struct (\w+)[^{;]*\{([^}]*)\}", text):
            flags = re.findall(r"(\w+): bool", m.group(2))
            if flags and len(re.findall(r"^\s*(?:pub(?:\([a-z]+\))? )?\w+:", m.group(2), re.M)) > len(flags):
                yield f"{path}:{text.count(chr(10), 0, m.start()) + 1}: struct {m.group(1)} ({', '.join(flags)})"


def twins():
    """2: functions whose bodies are the same but for names of types, numbers and functions."""
    shapes = collections.defaultdict(list)
    for path, line, name, parameters, clauses, body in functions():
        local = {}
        shape = re.sub(r"//.*", "", body)
        shape = re.sub(r"\b(u8|u16|u32|u64|usize|i32|f64|bool)\b", "T", shape)
        shape = re.sub(r"\b[A-Z][A-Z_0-9]+\b|\b\d[\d_.]*\b|b?'(?:\\.|[^'])*'|b?\"(?:\\.|[^\"])*\"", "K", shape)
        shape = re.sub(r"\b[a-z_]\w*\b", lambda m: m.group() if m.group() in KEYWORDS else local.setdefault(m.group(), f"v{len(local)}"), shape)
        shape = re.sub(r"\s+", " ", shape)
        if len(shape) > 60:
            shapes[shape].append(f"{path}:{line}: fn {name}")
    for shape, found in shapes.items():
        if len(found) > 1:
            yield " = ".join(found)


KEYWORDS = set("as break const continue else enum false fn for if impl in let loop match mod mut pub ref return self struct true use while".split())


def long_lists():
    """5a: functions with seven parameters or more."""
    for path, line, name, parameters, clauses, body in functions():
        if len(parameters) >= 7:
            yield f"{path}:{line}: fn {name} ({len(parameters)})"


def repeated_facts():
    """5b: a fact that stands word for word in the `requires` of three functions or more."""
    facts = collections.defaultdict(list)
    for path, line, name, parameters, clauses, body in functions():
        for m in re.finditer(r"requires (?:\w+ )?\{(.*?)\}\s*(?=requires|ensures|$)", clauses, re.S):
            facts[re.sub(r"\s+", " ", m.group(1)).strip()].append(f"{path}:{line}: fn {name}")
    for fact, found in facts.items():
        if len(found) >= 3:
            yield f"{fact}  ({len(found)}: {', '.join(f.split(': fn ')[1] for f in found[:4])}..)"


def buffers():
    """6: functions that take a lent buffer and the place up to which it is written."""
    for path, text in FILES:
        for m in re.finditer(r"fn (\w+)(?:<[^>]*>)?\(([^{]*?)\)\s*(?:->|\n|\{)", text):
            if re.search(r"\w+: &mut \[\w+\],\s*(at|from|place|end|used|count): usize", m.group(2)):
                yield f"{path}:{text.count(chr(10), 0, m.start()) + 1}: fn {m.group(1)}"


POINTS = {
    "1a": ("own enums of the shape of Option or Result", enums),
    "1b": ("a refusal handed on by a match", lambda: lines(r"Refused\(\w+\) => ")),
    "1c": ("a refusal made of its number", lambda: lines(r"refused(_with)?\(\d|refused(_with)?\(number|number: (\d+|number),|check\(\d+, ")),
    "1d": ("a place, or the length where there is none", sentinels),
    "1e": ("a flag with a value beside it", flagged),
    "2": ("bodies that differ only in types, numbers and names", twins),
    "3": ("loops that count by hand", lambda: lines(r"^ *(while|loop)\b")),
    "4": ("equality, copies and conversions by hand", lambda: lines(r"fn (same|equal|is_same|copy|from|to_number|index)\w*[(<]")),
    "5a": ("seven parameters or more", long_lists),
    "5b": ("a fact in the contracts of three or more", repeated_facts),
    "6": ("a buffer with how far it is written beside it", buffers),
    "7": ("a flag that says which step runs", lambda: lines(r"^ *(log|north_south|plain|starred|kind|down|first|exact|quoted|last): (bool|u8),|\b(log|north_south|exact|quoted): bool[,)]")),
}


def main():
    words = [w for w in sys.argv[1:] if w != "-v"]
    for point, (what, places) in POINTS.items():
        if words and point not in words:
            continue
        found = list(places())
        print(f"{point:>3} {len(found):5}  {what}")
        if "-v" in sys.argv:
            for place in found:
                print("      " + place)


main()
