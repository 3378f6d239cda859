#!/usr/bin/env python3
"""Spells this repository's own definitions, lemmas, fields and local names in snake case, after port.py of the kit.

usage: python3 tools/respell.py        at the top of the repository, once, on what port.py wrote

It goes by text: whole words in proof and definition files, in clauses and `ghost use` lines, and in code spans of comments
and pages. Names of Rust, names that the kit makes for a goal and names that a file imports from the kit stay.
"""
import collections
import os
import re
import subprocess

ROOT = os.path.dirname(os.path.dirname(os.path.abspath(__file__)))
WORD = r'[^\s(){}.;,@"«»]+'
# Two names that would fall together in a file: the lemma of a definition ends in _lem, the field of a fact in _holds.
APART = {
    w: w.replace("-", "_") + "_lem"
    for w in """are-entries bits-of cell-text count-in first-bay first-fault float-text is-alone is-between is-count is-four is-from
    is-second is-third is-three is-two less-one minus-zero number-of number-text plain-number quoted-length row-text sequences-hold
    sheet-lists sign-of star-count state-g string-dna-delta-g string-dna-dg-ds string-dna-hundredths value-at value-of first-of""".split()
}
APART |= {
    w: w.replace("-", "_") + "_holds"
    for w in "answer-row are-numbers is-cell is-list null-name offsets-fit offsets-shaped sheet-fault most-strands".split()
}


def texts(*ends):
    for folder, dirs, names in os.walk(os.path.join(ROOT, "crates")):
        dirs[:] = sorted(d for d in dirs if d != "out")
        for name in sorted(names):
            if name.endswith(ends):
                yield os.path.join(folder, name)


def read(path):
    with open(path, encoding="utf-8") as f:
        return f.read()


COMMENT = re.compile(r'(?<![^\s(){}.;,@"«»])--[^\n]*|\{-.*?-\}', re.S)


def code_alone(text):
    return COMMENT.sub(lambda m: re.sub(r"[^\n]", " ", m[0]), text)


def odd(w):
    return bool(re.search(r"\w-\w", w) or re.search(r"[a-z0-9][A-Z]", w) and w[0].islower() or "·" in w or "-as-" in w)


def snake(w):
    if w in APART:
        return APART[w]
    if "-as-" in w and w[0].isupper():
        return w.replace("-as-", "")
    w = re.sub(r"(?<=[a-z0-9])([A-Z])", lambda m: "_" + m[1].lower(), w.replace("·", "_"))
    return (w[0].lower() + w[1:]).replace("-", "_")


own = set(os.listdir(os.path.join(ROOT, "crates")))
tops, fields, binders = set(), set(), set()
lent, goals = collections.defaultdict(set), collections.defaultdict(set)
for path in texts(".antt"):
    text = code_alone(read(path))
    for m in re.finditer(r"^(?:pub )?use ([^\s{]+?)\.?\{([^}]*)\}", text, re.M):
        way = m[1].split(".")
        for it in m[2].split(","):
            names = it.split(" as ")
            names = [n.strip() for n in names]
            if way[0] == "Rattle" and way[1] in own:
                tops.update(names[1:])
            else:
                lent[path].add(names[-1])
    body = re.sub(r"(?m)^(?:pub )?use .*$", "", text)
    for line in body.split("\n"):
        m = re.match(rf"^(\s*)(?:(?:pattern|unfoldable|abbrev|pub|axiom)\s+)*({WORD})((?:\s*\{{[^}}]*\}})*)\s+:\s", line)
        if re.match(r"^\s*(?:(?:pub|abbrev|unfoldable)\s+)*(record|data|module)\b", line):
            continue
        if m and re.search(r": tie\.", line):
            goals[path].add(m[2])
        elif m:
            (fields if m[1] else tops).add(m[2])
    for m in re.finditer(rf"[({{]((?:{WORD}\s+)+):\s", body):
        binders.update(m[1].split())
    for m in re.finditer(rf"λ\s+((?:{WORD}\s*)+)\.", body):
        binders.update(m[1].split())
    for m in re.finditer(rf"\blet\s+({WORD})\s+[:=]", body):
        binders.add(m[1])
for path in texts(".rt"):
    tops.update(re.findall(r" as (\w+·\w+)[,}]", read(path)))
table = {w: snake(w) for w in tops | fields | binders if odd(w) and not w.endswith("-spec")}


def turned(path, text):
    """The words of a piece of proof text, turned; what follows a dot only where it is a field or stands in no walk."""
    walk = path.endswith("/Proof.antt")

    def one(m):
        w, before = m[0], m.string[m.start() - 1 : m.start()]
        bare = w.rstrip("'")
        if bare in lent[path] or w in lent[path] or w in goals[path]:
            return w
        if before == "." and walk and w not in fields:
            return w
        if w in table:
            return table[w]
        return table[bare] + w[len(bare) :] if bare in table else w

    def use(m):
        way = m[1].split(".")
        if way[0] == "Rattle" and way[1] in own:
            return re.sub(WORD, one, m[0])
        return re.sub(rf"(?<= as )({WORD})", lambda n: table.get(n[1], n[1]), m[0])

    out, at = [], 0
    for m in re.finditer(r"(?m)^(?:pub )?use ([^\s{]+?)\.?\{[^}]*\}", text):
        out += [re.sub(WORD, one, text[at : m.start()]), use(m)]
        at = m.end()
    return "".join(out) + re.sub(WORD, one, text[at:])


def in_spans(path, text):
    return re.sub(r"`[^`\n]+`", lambda m: turned(path, m[0][1:-1]).join("``"), text)


def signs(text):
    return text.replace("typeof.mol.K", "mol·K").replace("R-as-T", "R·T").replace("of R.T", "of R·T").replace("// R.T ", "// R·T ")


CLAUSE = re.compile(r"\b(?:requires|ensures)\b\*?[^{;]*\{|\bghost\s+[^;{]*?\{")


def braces(text, at):
    depth = 0
    for i in range(at, len(text)):
        depth += (text[i] == "{") - (text[i] == "}")
        if depth == 0:
            return i + 1
    return len(text)


def source(path, text):
    out, at = [], 0
    while True:
        m = CLAUSE.search(text, at)
        c = re.compile(r"//[^\n]*").search(text, at)
        if c and (not m or c.start() < m.start()):
            out += [text[at : c.start()], signs(in_spans(path, c[0]))]
            at = c.end()
        elif m:
            end = braces(text, m.end() - 1)
            out += [text[at : m.start()], m[0], turned(path, text[m.end() : end])]
            at = end
        else:
            return "".join(out) + text[at:]


def proof(path, text):
    out, at = [], 0
    for m in COMMENT.finditer(text):
        out += [turned(path, text[at : m.start()]), signs(in_spans(path, m[0]))]
        at = m.end()
    return "".join(out) + turned(path, text[at:])


def main():
    for path in texts(".antt", ".rt"):
        old = read(path)
        new = proof(path, old) if path.endswith(".antt") else source(path, old)
        if new != old:
            with open(path, "w", encoding="utf-8") as f:
                f.write(new)
    pages = [os.path.join(ROOT, "README.md"), os.path.join(ROOT, "CONTRIBUTING.md")]
    for folder, _, names in os.walk(os.path.join(ROOT, "docs")):
        pages += [os.path.join(folder, n) for n in names if n.endswith(".md")]
    for path in pages:
        old = read(path)
        new = in_spans(path, old.replace("·specs`", "·specs`"))
        if new != old:
            with open(path, "w", encoding="utf-8") as f:
                f.write(new)
    for crate in sorted(own):
        subprocess.run(["rt", "fmt"], cwd=os.path.join(ROOT, "crates", crate), stdout=subprocess.DEVNULL, stderr=subprocess.DEVNULL)


if __name__ == "__main__":
    main()
