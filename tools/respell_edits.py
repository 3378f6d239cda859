#!/usr/bin/env python3
"""Brings the edits in must-fail/ to the spelling of today's files: the same wrong text in today's words.

usage: python3 tools/respell_edits.py LANDED        at the top, after respell.py; LANDED is the commit whose files the edits fit

An edit whose old text does not stand once in today's file is named, and mended by hand.
"""
import collections
import difflib
import os
import re
import subprocess
import sys

ROOT = os.path.dirname(os.path.dirname(os.path.abspath(__file__)))
WORD = r'[^\s(){}.;,@"«»]+'
LANDED = sys.argv[1]


def landed(path):
    return subprocess.run(["git", "show", f"{LANDED}:{path}"], cwd=ROOT, capture_output=True, text=True).stdout


def words(text):
    return re.findall(WORD + "|[(){}.;,@]", text)


def squeezed(line):
    return re.sub(r"[^a-z0-9]", "", line.lower())


def paired(old, new):
    """Lines of the old text with the lines that stand for them."""
    a, b = old.split("\n"), new.split("\n")
    pairs = []
    for tag, i, j, k, l in difflib.SequenceMatcher(None, [squeezed(x) for x in a], [squeezed(x) for x in b], autojunk=False).get_opcodes():
        if tag == "equal" or tag == "replace" and j - i == l - k:
            pairs += zip(a[i:j], b[k:l])
    return pairs


counts = collections.defaultdict(collections.Counter)


def learn(pairs):
    for x, y in pairs:
        p, q = [w for w in words(x) if w not in "(){}.;,@"], [w for w in words(y) if w not in "(){}.;,@"]
        if len(p) == len(q):
            for u, v in zip(p, q):
                counts[u][v] += 1
        else:
            for tag, i, j, k, l in difflib.SequenceMatcher(None, p, q, autojunk=False).get_opcodes():
                if j - i == l - k:
                    for u, v in zip(p[i:j], q[k:l]):
                        counts[u][v] += 1


def tight(text):
    text = re.sub(r"\(([^\s(){}.;,]+) ((?:\.[^\s(){}.;,]+ ?)+)\)", lambda m: m[1] + m[2].replace(" ", ""), text)
    return re.sub(r"((?:^|[=(,;→λ.≡×] ?|(?<=[+*≤<-] )|in )\s*)([^\s(){}.;,≡=λ→×]+) ((?:\.[^\s(){}.;,]+(?: (?=\.))?)+)", lambda m: m[1] + m[2] + m[3].replace(" ", ""), text)


def turned(text, own, is_code):
    if is_code:
        return text
    text = re.sub(r"Rattle·(\w+)(?:·(?:specs|proofs))?\.(specs|proofs)(?:\.\2)?\.", r"Rattle.\1.\2.", text).replace("′", "'")
    text = re.sub(r"(?<=[{ ])_([^\s\w{}]+)_(?=[,}])", r"◌\1◌", text)
    text = re.sub(WORD, lambda m: own.get(m[0], counts[m[0]].most_common(1)[0][0] if counts[m[0]] else m[0]), text)
    return text


def main():
    edits = []
    for folder, dirs, names in os.walk(os.path.join(ROOT, "crates")):
        dirs[:] = sorted(d for d in dirs if d != "out")
        if os.path.basename(folder) == "must-fail":
            edits += [os.path.join(folder, n) for n in sorted(names) if n.endswith(".edit")]
    files = {}
    for path in edits:
        crate = os.path.relpath(os.path.dirname(os.path.dirname(path)), ROOT)
        with open(path, encoding="utf-8") as f:
            for m in re.finditer(r"(?m)^file: (\S+)", f.read()):
                name = f"{crate}/{m[1]}"
                if name not in files:
                    old = landed(name)
                    with open(os.path.join(ROOT, name), encoding="utf-8") as g:
                        new = g.read()
                    files[name] = (old, new, paired(old, new))
                    learn(files[name][2])
    bad = 0
    for path in edits:
        crate = os.path.relpath(os.path.dirname(os.path.dirname(path)), ROOT)
        with open(path, encoding="utf-8") as f:
            lines = f.read().split("\n")
        out, name, before, fits = [], None, None, None
        for line in lines:
            m = re.match(r"(file|old|new): (.*)$", line)
            if m and m[1] == "file":
                name = f"{crate}/{m[2].strip()}"
            elif m and m[1] == "old":
                old, new, pairs = files[name]
                before, text = m[2], m[2]
                if new.count(text) != 1:
                    whole = [y for x, y in pairs if text in x]
                    fits = turned(text, {}, False)
                    for choice in (fits, tight(fits)) + tuple(y for x, y in pairs if x == text):
                        if new.count(choice) == 1:
                            text = choice
                            break
                    else:
                        bad += 1
                        print(f"left: {os.path.relpath(path, ROOT)}: {text}\n      today: {whole}")
                line = "old: " + text
                fits = text
            elif m and m[1] == "new" and fits != before:
                text = turned(m[2], {}, False)
                line = "new: " + (tight(text) if name.endswith(".antt") else text)
            out.append(line)
        with open(path, "w", encoding="utf-8") as f:
            f.write("\n".join(out))
    print(f"{len(edits)} edits, {bad} left")


main()
