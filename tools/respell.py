#!/usr/bin/env python3
"""Spells the repository's own definitions and lemmas in snake case, as this Rattle spells its own: once, after port.py.

usage: tools/respell.py            at the top of the repository; writes in place, and says what would fall together

A name that a file of specs/ or proofs/ declares (a definition, a lemma, a field, a constructor, a local name) and that has a
capital within or a dash gets underscores: `lineOf` is `line_of`, `digits-last` is `digits_last`. Types, facts and modules keep
their capitals, and a lemma that would have a definition's name gets `_lem`. What stays: a name that a file imports from a library; in a function's Proof.antt the names of its goals, which
Rattle makes; functions, exported names, strings, inputs and outputs. In the pages and the must-fail edits the names turn too,
those that port.py had turned elsewhere among them. Names in which port.py took a word for a type are mended: see MENDED.
"""
import glob
import os
import re
import sys

WORD = re.compile(r'[^\s(){}\[\].;,@"«»`]+')
DECLARED = re.compile(r"^ *(?:(?:pub|abbrev|unfoldable|record|data) +)*([^\s(){}.;,@\"«»]+)(?: *[({][^\n]*?[)}])* *:(?=\s|$)", re.M)
LET = re.compile(r"\blet +([^\s(){}.;,@\"«»]+) *[:=]")
USE = re.compile(r"\buse\s+([^\s;{]+?)\.?(\{[^}]*\})?(?:\s+as\s+[^\s;]+)?(?=;|\s|$)")
MENDED = {"from_First": "from_first"}


def snake(name):
    return re.sub(r"(?<=[a-z0-9])[A-Z]", lambda m: "_" + m[0].lower(), name).replace("-", "_")


def wanted(name):
    if name.startswith(("+", "-", "◌", "'")) or "◌" in name or not re.match(r"^[a-zℕℤμ∘]", name):
        return False
    if re.search(r"[^\w'’₀-₉-]", name):
        return False
    return snake(name) != name


def read(path):
    with open(path, encoding="utf-8") as f:
        return f.read()


def code(text):
    """The text without comments."""
    return re.sub(r"(?m)--.*$|^\s*//.*$", "", text)


def main():
    own = {c for c in os.listdir("crates") if os.path.isdir(os.path.join("crates", c))}
    antt = sorted(glob.glob("crates/*/specs/**/*.antt", recursive=True) + glob.glob("crates/*/proofs/**/*.antt", recursive=True))
    table, declared = dict(MENDED), set()
    for path in antt:
        text = code(read(path))
        names = set(DECLARED.findall(text)) | set(LET.findall(text))
        declared |= names
        if not path.endswith("/Proof.antt"):
            table |= {n: snake(n) for n in names if wanted(n)}
    # a lemma that would have a definition's name gets an ending
    meant = {n for n in declared if not wanted(n)} | {n for o, n in table.items() if "-" not in o}
    table |= {o: n + "_lem" for o, n in table.items() if "-" in o and n in meant}
    met = {}
    for old, new in table.items():
        met.setdefault(new, set()).add(old)
    for new, olds in sorted(met.items()):
        if len(olds) > 1 or new in declared - olds:
            print(f"together: {' '.join(sorted(olds | ({new} & declared)))}")
    # a name of this text's library imports stays
    for path in antt + sorted(glob.glob("crates/*/src/**/*.rt", recursive=True)) + sorted(glob.glob("crates/*/must-fail/*.edit")):
        text = read(path)
        foreign = set()
        for where, items in USE.findall(text):
            steps = where.split(".")
            if not (steps[0] == "Rattle" and len(steps) > 1 and steps[1] in own):
                foreign |= set(WORD.findall(items)) or {steps[-1]}
        goals = set()
        if path.endswith("/Proof.antt"):
            goals = set(DECLARED.findall(code(text))) | set(LET.findall(code(text)))
        turn = {o: n for o, n in table.items() if o not in foreign and o not in goals}
        before = set(WORD.findall(text))
        taken = sorted(o for o in before & turn.keys() if turn[o] in before)
        if taken and not path.endswith("/Proof.antt"):
            print(f"{path}: has both: {' '.join(taken)}")
        new = WORD.sub(lambda m: turn.get(m[0], m[0]), text)
        if new != text:
            with open(path, "w", encoding="utf-8") as f:
                f.write(new)
    spelled = {snake(n) for n in declared}
    for path in ["README.md", "CHANGELOG.md"] + sorted(glob.glob("docs/**/*.md", recursive=True)):
        text = read(path)

        def one(m):
            return WORD.sub(lambda w: snake(w[0]) if wanted(w[0]) and re.search("[a-z][A-Z]|[a-z]-[a-z]", w[0]) and snake(w[0]) in spelled else w[0], m[0])

        new = re.sub(r"`[^`\n]+`", one, text)
        if new != text:
            with open(path, "w", encoding="utf-8") as f:
                f.write(new)
    return 0


if __name__ == "__main__":
    sys.exit(main())
