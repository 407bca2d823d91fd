#!/usr/bin/env python3
"""The wrong programs that the checker must refuse, as docs/READING.md lists them.

    tests/edits.py              prints the list
    tests/edits.py --check      fails if docs/READING.md has another
    tests/edits.py --write      puts it into docs/READING.md

Each crates/NAME/must-fail/LABEL.edit says its wrong program in its first line, behind '# '."""
import sys
from pathlib import Path

ROOT = Path(__file__).resolve().parents[1]
READING = ROOT / "docs/READING.md"
BEGIN, END = "<!-- tests/edits.py writes this list -->\n", "<!-- end of the list -->\n"


def crates():
    """The crates in the order of crates.txt."""
    for line in (ROOT / "crates.txt").read_text().splitlines():
        name, colon, _ = line.partition(":")
        if colon and not line.startswith("#"):
            yield name.split()[0]


def sentence(edit):
    first = edit.read_text().split("\n", 1)[0]
    if not first.startswith("# ") or first != first.rstrip():
        sys.exit(f"{edit}: the first line does not say the wrong program")
    return first[2:]


def listed():
    lines = []
    for name in crates():
        edits = sorted((ROOT / "crates" / name / "must-fail").glob("*.edit"))
        if edits:
            lines += ["", f"`{name}`:", ""]
            lines += [f"- `{edit.stem}`: {sentence(edit)}" for edit in edits]
    return "\n".join(lines[1:]) + "\n"


def main():
    text = READING.read_text()
    if BEGIN not in text or END not in text:
        sys.exit("docs/READING.md: the list's place is not marked")
    front, rest = text.split(BEGIN, 1)
    now, back = rest.split(END, 1)
    due = "\n" + listed() + "\n"
    if "--write" in sys.argv:
        READING.write_text(front + BEGIN + due + END + back)
    elif "--check" in sys.argv:
        if now != due:
            sys.exit("docs/READING.md: the list of wrong programs is not that of the edits; tests/edits.py --write")
        print(f"{due.count(chr(10) + '- ')} wrong programs listed")
    else:
        print(listed(), end="")


main()
