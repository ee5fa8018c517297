#!/usr/bin/env python3
"""Looks whether the lines of the code (crates/*/src) and the comments of rows (tests/rows) are within 110 columns, and
the lines of the definitions (crates/*/specs) and of Python within 120. Five kinds of lines may be longer, since they
can't be broken: one that is a text or ends in one, one inside a text of several lines, one with a link, a comment of
rows that is one word, and a `#[tactic(..)]`, which `rt fmt` lays out on one line. Takes a second.

usage: tests/columns.py     looks; the last line is 'N passed, M failed', of files
"""
import pathlib
import re
import sys

TOP = pathlib.Path(__file__).resolve().parent.parent
GREATEST = {
    "crates/*/src/**/*.rt": 110, "crates/*/specs/**/*.antt": 120, "tests/**/*.py": 120, "bench/*.py": 120,
    "crates/*/*.py": 120, "deploy/**/*.py": 120, "tools/**/*.py": 120, "clients/**/*.py": 120, "tests/rows/*.rows": 110,
}
UNBROKEN = re.compile(r"""\s*(?:[\w. =]*b?"(?:[^"\\]|\\.)*"[\s);,}?]*|.*https?://.*|\#!?\[tactic\(.*\)\])""")


def without_texts(text):
    """A file of Python, of whose texts of several lines, but for docstrings, only the ends of lines are left."""
    for quotes in (3 * '"', 3 * "'"):
        parts = text.split(quotes)
        for place in range(1, len(parts), 2):
            # a docstring has nothing before it on its line
            if parts[place - 1].rpartition("\n")[2].strip():
                parts[place] = "\n" * parts[place].count("\n")
        text = quotes.join(parts)
    return text


def too_long(path, greatest):
    """The numbers and lengths of the lines that are longer than they may be."""
    text = path.read_text(encoding="utf-8")
    lines = (without_texts(text) if path.suffix == ".py" else text).split("\n")
    if path.suffix == ".rows":
        lines = [line if line.startswith("#") and " " in line[2:] else "" for line in lines]
    return [(n, len(line)) for n, line in enumerate(lines, 1) if len(line) > greatest and not UNBROKEN.fullmatch(line)]


def main():
    count = failed = 0
    for pattern, greatest in GREATEST.items():
        for path in sorted(TOP.glob(pattern)):
            name = path.relative_to(TOP)
            count += 1
            found = too_long(path, greatest)
            failed += bool(found)
            for number, length in found:
                print(f"FAILED {name}:{number} has {length} columns, and may have {greatest}")
    print(f"tests/columns: {count - failed} passed, {failed} failed")
    return 1 if failed else 0


if __name__ == "__main__":
    sys.exit(main())
