#!/usr/bin/env python3
"""Looks whether the comment above each definition (crates/*/specs) can be read alone: one comes to a definition by
search, so that none may begin with a word such as `and`, `so` or `it`, which rests on the comment above. Takes a
second.

usage: tests/comments.py    looks; the last line is 'N passed, M failed', of files
"""
import pathlib
import re
import sys

TOP = pathlib.Path(__file__).resolve().parent.parent
LEANING = re.compile(r"-- (?:and|but|by|it|its|nor|of|or|so|the same|their|them|they|those)\b", re.I)


def leaning(path):
    """The numbers and lines at which a comment begins that can't be read alone; the one at a file's head may be
    anything."""
    lines = path.read_text(encoding="utf-8").split("\n")
    return [(number, line) for number, (before, line) in enumerate(zip(lines, lines[1:]), 2)
            if LEANING.match(line) and not before.startswith("--")]


def main():
    count = failed = 0
    for path in sorted(TOP.glob("crates/*/specs/**/*.antt")):
        name = path.relative_to(TOP)
        count += 1
        found = leaning(path)
        failed += bool(found)
        for number, line in found:
            print(f"FAILED {name}:{number} rests on what stands above it: {line}")
    print(f"tests/comments: {count - failed} passed, {failed} failed")
    return 1 if failed else 0


if __name__ == "__main__":
    sys.exit(main())
