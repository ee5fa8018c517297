"""What differs between two folders that are domains: documents, root and rows."""
from __future__ import annotations

from collections.abc import Iterator

from . import text
from .domain import Domain, root_shown
from .live import Key, key_shown, row_lines


def documents_told(old: Domain, new: Domain) -> Iterator[tuple[str, Key]]:
    """Each document that one of them has alone, or with another text, and what becomes of it."""
    before, after = old.texts(), new.texts()
    for key in sorted({*before, *after}):
        if key not in after:
            yield "gone", key
        elif key not in before:
            yield "new", key
        elif before[key].source.held != after[key].source.held:
            yield "changed", key


def rows_told(before: list[str], after: list[str]) -> str:
    """How rows change."""
    old, new = set(before), set(after)
    more, fewer = sum(line not in old for line in after), sum(line not in new for line in before)
    return (f"{len(before)} before, {len(after)} after; {more} new, {fewer} gone"
            + ("" if more or fewer else ", in another order"))


def differences(old: Domain, new: Domain) -> Iterator[tuple[str, str]]:
    """What differs, in words, each behind what it is about."""
    for what, key in documents_told(old, new):
        yield what, key_shown(key)
    if old.root != new.root:
        yield "root", f"{root_shown(new.root)}; before {root_shown(old.root)}"
    rows = row_lines(old.rows), row_lines(new.rows)
    if rows[0] != rows[1]:
        yield "rows", rows_told(*rows)


def print_differences(old: Domain, new: Domain) -> bool:
    """Writes what differs, and gives whether anything does."""
    found = list(differences(old, new))
    for label, told in found:
        print(text.wrapped(told, f"{label:10} ", " " * 11))
    if not found:
        print("Documents, root and rows are the same.")
    return bool(found)
