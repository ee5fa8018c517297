#!/usr/bin/env python3
"""Looks whether each wrong body still applies, in crates/X/must-fail (the CI gate's) and in edits/X: each `old:`
text stands exactly once in its file, as the pairs before it have left it, the file is one of the crate's
src/, no two edits of a crate have one name, and the table of edits in docs/GATE.md is right. It proves
nothing: the CI gate and `make edits X` do.

usage: tests/edits.py             looks
       tests/edits.py --write     writes the table anew, with the costs that stand in it (bench/gate.py: with new ones)
"""
import pathlib
import re
import sys

sys.dont_write_bytecode = True

from programs import crates  # noqa: E402

TOP = pathlib.Path(__file__).resolve().parent.parent
PAGE = TOP / "docs" / "GATE.md"
FIRST, LAST = "<!-- tests/edits.py -->\n", "<!-- end of the edits -->"
HEAD = ("| Crate | Its check once more, s | In the CI gate, with the seconds of each | Beside it |\n"
        + "|---" * 4 + "|\n")


def edits():
    """Each edit with the name of its crate."""
    for path in sorted([*TOP.glob("crates/*/must-fail/*"), *TOP.glob("edits/*/*")]):
        yield path, path.relative_to(TOP).parts[1]


def pairs(text):
    """The changes of an edit: a file, a text that stands there, and the text in its place."""
    name = old = None
    for line in text.split("\n"):
        word, _, rest = line.partition(":")
        rest = rest.removeprefix(" ")
        if word == "file":
            name = rest.strip()
        elif word == "old":
            old = rest
        elif word == "new":
            yield name, old, rest
            old = None


def changed(texts, crate, name, old, new):
    """What is wrong with one change, if something is; else it is made in the texts."""
    if not name or not old:
        return "a line `new:` without a line `file:` or `old:` before it"
    path = TOP / "crates" / crate / name
    if not name.startswith("src/") or ".." in name or not path.is_file():
        return f"{name} is no file of crates/{crate}/src"
    text = texts.setdefault(name, path.read_text(encoding="utf-8"))
    if text.count(old) != 1:
        return f"its text stands {text.count(old)} times in {name}, and not once: {old}"
    texts[name] = text.replace(old, new)
    return None if old != new else f"it changes nothing in {name}"


def fault_of(path, crate):
    """What is wrong with an edit, if something is."""
    if path.suffix != ".edit":
        return "its name doesn't end in .edit"
    texts, found = {}, list(pairs(path.read_text(encoding="utf-8")))
    faults = [fault for change in found if (fault := changed(texts, crate, *change))]
    return faults[0] if faults else None if found else "it changes nothing"


def table(old, took=None):
    """The table of edits, with the costs that a run of tests/prove.py took, else those of a former table; what no
    run has told yet is `?`."""
    costs, checks = (dict(re.findall(it, old, re.M)) for it in (r"`(\w+)` (\d+)", r"^\| `(\w+)` \| (\d+) \|"))
    for crate, seconds in (took or {}).items():
        costs.update({name: f"{it:.0f}" for name, it in seconds.items() if name != "seed"})
        checks.update({crate: f"{seconds['seed']:.0f}"} if "seed" in seconds else {})
    text, seconds, numbers = HEAD, 0, [0, 0]
    for crate in crates():
        names = [path.stem for path in sorted(TOP.glob(f"crates/{crate}/must-fail/*.edit"))]
        beside = len(list(TOP.glob(f"edits/{crate}/*.edit")))
        listed = ", ".join(f"`{name}` {costs.get(name, '?')}" for name in names)
        text += f"| `{crate}` | {checks.get(crate, '?') if len(names) > 1 else ''} | {listed} | {beside or ''} |\n"
        seconds += sum(int(costs.get(name, 0)) for name in names) + int(checks.get(crate, 0) if len(names) > 1 else 0)
        numbers = [numbers[0] + len(names), numbers[1] + beside]
    total = f"{numbers[0]} edits, {seconds / 60:.0f} processor-minutes but for those with `?`"
    return f"{text}| all | | {total} | {numbers[1]} |\n"


def page():
    """The page before the table, the table, and the rest."""
    before, _, rest = PAGE.read_text(encoding="utf-8").partition(FIRST)
    old, _, behind = rest.partition(LAST)
    return before, old, behind


def write(took=None):
    """Writes the table anew."""
    before, old, behind = page()
    PAGE.write_text(before + FIRST + table(old, took) + LAST + behind, encoding="utf-8")


def main():
    if sys.argv[1:] == ["--write"]:
        write()
        return 0
    _, old, _ = page()
    names, failed, count = set(), 0, 1
    if old != table(old):
        failed += 1
        print("FAILED the table in docs/GATE.md isn't that of the edits that stand: tests/edits.py --write")
    for path, crate in edits():
        count += 1
        is_other = (crate, path.name) in names
        fault = "the crate has another edit of this name" if is_other else fault_of(path, crate)
        names.add((crate, path.name))
        if fault:
            failed += 1
            print(f"FAILED {path.relative_to(TOP)}: {fault}")
    print(f"tests/edits.py: {count - failed} passed, {failed} failed")
    return 1 if failed else 0


if __name__ == "__main__":
    sys.exit(main())
