"""The numbers that pages (*.md) have by hand, and that files tell, too. A count of lines or rows is "about": it may be
off by a twentieth, or by ten.

- docs/audit/AUDIT.md: the lines of definitions in each row of the order of reading. A module counts whole, with
  comments and imports, in the first row that names it.
- README.md: the lines of the reference model, which is that order's first row; those of rows 8 to 13, on which it
  stands; and the stored rows.
- tests/README.md: the mutations in the CI gate. This number is exact.
"""
import functools
import pathlib
import re

TOP = pathlib.Path(__file__).resolve().parent.parent
ORDER = "docs/audit/AUDIT.md"


def text_of(name):
    return (TOP / name).read_text(encoding="utf-8")


@functools.cache
def lines_in_order():
    """How many lines of definitions the rows of the order of reading have, by their numbers. A module that isn't
    there counts nothing: links are looked at elsewhere."""
    found, seen = {}, set()
    for number, files in re.findall(r"^\| (\d+) \| (.*?crates/.*?) \| [^|]* \| ", text_of(ORDER), re.M):
        named = set(re.findall(r"\(\.\./\.\./(crates/[^)]+\.antt)\)", files))
        found[int(number)] = sum(text_of(name).count("\n") for name in named - seen if (TOP / name).is_file())
        seen |= named
    return found


def numbers():
    """Each number: its page, what it counts, how it stands there, and how many there are."""
    for row, lines in lines_in_order().items():
        yield ORDER, f"lines of row {row}", rf"^\| {row} \| .*? \| ([\d,]+) \|", lines
    below = sum(lines for row, lines in lines_in_order().items() if 8 <= row <= 13)
    rows = sum(not line.startswith("define\t") for line in text_of("crates/xa_trials/stdin").splitlines())
    yield "README.md", "lines of the reference model", r"is\s+some\s+([\d,]+)\s+lines", lines_in_order().get(1, 0)
    yield "README.md", "lines on which it stands", r"\[([\d,]+) more\]", below
    yield "README.md", "stored rows", r"Some\s+([\d,]+)\s+test\s+vectors", rows
    edits = len(list(TOP.glob("crates/*/must-fail/*.edit")))
    yield "tests/README.md", "mutations in the CI gate", r"\*\*mutations\*\*.*\| (\d+);", edits


def wrong_numbers(page):
    """What is wrong with the numbers of a page."""
    for name, what, pattern, found in numbers():
        if name != page:
            continue
        said = re.findall(pattern, text_of(name), re.M)
        off = 0 if what.startswith("mutations") else max(10, found / 20)
        if len(said) != 1 or abs(int(said[0].replace(",", "")) - found) > off:
            yield f"{' and '.join(said) or 'no number'} for the {what}, which are {found:,}"
