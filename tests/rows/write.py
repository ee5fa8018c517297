#!/usr/bin/env python3
"""Writes the rows that stand beside this script as the input of the program xa_trials, and their answers as its
stored output. Rows are stored in short: with the words of the file `words.txt` beside it, which are defined
first, and with repetitions.

usage: tests/rows/write.py                     writes crates/xa_trials/stdin and stdout
       tests/rows/write.py FILE..              answers the rows of these files by the model, and writes nothing
       tests/rows/write.py --stored            looks whether both are stored as they would be written
       tests/rows/write.py --compare FILE      shows the rows whose answers in FILE, an output of
                                               the program, are others

Rows that the model of tests/model/ can answer are compared with its answers first, and those that it answers
otherwise are shown. If there is one, nothing is written.
"""
import pathlib
import re
import sys

HERE = pathlib.Path(__file__).resolve().parent
sys.path.insert(0, str(HERE.parent / "model"))
sys.dont_write_bytecode = True

from answers import answer  # noqa: E402
from asked import BY_OTHERS, by_others  # noqa: E402
from inputs import as_read, as_written  # noqa: E402
from names import rows as names_of_functions  # noqa: E402
from rows import TOP, Source, as_input, decoded, encoded, line  # noqa: E402
from shortening import shortened, written_out  # noqa: E402

CRATE = TOP / "crates" / "xa_trials"
# how many characters of a file a word stands for at the most
MOST_OF_A_FILE = 1_800


def rows_of(path):
    """The rows of a file: where each stands, its fields, and those of its answer."""
    for place, fields, wanted in Source(path).rows:
        yield place, [as_input(field) for field in fields], [encoded(decoded(field)) for field in wanted]


def rows():
    """All rows."""
    for path in sorted(HERE.glob("*.rows")):
        yield from rows_of(path)
    for fields, wanted in names_of_functions():
        yield "names.py", fields, wanted


def words():
    """The words, each with its text, in the order in which they are defined."""
    found = {}
    for text in (HERE / "words.txt").read_text(encoding="ascii").split("\n"):
        if not text or text.startswith("#"):
            continue
        word, held = text.split(" ", 1)
        if held.startswith("file:"):
            parts = re.findall(r"(?:\\.|[^\\]){1,%d}" % MOST_OF_A_FILE,
                               encoded((TOP / held.removeprefix("file:")).read_bytes()))
            found.update({f"{word}{number}": part for number, part in enumerate(parts, 1)})
        else:
            found[word] = written_out(held.replace("  ", "\t").replace("\\x20", " "), found)
    return found


def definitions(all_words):
    """The rows that define the words, each in short by those above it, and what they are answered."""
    found, above = [], {}
    for word, text in all_words.items():
        found.append(f"define\t{word}\t{in_short(text, above)}\n")
        above[word] = text
    return found


def in_short(row, all_words):
    """The row in short; as it is, where that isn't shorter."""
    found = shortened(row, all_words)
    if written_out(found, all_words) != row:
        raise SystemExit(f"a row is another in short: {row[:300]}")
    return found if len(found) < len(row) else row


def spaced(row):
    """The row with spaces as they are. In the calls of a keeper they part words, so there they stay written."""
    return row if row.startswith("keeper") else re.sub(r"\\\\|\\x20", lambda found: found[0].replace("\\x20", " "), row)


def compare(all_rows, path):
    found = [text for text in pathlib.Path(path).read_text(encoding="utf-8").split("\n")[:-1] if text != "defined"]
    if len(found) != len(all_rows):
        print(f"{len(found)} answers to {len(all_rows)} rows")
    others = [(row, answers) for row, answers in zip(all_rows, found) if line(as_written(*row[1:])) != answers + "\n"]
    for (place, fields, wanted), answers in others[:40]:
        print(f"{place}\n    row     {line(fields)[:300].rstrip()}\n"
              f"    wanted  {line(as_written(fields, wanted))[:300].rstrip()}\n    found   {answers[:300]}")
    print(f"{len(others)} of {len(all_rows)} rows answered otherwise")
    return 1 if others or len(found) != len(all_rows) else 0


def asked(source_rows):
    """The rows that are asked of the program: in place of some others that ask the same."""
    for place, fields, wanted in source_rows:
        for row in by_others(fields, wanted):
            yield place, row.fields, row.answer


def answered_by_model(source_rows):
    """How many rows the model can answer, of these and of those that are asked in place of some; and how many of them
    it answers otherwise, each of which is shown."""
    count = others = 0
    for place, fields, wanted in [*source_rows, *asked(row for row in source_rows if row[1][0] in BY_OTHERS)]:
        by_model = answer(fields)
        count += by_model is not None
        if by_model is not None and by_model != wanted:
            print(f"{place}: the model answers {line(by_model).rstrip()}\n    and not {line(wanted).rstrip()}\n"
                  f"    to {line(fields)[:300].rstrip()}")
            others += 1
    return count, others


def are_right(names):
    """Tells how the model answers the rows of the files of these names."""
    source_rows = [row for name in names for row in rows_of(name)]
    count, others = answered_by_model(source_rows)
    print(f"{len(source_rows)} rows; with those asked in place of some the model answers {count}, {others} otherwise")
    return 1 if others else 0


def made_of(all_rows):
    """The rows that define words, the others in short, and what both are answered."""
    all_words = words()
    head = definitions(all_words)
    asked_for = [in_short(spaced(line(as_read(fields))), all_words) for _, fields, _ in all_rows]
    return head, asked_for, [line(["defined"])] * len(head) + [line(as_written(*row[1:])) for row in all_rows]


def are_stored(all_rows):
    """Tells whether the rows and their answers are stored as they would be written."""
    head, asked_for, answers = made_of(all_rows)
    texts = {"stdin": "".join(head + asked_for), "stdout": "".join(answers)}
    others = [name for name, text in texts.items() if (CRATE / name).read_text(encoding="ascii") != text]
    for name in others:
        print(f"crates/xa_trials/{name} isn't what `make rows` would write")
    print(f"{len(texts) - len(others)} passed, {len(others)} failed")
    return 1 if others else 0


def main():
    words_given = sys.argv[1:]
    if words_given and all(pathlib.Path(name).is_file() for name in words_given):
        return are_right(words_given)
    if words_given not in ([], ["--stored"]) and (words_given[0] != "--compare" or len(words_given) != 2):
        print(__doc__, file=sys.stderr)
        return 2
    source_rows = list(rows())
    all_rows = list(asked(source_rows))
    if words_given:
        return are_stored(all_rows) if words_given == ["--stored"] else compare(all_rows, words_given[1])
    count, others = answered_by_model(source_rows)
    if others:
        print(f"the model answers {others} of {count} rows otherwise: nothing is written")
        return 1
    head, asked_for, answers = made_of(all_rows)
    (CRATE / "stdin").write_text("".join(head + asked_for), encoding="ascii")
    (CRATE / "stdout").write_text("".join(answers), encoding="ascii")
    kinds = {}
    for _, fields, _ in source_rows:
        kinds[fields[0]] = kinds.get(fields[0], 0) + 1
    longest = max(map(len, head + asked_for))
    print(f"{len(head)} words; the longest row has {longest - 1} characters, "
          f"and all have {sum(map(len, head + asked_for))}")
    print(f"{len(source_rows)} rows, asked as {len(all_rows)}: "
          + ", ".join(f"{kind} {count}" for kind, count in kinds.items()))
    return 0


if __name__ == "__main__":
    sys.exit(main())
