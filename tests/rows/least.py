#!/usr/bin/env python3
"""Looks for the least limits of work with which the rows of limit.rows are answered, and shows where a row has another.

usage: tests/rows/least.py PROGRAM     PROGRAM: the program xa_trials, as it was built
       tests/rows/least.py --model     by the model, which counts by the rules of charging

A row that is answered otherwise than by the 503 has the least limit with which it is, as far as it says: it is
answered alike without a limit, and not with one less. Rows of several messages stand under a limit that isn't the
least one, and are passed over.
"""
import pathlib
import subprocess
import sys

HERE = pathlib.Path(__file__).resolve().parent
sys.path.insert(0, str(HERE.parent / "model"))
sys.dont_write_bytecode = True

from inputs import as_read  # noqa: E402
from machines import view  # noqa: E402
from messages import Stream  # noqa: E402
from routes import owner  # noqa: E402
from rows import Source, as_input, decoded, line  # noqa: E402
from servers import set_up  # noqa: E402
from work import spent  # noqa: E402

NO_LIMIT = 2**64 - 1


def answers(program, rows, limits):
    """What the program answers to the rows, each with another limit."""
    text = "".join(line(as_read(["server_in_memory", f"limit:{limit}", *fields]))
                   for fields, limit in zip(rows, limits))
    return subprocess.run([program], input=text.encode(), stdout=subprocess.PIPE,
                          check=True).stdout.decode().split("\n")[:-1]


def are_least(program, rows, limits):
    """Of each row whether it is answered as without a limit by this one, and not by one less."""
    without, at, below = (answers(program, rows, found)
                          for found in ([NO_LIMIT] * len(rows), limits, [max(limit - 1, 0) for limit in limits]))
    return [one == two and (limit == 0 or two != three) for one, two, three, limit in zip(without, at, below, limits)]


def least(program, rows):
    """The least limit with which each row is answered as without one."""
    wanted, low, high = answers(program, rows, [NO_LIMIT] * len(rows)), [-1] * len(rows), [2**32] * len(rows)
    while any(end - start > 1 for start, end in zip(low, high)):
        middle = [(start + end) // 2 if end - start > 1 else end for start, end in zip(low, high)]
        for place, found in enumerate(answers(program, rows, middle)):
            is_enough = found == wanted[place]
            low[place], high[place] = ((low[place], min(high[place], middle[place]))
                                       if is_enough else (max(low[place], middle[place]), high[place]))
    return high


def by_model(fields):
    """The units of the ask of the row, by the model."""
    made, moment = set_up(fields), 0
    for field in fields:
        word, _, text = field.partition(":")
        if word == "moment":
            moment = int(text)
        elif word == "piece":
            stream = Stream()
            stream.held = decoded(text)
            ask = stream.next()
            return spent(view(made.states[owner(ask)]), ask.body, moment, NO_LIMIT)
    return 0


def main():
    if len(sys.argv) != 2:
        print(__doc__, file=sys.stderr)
        return 2
    found = []
    for place, fields, wanted in Source(HERE / "limit.rows").rows:
        is_least = fields[1].startswith("limit:") and fields[1] not in ("limit:100000", f"limit:{NO_LIMIT}")
        if is_least and "503" not in wanted[0] and len(wanted) == 1:
            found.append((place, int(fields[1].removeprefix("limit:")), [as_input(field) for field in fields[2:]]))
    if sys.argv[1] == "--model":
        others = [(place, written, units) for place, written, fields in found if (units := by_model(fields)) != written]
        for place, written, units in others:
            print(f"{place}: {written:,} in the row, {units:,} by the rules")
        print(f"{len(found)} forms, {len(others)} that take another number of units")
        return 1 if others else 0
    right = are_least(sys.argv[1], [fields for _, _, fields in found], [written for _, written, _ in found])
    others = [one for one, is_right in zip(found, right) if not is_right]
    for (place, written, _), limit in zip(others,
                                          least(sys.argv[1], [fields for _, _, fields in others]) if others else []):
        print(f"{place}: {written:,} in the row, {limit:,} are the least")
    print(f"{len(found)} forms, {len(others)} with another least limit")
    return 1 if others else 0


if __name__ == "__main__":
    sys.exit(main())
