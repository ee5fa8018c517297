#!/usr/bin/env python3
"""What a unit of the limit of work takes: nanoseconds of processor time, of each form of unit_forms.py.

Usage: bench/units.py [--within SECONDS] [XA_TRIALS [WORD..]]     XA_TRIALS: the built program xa_trials; WORD: a part
                                                                  of a form's name, of which only those are asked

The units are the least limit under which it is answered, to one part in a hundred; they are looked for by as many runs
beside one another as there are processors. Then each form is timed alone: it is asked up to five times in one stream,
of a domain with its root and of one without, and the first ask of each is taken off, so that what is read and linked
isn't in it. All forms are timed first, the best of FEW_RUNS runs each; then those that seemed dearest once more, the
best of RUNS, and the dearest of these are listed. It is to end within so many seconds (MOST_SECONDS, if nothing is
said), a form that is begun being finished. If forms are left out then, it says how many, and ends with status 1.
"""
import argparse
import concurrent.futures
import os
import pathlib
import sys
import time

sys.dont_write_bytecode = True
TOP = pathlib.Path(__file__).resolve().parent.parent
sys.path[:0] = [str(TOP / "tests" / "model"), str(TOP / "bench")]

from unit_forms import forms  # noqa: E402
from unit_times import of_the_form, units  # noqa: E402

BUILT = TOP / "crates" / "xa_trials" / "out" / "xa_trials"
# how long it takes at most, and at which part of that the units of all forms have to be known, and their times
MOST_SECONDS, UNITS_UNTIL, TIMES_UNTIL = 900, 0.4, 0.9
FEW_RUNS, RUNS = 2, 7
# how many are listed, how many are asked once more, and what a unit may take
LISTED, AGAIN, MOST_OF_A_UNIT = 30, 60, 1.6


class Measured:
    """A form, and what was found of it."""

    def __init__(self, program, form, count):
        self.program, self.form, self.units = program, form, count
        self.seconds = of_the_form(program, form, FEW_RUNS)

    def again(self):
        self.seconds = of_the_form(self.program, self.form, RUNS)

    def of_a_unit(self):
        return self.seconds / self.units * 1e9

    def line(self):
        return f"{self.form.name:64}{self.units:14,}{self.seconds * 1e3:10.2f}{self.of_a_unit():12.2f}"


def dearest(found, count):
    return sorted(found, key=Measured.of_a_unit, reverse=True)[:count]


def count_units(program, wanted, end):
    """The units of each form; none of those to which it doesn't come until that time."""
    def count(form):
        return units(program, form, 100) if time.monotonic() < end else None

    with concurrent.futures.ThreadPoolExecutor(os.cpu_count()) as workers:
        return list(workers.map(count, wanted))


def measure(program, wanted, counts, end):
    """What is found of the forms whose units are known, one after another, until that time."""
    found = []
    for form, count in zip(wanted, counts):
        if count is not None and time.monotonic() < end:
            found.append(Measured(program, form, count))
            print(found[-1].line(), file=sys.stderr, flush=True)
    return found


def main():
    parser = argparse.ArgumentParser(usage=__doc__)
    parser.add_argument("--within", type=float, default=MOST_SECONDS)
    parser.add_argument("program", nargs="?", type=pathlib.Path, default=BUILT)
    parser.add_argument("words", nargs="*")
    given = parser.parse_args()
    start = time.monotonic()
    wanted = [form for form in forms() if not given.words or any(word in form.name for word in given.words)]
    counts = count_units(given.program, wanted, start + UNITS_UNTIL * given.within)
    found = measure(given.program, wanted, counts, start + TIMES_UNTIL * given.within)
    for one in dearest(found, AGAIN):
        if time.monotonic() > start + given.within:
            break
        one.again()
    print(f"{'the dearest':64}{'units':>14}{'ms':>10}{'ns a unit':>12}")
    for one in dearest(found, LISTED):
        print(one.line())
    print(f"{len(found)} of {len(wanted)} forms, "
          f"{sum(one.of_a_unit() > MOST_OF_A_UNIT for one in found)} of more than {MOST_OF_A_UNIT} ns a unit,"
          f" in {time.monotonic() - start:.0f} s")
    return 0 if len(found) == len(wanted) else 1


if __name__ == "__main__":
    sys.exit(main())
