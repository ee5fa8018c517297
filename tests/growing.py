#!/usr/bin/env python3
"""Looks whether the time of the worst inputs (bench/worst_rows.py) grows faster than they do, by the program xa_trials.

usage: tests/growing.py XA_TRIALS

A growth of two is linear, of four a square. Times are those of a processor, less what it takes to read the row, and the
best of several runs: as long as the growth is too large, each size is run once more.
"""
import os
import pathlib
import resource
import subprocess
import sys
import tempfile

TOP = pathlib.Path(__file__).resolve().parent.parent
sys.path[:0] = [str(TOP / "tests" / "model"), str(TOP / "bench"), str(TOP / "tests")]
sys.dont_write_bytecode = True
from inputs import as_read  # noqa: E402
from worst_rows import LINES  # noqa: E402

RUNS = 5
# A time below so many seconds is too short to tell its growth, and one of so many is ended: at twice its size none of
# the inputs takes one.
SHORT, MOST_SECONDS = 0.004, 20


def limited():
    """Lets a program be ended that takes too long."""
    resource.setrlimit(resource.RLIMIT_CPU, (MOST_SECONDS, MOST_SECONDS))


def seconds(program, fields):
    """The processor seconds of a run over one row."""
    with tempfile.TemporaryFile("w+") as row:
        row.write("\t".join(fields) + "\n")
        row.seek(0)
        child = subprocess.Popen([program], stdin=row, stdout=subprocess.DEVNULL, preexec_fn=limited)
        _, status, used = os.wait4(child.pid, 0)
        child.returncode = os.waitstatus_to_exitcode(status)
    took = used.ru_utime + used.ru_stime
    if child.returncode and took < MOST_SECONDS - 1:
        raise SystemExit(f"{program} ended with status {child.returncode}")
    return took


class Input:
    """An input of a size, as rows: one that is worked out, and one that is only read."""

    def __init__(self, fields):
        held = as_read(fields)
        self.rows, self.least = (held, ["nothing", *held[1:]]), [float("inf")] * 2

    def run(self, program):
        """The least seconds so far."""
        self.least = [min(least, seconds(program, row)) for least, row in zip(self.least, self.rows)]
        return max(self.least[0] - self.least[1], 1e-5)


def growth(program, make, size, most):
    """The growth of an input's time, once it is as small as it may be, or else the least that was found; and the
    seconds of twice the size."""
    small, large = Input(make(size)), Input(make(2 * size))
    for _ in range(RUNS):
        first, second = small.run(program), large.run(program)
        if second < SHORT or second <= most * first or second > MOST_SECONDS / 2:
            break
    return second / first, second


def main():
    if len(sys.argv) != 2:
        print(__doc__, file=sys.stderr)
        return 2
    failed = 0
    for what, make, size, most in LINES:
        found, took = growth(sys.argv[1], make, size, most)
        if took >= SHORT and found > most:
            failed += 1
            print(f"FAILED {what}, n = {size:,}: twice as much takes {found:.1f} times as long, {took:.2f} s")
    print(f"tests/growing.py: {len(LINES) - failed} passed, {failed} failed")
    return 1 if failed else 0


if __name__ == "__main__":
    sys.exit(main())
