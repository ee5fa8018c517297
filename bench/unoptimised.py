#!/usr/bin/env python3
"""What a decision request takes through a program that is compiled without optimisation, as `make run` does where
nothing is built, beside one that is compiled with it: microseconds of processor time, and how many times as much.

Usage: bench/unoptimised.py [--write] [OPTIMISED UNOPTIMISED]

OPTIMISED and UNOPTIMISED are the programs; else both are compiled of these sources without proof, in minutes, and kept
(tests/programs.py). With --write the table is written into docs/PERFORMANCE.md too.

The requests and the policy are those of bench/asks.py: 1,000 in turn are worked out each, one again and again is
answered by the kept response. Each kind is sent so many times and twice as many: the difference is what they take; by
the program that is optimised more often, so that what begins and ends it counts for as little. On a disturbed machine
the figures say little: the last line tells its load.
"""
import sys

sys.dont_write_bytecode = True
import transcripts  # noqa: E402  (it makes `programs` importable)
from asking import ask, domain, policy  # noqa: E402
from page import Machine, shown, words  # noqa: E402
import programs  # noqa: E402

# how many messages are sent through the program that is optimised, and through the other one
COUNTS = 100_000, 10_000
KINDS = {"kept: the same bytes again": 1, "worked out: 1,000 in turn": 1000}


def each(program, count, requests):
    """Microseconds that each of the requests takes, of which so many are sent."""
    transcripts.PROGRAM = str(program)
    setup, times = domain("acme", policy()), count // len(requests)
    once, twice = (transcripts.seconds(setup + requests * often) for often in (times, 2 * times))
    return (twice - once) / count * 1e6


def main():
    named = words()
    if len(named) not in (0, 2):
        print(__doc__, file=sys.stderr)
        return 2
    levels = programs.OPTIMISED, programs.QUICKLY
    found = named or [programs.compiled_program("pdpd", level) for level in levels]
    machine = Machine()
    print("us a decision request           optimised   without it   times")
    for name, count in KINDS.items():
        requests = [ask("acme", number) for number in range(count)]
        fast, slow = (each(program, often, requests) for program, often in zip(found, COUNTS))
        print(f"{name:30} {fast:10.2f}   {slow:10.2f}   {slow / fast:5.1f}", flush=True)
    print(machine.told())
    return 0


if __name__ == "__main__":
    sys.exit(shown("unoptimised.py", main))
