#!/usr/bin/env python3
"""What costs most: inputs that a tenant may send or upload, at two sizes, and how the processor time grows from the one
to the other; and inputs that only a limit of work ends, each under the limit of LIMIT units and of REPLY bytes for a
response, which have to be over within 4 s of processor time and 1 GB of memory, with the next message answered. Of
those that are refused it shows the nanoseconds for a unit, reading and linking included. Behind them stand the forms of
which a unit takes most, each at its least limit (`bench/units.py` measures all that there are): a unit may take
MOST_OF_A_UNIT nanoseconds. And what an ask costs whose domain has as many bytes of policies as may be read for one
message (the limit of READING bytes, room for views of ROOM): where no policy is asked, where the root leads to few,
where all are read, and where three such domains drive each other's view out.

Usage: bench/worst.py [--write] [XA_TRIALS]     XA_TRIALS: the built program; without it the proved one, which is proved
                                                and built first where it isn't yet
                                                --write: if none is too slow, the four lists are written into
                                                docs/PERFORMANCE.md too, between their marks

The program xa_trials answers a row for each; bench/worst_rows.py and bench/worst_ends.py have the rows. Of each line
the second size is twice the first, so a growth of two is linear and one of four is a square. What the program takes to
read the row is measured by a row that is read and not worked out, and taken off. Times are processor time, the best of
three runs. A line whose growth is more than it says ends the script with status 1; lines marked `open` are known to
grow faster, and only shown.
"""
import os
import pathlib
import re
import resource
import subprocess
import sys
import tempfile

sys.dont_write_bytecode = True
TOP = pathlib.Path(__file__).resolve().parent.parent
sys.path[:0] = [str(TOP / "tests" / "model"), str(TOP / "bench"), str(TOP / "tests")]

from inputs import as_read  # noqa: E402
from page import WRITES, words, write  # noqa: E402
from unit_forms import forms  # noqa: E402
from unit_times import each  # noqa: E402
from worst_ends import ENDED, LIMIT, READ, READING, REPLY, large_asks, large_row, limited_row  # noqa: E402
from worst_rows import LINES  # noqa: E402

CRATE, WORDS = TOP / "crates" / "xa_trials", words()
PROGRAM = pathlib.Path(WORDS[0]) if WORDS else CRATE / "out" / "xa_trials"
RUNS = 3
MOST_SECONDS, MOST_BYTES, LAST_SECOND = 4, 2**30, 60
MOST_OF_A_UNIT = 1.6
# a time below two milliseconds is too short to tell its growth
SHORT = 0.002
# the forms of which a unit takes most
DEAREST = [
    "string-contains, 40 in 200, by twos", "string-contains, 64 in 100, all alike",
    "string-contains, 200 in 200, nearly there", "string-contains, 400 in 4000, by threes",
    "map of string-from-dateTime", "map of string-from-dayTimeDuration", "map of string-substring, 1000 bytes",
    "map of dateTime-add-dayTimeDuration",
    "1,500 rules without more, permit-overrides", "1,000 policies of one rule, permit-overrides",
    "1,000 policies without rules, deny-overrides", "200 policies of 300 rules without more",
    "all-of-all of string-starts-with, 1 byte", "not, 20 in one another", "variables that each copy a bag of texts",
    "variables that each copy a bag of integers",
    "200 matches among 2000 attributes", "200 matches by issuers among 2000 attributes",
    "200 matches among 1000 categories", "200 matches among 1000 source rows",
    "individual requests of 1000 categories", "1,400 obligations and a fault",
    "anyURI-from-string, 1 byte", "string-from-anyURI, 1 byte", "string-normalize-space, 1 byte",
    "variables that each copy a text of a byte", "a bag of 600 literals", "or of or of one",
    "10 assignments of 200 string, 100 bytes as '\"'", "90 assignments of string, 100 bytes as '\"'",
]


class Listing:
    """A list whose lines are printed as they are found; how many of them tell of too much."""

    def __init__(self, heading):
        self.lines, self.failed = [], 0
        self.add(heading)

    def add(self, line, failed=False):
        print(line)
        self.lines.append(line)
        self.failed += failed


# ---- runs of the program

def within(seconds_of_processor):
    """Lets a program that doesn't end be killed."""
    return lambda: resource.setrlimit(resource.RLIMIT_CPU, (seconds_of_processor, seconds_of_processor))


def outcome(fields):
    """Processor seconds and bytes of memory for the row, and the statuses of its replies."""
    with tempfile.TemporaryFile("w+") as rows:
        rows.write("\t".join(as_read(fields)) + "\n")
        rows.flush()
        rows.seek(0)
        child = subprocess.Popen([PROGRAM], stdin=rows, stdout=subprocess.PIPE, preexec_fn=within(LAST_SECOND))
        statuses = re.findall(rb"(?:^|\t)(HTTP/1.1 \d+|![^\t\n]+|\*\d+)", child.stdout.read())
        _, child.returncode, used = os.wait4(child.pid, 0)
    return (used.ru_utime + used.ru_stime, used.ru_maxrss * 1024,
            [status.decode().removeprefix("HTTP/1.1 ") for status in statuses])


def seconds(fields):
    """Processor seconds for the row, less those for reading it."""
    best = []
    for row in (as_read(fields), ["nothing", *as_read(fields)[1:]]):
        with tempfile.NamedTemporaryFile("w", suffix=".rows") as it:
            it.write("\t".join(row) + "\n")
            it.flush()
            runs = []
            for _ in range(RUNS):
                before = resource.getrusage(resource.RUSAGE_CHILDREN)
                with open(it.name) as rows:
                    subprocess.run([PROGRAM], stdin=rows, stdout=subprocess.DEVNULL, check=True)
                after = resource.getrusage(resource.RUSAGE_CHILDREN)
                runs.append(after.ru_utime - before.ru_utime + after.ru_stime - before.ru_stime)
            best.append(min(runs))
    return max(best[0] - best[1], 1e-5)


# ---- the lists

def ends():
    """The inputs that only a limit ends: those fail that aren't over soon enough, or leave the next message without an
    answer."""
    limits = f"under a limit of {LIMIT:,} units and {REPLY:,} bytes"
    listing = Listing(f"{limits:64}{'seconds':>9}{'MiB':>10}{'ns a unit':>12}   statuses")
    for what, make in ENDED:
        took, size, statuses = outcome(limited_row(*make()))
        passed = took <= MOST_SECONDS and size <= MOST_BYTES and statuses in (["503", "200"], ["200", "200"])
        of_a_unit = f"{took / LIMIT * 1e9:.1f}" if statuses[:1] == ["503"] else ""
        listing.add(f"{what:64}{took:9.2f}{size / 2**20:10.0f}{of_a_unit:>12}   {' '.join(statuses)}"
                    f"{'' if passed else '   too much'}", not passed)
    return listing


def dearest_forms():
    """The forms of which a unit takes most: those fail of which it takes more than it may."""
    by_name = {form.name: form for form in forms() if form.name in DEAREST}
    listing = Listing(f"{'at its least limit':64}{'units':>14}{'ms':>10}{'ns a unit':>12}")
    for name in DEAREST:
        took, count = each(PROGRAM, by_name[name])
        of_a_unit = took / count * 1e9
        failed = of_a_unit > MOST_OF_A_UNIT
        listing.add(f"{name:64}{count:14,}{took * 1e3:10.2f}{of_a_unit:12.2f}{'   too much' if failed else ''}", failed)
    return listing


def asks_of_large():
    """The asks of a large domain: those fail that cost too much."""
    size_of_domain = f"a decision of a domain of {255 * READ / 1e6:.1f} MB, of which {READING / 1e6:.0f} MB may be read"
    listing = Listing(f"{size_of_domain:64}{'seconds':>9}{'MiB':>10}   statuses")
    for what, before, asks, most, statuses in large_asks(MOST_SECONDS):
        row = large_row(before)
        took = (min(outcome(row + asks)[0] for _ in range(RUNS))
                - min(outcome(row)[0] for _ in range(RUNS))) / len(asks)
        _, size, seen = outcome(row + asks)
        seen = {status for status in seen if not status.startswith("*")}
        passed = took <= most and size <= MOST_BYTES and seen == statuses
        listing.add(f"{what:64}{max(took, 0):9.4f}{size / 2**20:10.0f}   {' '.join(sorted(seen))}"
                    f"{'' if passed else '   too much'}", not passed)
    return listing


def growths():
    """The inputs of two sizes: those fail whose time grows faster than it may."""
    listing = Listing(f"{'':64}{'n':>9}{'seconds':>10}{'2 n':>10}{'growth':>9}")
    for what, make, size, most in LINES:
        small, large = seconds(make(size)), seconds(make(2 * size))
        growth = large / small
        passed = most is None or growth <= most or large < SHORT
        remark = "   open" if passed and most is None else "" if passed else "   grows too fast"
        listing.add(f"{what:64}{size:9,}{small:10.4f}{large:10.4f}{growth:9.1f}{remark}", not passed)
    return listing


def main():
    if not WORDS:
        subprocess.run(["rt", "run"], cwd=CRATE, stdin=subprocess.DEVNULL, stdout=subprocess.DEVNULL, check=True)
    listings = {"limits": ends(), "units": dearest_forms(), "asks": asks_of_large(), "growth": growths()}
    failed = sum(listing.failed for listing in listings.values())
    if WRITES and failed:
        print("docs/PERFORMANCE.md stays as it is, since there is too much.")
    elif WRITES:
        write({f"worst.py {name}": listing.lines for name, listing in listings.items()})
    return 1 if failed else 0


if __name__ == "__main__":
    raise SystemExit(main())
