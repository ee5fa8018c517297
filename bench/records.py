#!/usr/bin/env python3
"""The repository in memory: nanoseconds a call of one domain, with 10 and with 10,000 domains of 10 documents each;
the two may differ by three tenths.

Usage: bench/records.py [--write] [XA_TRIALS]     XA_TRIALS: the built program; without it the proved one, which is
                                                  proved and built first where it isn't yet
                                                  --write: the table is written into docs/PERFORMANCE.md too
       bench/records.py [--write] --instructions [XA_TRIALS]     instructions in place of times, in some minutes
                                                                 (valgrind, Debian's package)

The program xa_trials answers rows of a keeper. A row makes all domains and then calls one of them, so many times or
twice as many: the difference is what the calls take, with what the program takes to read their fields, which is the
same for both numbers of domains. Times are processor time, the median of nine runs, in which the rows of a kind take
turns; on a disturbed machine they say little. Instructions are the same on any machine.
"""
import pathlib
import resource
import statistics
import subprocess
import sys
import tempfile

TOP = pathlib.Path(__file__).resolve().parent.parent
sys.path.insert(0, str(TOP / "tests" / "model"))

from inputs import as_read  # noqa: E402
from page import shown, words  # noqa: E402
from transcripts import CACHEGRIND, instructions_in  # noqa: E402

CRATE = TOP / "crates" / "xa_trials"
BY_INSTRUCTIONS = "--instructions" in words()
WORDS = [word for word in words() if word != "--instructions"]
PROGRAM = pathlib.Path(WORDS[0]) if WORDS else CRATE / "out" / "xa_trials"
RULES = "urn:oasis:names:tc:xacml:3.0:rule-combining-algorithm:deny-overrides"
RUNS, MOST = 9, 1.3
COUNTED_CALLS = 10_000


def document(number, text=""):
    return (f'{{"Policy":{{"PolicyId":"urn:p{number}","Version":"1.0","Description":"{text}",'
            f'"RuleCombiningAlgId":"{RULES}"}}}}')


def setup_of(domains):
    """The calls that make the domains, each with a token and ten documents."""
    calls = []
    for domain in range(domains):
        calls += [f"create d{domain}", f"put d{domain} admin token-{domain}"]
        calls += [f"upload d{domain} {document(number)}" for number in range(10)]
    return calls


def calls_of(kind, middle, count):
    """This many calls of one domain, which leave it as it was or alternate between two states."""
    here = f"d{middle}"
    pairs = {
        "gate": [f"gate {here}", f"gate {here}"],
        "list": [f"list {here}", f"list {here}"],
        "upload, the same again": [f"upload {here} {document(3)}"] * 2,
        "upload and delete": [f"upload {here} {document(99)}", f"delete {here} policy|urn:p99|1.0"],
        "set active and back": [f"activate {here} policy|urn:p3|1.0", f"deactivate {here} policy|urn:p3|1.0"],
        "set root and back": [f"root {here} policy|urn:p3|||", f"root {here}"],
        "put and drop a token": [f"put {here} ask another-token", f"drop {here} another-token"],
    }
    return pairs[kind] * (count // 2)


# each kind of calls, and how many of them: more where one takes little beside what makes 10,000 domains
KINDS = {"gate": 1_000_000, "list": 200_000, "upload, the same again": 200_000, "upload and delete": 200_000,
         "set active and back": 1_000_000, "set root and back": 1_000_000, "put and drop a token": 1_000_000}


def row_of(calls):
    """A file with one row of these calls."""
    it = tempfile.NamedTemporaryFile("w", suffix=".rows")
    it.write("\t".join(as_read(["keeper_in_memory", *calls])) + "\n")
    it.flush()
    return it


def seconds(row):
    """Processor seconds for the row."""
    before = resource.getrusage(resource.RUSAGE_CHILDREN)
    with open(row.name) as rows:
        answered = subprocess.run([PROGRAM], stdin=rows, stdout=subprocess.PIPE, check=True).stdout
    after = resource.getrusage(resource.RUSAGE_CHILDREN)
    assert b"!Absent" not in answered and b"!Malformed" not in answered, answered[-200:]
    return after.ru_utime - before.ru_utime + after.ru_stime - before.ru_stime


def nanoseconds(kind, setups):
    """What a call of the kind takes, for each number of domains: the median of some runs."""
    calls, took = KINDS[kind], {domains: [] for domains in setups}
    rows = {domains: [row_of(setup + calls_of(kind, domains // 2, times * calls)) for times in (1, 2)]
            for domains, setup in setups.items()}
    for _ in range(RUNS):
        for domains, (few, many) in rows.items():
            less = seconds(few)
            took[domains].append(seconds(many) - less)
    for few, many in rows.values():
        few.close()
        many.close()
    return [statistics.median(took[domains]) / calls * 1e9 for domains in setups]


def instructions(calls):
    """The instructions of the program for one row of these calls."""
    row = row_of(calls)
    with tempfile.NamedTemporaryFile("r") as log, open(row.name) as rows:
        command = [*CACHEGRIND, f"--log-file={log.name}", PROGRAM]
        subprocess.run(command, stdin=rows, stdout=subprocess.DEVNULL, check=True)
        return instructions_in(log.read())


def by_instructions(setups):
    """Of each kind the instructions of a call, for each number of domains."""
    alone = {domains: instructions(setup) for domains, setup in setups.items()}
    for kind in KINDS:
        yield kind, [(instructions(setup + calls_of(kind, domains // 2, COUNTED_CALLS)) - alone[domains])
                     / COUNTED_CALLS for domains, setup in setups.items()]


def by_time(setups):
    """Of each kind the nanoseconds of a call, for each number of domains."""
    for kind in KINDS:
        yield kind, nanoseconds(kind, setups)


def table(unit, found):
    """Prints what calls take; 1 if a kind takes more than it may with many domains."""
    failed = 0
    print(f"{f'{unit} a call':26}{'10 domains':>14}{'10,000 domains':>17}")
    for kind, (few, many) in found:
        failed += many > MOST * few
        remark = "   more than three tenths above" if many > MOST * few else ""
        print(f"{kind:26}{few:14,.0f}{many:17,.0f}{remark}", flush=True)
    return 1 if failed else 0


def main():
    if not WORDS:
        subprocess.run(["rt", "run"], cwd=CRATE, stdin=subprocess.DEVNULL, stdout=subprocess.DEVNULL, check=True)
    setups = {domains: setup_of(domains) for domains in (10, 10_000)}
    if BY_INSTRUCTIONS:
        return shown("records.py instructions", lambda: table("instructions", by_instructions(setups)))
    return shown("records.py", lambda: table("nanoseconds", by_time(setups)))


if __name__ == "__main__":
    raise SystemExit(main())
