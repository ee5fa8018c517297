"""Transcripts for pdpd, and the processor time and the instructions that it takes to answer them."""
import os
import re
import resource
import subprocess
import sys
import tempfile

TOP = os.path.dirname(os.path.dirname(os.path.abspath(__file__)))
sys.path.append(os.path.join(TOP, "tests"))
from page import words  # noqa: E402
from sent import OPERATOR  # noqa: E402

PROGRAM = words()[0] if words() else os.path.join(TOP, "build/pdpd")
TOKEN = "domain-token-1"
MAX_ENTRY_BYTES, RUNS = 1_048_576, 3
# the words before a program's, which count its instructions
CACHEGRIND = ("valgrind", "--tool=cachegrind", "--cache-sim=no", "--cachegrind-out-file=/dev/null")


def transcript(messages):
    """The messages in entries of at most the greatest size."""
    held, entries = [], []
    size = 0
    for one in messages:
        if size + len(one) > MAX_ENTRY_BYTES:
            entries.append(b"".join(held))
            held, size = [], 0
        held.append(one)
        size += len(one)
    return b"".join(b"0 0 %d\n%s\n" % (len(entry), entry) for entry in [*entries, b"".join(held)])


def run(messages, before=()):
    """The bytes of the replies to the messages, which the program gives under the words before it."""
    with tempfile.TemporaryFile() as file:
        file.write(transcript(messages))
        file.seek(0)
        return subprocess.run([*before, PROGRAM, "replay", OPERATOR], stdin=file, stdout=subprocess.PIPE,
                              stderr=subprocess.PIPE, check=True)


def statuses(messages):
    """How many replies have each status."""
    found = re.findall(rb"(?m)^HTTP/1.1 (\d+)", run(messages).stdout)
    return {int(status): found.count(status) for status in sorted(set(found))}


def seconds(messages):
    """Processor seconds that the program takes to answer them: the best of some runs."""
    best = None
    with tempfile.TemporaryFile() as file:
        file.write(transcript(messages))
        for _ in range(RUNS):
            file.seek(0)
            before = resource.getrusage(resource.RUSAGE_CHILDREN)
            subprocess.run([PROGRAM, "replay", OPERATOR], stdin=file, stdout=subprocess.DEVNULL, check=True)
            after = resource.getrusage(resource.RUSAGE_CHILDREN)
            took = after.ru_utime - before.ru_utime + after.ru_stime - before.ru_stime
            best = took if best is None else min(best, took)
    return best


def instructions_in(said):
    """The instructions that valgrind says it has counted."""
    return int(re.search(r"I\s+refs:\s+([\d,]+)", said)[1].replace(",", ""))


def instructions(messages):
    """Instructions that the program takes to answer them, as valgrind counts them."""
    return instructions_in(run(messages, CACHEGRIND).stderr.decode())
