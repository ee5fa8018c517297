#!/usr/bin/env python3
"""Messages per second and peak memory of the proved pdpd, over transcripts of one decision message.

Usage: bench/replay.py [--write] [PDPD]     PDPD: the built program (build/pdpd, which `make pdpd` makes)
                                            --write: the table is written into docs/PERFORMANCE.md too

Each transcript holds N copies of one request for a decision, once with an entry for each message and once in entries of
up to 1 MiB that hold many. The time is the best of three runs, with standard input
and output files. Peak memory is what GNU time reads.

Then 8 MiB and 1 GiB go through one session, in entries that cut messages anywhere. The script fails where the
second takes more than a quarter more memory: a session that never dropped what it has answered would take a
hundred times as much.
"""
import os
import subprocess
import sys
import tempfile
import time

sys.dont_write_bytecode = True
TOP = os.path.dirname(os.path.dirname(os.path.abspath(__file__)))
sys.path.append(os.path.join(TOP, "tests"))
from page import shown, words  # noqa: E402
from sent import OPERATOR, making, message  # noqa: E402

PROGRAM = words()[0] if words() else os.path.join(TOP, "build/pdpd")
MAX_ENTRY_BYTES = 1_048_576
# the operator makes the domain, and it permits everything
SETUP = b"".join(held for held, _ in making("acme", "acme-token-1"))
MESSAGE = message("POST", "/domains/acme/pdp", "acme-token-1", '{"Request":{}}')


def transcript(count, per_entry):
    setup = b"0 0 %d\n%s\n" % (len(SETUP), SETUP)
    whole = b"0 0 %d\n%s\n" % (len(MESSAGE) * per_entry, MESSAGE * per_entry)
    rest = count % per_entry
    last = b"0 0 %d\n%s\n" % (len(MESSAGE) * rest, MESSAGE * rest) if rest else b""
    return setup + whole * (count // per_entry) + last


def check(status, target, count):
    """That the program ended well, and that so many messages were answered with Permit."""
    if status != 0:
        sys.exit(f"pdpd ended with status {status}")
    target.seek(0)
    answered = sum(line.count(b'"Decision":"Permit"') for line in target)
    if answered != count:
        sys.exit(f"{answered} of {count} messages were answered with Permit")


def run(path, count):
    best, peak = None, 0
    for _ in range(3):
        with open(path, "rb") as source, tempfile.TemporaryFile() as target, tempfile.NamedTemporaryFile("r") as memory:
            command = ["/usr/bin/time", "-f", "%M", "-o", memory.name, PROGRAM, "replay", OPERATOR]
            start = time.perf_counter()
            status = subprocess.call(command, stdin=source, stdout=target)
            spent = time.perf_counter() - start
            check(status, target, count)
            peak = max(peak, int(memory.read()))
        best = spent if best is None else min(best, spent)
    return best, peak


def long_stream(entries):
    """The bytes of a transcript: one connection's messages, each with a large body, in whole entries; and how many
    messages are whole."""
    head = MESSAGE.replace(b"Content-Length: 14", b"Content-Length: 100000")
    one = head + b" " * (100_000 - 14)
    many = one * (MAX_ENTRY_BYTES // len(one) + 2)

    def pieces():
        yield b"0 0 %d\n%s\n" % (len(SETUP), SETUP)
        for place in range(entries):
            start = place * MAX_ENTRY_BYTES % len(one)
            yield b"0 0 %d\n" % MAX_ENTRY_BYTES
            yield many[start:start + MAX_ENTRY_BYTES]
            yield b"\n"

    return pieces(), entries * MAX_ENTRY_BYTES // len(one)


def peak_of_session(entries):
    """The peak memory in KiB after so many entries of 1 MiB through one session."""
    pieces, whole = long_stream(entries)
    with tempfile.TemporaryFile() as target, tempfile.NamedTemporaryFile("r") as memory:
        command = ["/usr/bin/time", "-f", "%M", "-o", memory.name, PROGRAM, "replay", OPERATOR]
        with subprocess.Popen(command, stdin=subprocess.PIPE, stdout=target) as program:
            for piece in pieces:
                program.stdin.write(piece)
        check(program.returncode, target, whole)
        return int(memory.read())


def main():
    print("entries        messages   seconds   messages/s   us/message   peak MiB")
    for name, per_entry in (("one each", 1), ("of 1 MiB", MAX_ENTRY_BYTES // len(MESSAGE))):
        for count in (1_000, 10_000, 100_000):
            with tempfile.NamedTemporaryFile() as file:
                file.write(transcript(count, per_entry))
                file.flush()
                seconds, peak = run(file.name, count)
            print(f"{name:12} {count:10}   {seconds:7.3f}   {count / seconds:10.0f}   {seconds / count * 1e6:10.2f}   "
                  f"{peak / 1024:8.1f}")
    few, many = peak_of_session(8), peak_of_session(1024)
    print(f"one session: {few / 1024:.1f} MiB at the most after 8 MiB, {many / 1024:.1f} after 1 GiB")
    if many * 4 > few * 5:
        sys.exit("a session keeps what it has answered")


if __name__ == "__main__":
    sys.exit(shown("replay.py", main))
