"""The lines of entries, and transcripts that are cut or come in pieces."""
import os
import re
import resource
import shutil
import signal
import subprocess
import tempfile
import time

from checks import Between
from growths import compiled
from said import FAILED
from sent import OPERATOR

from .shared import (
    ASK, BEGUN, FIRST_MOMENT, LAST_MOMENT, MOST_BYTES, PROGRAM, REPLY, beginning, checks, entry, expect, replay, run,
    within, written)

DIGITS = re.compile(rb"\A[0-9]+\Z")
LONG_LINE = b"the line before it has more than 64 bytes"
CUT_LINE = b"the transcript ends within the line before it"
PARTS = b"the line before it hasn't three parts, with one space between"
BAD_CONNECTION = b"its connection is no number from 0 to 63"
BAD_MOMENT = b"its moment is no number of seconds within the years 0001 to 9999"
BAD_COUNT = b"its count is no number of at most 1048576"
CUT_BYTES = b"the transcript ends within its bytes"
NO_LINE_FEED = b"no line feed stands behind its bytes"


def malformed(number, fault):
    """The line that says what is wrong with the entry of that number, and the exit status."""
    return b"pdpd: entry %d: %s\n" % (number, fault), 3


# ---- the lines of entries

def is_number(text, most):
    return bool(DIGITS.match(text)) and int(text) <= most


def fault_of(text):
    """What is wrong with the entry at the front of a text, if something is."""
    line, feed, rest = text.partition(b"\n")
    if len(line) > 64:
        return LONG_LINE
    if not feed:
        return CUT_LINE
    parts = line.split(b" ")
    if len(parts) != 3:
        return PARTS
    connection, moment, count = parts
    before = moment.startswith(b"-")
    if not is_number(connection, 63):
        return BAD_CONNECTION
    if not is_number(moment[1:] if before else moment, -FIRST_MOMENT if before else LAST_MOMENT):
        return BAD_MOMENT
    if not is_number(count, MOST_BYTES):
        return BAD_COUNT
    if len(rest) < int(count):
        return CUT_BYTES
    return None if rest[int(count):int(count) + 1] == b"\n" else NO_LINE_FEED


BEFORE, BEHIND = entry(1, 0, ASK), ASK + b"\n"


def bytes_of_headings():
    """Each byte of two headings replaced by each other one."""
    faults = set()
    for line in (b"0 0 105\n", b"63 -1 105\n"):
        for place in range(len(line)):
            for byte in range(256):
                other = line[:place] + bytes([byte]) + line[place + 1:]
                fault = fault_of(other + BEHIND)
                if fault:
                    faults.add(fault)
                    expect(f"heading {other!r}", replay(BEFORE + other + BEHIND),
                           (written(1, REPLY), *malformed(4, fault)))
    expect("faults of headings", faults, {PARTS, BAD_CONNECTION, BAD_MOMENT, BAD_COUNT, CUT_BYTES, NO_LINE_FEED})


def headings():
    """Headings at the bounds of their numbers, and others."""
    good = [b"00 0 105", b"0 -0 105", b"0 0 0000105", b"%d %d 105" % (63, FIRST_MOMENT), b"0 %d 105" % LAST_MOMENT,
            b"0 " + b"0" * 58 + b" 105"]
    for line in good:
        assert len(line) <= 64
        expect(f"heading {line!r}", replay(line + b"\n" + BEHIND), (written(int(line.split()[0]), REPLY), b"", 0))
    bad = {b"64 0 105": BAD_CONNECTION, b"+0 0 105": BAD_CONNECTION, b"x 0 0": BAD_CONNECTION,
           b"64 x 1048577": BAD_CONNECTION, b"0 %d 105" % (FIRST_MOMENT - 1): BAD_MOMENT,
           b"0 %d 105" % (LAST_MOMENT + 1): BAD_MOMENT, b"0 +0 105": BAD_MOMENT, b"0 -- 105": BAD_MOMENT,
           b"0 - 105": BAD_MOMENT, b"0 x -1": BAD_MOMENT, b"0 0 1048577": BAD_COUNT, b"0 0 105\r": BAD_COUNT,
           b"0 0 +105": BAD_COUNT, b"0 0 -105": BAD_COUNT, b"": PARTS, b"0": PARTS, b"0 0": PARTS, b"0 0 105 ": PARTS,
           b" 0 0 105": PARTS, b"0  0 105": PARTS, b"x" * 64: PARTS, b"0 " + b"0" * 59 + b" 105": LONG_LINE,
           b"x" * 65: LONG_LINE, b"x" * 200: LONG_LINE}
    for line, fault in bad.items():
        expect(f"heading {line!r}", replay(BEFORE + line + b"\n" + BEHIND), (written(1, REPLY), *malformed(4, fault)))
    for number in (1, 2, 63, 64, 65, 1_000):
        expect(f"entry {number} is malformed", run(entry(5, 0, b"") * (number - 1) + b"0 0\n" + entry(5, 0, b"")),
               (b"", *malformed(number, PARTS)))


# ---- what is cut, and what comes in pieces

def cuts():
    """A transcript that ends within an entry, and a message in two entries."""
    first, second = entry(0, 0, ASK), entry(0, 0, ASK)
    for kept in range(len(second)):
        end = malformed(4, fault_of(second[:kept])) if kept else (b"", 0)
        expect(f"cut after {kept} bytes of the second entry", replay(first + second[:kept]), (written(0, REPLY), *end))
    for feed in (b"x", b"\r", b"\r\n", b"0", b"\0\n"):
        expect(f"{feed!r} in place of the line feed", replay(first + second[:-1] + feed),
               (written(0, REPLY), *malformed(4, NO_LINE_FEED)))
    expect("a line without an end", replay(first + b"0" * 65), (written(0, REPLY), *malformed(4, LONG_LINE)))
    expect("a count alone", replay(first + b"1 0 1048577\n"), (written(0, REPLY), *malformed(4, BAD_COUNT)))
    expect("more bytes than come", replay(first + b"1 0 1048576\n" + ASK),
           (written(0, REPLY), *malformed(4, CUT_BYTES)))
    for place in range(1, len(ASK)):
        pieces = entry(0, 0, ASK[:place]) + entry(0, 0, ASK[place:])
        expect(f"a message in two pieces, cut after {place} bytes", replay(pieces), (written(0, REPLY), b"", 0))
    single = b"".join(entry(0, 0, ASK[at:at + 1]) for at in range(len(ASK)))
    expect("a message in pieces of one byte", replay(single), (written(0, REPLY), b"", 0))


# How many entries have one byte, how often each run is made, and how much longer one may take than another.
SINGLE, RUNS, MOST_TIMES = 15_000, 3, 2.5


def seconds_of_single(first, rest):
    """The least processor time of a run over an entry, and over others that have a byte each."""
    transcript = entry(0, 0, first) + b"".join(entry(0, 0, rest[at:at + 1]) for at in range(SINGLE))
    found = []
    for _ in range(RUNS):
        before = resource.getrusage(resource.RUSAGE_CHILDREN)
        expect("single bytes", run(transcript), (b"", b"", 0))
        after = resource.getrusage(resource.RUSAGE_CHILDREN)
        found.append(after.ru_utime + after.ru_stime - before.ru_utime - before.ru_stime)
    return min(found)


def single():
    """Bytes of a head, of a target, and of a body behind a long head, one by one, take as long as those of a body."""
    fields = b"".join(b"X-%d-%s:\r\n" % (number, b"n" * 235) for number in range(62))
    begun = b"POST /domains/acme/pdp HTTP/1.1\r\nContent-Length: 524288\r\n"
    of_body = seconds_of_single(begun + b"\r\n", b" " * SINGLE)
    for what, first, rest in (("a head", begun, fields), ("a target", b"GET /", b"a" * SINGLE),
                              ("a body behind a long head", begun + fields + b"\r\n", b" " * SINGLE)):
        within(f"how much longer {SINGLE} bytes of {what} take", seconds_of_single(first, rest) / of_body,
               Between(0, MOST_TIMES))


def replaying():
    return subprocess.Popen([PROGRAM, "replay", OPERATOR], stdin=subprocess.PIPE, stdout=subprocess.PIPE,
                            stderr=subprocess.PIPE, bufsize=0)


def pipes():
    """The transcript comes a byte at a time, and in pieces of other sizes."""
    transcript = beginning() + entry(0, 0, ASK) + entry(1, 0, ASK + ASK)
    wanted = (BEGUN + written(0, REPLY) + 2 * written(1, REPLY), b"", 0)
    for size in (1, 7, 64, 104):
        with replaying() as ran:
            for at in range(0, len(transcript), size):
                ran.stdin.write(transcript[at:at + size])
                if at % 10 == 0:
                    time.sleep(0.001)
            found = (*ran.communicate(timeout=60), ran.returncode)
        expect(f"a pipe by {size} bytes", found, wanted)
    with replaying() as ran:
        for at in range(0, len(transcript), 40):
            for number in (signal.SIGSTOP, signal.SIGCONT):
                ran.send_signal(number)
            ran.stdin.write(transcript[at:at + 40])
            time.sleep(0.005)
        found = (*ran.communicate(timeout=60), ran.returncode)
    expect("stopped and continued while it reads", found, wanted)


# Instead of the system's: a transcript comes in pieces of one byte, and then each read is interrupted. How many reads
# there were is told at the end.
COUNTED_READS = r"""
#define _GNU_SOURCE
#include <dlfcn.h>
#include <errno.h>
#include <stdio.h>
#include <stdlib.h>
#include <unistd.h>

static long reads, bytes, ended;

ssize_t read(int from, void *to, size_t length) {
    static ssize_t (*next)(int, void *, size_t);
    if (!next) next = dlsym(RTLD_NEXT, "read");
    if (from != 0) return next(from, to, length);
    reads++;
    if (!ended && next(0, to, length < 1 ? length : 1) == 1) return bytes++, 1;
    ended = 1;
    errno = EINTR;
    return -1;
}

__attribute__((destructor)) static void tell(void) {
    fprintf(stderr, "%ld reads, %ld bytes\n", reads, bytes);
}
"""


def reads():
    """A transcript is read from 1,000,000,000 times in all, also where every byte comes by itself and where a
    read is interrupted."""
    if not shutil.which("cc"):
        print(f"{checks.name}: there is no C compiler cc: how often a transcript is read from is left out")
        return
    transcript = beginning() + entry(0, 0, ASK)
    with tempfile.TemporaryDirectory() as folder:
        library = compiled(COUNTED_READS, f"{folder}/reads.so", "-O2")
        found = run(transcript, env={**os.environ, "LD_PRELOAD": library}, timeout=600)
    said = FAILED + b"1000000000 reads, %d bytes\n" % len(transcript)
    expect("a transcript that is read from without an end", found, (BEGUN + written(0, REPLY), said, 1))
