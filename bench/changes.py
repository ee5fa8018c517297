#!/usr/bin/env python3
"""What a change takes through HAProxy with AUDIT=0 and AUDIT=1, and a decision with DECISIONS=0 and 1: as one client
sees it, one after another; how many a second eight clients get; and the processor time of each program for one.

Usage: bench/changes.py [--count N] [--write] [PDPD]     PDPD: the built program (build/pdpd, which `make pdpd` makes)
                                                         N: how many of each
                                                         --write: the table is written into docs/PERFORMANCE.md too
"""
import argparse
import os
import pathlib
import re
import statistics
import sys
import threading
import time

sys.dont_write_bytecode = True
TOP = pathlib.Path(__file__).resolve().parent.parent
sys.path[:0] = [str(TOP / "tests"), str(TOP / "deploy")]
from page import Machine, shown  # noqa: E402

words = argparse.ArgumentParser(description=__doc__, formatter_class=argparse.RawDescriptionHelpFormatter)
words.add_argument("--count", type=int, default=400)
words.add_argument("--write", action="store_true")
words.add_argument("program", nargs="?", default=str(TOP / "build" / "pdpd"), metavar="PDPD")
given = words.parse_args()
sys.argv[1:] = [os.path.abspath(given.program)]

from audit_parts.proxied import ADMIN, ASKS, Proxied, make  # noqa: E402
from audit_parts.shared import folder, memory, status_of  # noqa: E402
from serving import message, policy  # noqa: E402
from shutil import rmtree  # noqa: E402

CLIENTS = 8
WANTED = {"change": 201, "decision": 200}


def form(kind, number):
    """A message that was never sent before."""
    if kind == "change":
        return message("POST", "/domains/acme/pap/policies", ADMIN, policy(policy_id=f"urn:b{number}"))
    return message("POST", "/domains/acme/pdp", ASKS, '{"Request":{"N":%d}}' % number)


def timed(proxied, kind, numbers, times):
    for number in numbers:
        began = time.perf_counter()
        reply = proxied.change(form(kind, number))
        times.append(time.perf_counter() - began)
        if status_of(reply) != WANTED[kind]:
            raise SystemExit(f"a {kind} was answered {reply[:200]!r}")


def processor(process):
    """The processor time of a process, in milliseconds."""
    fields = pathlib.Path(f"/proc/{process.pid}/stat").read_text().rpartition(")")[2].split()
    return 1000 * (int(fields[11]) + int(fields[12])) / os.sysconf("SC_CLK_TCK")


def measured(name, kind, **settings):
    """A line of the table."""
    with Proxied(re.sub(r"\W+", "-", name), **settings) as proxied:
        make(proxied)
        alone, programs = [], (proxied.haproxy, proxied.daemon, proxied.pdpd.process, proxied.receiver)
        before = [processor(one) for one in programs]
        timed(proxied, kind, range(given.count), alone)
        began, shares = time.perf_counter(), []
        for client in range(CLIENTS):
            numbers = range(given.count * (client + 1), given.count * (client + 1) + given.count // CLIENTS)
            shares.append(threading.Thread(target=timed, args=(proxied, kind, numbers, [])))
            shares[-1].start()
        for one in shares:
            one.join()
        rate = CLIENTS * (given.count // CLIENTS) / (time.perf_counter() - began)
        count = given.count + CLIENTS * (given.count // CLIENTS)
        spent = [(processor(one) - old) / count for one, old in zip(programs, before)]
    alone.sort()
    middle, most = 1000 * statistics.median(alone), 1000 * alone[len(alone) * 9 // 10]
    print(f"{name:38}{middle:9.1f}{most:9.1f}{rate:10.0f}" + "".join(f"{one:9.2f}" for one in spent), flush=True)


def table():
    machine = Machine()
    print(f"{'':57}{'a second,':>9}   processor time, ms")
    print(f"{'':38}{'p50, ms':>9}{'p90, ms':>9}{'8 clients':>10}{'HAProxy':>9}{'daemon':>9}{'pdpd':>9}{'lines':>9}")
    try:
        measured("a change, AUDIT=0", "change", AUDIT=0, DECISIONS=0)
        measured("a change, AUDIT=1", "change", DECISIONS=0)
        measured("a decision, DECISIONS=0", "decision", DECISIONS=0)
        measured("a decision, DECISIONS=1", "decision")
        measured("a decision, DECISION_REQUESTS=digest", "decision", DECISION_REQUESTS="digest")
    finally:
        for one in (folder, memory):
            rmtree(one, ignore_errors=True)
    print(machine.told())


if __name__ == "__main__":
    sys.exit(shown("changes.py", table))
