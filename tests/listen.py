#!/usr/bin/env python3
"""Runs `pdpd listen` from outside, where it differs from `pdpd serve`: many connections at once, those that are slow,
silent, broken or too many, and the ways in which it begins and ends. What both have in common `tests/serve.py
--listen` tries.

usage: tests/listen.py [PROGRAM [PART..]]    the program, crates/pdpd/out/pdpd if none is named; and the parts that are
                                             run, all if none is named: functions of tests/listen_parts

What is expected is worked out there, from the page of the program (docs/guide/RUNNING.md), and never by the program. A
proxy, a network that delays and other clients are taken where they are there; a part that has to leave one out says so.
"""
import pathlib
import subprocess
import sys

sys.dont_write_bytecode = True
sys.argv.insert(1, "--listen")
from checks import is_program  # noqa: E402
from listen_parts import (  # noqa: E402
    addresses, changes, clients, crowds, ends, kills, little, parting, readers, waiting)
from serve_parts.shared import PROGRAM, TOKEN_FILE, folder  # noqa: E402
from listen_parts.shared import checks  # noqa: E402
from serving import OPERATOR  # noqa: E402

PARTS = (
    crowds.together, crowds.crowded, crowds.driven_out, crowds.busy, crowds.resets, crowds.descriptors,
    waiting.silent, waiting.slow, waiting.slow_body, waiting.unwoken, waiting.told, waiting.refusals,
    readers.never_reads, readers.slow_readers, readers.bounded, little.memory,
    parting.behind_faults, parting.over_a_slow_network, parting.over_late_packets, parting.stays_bounded,
    ends.by_input, ends.at_the_door, ends.half_a_message, ends.by_terminal, ends.by_signal, ends.written_over,
    ends.input_unwatched,
    addresses.internet, addresses.unix, addresses.occupied, addresses.unusable,
    changes.routed, changes.one_at_a_time, changes.kept, changes.stays, changes.at_a_path, changes.at_the_end,
    changes.told, changes.unusable,
    clients.old_curl, clients.pooled, clients.pooled_by_java, clients.proxied,
    kills.under_writers)


def main():
    try:
        if not is_program(checks.name, PROGRAM):
            return 2
        pathlib.Path(TOKEN_FILE).write_text(f"{OPERATOR}\n", encoding="ascii")
        checks.run(PARTS, sys.argv[3:])
    finally:
        subprocess.run(["rm", "-rf", str(folder)], check=True)
    return checks.status()


if __name__ == "__main__":
    sys.exit(main())
