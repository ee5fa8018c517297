#!/usr/bin/env python3
"""Runs `pdpd serve` or `pdpd listen` from outside, over real sockets and files in a temporary folder: what it answers,
keeps and refuses, and that it goes on.

usage: tests/serve.py [--listen] [PROGRAM [PART..]]
                                             by `pdpd serve`; or by `pdpd listen`, all but the parts of ONE_BY_ONE
                                             the program, crates/pdpd/out/pdpd if none is named: the CI gate and
                                             `make pdpd` leave it there; and the parts that are run, all if none is
                                             named: functions of tests/serve_parts

What is expected is worked out there, from the page of the program (docs/guide/RUNNING.md), and never by the program. A
small disk is a file system in memory that is mounted for the purpose, which takes the rights of root; without them
that part is left out, and a line says so.
"""
import pathlib
import subprocess
import sys

sys.dont_write_bytecode = True
from checks import is_program  # noqa: E402
from serve_parts import (  # noqa: E402
    command_line, costs, disks, limits, memory, sizes, sockets, stores, streams, walks)
from serve_parts.shared import PROGRAM, TOKEN_FILE, checks, folder  # noqa: E402
from serving import COMMAND, OPERATOR  # noqa: E402

PARTS = (
    walks.walk, walks.fewer_rows,
    streams.single_bytes, streams.cuts, streams.garbage, streams.silent, streams.mixed, streams.pipelined,
    streams.unread, streams.many_at_once, streams.large, streams.closing, streams.parted,
    disks.kills, disks.full_disk, disks.shut,
    command_line.usages, command_line.addresses, command_line.settings, command_line.unknown_settings,
    command_line.token_files, command_line.shared_token, command_line.order_of_faults,
    stores.no_databases, stores.no_stores, stores.half_stores, stores.lost_logs, stores.modes,
    sockets.sockets, sockets.taking, memory.memory, memory.refused_at_start,
    memory.connections_leave_nothing, memory.stack, memory.address_space, disks.file_size, sockets.idle,
    limits.long_replies, limits.limits, limits.limits_told, limits.failures_told, limits.work_unless_set,
    limits.reading_and_views,
    sizes.long_parts, sizes.many_domains, sizes.long_text, sizes.many_assignments, sizes.full_domain,
    costs.single, costs.looks, costs.kept, costs.at_once, sockets.last)

# What holds of `pdpd serve` alone, and why; tests/listen.py has what holds of `pdpd listen` in its place.
ONE_BY_ONE = {
    "silent": "the next connection doesn't wait for one that is silent",
    "last": "no connection is the last: any number is taken",
    "memory": "want of memory for a piece or an answer ends that connection, and the program goes on",
    "address_space": "as for memory",
}


def parts_of(command):
    """The parts that hold of a command."""
    return [part for part in PARTS if command == "serve" or part.__name__ not in ONE_BY_ONE]


def main():
    words = [word for word in sys.argv[1:] if word != "--listen"]
    try:
        if not is_program(checks.name, PROGRAM):
            return 2
        pathlib.Path(TOKEN_FILE).write_text(f"{OPERATOR}\n")
        checks.run(parts_of(COMMAND), words[1:])
    finally:
        subprocess.run(["rm", "-rf", str(folder)], check=True)
    return checks.status()


if __name__ == "__main__":
    sys.exit(main())
