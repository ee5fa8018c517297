#!/usr/bin/env python3
"""Runs the real program from outside: exit statuses, lines on standard error, and what `pdpd replay` reads and writes.

usage: tests/program.py [PROGRAM [PART..]]     the program, crates/pdpd/out/pdpd if none is named: the CI gate and
                                               `make pdpd` leave it there; and the parts that are run, all if none is
                                               named: functions of tests/program_parts

What is expected is worked out there, from the page of the program (docs/guide/RUNNING.md), and never by the program.
"""
import sys

sys.dont_write_bytecode = True
from checks import is_program  # noqa: E402
from program_parts import command_line, connections, entries, failing, routes  # noqa: E402
from program_parts.shared import PROGRAM, checks  # noqa: E402

PARTS = (
    command_line.command_lines, entries.bytes_of_headings, entries.headings, entries.cuts, entries.single,
    entries.pipes, entries.reads,
    connections.sizes, connections.behind_what_is_held, connections.replies, connections.connections,
    connections.many_connections, connections.used_again,
    routes.routes, routes.mixed_routes, routes.removed, routes.moments, routes.examples,
    failing.failing, failing.memory)


def main():
    if not is_program(checks.name, PROGRAM):
        return 2
    checks.run(PARTS, sys.argv[2:])
    return checks.status()


if __name__ == "__main__":
    sys.exit(main())
