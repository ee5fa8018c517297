#!/usr/bin/env python3
"""Tries pdpd-replica and pdpd-log (deploy/log) over the real program: first without HAProxy, as which the test passes
messages on, then behind it, if it is installed. What is expected is worked out from the pages, or by pdpd itself where
a client that goes past the daemon has to get the same.

usage: tests/audit.py [PROGRAM [PART..]] [--seed N] [--kills N] [--seconds N] [--askers N]
                      [--record FILE]

The program, and the parts that are run, all if none is named: functions of tests/audit_parts. `kills` kills so often
(12), but no more after so many seconds, beside so many who ask (6), and writes what it did into a file.
"""
import pathlib
import shutil
import signal
import sys

sys.dont_write_bytecode = True
sys.path.insert(0, str(pathlib.Path(__file__).resolve().parent.parent / "deploy"))
from checks import is_program  # noqa: E402
from audit_parts import (  # noqa: E402
    archives, checkpoints, daemon, kills, looking, order, proxied, receiving, tools, twice, under_way)
from audit_parts.shared import PROGRAM, checks, folder, memory  # noqa: E402

PARTS = tuple(part for module in (archives, checkpoints, order, under_way, twice, looking, daemon, tools, receiving,
                                  proxied, kills)
              for part in module.PARTS)


def main():
    # what was started is ended, whoever ends this
    signal.signal(signal.SIGTERM, lambda number, _: sys.exit(128 + number))
    try:
        if not is_program(checks.name, PROGRAM):
            return 2
        checks.run(PARTS, sys.argv[2:])
    finally:
        for one in (folder, memory):
            shutil.rmtree(one, ignore_errors=True)
    return checks.status()


if __name__ == "__main__":
    sys.exit(main())
