#!/usr/bin/env python3
"""Tries the replicas of deploy/replica: the models of their core, the core itself over a log that loses and delays
what it is told, and three daemons over three members of etcd and three pdpd, on the loopback of this machine.

usage: tests/replicas.py [PROGRAM [PART..]] [--seed N] [--kills N] [--askers N]

The program, and the parts that are run, all if none is named: functions of tests/replica_parts. `models` takes spin
and gcc, some minutes and 1 GB; the parts with daemons take etcd.
"""
import pathlib
import shutil
import signal
import sys

sys.dont_write_bytecode = True
sys.path.insert(0, str(pathlib.Path(__file__).resolve().parent.parent / "deploy"))
from checks import is_program  # noqa: E402
from audit_parts.shared import PROGRAM, checks, folder, memory  # noqa: E402
from replica_parts import (  # noqa: E402
    around, core, etcds, faults, followers, groups, joining, kills, lives, models, older, tools)

MODULES = (models, core, around, tools, older, joining, etcds, groups, followers, faults, kills, lives)
PARTS = tuple(part for module in MODULES for part in module.PARTS)


def main():
    checks.name = "tests/replicas.py"
    # what was started is ended, whoever ends this
    signal.signal(signal.SIGTERM, lambda number, _: sys.exit(128 + number))
    try:
        if not is_program(checks.name, PROGRAM):
            return 2
        checks.run(PARTS, sys.argv[2:])
    finally:
        for one in (folder, memory):
            shutil.rmtree(one, ignore_errors=True)
    return checks.status()


if __name__ == "__main__":
    sys.exit(main())
