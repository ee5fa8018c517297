#!/usr/bin/env python3
"""Holds the tables of `pdpd serve` against Python's own sqlite3: the file is an ordinary one of
SQLite, in both directions.

usage: tests/tables.py [PROGRAM [PART..]]     the program, crates/pdpd/out/pdpd if none is named: the CI gate and
                                              `make pdpd` leave it there; and the parts that are run, all if none is
                                              named: functions of tests/tables_parts

sqlite3 finds in a file that the program wrote the tables, column for column, and the rows that the messages imply by
the model of the server in tests/model; a file that sqlite3 wrote opens and answers; one of schema 1 is brought over
into schema 2, and one with a damaged row is refused with status 4 and left as it is.
"""
import pathlib
import subprocess
import sys

sys.dont_write_bytecode = True
from checks import is_program  # noqa: E402
from serving import OPERATOR  # noqa: E402
from tables_parts import first, foreign, greatest, own, refused, sums  # noqa: E402
from tables_parts.shared import PROGRAM, TOKEN_FILE, checks, folder  # noqa: E402

PARTS = (
    own.fresh, own.all_values, own.walks,
    foreign.journals, foreign.sparse, foreign.short,
    first.first_schema, first.first_without_domains, first.first_in_another_order,
    greatest.greatest, greatest.full, refused.damaged, refused.foreign, refused.of_another, refused.made_otherwise,
    refused.orphans, refused.another_meta, sums.flipped, sums.as_asked, sums.spoiled, sums.vacuumed)


def main():
    try:
        if not is_program(checks.name, PROGRAM):
            return 2
        pathlib.Path(TOKEN_FILE).write_text(f"{OPERATOR}\n")
        checks.run(PARTS, sys.argv[2:])
    finally:
        subprocess.run(["rm", "-rf", str(folder)], check=True)
    return checks.status()


if __name__ == "__main__":
    sys.exit(main())
