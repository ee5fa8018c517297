#!/usr/bin/env python3
"""Tries what clients/ has, beside the real program and beside servers that answer wrongly: the client for Python,
guards, the program in Java, and the enforcement points of nginx and HAProxy.

usage: tests/client.py [--whole] PDPD [PART..]     the program, and the parts that are run, all if none is named:
                                                   functions of client_parts/. With --whole a part fails whose
                                                   programs aren't there; else the last lines name it
"""
import sys

sys.dont_write_bytecode = True
WHOLE = "--whole"
IS_WHOLE = WHOLE in sys.argv
sys.argv = [word for word in sys.argv if word != WHOLE]

from client_parts import shared, hostile, mapping, points, readings, real, recipes  # noqa: E402
from checks import is_program  # noqa: E402

PARTS = (real.values, real.several, real.obligations, real.administration, real.threads, real.keeps_and_changes,
         real.under_asyncio,
         hostile.decisions, hostile.cuts, hostile.slowness, hostile.secrets, hostile.mistakes,
         recipes.types, recipes.wheel, recipes.java, recipes.wsgi, recipes.asgi, recipes.flask_views, recipes.page,
         readings.odd_paths, readings.odd_methods, readings.flask_readings,
         readings.odd_forms,
         mapping.mapping, points.grants, points.underscores, points.odd_fields, points.rewrites,
         points.obligations_there, points.faulty, points.two_readings, points.letters,
         points.certificates, points.kept, points.crowds, points.script_errors, points.pages)


def main():
    if not is_program("tests/client.py", shared.PROGRAM):
        return 2
    shared.checks.run(PARTS, sys.argv[2:])
    for what in shared.untried:
        if IS_WHOLE:
            shared.expect(f"{what} is there", False, True)
        else:
            print(f"NOT TRIED: {what}")
    return shared.checks.status()


if __name__ == "__main__":
    sys.exit(main())
