#!/usr/bin/env python3
"""Sends every example of docs/guide/openapi.yaml and of docs/guide/API.md to the real program, each to a fresh server,
and compares the replies byte for byte.

usage: tests/api.py [PROGRAM]     the program, crates/pdpd/out/pdpd if none is named: the CI gate and
                                  `make pdpd` leave it there

The two pages have the same examples. Each names the state from which it starts: a list of earlier messages, which are
examples themselves. The test fails where a route, a status of a route or an error code of the server has no example,
and where an example is not in both pages. What is expected stands in the pages, and tests/api_parts/routes.py says what
they have to cover; nothing is taken from the program.
"""
import pathlib
import sys

sys.dont_write_bytecode = True
from api_parts.coverage import check_openapi, check_page, check_same, check_tables  # noqa: E402
from api_parts.examples import OPENAPI, PAGE  # noqa: E402
from api_parts.openapi import read_openapi  # noqa: E402
from api_parts.page import read_page  # noqa: E402
from api_parts.sending import PROGRAM, checks, send_examples, send_shared, send_short_of_memory  # noqa: E402
from checks import is_program  # noqa: E402
from yaml_part import Wrong, read_yaml  # noqa: E402

TOP = pathlib.Path(__file__).resolve().parent.parent


def main():
    if not is_program(checks.name, PROGRAM):
        return 2
    try:
        check_tables()
        openapi, text = read_yaml(TOP, OPENAPI), (TOP / PAGE).read_text(encoding="utf-8")
        first = read_openapi(openapi)
        second, routes = read_page(text)
        check_same(first, second)
        check_openapi(openapi, first.examples)
        check_page(text, routes)
        send_shared(first)
        for page, pages in ((OPENAPI, first), (PAGE, second)):
            send_examples(page, pages)
            send_short_of_memory(page, pages)
    except Wrong as fault:
        print(f"{checks.name}: {fault}")
        return 1
    print(f"{checks.name}: {len(first.examples)} examples")
    return checks.status()


if __name__ == "__main__":
    sys.exit(main())
