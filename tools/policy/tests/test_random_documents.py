"""Random documents with one to three faults at known places: each is named there, and the first of
the server among them."""
from __future__ import annotations

import concurrent.futures
import os
import unittest

from .desk_tests import PROGRAM, check
from .faulty import Faulty

COUNT, SHARE = 5000, 250


def misses(found: check.Checked, puts: list) -> list[str]:
    """What the desk doesn't name at its place."""
    named = {(one.code, one.start) for one in found.remarks.faults()}
    missed = [f"{put.code} at {put.pointer}, offset {offset}"
              for put, offset in puts if (put.code, offset) not in named]
    firsts = [one.code for one in found.remarks.faults() if one.is_first]
    return missed + [f"the server's first fault, {found.code}"] * (firsts != [found.code])


def share(seed: int, count: int = SHARE) -> list[tuple[str, str | None, list[str]]]:
    """Documents of a seed, each with the code that the desk says the server answers, and what it misses."""
    source, made = Faulty(seed), []
    for _ in range(count):
        held, puts = source.document()
        found = check.checked("random.json", held.encode())
        made.append((held, found.code, misses(found, puts)))
    return made


def shares(function, count: int, size: int) -> list:
    """What the function gives for each seed, on all processors."""
    with concurrent.futures.ProcessPoolExecutor(os.cpu_count()) as pool:
        return [one for found in pool.map(function, range(1, count // size + 1)) for one in found]


class RandomDocuments(unittest.TestCase):
    """Faults at known places."""

    def test_each_fault_is_named(self) -> None:
        found = shares(share, COUNT, SHARE)
        self.assertEqual(len(found), COUNT)
        for held, _, missed in found:
            self.assertEqual(missed, [], held)
        if PROGRAM is not None:
            from desk.model import rows
            answers = PROGRAM.answers([["document", rows.encoded(held)] for held, _, _ in found])
            for (held, code, _), fields in zip(found, answers):
                self.assertEqual(fields[0] if fields[0].startswith("!") else None, code and f"!{code}", held)


if __name__ == "__main__":
    unittest.main()
