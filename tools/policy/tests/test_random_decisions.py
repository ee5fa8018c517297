"""Random decisions: the response of `ask` is the proved program's, and the explanation comes to the same decisions."""
from __future__ import annotations

import unittest

from .desk_tests import PROGRAM, check
from .test_random_documents import shares

import agree  # noqa: E402
from desk import ask, explain, setting  # noqa: E402
from desk.model import decisions, route_bodies, rows, versions  # noqa: E402

COUNT, SHARE = 5000, 250


def setting_of(row: list[str]) -> tuple[setting.Setting, bytes, int]:
    """What a row of a decision says, as the desk reads it from files; and the request and the moment."""
    documents = [check.checked("random.json", rows.decoded(field[7:])) for field in row if field.startswith("active:")]
    root = [versions.reference_of(field[5:]) for field in row[1:-1] if field.startswith("root:")]
    moments = [int(field[7:]) for field in row[1:-1] if field.startswith("moment:")]
    source = [decisions.row_of(field[4:]) for field in row[1:-1] if field.startswith("row:")]
    held = check.checked_rows("rows.json", route_bodies.rows_shown(source))
    return (setting.Setting(documents, root[0] if root else None, held), rows.decoded(row[-1]),
            moments[0] if moments else 0)


def share(seed: int, count: int = SHARE) -> list[tuple[list[str], list[str], str, bool]]:
    """Random rows, each with the row that the desk asks, the model's response, and whether the
    explanation comes to the same."""
    source, found = agree.Rows(seed), []
    for _ in range(count):
        row = source.makers["decisions"]()
        held, body, moment = setting_of(row)
        answer = ask.answered(held, [(body, moment)], None)[0]
        found.append((row, ask.row_of(held, body, moment), answer.body,
                      ask.is_explained(answer.results(), explain.explained(held, body, moment))))
    return found


def answers(asked: list[list[str]]) -> list[str]:
    return [rows.decoded(fields[0]).decode() for fields in PROGRAM.answers(asked)]


class RandomDecisions(unittest.TestCase):
    """Responses and explanations."""

    def test_responses_and_explanations(self) -> None:
        found = shares(share, COUNT, SHARE)
        self.assertEqual(len(found), COUNT)
        self.assertGreater(sum("Permit" in body for _, _, body, _ in found), COUNT // 20)
        self.assertGreater(sum("Indeterminate" in body for _, _, body, _ in found), COUNT // 20)
        for row, _, body, is_explained in found:
            self.assertTrue(is_explained, f"{rows.line(row)} {body}")
        if PROGRAM is not None:
            by_desk, as_made = answers([asked for _, asked, _, _ in found]), answers([row for row, _, _, _ in found])
            for (row, _, body, _), one, other in zip(found, by_desk, as_made):
                self.assertEqual((body, body), (one, other), rows.line(row))


if __name__ == "__main__":
    unittest.main()
