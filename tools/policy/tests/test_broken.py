"""Each kind of test fails where what it tests is broken: the desk is broken in a place, and the test has to notice."""
from __future__ import annotations

import contextlib
import io
import unittest
from collections.abc import Callable
from unittest import mock

from . import (
    test_commands, test_folders, test_lints, test_positions, test_random_decisions, test_random_documents, test_slips)
from .desk_tests import PROGRAM, check, faults, lints, positions, together

from desk import (  # noqa: E402
    ask, asking, cases, contradictions, coverage, domain, explain, kinds, laid_out, made, names, setting, shapes,
    text, tracing)
from desk.model import policies  # noqa: E402

HALF, SEEDS = 60, range(3, 9)


def nothing(*_: object, **__: object) -> None:
    """Does nothing."""


def misses() -> bool:
    """Whether the test of random documents finds something, with one seed after another: a rare kind of fault isn't
    among the documents of the first."""
    try:
        return any(missed for seed in SEEDS for _, _, missed in test_random_documents.share(seed, HALF))
    except check.Disagreement:
        return True


def unexplained() -> bool:
    """Whether the test of random decisions finds something."""
    return not all(is_explained for _, _, _, is_explained in test_random_decisions.share(3, HALF))


def fails(case: type[unittest.TestCase], name: str) -> Callable[[], bool]:
    """Whether a test fails."""
    def failed() -> bool:
        result = unittest.TestResult()
        with contextlib.redirect_stdout(io.StringIO()), contextlib.redirect_stderr(io.StringIO()):
            case(name).run(result)
        return not result.wasSuccessful()
    return failed


def shifted(remarks: faults.Remarks, code: str, node: positions.Node, sentence: str, **more: str) -> None:
    """A fault one letter behind its place."""
    remarks.found.append(faults.Remark("fault", code, node.source, node.start + 1, node.end, node.pointer,
                                       sentence, **more))


def last_first(found: list[faults.Remark]) -> str | None:
    """Marks the last fault as the first."""
    if found:
        found[-1].is_first = True
    return found[-1].code if found else None


def permits(*_: object) -> policies.Evaluated:
    return policies.without_duties("Permit")


# what is broken, by what it is replaced, and the test that has to notice
BREAKS: list[tuple[object, str, object, Callable[[], bool]]] = [
    (shapes.Shapes, "effect", lambda self, node: node.value, misses),
    (shapes.Shapes, "flag", lambda self, node: node.value, misses),
    (shapes.Shapes, "unknown_member", nothing, misses),
    (shapes.Shapes, "strays", nothing, misses),
    (kinds.Kinds, "fit", nothing, misses),
    (kinds.Kinds, "variable", nothing, misses),
    (kinds.Kinds, "unknown_function", nothing, misses),
    (faults.Remarks, "fault", shifted, misses),
    (check, "marked", last_first, misses),
    (positions.Reader, "slip", nothing, misses),
    (explain.Explainer, "rule", lambda self, tracing, rule,
     element: ({"element": "rule", "id": "", "target": {"is": "Match"}, "decision": "Permit", "status": "ok"},
               permits()),
     unexplained),
    (explain.Explainer, "children", lambda self, tree, *_: ([], []), unexplained),
    (explain, "individuals", lambda held: [], unexplained),
    (explain, "individuals", nothing, unexplained),
    (explain, "named", lambda evaluated: {}, unexplained),
    (names, "nearest", lambda name, known: "", fails(test_slips.Slips, "test_each_slip")),
    (names, "nearest_by_end", lambda name, known: "", fails(test_slips.Slips, "test_each_slip")),
    (kinds, "way_for_bag", lambda *_: "", fails(test_slips.Slips, "test_a_forgotten_one_and_only")),
    (kinds, "way_from", lambda found, wanted: "",
     fails(test_slips.Slips, "test_a_forgotten_one_and_only_of_three_arguments")),
    (asking.Asking, "ignored", nothing, fails(test_slips.Slips, "test_a_misspelt_member_of_a_request")),
    (setting, "check_root", nothing, fails(test_slips.Slips, "test_a_root_that_leads_nowhere")),
    (lints.Lints, "row_categories", nothing, fails(test_slips.Slips, "test_rows_of_a_shorthand")),
    (lints.Lints, "no_rules", nothing, fails(test_slips.Slips, "test_no_rules")),
    (lints.Lints, "idle", nothing, fails(test_lints.Lints, "test_idle_rules")),
    (lints, "is_unconditional", lambda rule: True, fails(test_lints.Lints, "test_idle_rules")),
    (contradictions, "contradiction", nothing, fails(test_lints.Lints, "test_targets_that_never_match")),
    (contradictions, "empty_range", nothing, fails(test_lints.Contradictions, "test_against_all_integers")),
    (together.Together, "follow", nothing, fails(test_lints.Together, "test_circles")),
    (together.Together, "check_target", nothing, fails(test_lints.Together, "test_a_reference_that_leads_nowhere")),
    (positions, "ESCAPES", {**positions.ESCAPES, "n": "x"},
     fails(test_positions.Positions, "test_the_value_is_the_models")),
    (positions.Source, "place", lambda self, offset: positions.Place(1, offset),
     fails(test_positions.Positions, "test_places")),
    (laid_out, "shown", lambda results: "", fails(test_commands.Commands, "test_ask")),
    (ask.Answer, "agrees", True, fails(test_commands.Commands, "test_a_program_that_says_otherwise")),
    (tracing.Origins, "near", lambda self, designator: [], fails(test_commands.Commands, "test_what_is_nearly_found")),
    (tracing.Origins, "short_entity", lambda self, category: "",
     fails(test_commands.Commands, "test_what_is_nearly_found")),
    (names, "may_be_meant", lambda held, wanted: held == wanted,
     fails(test_commands.Commands, "test_what_is_nearly_found")),
    (domain, "is_domain", lambda folder: False, fails(test_folders.Folders, "test_check_of_a_domain")),
    (domain, "is_about_a_domain", lambda path: False, fails(test_folders.Folders, "test_cases_of_a_domain")),
    (names, "other_file", lambda members: "", fails(test_folders.Files, "test_a_file_of_another_kind")),
    (text, "of_server", lambda code: code, fails(test_folders.Files, "test_the_code_that_the_server_answers")),
    (cases, "differences", lambda expected, given: [], fails(test_commands.Cases, "test_cases_that_fail")),
    (coverage.Coverage, "add", nothing, fails(test_commands.Cases, "test_coverage")),
    (made.Maker, "request", lambda self: (b'{"Request":{}}', 0),
     fails(test_commands.Cases, "test_random_requests_find_what_changes")),
]


class Broken(unittest.TestCase):
    """Breaks the desk."""

    def test_each_break_is_noticed(self) -> None:
        self.assertFalse(misses())
        self.assertFalse(unexplained())
        for where, name, instead, noticed in BREAKS:
            with self.subTest(f"{getattr(where, '__name__', where)}.{name}"), mock.patch.object(where, name, instead):
                self.assertTrue(noticed())

    def test_another_answer_of_the_program_is_noticed(self) -> None:
        answered = [("one", "a", "a"), ("other", "a", "b")]
        with contextlib.redirect_stderr(io.StringIO()):
            self.assertFalse(test_commands.all_agree(answered))
            self.assertTrue(test_commands.all_agree(answered[:1]))
        if PROGRAM is not None:
            with mock.patch.object(test_random_decisions.ask, "row_of", lambda setting, held,
                                   moment: ["decide", *setting.fields(), "moment:0", "{}"]):
                _, asked, body, _ = test_random_decisions.share(3, 1)[0]
            self.assertNotEqual(test_random_decisions.answers([asked])[0], body)


if __name__ == "__main__":
    unittest.main()
