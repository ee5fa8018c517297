"""Each kind of test of import, export and conformance fails where what it tests is broken."""
from __future__ import annotations

import unittest
from collections.abc import Callable
from unittest import mock

from . import test_conformance, test_exchange, test_import
from .test_broken import fails, nothing

from desk import conformance, exchange, exporting, from_version_2, importing, left_out  # noqa: E402
from desk import responses_in_xml, xml_reading, xml_validity  # noqa: E402

GOOD, BAD = fails(test_import.Files, "test_good_ones"), fails(test_import.Files, "test_bad_ones")
BACK = fails(test_import.Files, "test_good_ones_come_back")
HALF = 10


def differs() -> bool:
    """Whether the test of random documents finds something."""
    return not all(one.is_same() for one in test_exchange.share(3, HALF))


# what is broken, by what it is replaced, and the test that has to notice
BREAKS: list[tuple[object, str, object, Callable[[], bool]]] = [
    (xml_reading, "placed", nothing, fails(test_import.Files, "test_paths")),
    (xml_reading.Reader, "offset", lambda self, byte: 0, BAD),
    (xml_validity.Validity, "children", nothing, BAD),
    (xml_validity.Validity, "attributes", nothing, BAD),
    (xml_validity.Validity, "texts", nothing, BAD),
    (xml_validity.Validity, "missing", nothing, BAD),
    (xml_validity, "collapsed", lambda value: value, GOOD),
    (left_out, "function", lambda uri: "", BAD),
    (left_out, "algorithm", lambda uri: "", BAD),
    (left_out, "data_type", lambda uri: "", BAD),
    (left_out, "RENAMED_FUNCTIONS", {}, GOOD),
    (importing.Importing, "ordered", lambda self, given: given, GOOD),
    (importing.Importing, "comments_of", lambda self, held: [], GOOD),
    (importing.Importing, "comments_before", lambda self, held, around: [], GOOD),
    (importing.Importing, "issuer", lambda self, held: {}, GOOD),
    (from_version_2.Converting, "targets", nothing, BAD),
    (exporting.Exporting, "described", nothing, BACK),
    (exporting.Exporting, "duties", lambda self, node: [], differs),
    (exporting.Exporting, "target", lambda self, node, is_needed: None, BACK),
    (exporting, "in_text", lambda held: held, BACK),
    (exporting, "uri_escaped", exporting.in_attribute,
     fails(test_import.Exports, "test_white_space_comes_back")),
    (exchange, "is_same",
     lambda held, again: True, fails(test_import.Exports,
                                     "test_an_export_that_comes_back_as_another_is_told")),
    (responses_in_xml, "differences",
     lambda expected, given: [], fails(test_conformance.Conformance, "test_other_answers")),
    (responses_in_xml, "unlike",
     lambda expected, given: [], fails(test_conformance.Conformance, "test_other_answers")),
    (conformance, "has_doubles", nothing,
     fails(test_conformance.Conformance, "test_two_policies_of_one_id_and_version")),
    (conformance, "stopped", nothing, fails(test_conformance.Conformance, "test_all_cases")),
]


class Liar:
    """A program that answers each row alike."""

    def answers(self, asked: list[list[str]]) -> list[list[str]]:
        return [["x"] for _ in asked]


class Broken(unittest.TestCase):
    """Breaks import, export and conformance."""

    def test_another_answer_of_the_program_is_noticed(self) -> None:
        with mock.patch.object(test_exchange, "ASKED", Liar()):
            for one in test_exchange.share(3, 2):
                self.assertEqual(len(one.otherwise), 2 * test_exchange.REQUESTS)

    def test_each_break_is_noticed(self) -> None:
        self.assertFalse(differs() or GOOD() or BAD() or BACK())
        for where, name, instead, noticed in BREAKS:
            with self.subTest(f"{getattr(where, '__name__', where)}.{name}"), mock.patch.object(where, name,
                                                                                                instead):
                self.assertTrue(noticed())


if __name__ == "__main__":
    unittest.main()
