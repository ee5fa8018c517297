"""Cases in the layout of the OASIS conformance suite, their verdicts, and that a wrong expectation is told.

tests/conformance holds them: of targets (A), conditions (B), combining (C), obligations and advice (D),
several decisions and references (E), and of what is out of scope (X). The expected responses are worked out
by hand from XACML 3.0, core, sections 7.7 to 7.18 and appendix C.
"""
from __future__ import annotations

import json
import pathlib
import re
import unittest
from unittest import mock

from .desk_tests import TOOL, PROGRAM, DeskTest, run

from desk import conformance, responses_in_xml  # noqa: E402
from desk.model import documents  # noqa: E402

FOLDER = TOOL / "tests" / "conformance"
STATUS = "urn:oasis:names:tc:xacml:1.0:status:"


def files_of(name: str, *changes: tuple[str, str]) -> dict[str, str]:
    """The files of a case in a folder `c`, with changes in whichever of them have what is changed."""
    found = {f"c/{path.name}": path.read_text(encoding="utf-8") for path in FOLDER.glob(f"{name}*.xml")}
    for old, new in changes:
        if not any(old in held for held in found.values()):
            raise ValueError(f"nothing to change: {old}")
        found = {path: held.replace(old, new) for path, held in found.items()}
    return found


def verdict(files: dict[str, str]) -> tuple[int, str, str]:
    """The exit status, the verdict on the one case, and why."""
    status, written, _ = run("conformance", "@c", "--json", files=files)
    found = json.loads(written)[0]
    return status, found["verdict"], " ".join(found["why"])


class Conformance(DeskTest):
    """The cases."""

    def test_all_cases(self) -> None:
        program = PROGRAM.command[0] if PROGRAM is not None else "none"
        status, written, _ = run("conformance", str(FOLDER), "--json", program=program)
        found = {case["case"]: case["verdict"] for case in json.loads(written)}
        self.assertEqual({name: held for name, held in found.items()
                          if held != ("out of scope" if name[0] == "X" else "pass")}, {})
        self.assertGreaterEqual(len(found), 25 + 4)
        self.assertEqual(status, 0)

    def test_each_algorithm_has_a_case(self) -> None:
        held = " ".join(path.read_text(encoding="utf-8") for path in FOLDER.glob("*Policy*.xml"))
        named = {re.split(":", uri)[-1] for uri in re.findall(r'CombiningAlgId="([^"]*)"', held)}
        known = {*documents.RULE_ALGORITHMS.values(), *documents.POLICY_ALGORITHMS.values()}
        self.assertEqual(known - named, set())

    def test_what_is_written(self) -> None:
        status, written, _ = run("conformance", "@c", files=files_of("C0[12]") | files_of("X01"))
        self.assertEqual(status, 0)
        self.assertIn("C01         pass\n", written)
        self.assertIn("X01         out of scope\n", written)
        self.assertIn("X01Policy.xml:8:9: An <AttributeSelector>", written)
        self.assertIn("3 cases: 2 passed, 1 out of scope, 0 differ, 0 unread; by the model alone.", written)
        self.narrow(written)

    def test_other_answers(self) -> None:
        for name, change, words in (
                ("C01", ("<Decision>Deny", "<Decision>Permit"),
                 "expected Permit, ok; the answer is Deny, ok"),
                ("A03", ("status:missing-attribute", "status:processing-error"),
                 "expected the status processing-error; the answer has missing-attribute"),
                ("D01", ('>7</AttributeAssignment>', '>8</AttributeAssignment>'),
                 'expected the obligation urn:tell (urn:level = "8" (integer)), which isn\'t there'),
                ("D01", ('<Obligation ObligationId="urn:log"', '<Obligation ObligationId="urn:l"'),
                 "the obligation urn:log isn't expected"),
                ("D02", ("<Decision>Permit", "<Decision>Indeterminate"), "the answer is Permit"),
                ("D03", ('<Advice AdviceId="urn:more"', '<Advice AdviceId="urn:m"'),
                 "expected the advice urn:m, which isn't there"),
                ("D04", ('>chief</AttributeAssignment>', '>doctor</AttributeAssignment>'),
                 'urn:who by desk = "doctor"'),
                ("E01", ("<Decision>NotApplicable", "<Decision>Deny"),
                 "expected Deny, ok; the answer is NotApplicable, ok"),
                ("E06", (">07<", ">9<"), 'expected the attribute of the request AccessSubject urn:n by hr = '
                                         '"9" (integer), which isn\'t there'),
        ):
            with self.subTest(name + str(change)):
                status, found, why = verdict(files_of(name, change))
                self.assertEqual((status, found), (1, "differs"))
                self.assertIn(words, why)

    def test_a_status_that_is_not_looked_at(self) -> None:
        held = files_of("A03")
        held["c/A03Response.xml"] = re.sub(r"<Status>.*</Status>", "", held["c/A03Response.xml"],
                                           flags=re.DOTALL)
        self.assertEqual(verdict(held)[:2], (0, "pass"))

    def test_what_of_a_status_is_not_compared(self) -> None:
        code = f'<StatusCode Value="{STATUS}missing-attribute"'
        more = (f'{code}><StatusCode Value="urn:ours"/></StatusCode><StatusMessage>None.</StatusMessage>'
                '<StatusDetail><MissingAttributeDetail Category="c" AttributeId="a" DataType="d"/></StatusDetail>')
        status, found, why = verdict(files_of("A03", (code + "/>", more)))
        self.assertEqual((status, found), (0, "pass"))
        for words in ("A minor code isn't compared.", "A message isn't compared.", "A detail, such as Missing"):
            self.assertIn(words, why)

    def test_too_few_results(self) -> None:
        held = files_of("E01")
        held["c/E01Response.xml"] = re.sub(r"<Result>.*?</Result>", "", held["c/E01Response.xml"], count=1,
                                           flags=re.DOTALL)
        self.assertEqual(verdict(held), (1, "differs", "expected 2 results; the answer has 3"))

    def test_unread_files(self) -> None:
        held = files_of("C01")
        for name, change, words in (
                ("c/C01Response.xml",
                 lambda text: text.replace("Deny", "Forbid"), '"Forbid" is no decision'),
                ("c/C01Policy.xml", lambda text: text.replace("<Target/>", ""), "<Target> is missing"),
                ("c/C01Request.xml", lambda text: text[:-5], "This is no XML")):
            with self.subTest(name):
                status, found, why = verdict(held | {name: change(held[name])})
                self.assertEqual((status, found), (1, "unread"))
                self.assertIn(words, why)
        for name in held:
            status, found, why = verdict({path: text for path, text in held.items() if path != name})
            self.assertEqual((status, found, why), (1, "unread", f"{pathlib.Path(name).name} is missing"))

    def test_two_policies_of_one_id_and_version(self) -> None:
        held = files_of("C01")
        status, found, why = verdict(held | {"c/C01Policy_1.xml": held["c/C01Policy.xml"]})
        self.assertEqual((status, found), (1, "unread"))
        self.assertIn("urn:c 1.0 is in C01Policy.xml and in C01Policy_1.xml", why)

    def test_the_root_may_be_called_a_set(self) -> None:
        held = files_of("C16")
        self.assertEqual(verdict({name.replace("C16Policy", "C16PolicySet"): text
                                  for name, text in held.items()})[:2], (0, "pass"))

    def test_the_root_is_its_own_file(self) -> None:
        held = files_of("C01")
        later = held["c/C01Policy.xml"].replace('Version="1.0"',
                                                'Version="1.1"').replace('Effect="Deny"', 'Effect="Permit"')
        self.assertEqual(verdict(held | {"c/C01Policy_1.xml": later})[:2], (0, "pass"))

    def test_the_time(self) -> None:
        held = files_of("B05")
        held["c/B05Request.xml"] = re.sub(r"<Attributes .*</Attributes>", '<Attributes Category="urn:c"/>',
                                          held["c/B05Request.xml"], flags=re.DOTALL)
        for at, status in (("2026-11-23T23:00:00Z", 0), ("2026-11-23T12:00:00Z", 1)):
            self.assertEqual(run("conformance", "@c", "--at", at, files=held)[0], status)

    def test_model_and_program_that_disagree(self) -> None:
        with mock.patch.object(conformance, "answered",
                               lambda cases, *_: [('{"Response":[]}', "{}") for _ in cases]):
            self.assertEqual(run("conformance", "@c", files=files_of("C01"))[0], 3)


class Comparing(unittest.TestCase):
    """Collections without an order."""

    def test_results_are_matched(self) -> None:
        def results(*decisions: str) -> list:
            return responses_in_xml.given_of([{"Decision": one,
                                               "Status": {"StatusCode": {"Value": STATUS + "ok"}}}
                                              for one in decisions])
        self.assertEqual(responses_in_xml.differences(results("Permit", "Deny", "Deny"),
                                                      results("Deny", "Permit", "Deny")), [])
        self.assertEqual(responses_in_xml.differences(results("Permit", "Deny", "Deny"),
                                                      results("Permit", "Permit", "Deny")),
                         ["expected Deny, ok; the answer is Permit, ok"])


if __name__ == "__main__":
    unittest.main()
