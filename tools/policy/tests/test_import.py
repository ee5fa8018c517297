"""Files to import, with the JSON that they are or what is said of them; and the words `import` and `export`.

tests/imports holds them: NAME.xml (or NAME.jsn, a request in JSON) with NAME.json, the JSON that it is, or
with NAME.says, whose lines are a place, a code, and words of the sentence; `*` is any place.
"""
from __future__ import annotations

import json
import pathlib
import random
import re
import tempfile
import unittest
from unittest import mock

from .desk_tests import TOOL, POLICY, PROGRAM, DeskTest, check, executed, run, text

from desk import exchange, xml_reading  # noqa: E402
from desk.exporting import exported  # noqa: E402
from desk.import_request import imported_request  # noqa: E402
from desk.importing import Imported, imported  # noqa: E402
from desk.model import documents, rows  # noqa: E402
from desk.xml_tables import VERSION_3  # noqa: E402

FILES = TOOL / "tests" / "imports"
DENY_OVERRIDES = "urn:oasis:names:tc:xacml:3.0:rule-combining-algorithm:deny-overrides"
PIECES = [b"<", b">", b"&", b"&#1;", b"&amp;", b"\xff", b"<!-- c -->", b"<a/>", b"x", b'"', b"<![CDATA[",
          b"\x00", b"  ", b"<?p q?>", b"\xc3\xa9"]
SMALL = (f'<Policy xmlns="{VERSION_3}" PolicyId="urn:p" Version="1.0" RuleCombiningAlgId="{DENY_OVERRIDES}">'
         "<Target/></Policy>")


def sources(ending: str) -> list[pathlib.Path]:
    """The files of which there is one more with this ending."""
    return [path for path in sorted(FILES.iterdir()) if path.suffix in (".xml", ".jsn")
            and path.with_suffix(ending).exists()]


def read_bytes(name: str, held: bytes) -> Imported:
    return (imported_request if name.startswith("request") else imported)(name, held)


def read(path: pathlib.Path) -> Imported:
    return read_bytes(path.name, path.read_bytes())


def broken(source: random.Random, held: bytes) -> bytes:
    """The bytes with a piece cut out, put in, or written over another."""
    start = source.randrange(len(held) + 1)
    chance = source.random()
    if chance < 0.3:
        return held[:start] + held[start + source.choice([1, 2, 5, 20]):]
    if chance < 0.5:
        return held[:start] + source.choice(PIECES) + held[start:]
    shape = rb"<[A-Za-z][^<>]*/>" if chance < 0.7 else rb"[A-Za-z]+"
    found = list(re.finditer(shape, held))
    if not found:
        return held
    one, other = source.choice(found), source.choice(found)
    return held[:one.start()] + other.group() + held[one.end():]


def with_description(inner: str) -> str:
    """The small policy with a description."""
    return SMALL.replace("<Target/>", f"<Description>{inner}</Description><Target/>")


class Files(DeskTest):
    """The files of tests/imports."""

    def test_there_are_enough(self) -> None:
        self.assertGreaterEqual(len(sources(".json")), 40)
        self.assertGreaterEqual(len(sources(".says")), 60)
        self.assertEqual(len(sources(".json")) + len(sources(".says")),
                         sum(path.suffix in (".xml", ".jsn") for path in FILES.iterdir()))

    def test_good_ones(self) -> None:
        for path in sources(".json"):
            with self.subTest(path.name):
                found = read(path)
                expected = json.loads(path.with_suffix(".json").read_text(encoding="utf-8"))
                self.assertEqual([one.sentence for one in found.remarks.faults()], [])
                self.assertEqual(json.dumps(json.loads(found.text), sort_keys=True),
                                 json.dumps(expected, sort_keys=True))
                for one in found.remarks.found:
                    self.narrow(text.remark_shown(one))

    def test_good_ones_are_taken_by_the_program(self) -> None:
        held = [read(path).text for path in sources(".json") if not path.name.startswith("request")]
        for one in held:
            documents.document_of(one)
        for fields in PROGRAM.answers([["document", rows.encoded(one)]
                                       for one in held]) if PROGRAM is not None else ():
            self.assertFalse(fields[0].startswith("!"), fields)

    def test_good_ones_come_back(self) -> None:
        for path in sources(".json"):
            if not path.name.startswith("request"):
                with self.subTest(path.name):
                    held = read(path).text
                    again = imported("again.xml", exported(check.checked("p.json", held)).text.encode())
                    self.assertEqual(json.loads(held), json.loads(again.text))
                    self.assertEqual([one.code for one in again.remarks.found], [])

    def test_what_is_not_kept(self) -> None:
        """The version of XPath is said in many files, and means nothing without XPath: it is no fault."""
        for name, place in (("xpath_version.xml", (3, 3)), ("defaults_of_a_set.xml", (3, 3)),
                            ("request_defaults.xml", (2, 3)), ("request_json_xpath.jsn", (1, 14))):
            found = read(FILES / name).remarks.found
            self.assertEqual([(one.level, one.code, (one.place.line, one.place.column)) for one in found],
                             [("note", "not-kept", place)])

    def test_bad_ones(self) -> None:
        for path in sources(".says"):
            with self.subTest(path.name):
                found = read(path)
                self.assertIsNone(found.text)
                left = found.remarks.faults()
                for line in path.with_suffix(".says").read_text(encoding="utf-8").splitlines():
                    left.remove(self.said(left, *line.split(" ", 2)))
                self.assertEqual([(one.code, one.sentence) for one in left], [], "nothing else is said")

    def test_paths(self) -> None:
        for name, code, pointer in (("double", "LeftOut",
                                     "/Policy/Rule/Condition/Apply/AttributeValue/@DataType"),
                                    ("variable_twice", "BadValue",
                                     "/Policy/VariableDefinition[2]/@VariableId"),
                                    ("two_conditions", "Schema", "/Policy/Rule/Condition[2]")):
            found = read(FILES / f"{name}.xml").remarks.faults()
            self.assertIn((code, pointer), [(one.code, one.pointer) for one in found])

    def said(self, found: list, place: str, code: str, words: str):
        """The remark that a line is about."""
        for one in found:
            is_there = place in ("*", f"{one.place.line}:{one.place.column}") and code == one.code
            if is_there and any(part in one.sentence for part in words.split("|")):
                self.narrow(text.remark_shown(one))
                return one
        said = [(one.place.line, one.place.column, one.code, one.sentence) for one in found]
        self.fail(f"no {code} at {place} with {words}, but {said}")


class Refusals(DeskTest):
    """What could read files, grow without end, or fill the memory."""

    def test_no_file_is_opened(self) -> None:
        for name in ("external_entity", "external_subset", "parameter_entity"):
            held = (FILES / f"{name}.xml").read_bytes()
            with mock.patch("builtins.open") as opened, mock.patch("socket.socket") as asked:
                found = imported("p.xml", held)
            self.assertFalse(opened.called or asked.called)
            self.assertEqual([one.code for one in found.remarks.found], ["Doctype"])

    def test_an_entity_is_never_declared(self) -> None:
        # were the declaration of the type let through, each entity would be refused by itself
        held = (FILES / "billion_laughs.xml").read_bytes()
        reader = xml_reading.Reader(xml_reading.Source("p.xml", held), check.Remarks())
        reader.parser.StartDoctypeDeclHandler = None
        self.assertIsNone(reader.read().top)

    def test_a_large_file(self) -> None:
        found = imported("p.xml", b" " * (xml_reading.MOST_BYTES + 1))
        self.assertEqual([one.code for one in found.remarks.found], ["TooLarge"])

    def test_a_document_that_is_too_large(self) -> None:
        found = imported("p.xml", with_description("a" * documents.MAX_BYTES).encode())
        self.assertEqual(([one.code for one in found.remarks.faults()], found.text), (["TooLarge"], None))
        self.assertEqual([one.code
                          for one in imported("p.xml",
                                              with_description("a" * 2_000_000).encode()).remarks.faults()],
                         ["TooLarge"])
        # laid out it would be too large, and without spaces it isn't
        rules = "".join(f'<Rule RuleId="{number}" '
                        f'Effect="Permit"><Description>{"a" * 90}</Description></Rule>'
                        for number in range(450))
        found = imported("p.xml", SMALL.replace("<Target/>", "<Target/>" + rules).encode())
        self.assertEqual([one.code for one in found.remarks.faults()], [])
        self.assertLess(len(found.text), documents.MAX_BYTES)


    def test_a_number_of_very_many_digits(self) -> None:
        held = (FILES / "no_integer.xml").read_text(encoding="utf-8").replace(">one<", f">{'9' * 5000}<")
        self.assertEqual([one.code for one in imported("p.xml", held.encode()).remarks.faults()],
                         ["BadValue"])

    def test_broken_files(self) -> None:
        source, taken = random.Random(1), 0
        held = [path for path in sorted(FILES.iterdir()) if path.suffix in (".xml", ".jsn")]
        for _ in range(1500):
            path = source.choice(held)
            found = read_bytes(path.name, broken(source, path.read_bytes()))
            self.assertEqual(found.text is None, bool(found.remarks.faults()))
            for one in found.remarks.found:
                text.remark_shown(one)
            taken += found.text is not None
        self.assertGreater(taken, 20)


class Words(DeskTest):
    """The words of the command."""

    def test_standard_output(self) -> None:
        status, written, said = run("import", "@p.xml", files={"p.xml": SMALL})
        self.assertEqual((status, json.loads(written)["Policy"]["PolicyId"]), (0, "urn:p"))
        self.assertIn("only the model in Python spoke", " ".join(said.split()))
        status, written, said = run("export", "@p.json", files={"p.json": written})
        self.assertEqual((status, said), (0, ""))
        self.assertTrue(written.startswith('<?xml version="1.0" encoding="UTF-8"?>\n<Policy xmlns='))

    def test_faults(self) -> None:
        status, written, said = run("import", "@p.xml", files={"p.xml": SMALL.replace("<Target/>", "")})
        self.assertEqual((status, written), (1, ""))
        self.assertIn("p.xml:1:1: fault Schema", said)
        self.assertIn("p.xml: not written", said)
        status, written, said = run("export", "@p.json",
                                    files={"p.json": POLICY.replace('"Permit"', '"Permitt"')})
        self.assertEqual((status, written), (1, ""))
        self.assertIn("p.json:15:16: fault BadValue", said)

    def test_what_is_no_xml_at_all(self) -> None:
        for name, held, words in (("p.json", POLICY, "a document in JSON needs no import"),
                                  ("p.xml", "namespace a", "This is no XML")):
            status, written, said = run("import", "@" + name, files={name: held})
            self.assertEqual((status, written), (1, ""))
            self.assertIn(words, " ".join(said.split()))

    def test_json(self) -> None:
        status, _, said = run("export", "@p.json", "--json",
                              files={"p.json": POLICY.replace('"Permit"', '"Permitt"')})
        self.assertEqual((status, [one["code"] for one in json.loads(said[:said.rindex("]") + 1])]),
                         (1, ["BadValue"]))

    def test_a_folder(self) -> None:
        with tempfile.TemporaryDirectory() as folder:
            files = {"p.xml": SMALL, "q.xml": with_description("&lt;")}
            status, written, _ = run("import", "@p.xml", "@q.xml", "--to", folder + "/to", files=files)
            self.assertEqual((status, sorted(path.name for path in pathlib.Path(folder, "to").iterdir())),
                             (0, ["p.json", "q.json"]))
            self.assertIn("written to", written)
            self.assertEqual(run("import", "@p.xml", "--to", folder + "/to", files=files)[0], 0)
            written = {path: path.read_bytes() for path in pathlib.Path(folder, "to").iterdir()}
            held = {f"c/{name}": text for name, text in files.items()} | {"c/r.txt": "", "d/r.txt": ""}
            self.assertEqual(run("import", "@c", "--to", folder + "/to", files=held)[0], 0)
            self.assertEqual({path: path.read_bytes() for path in written}, written)
            self.assertEqual(run("import", "@d", "--to", folder + "/to", files=held)[0], 2)
            self.assertEqual(run("export", folder + "/to", "--to", folder + "/back")[0], 0)
            self.assertEqual(sorted(path.name for path in pathlib.Path(folder, "back").iterdir()),
                             ["p.xml", "q.xml"])
            self.assertEqual(run("import", "@p.xml", "--to", folder + "/to",
                                 files={"p.xml": with_description("other")})[0], 2)

    def test_usage(self) -> None:
        files = {"p.xml": SMALL, "q.xml": SMALL, "c/p.xml": SMALL}
        for words in (["import"], ["import", "@none.xml"], ["import", "@p.xml", "@q.xml"], ["export"],
                      ["conformance", "@none"],
                      ["import", "@p.xml", "@c/p.xml", "--to", "@to"]):
            with self.subTest(words):
                self.assertEqual(run(*words, files=files)[0], 2)

    def test_a_request(self) -> None:
        held = (FILES / "request_plain.xml").read_text(encoding="utf-8")
        status, written, said = run("import", "--request", "@r.xml", files={"r.xml": held})
        self.assertEqual((status, said, list(json.loads(written))), (0, "", ["Request"]))

    def test_the_command_itself(self) -> None:
        ran = executed("export", "examples/ward/policy.json")
        self.assertEqual((ran.returncode, ran.stderr), (0, ""))
        self.assertEqual(imported("p.xml", ran.stdout.encode()).remarks.found, [])


class Exports(DeskTest):
    """What XML can't hold, and what it would change."""

    def test_characters_that_xml_has_not(self) -> None:
        for letter in ("\\u0000", "\\u0001", "\\u001f", "\\ufffe"):
            held = POLICY.replace('"Value": "staff"', f'"Value": "{letter}"')
            found = exported(check.checked("p.json", held.encode()))
            self.assertIsNone(found.text)
            remark = self.remark(found.remarks, "NoXml", held.index(f'"{letter}"'),
                                 "XML can't hold the character", letter[2:].upper())
            self.assertEqual(len(found.remarks.found), 1, remark)

    def test_white_space_comes_back(self) -> None:
        for inner in (" a", "a ", "a  b", "\\t", "\\n", "\\r", "\\r\\n", "a\\u0085", "\\u00a0", "\\u2028"):
            held = POLICY.replace('"urn:test:shop"',
                                  f'"{inner}"').replace('"staff"', f'"{inner}"').replace('"urn:test:role"',
                                                                                         f'"{inner}"')
            found = exported(check.checked("p.json", held.encode()))
            self.assertTrue(exchange.is_same(held.encode(), imported("p.xml", found.text.encode()).text),
                            inner)

    def test_an_export_that_comes_back_as_another_is_told(self) -> None:
        with mock.patch.object(exchange, "imported",
                               lambda *_: Imported(check.Remarks(),
                                                   POLICY.replace('"staff"', '"Staff"').encode())):
            self.assertEqual(run("export", "@p.json", files={"p.json": POLICY})[0], 3)


if __name__ == "__main__":
    unittest.main()
