"""ALFA: files with the documents that they are, or with what is said of them; broken files; the word.

tests/alfa holds them: NAME.alfa, and NAME+more.alfa where there are several, with NAME.json, the documents by
their full names, or with NAME.says, whose lines are a place, a code, and words of the sentence. In NAME.json
the beginnings of URIs are short: see SHORT.
"""
from __future__ import annotations

import json
import pathlib
import random
import tempfile
import unittest
from unittest import mock

from .desk_tests import TOOL, PROGRAM, DeskTest, check, faults, run, text

from desk import alfa_expressions, alfa_importing, alfa_names, alfa_typed, ask, exchange  # noqa: E402
from desk import setting  # noqa: E402
from desk.alfa_importing import Document, imported_alfa  # noqa: E402
from desk.exporting import exported  # noqa: E402
from desk.importing import imported  # noqa: E402
from desk.model import documents, functions, rows, versions  # noqa: E402

FILES = TOOL / "tests" / "alfa"
URN = "urn:oasis:names:tc:xacml:"
SHORT = {"F1:": URN + "1.0:function:", "F2:": URN + "2.0:function:", "F3:": URN + "3.0:function:",
         "RULES:": URN + "3.0:rule-combining-algorithm:", "RULES1:": URN + "1.0:rule-combining-algorithm:",
         "SETS:": URN + "3.0:policy-combining-algorithm:", "SETS1:": URN + "1.0:policy-combining-algorithm:"}
PIECES = ["{", "}", '"', "/*", "//", "(", ")", "==", "&&", "clause", "rule", "policy x", "[", ".", "\\",
          "\x00", "é", "permit", "target", "or", "namespace n {"]
SMALL = "namespace a { policy p { apply denyOverrides } }"
HEAD = 'namespace a { attribute n { id = "urn:n" type = integer category = subjectCat }\n'


def named(ending: str) -> list[str]:
    """The names of which there is a file with this ending."""
    return sorted(path.stem for path in FILES.glob("*" + ending))


def files_of(name: str) -> list[tuple[str, bytes]]:
    """The files of a name."""
    return [(path.name, path.read_bytes())
            for path in sorted(FILES.glob("*.alfa")) if path.stem.partition("+")[0] == name]


def long(held: object) -> object:
    """The JSON with whole URIs."""
    if isinstance(held, dict):
        return {name: long(inner) for name, inner in held.items()}
    if isinstance(held, list):
        return [long(inner) for inner in held]
    begin = held.partition(":")[0] + ":" if isinstance(held, str) else ""
    return SHORT[begin] + held[len(begin):] if begin in SHORT else held


def read(*files: tuple[str, bytes]) -> tuple[list[faults.Remark], list[Document]]:
    """What is said of files, and their documents."""
    whole, found = imported_alfa(list(files), "1.0")
    remarks = [file.remarks for file in whole] + [one.remarks for one in found]
    return [remark for one in remarks for remark in one.found], found


def said(held: str) -> list[tuple[str, str]]:
    """The faults of a text, each with its place."""
    found, _ = read(("p.alfa", held.encode()))
    return [(f"{one.place.line}:{one.place.column}", one.code) for one in found if one.level == "fault"]


class Files(DeskTest):
    """The files of tests/alfa."""

    def test_there_are_enough(self) -> None:
        self.assertGreaterEqual(len(named(".json")), 16)
        self.assertGreaterEqual(len(named(".says")), 40)
        self.assertEqual({name.partition("+")[0] for name in named(".alfa")},
                         {*named(".json"), *named(".says")})

    def test_good_ones(self) -> None:
        for name in named(".json"):
            with self.subTest(name):
                remarks, found = read(*files_of(name))
                self.assertEqual([one.sentence for one in remarks if one.level == "fault"], [])
                expected = long(json.loads((FILES / f"{name}.json").read_text(encoding="utf-8")))
                self.assertEqual({one.name: json.loads(one.text) for one in found}, expected)
                for one in remarks:
                    self.narrow(text.remark_shown(one))

    def test_good_ones_are_taken(self) -> None:
        held = [one.text for name in named(".json") for one in read(*files_of(name))[1]]
        for one in held:
            documents.document_of(one)
        for fields in PROGRAM.answers([["document", rows.encoded(one)]
                                       for one in held]) if PROGRAM is not None else ():
            self.assertFalse(fields[0].startswith("!"), fields)

    def test_good_ones_go_to_xml_and_back(self) -> None:
        for name in named(".json"):
            for one in read(*files_of(name))[1]:
                with self.subTest(one.name):
                    xml = exported(check.checked("p.json", one.text)).text
                    self.assertTrue(exchange.is_same(one.text, imported("p.xml", xml.encode()).text))

    def test_bad_ones(self) -> None:
        for name in named(".says"):
            with self.subTest(name):
                left, found = read(*files_of(name))
                left = [one for one in left if one.level == "fault"]
                for line in (FILES / f"{name}.says").read_text(encoding="utf-8").splitlines():
                    left.remove(self.one_said(left, *line.split(" ", 2)))
                self.assertEqual([(one.code, one.sentence) for one in left], [], "nothing else is said")
                self.assertTrue(not found or any(one.text is None for one in found))

    def one_said(self, found: list[faults.Remark], place: str, code: str, words: str) -> faults.Remark:
        """The remark that a line is about."""
        for one in found:
            if (place, code) == (f"{one.place.line}:{one.place.column}", one.code) and words in one.sentence:
                self.narrow(text.remark_shown(one))
                return one
        every = [(one.place.line, one.place.column, one.code, one.sentence) for one in found]
        self.fail(f"no {code} at {place} with {words}, but {every}")


class Meanings(DeskTest):
    """What is imported decides as ALFA says."""

    def decision(self, condition: str, *values: int) -> str:
        """The decision of a rule with a condition on n, where it has these values."""
        held = HEAD + f"policy p {{ apply denyUnlessPermit rule r {{ permit condition {condition} }} }} }}"
        _, found = read(("p.alfa", held.encode()))
        one = check.checked("p.json", found[0].text)
        whole = setting.Setting([one], versions.Reference("policy", "a.p", None, None, None), None)
        attribute = {"AttributeId": "urn:n", "DataType": "integer", "Value": list(values)}
        body = {"Request": {"AccessSubject": {"Attribute": [attribute] if values else []}}}
        return json.loads(ask.by_model(whole, json.dumps(body).encode(), 0))["Response"][0]["Decision"]

    def test_of_several_values_one_is_enough(self) -> None:
        for condition, values, decision in (
                ("n == 5", (5,), "Permit"), ("n == 5", (4, 5), "Permit"), ("n == 5", (), "Deny"),
                ("n > 5", (5, 6), "Permit"), ("5 < n", (5, 6), "Permit"), ("n > 5", (5,), "Deny"),
                ("5 > n", (5, 4), "Permit"), ("5 > n", (5, 6), "Deny"), ("n >= 5", (5,), "Permit"),
                ("n <= 5", (6,), "Deny"), ("not(n == 5)", (4, 5), "Deny"), ("not(n == 5)", (4,), "Permit"),
                ("n == n", (), "Deny"), ("n == n", (1,), "Permit"),
                ("integerOneAndOnly(n) + 1 == 3 && n < 5 || n == 9", (2,), "Permit"),
                ("integerOneAndOnly(n) + 1 == 3 && n < 2 || n == 2", (2,), "Permit"),
                ("integerOneAndOnly(n) - 1 - 1 == 3", (5,), "Permit"),
                ("integerOneAndOnly(n) - (1 - 1) == 3", (5,), "Deny"),
                ("integerOneAndOnly(n) * 2 / 3 == 3", (5,), "Permit")):
            with self.subTest(condition, values=values):
                self.assertEqual(self.decision(condition, *values), decision)

    def test_matches_are_not_turned_around(self) -> None:
        for match, inside, outside in (("n > 5", 6, 5), ("n >= 5", 5, 4), ("n < 5", 4, 5), ("n <= 5", 5, 6),
                                       ("5 > n", 4, 5), ("5 >= n", 5, 6), ("5 < n", 6, 5), ("5 <= n", 5, 4),
                                       ("n == 5", 5, 6), ("integerLessThan(5, n)", 6, 5)):
            held = HEAD + f"policy p {{ target clause {match} apply denyUnlessPermit rule {{ permit }} }} }}"
            one = check.checked("p.json", read(("p.alfa", held.encode()))[1][0].text)
            whole = setting.Setting([one], versions.Reference("policy", "a.p", None, None, None), None)
            for value, decision in ((inside, "Permit"), (outside, "NotApplicable")):
                body = {"Request": {"AccessSubject": {"Attribute": [
                    {"AttributeId": "urn:n", "DataType": "integer", "Value": value}]}}}
                found = json.loads(ask.by_model(whole, json.dumps(body).encode(), 0))
                self.assertEqual(found["Response"][0]["Decision"], decision, match)

    def test_each_function_has_a_name(self) -> None:
        self.assertEqual(len(alfa_names.FUNCTIONS), len({uri.rpartition(":")[2] for uri in
                                                         alfa_names.names.function_names()}))
        for name, uri in alfa_names.FUNCTIONS.items():
            self.assertRegex(name, "^[a-z][A-Za-z0-9]*$")
            self.assertEqual(alfa_names.dashed(name), uri.rpartition(":")[2])

    def test_what_is_left_out_has_a_name(self) -> None:
        for name in ("string-regexp-match", "anyURI-regexp-match", "rfc822Name-match", "x500Name-equal",
                     "double-add", "string-equal-ignore-case", "string-normalize-to-lower-case",
                     "any-of-all", "round",
                     "double-to-integer", "xpath-node-count", "ipAddress-regexp-match", "integer-to-double",
                     "dnsName-regexp-match", "access-permitted", "string-from-x500Name",
                     "x500Name-from-string"):
            written = alfa_names.camel(name)
            self.assertEqual(alfa_names.dashed(written), name)
            held = HEAD + f"policy p {{ apply denyOverrides rule {{ permit condition {written}() }} }} }}"
            self.assertEqual(said(held), [("2:56", "LeftOut")], name)

    def test_operators_of_all_types(self) -> None:
        for sign in alfa_typed.COMPARED:
            for left in documents.DATA_TYPES:
                found = alfa_typed.function_of(sign, left, left)
                if "#" not in left and (sign == "==" or left in alfa_typed.ORDERED):
                    self.assertEqual(functions.FUNCTIONS[found][:2], ([left, left], "boolean"))
                else:
                    self.assertEqual(found, "")


class Refusals(DeskTest):
    """What is large, deep, or no text."""

    def test_no_text(self) -> None:
        found, _ = read(("p.alfa", b"namespace a { \xff }"))
        self.assertEqual([(one.code, one.place.column) for one in found], [("NotAlfa", 15)])
        self.assertEqual(read(("p.alfa", b"\xef\xbb\xbf" + SMALL.encode()))[0], [])

    def test_a_large_file(self) -> None:
        found, _ = read(("p.alfa", b" " * 4_194_305))
        self.assertEqual([one.code for one in found], ["TooLarge"])
        lines = "".join(f'  rule r{number} {{ permit condition n == {number} }}\n' for number in range(400))
        found, made = read(("p.alfa", f"{HEAD} policy p {{ apply denyOverrides\n{lines} }} }}".encode()))
        self.assertEqual(([one.code for one in found], made[0].text), (["TooLarge"], None))

    def test_a_deep_file(self) -> None:
        deep = alfa_expressions.MOST_NESTED + 1
        rule = HEAD + "policy p { apply denyOverrides rule { permit condition "
        for held in ("namespace a { " * deep, "namespace a { policyset s { apply denyOverrides "
                     + "policyset { " * deep, rule + "(" * deep, rule + "1" + "+ 1" * deep):
            self.assertEqual([code for _, code in said(held)], ["NotAlfa"])
        held = rule + f"1 {'+ 1 ' * 30} == 2 }} }} }}"
        self.assertEqual({code for _, code in said(held)}, {"IllTyped(TooDeep)"})

    def test_broken_files(self) -> None:
        source, taken = random.Random(1), 0
        held = [path.read_text(encoding="utf-8") for path in sorted(FILES.glob("*.alfa"))]
        for _ in range(1500):
            one = source.choice(held)
            start = source.randrange(len(one) + 1)
            cut = start + source.choice([0, 1, 3, 20])
            made = one[:start] + (source.choice(PIECES) if source.random() < 0.6 else "") + one[cut:]
            found, made_of = read(("p.alfa", made.encode()))
            for remark in found:
                text.remark_shown(remark)
            is_faulty = any(remark.level == "fault" for remark in found)
            self.assertEqual(is_faulty, any(one.text is None for one in made_of) or not made_of and is_faulty)
            taken += not is_faulty
        self.assertGreater(taken, 50)


class Words(DeskTest):
    """The word `import` with files of ALFA."""

    def test_standard_output(self) -> None:
        status, written, _ = run("import", "@p.alfa", files={"p.alfa": SMALL})
        self.assertEqual((status, json.loads(written)["Policy"]["Version"]), (0, "1.0"))
        status, written, _ = run("import", "@p.alfa", "--as-version", "2.1", files={"p.alfa": SMALL})
        self.assertEqual((status, json.loads(written)["Policy"]["Version"]), (0, "2.1"))
        two = SMALL.replace("policy p", "policy q { apply denyOverrides } policy p")
        for words, held in ((["--as-version", "1.x"], SMALL), ([], two)):
            self.assertEqual(run("import", "@p.alfa", *words, files={"p.alfa": held})[0], 2)

    def test_references_to_a_version(self) -> None:
        held = SMALL.replace("policy p", "policyset s { apply firstApplicable p } policy p")
        with tempfile.TemporaryDirectory() as folder:
            for words, pinned in (([], {}), (["--pin"], {"Version": "3"})):
                given = ["import", "@p.alfa", "--to", folder, "--as-version", "3", "--overwrite", *words]
                status, _, _ = run(*given, files={"p.alfa": held})
                found = json.loads(pathlib.Path(folder, "a.s.json").read_text())["PolicySet"]["Children"]
                self.assertEqual((status, found), (0, [{"PolicyIdReference": {"Id": "a.p", **pinned}}]))

    def test_the_example_of_the_page(self) -> None:
        page = (TOOL / "README.md").read_text(encoding="utf-8").partition("### ALFA")[2]
        page = page.partition("    $ ")[0]
        remarks, found = read(("hospital.alfa", page.encode()))
        self.assertEqual(([one.sentence for one in remarks], [one.name for one in found]),
                         ([], ["hospital.records"]))
        one = check.checked("p.json", found[0].text)
        root = versions.Reference("policy", "hospital.records", None, None, None)
        whole = setting.Setting([one], root, None)
        for wards, decision in ((["4", "3"], "Permit"), (["4"], "Deny")):
            body = {"Request": {
                "AccessSubject": {"Attribute": [{"AttributeId": "urn:example:role", "Value": "nurse"},
                                                {"AttributeId": "urn:example:wards", "Value": wards}]},
                "Resource": {"Attribute": [{"AttributeId": "urn:example:ward", "Value": "3"}]}}}
            answer = json.loads(ask.by_model(whole, json.dumps(body).encode(), 0))
            self.assertEqual(answer["Response"][0]["Decision"], decision)

    def test_a_folder(self) -> None:
        with tempfile.TemporaryDirectory() as folder:
            to = pathlib.Path(folder, "to")
            held = {"q.alfa": SMALL, "p.alfa": "namespace b { policyset s { apply firstApplicable a.p } }",
                    "x.xml": exported(check.checked("x", read(("p.alfa", SMALL.encode()))[1][0].text)).text}
            words = ["import", "@q.alfa", "@p.alfa", "@x.xml", "--to", str(to)]
            self.assertEqual(run(*words, files=held)[0], 0)
            self.assertEqual(sorted(path.name for path in to.iterdir()), ["a.p.json", "b.s.json", "x.json"])
            before = {path.name: path.read_bytes() for path in to.iterdir()}
            status, _, said_of = run(*words, "--as-version", "2", files=held)
            self.assertEqual(status, 2)
            self.assertIn("--overwrite", said_of)
            self.assertEqual({path.name: path.read_bytes() for path in to.iterdir()}, before)
            self.assertEqual(run(*words, "--as-version", "2", "--overwrite", files=held)[0], 0)
            self.assertIn(b'"Version": "2"', (to / "a.p.json").read_bytes())

    def test_what_has_no_fault_is_written(self) -> None:
        held = SMALL.replace("policy p", "policy q { apply denyOverride } policy p")
        with tempfile.TemporaryDirectory() as folder:
            status, written, said_of = run("import", "@p.alfa", "--to", folder, files={"p.alfa": held})
            self.assertEqual((status, [path.name for path in pathlib.Path(folder).iterdir()]),
                             (1, ["a.p.json"]))
            self.assertIn("p.alfa: a.q: not written", said_of)
            self.assertIn("p.alfa: a.p: written to", written)

    def test_a_file_with_a_fault_as_a_whole(self) -> None:
        with tempfile.TemporaryDirectory() as folder:
            status, written, said_of = run("import", "@p.alfa", "@q.alfa", "--to", folder + "/to",
                                           files={"p.alfa": SMALL, "q.alfa": "namespace"})
            self.assertEqual((status, written, pathlib.Path(folder, "to").exists()), (1, "", False))
            self.assertIn("q.alfa:1:10: fault NotAlfa", said_of)
            self.assertIn("p.alfa: not written", said_of)


class Broken(unittest.TestCase):
    """The tests fail where the import is broken."""

    def test_each_break_is_noticed(self) -> None:
        good, bad = (Files, "test_good_ones"), (Files, "test_bad_ones")
        decided = (Meanings, "test_of_several_values_one_is_enough")
        turned = {**alfa_typed.TURNED, ">": ">="}
        for where, name, instead, (case, test) in (
                (alfa_typed, "TURNED", turned, (Meanings, "test_matches_are_not_turned_around")),
                (alfa_typed, "TURNED", turned, good),
                (alfa_typed, "COMPARED", {**alfa_typed.COMPARED, ">": "less-than"}, decided),
                (alfa_importing.Translating, "described", lambda *_: {}, good),
                (alfa_importing.Translating, "duties", lambda *_: {}, good),
                (alfa_importing.Translating, "target", lambda *_: {}, good),
                (alfa_importing, "document_text", lambda *_: b"", bad),
                (alfa_names.Names, "check", lambda *_: None, bad),
                (alfa_names.Names, "unknown", lambda *_: None, bad),
                (alfa_names, "readings", lambda name, _: [[name]], good),
                (alfa_expressions.Words, "keep", lambda *_: None, good),
                (alfa_expressions.Expressions, "options", lambda _: (False, None), bad)):
            with self.subTest(name), mock.patch.object(where, name, instead):
                result = unittest.TestResult()
                case(test).run(result)
                self.assertFalse(result.wasSuccessful())


if __name__ == "__main__":
    unittest.main()
