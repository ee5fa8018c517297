"""What the command takes for what: folders that are domains, files of another kind than a word wants, and the codes
that it names."""
from __future__ import annotations

import json
import unittest

from .desk_tests import POLICY, REQUEST, ROWS, DeskTest, cli, edited, run
from .test_commands import CASES, FILES


class Folders(DeskTest):
    """Folders with a domain.json, whose words are few."""

    def test_check_of_a_domain(self) -> None:
        """Its root, its rows and its documents are those that domain.json names, unless words of the command do."""
        of_domain = {"Server": "http://127.0.0.1:1", "Domain": "shop", "Root": "urn:test:shop", "Rows": "rows.json"}

        def checked(*more: str, **changed: str) -> tuple[int, str]:
            held = {"p.json": POLICY, "rows.json": ROWS, "domain.json": json.dumps(of_domain), **changed}
            status, written, _ = run("check", "@d", *more, files={f"d/{name}": text for name, text in held.items()})
            return status, written
        status, written = checked()
        self.assertEqual(status, 0)
        self.assertIn("d/rows.json: 1 row: taken", written)
        for name, text, at, code in (
                ("rows.json", "[]", "[", "BadValue"), ("q.json", "{", "", "NotJson"),
                ("domain.json", json.dumps({**of_domain, "Root": "urn:test:shp"}), '"urn:test:shp"', "leads-nowhere"),
                ("domain.json", json.dumps({**of_domain, "Rots": "x"}), '"x"', "domain")):
            words = f"d/{name}:1:{text.index(at) + 1 if at else len(text) + 1}: fault {code}"
            with self.subTest(name=name, text=text):
                documents = {"domain.json": json.dumps({**of_domain, "Documents": ["p.json", "q.json"]})}
                status, written = checked(**{**(documents if name == "q.json" else {}), name: text})
                self.assertEqual(status, 1)
                self.assertIn(words, written)
        status, written = checked("--root", "urn:test:shop", **{"rows.json": "[]"})
        self.assertEqual(status, 0)
        self.assertNotIn("rows.json", written)
        status, written = checked("--json", **{"domain.json": json.dumps({**of_domain, "Root": "urn:test:shp"})})
        self.assertEqual((status, [one["code"] for one in json.loads(written) if one["level"] == "fault"]),
                         (1, ["leads-nowhere"]))

    def test_cases_of_a_domain(self) -> None:
        """Cases that name no documents are about the domain in whose folder they stand; of a folder all are run."""
        of_domain = {"Server": "http://127.0.0.1:1", "Domain": "shop", "Root": "urn:test:shop", "Rows": "rows.json",
                     "Cases": ["cases.json", "own.json"]}
        held = {"p.json": POLICY, "r.json": REQUEST, "rows.json": ROWS, "domain.json": json.dumps(of_domain),
                "cases.json": json.dumps({"Case": CASES["Case"]}),
                "own.json": json.dumps({**CASES, "Case": CASES["Case"][:1]})}

        def tested(*words: str, **changed: str | None) -> tuple[int, str]:
            found = {f"d/{name}": text for name, text in {**held, **changed}.items() if text is not None}
            status, written, said = run("test", *words, files=found)
            return status, written + said
        for words, count in ((["@d/cases.json"], 2), (["@d"], 3), (["@d/own.json"], 1), (["@d", "@d/cases.json"], 5)):
            with self.subTest(words):
                status, written = tested(*words)
                self.assertEqual(status, 0)
                self.assertIn(f"{cli.text.counted(count, 'case')}: {count} ok, 0 failed", written)
        for words, status, why, changed in (
                (["@d/cases.json"], 1, 'The member "Policy" is missing', {"domain.json": None}),
                (["@d"], 2, "can't be read", {"domain.json": None}),
                (["@d"], 2, "d is a domain without cases: domain.json names none",
                 {"domain.json": json.dumps({**of_domain, "Cases": []})}),
                (["@d/cases.json"], 1, "fault BadValue", {"rows.json": "[]"}),
                (["@d/own.json"], 0, "1 ok", {"rows.json": "[]"})):
            with self.subTest(words, changed=list(changed)):
                found = tested(*words, **changed)
                self.assertEqual(found[0], status, found[1])
                self.assertIn(why, " ".join(found[1].split()))


class Files(DeskTest):
    """Files that a word doesn't take, and what is said of them."""

    def test_a_file_of_another_kind(self) -> None:
        """Whoever gives a file to the wrong word is told which one takes it."""
        held = {**FILES, "cases.json": json.dumps(CASES), "domain.json": '{"Server": "http://127.0.0.1:1"}'}
        for words, said in ((["check", "@rows.json"], "These are rows: `--rows FILE`."),
                            (["check", "@r.json"], "This is a request: `--request FILE`."),
                            (["check", "@domain.json"], "This makes its folder a domain: name the folder."),
                            (["check", "@p.json", "--rows", "@r.json"], "This is a request: `--request FILE`."),
                            (["ask", "--policy", "@p.json", "--request", "@p.json"], "`policy check FILE`."),
                            (["ask", "--policy", "@p.json", "--request", "@cases.json"], "`policy test FILE`."),
                            (["test", "@p.json"], "This is a document: `policy check FILE`.")):
            with self.subTest(words):
                status, written, _ = run(*words, files=held)
                self.assertEqual(status, 1)
                self.assertIn(said, " ".join(written.split()))
        written = run("check", "@p.json", files={"p.json": edited(POLICY, ('"Expression": [', '"Expresion": ['))})[1]
        self.assertNotIn("This is", written)

    def test_the_code_that_the_server_answers(self) -> None:
        """It has no more than the name that stands in the API's table of errors."""
        for old, new, code in (("string-equal", "strng-equal", "IllTyped"),
                               ('"Effect": "Permit",', "", "MissingMember")):
            status, written, _ = run("check", "@p.json", files={"p.json": edited(POLICY, (old, new))})
            self.assertEqual(status, 1)
            self.assertIn(f"answers this fault: {code}\n", written)
            self.assertIn(f": refused, {code}\n", written)


if __name__ == "__main__":
    unittest.main()
