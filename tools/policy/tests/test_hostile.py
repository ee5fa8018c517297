"""What others wrote: names without end are read in time, and nothing of a file, or of its name, steers the
terminal."""
from __future__ import annotations

import json
import os
import pathlib
import pty
import subprocess
import sys
import tempfile
import unittest

from .desk_tests import POLICY, TOOL, DeskTest, edited, run

OPEN = ('<Policy xmlns="urn:oasis:names:tc:xacml:3.0:core:schema:wd-17" PolicyId="p" Version="1" RuleCombiningAlgId='
        '"urn:oasis:names:tc:xacml:3.0:rule-combining-algorithm:deny-overrides">')
TRUE = {"AttributeValue": {"DataType": "boolean", "Value": True}}
# steers, hides, turns about, has no width, parts lines, is of colours
STRANGE = ["\x1b]0;title\x07", "\x1b[2J", "\x1b[8m", "\x1b[30;40m", "\x9b31m", "\r", "\u202e", "\u2066", "\u2069",
           "\u200b", "\u2028", "\u061c", "\ufeff", "\U000e0041"]


def elements(count: int) -> tuple[str, str, str]:
    return "import", "p.xml", OPEN + "".join(f"<a{number}/>" for number in range(count)) + "</Policy>"


def known_elements(count: int) -> tuple[str, str, str]:
    held = "".join(f'<Rule RuleId="r{number}" Effect="Permit"/>' for number in range(count))
    return "import", "p.xml", OPEN + "<Target/>" + held + "</Policy>"


def attributes(count: int) -> tuple[str, str, str]:
    return "import", "p.xml", OPEN + "<Rule " + " ".join(f'a{number}="x"' for number in range(count)) + "/></Policy>"


def members(count: int) -> tuple[str, str, str]:
    return "check", "p.json", json.dumps({"Policy": {f"a{number}": 1 for number in range(count)}})


def repeated(count: int) -> tuple[str, str, str]:
    return "check", "p.json", '{"Policy":{' + ",".join(['"a":1'] * count) + "}}"


def variables(count: int) -> tuple[str, str, str]:
    held = edited(POLICY, ('"VariableDefinition": [', '"VariableDefinition": [' + "".join(
        json.dumps({"VariableId": f"v{number}", "Expression": TRUE}) + "," for number in range(count))))
    for_each = [{"RuleId": f"n{number}", "Effect": "Deny", "Condition": {"VariableReference": {
        "VariableId": f"another {number}"}}} for number in range(count)]
    rules = "".join(json.dumps(one) + "," for one in for_each)
    return "check", "p.json", edited(held, ('"Rule": [', '"Rule": [' + rules))


def alfa(count: int) -> tuple[str, str, str]:
    held = "".join(f"rule r{number} {{ permit condition x{number} == y{number} }}\n" for number in range(count))
    return "import", "p.alfa", "namespace a { policy p { apply denyOverrides\n" + held + "}}"


class Names(DeskTest):
    """Very many names, each another one."""

    def calls(self, word: str, name: str, held: str) -> int:
        """How many functions are called, which no load of the machine changes."""
        count = [0]

        def called(_: object, event: str, __: object) -> None:
            count[0] += event in ("call", "c_call")
        sys.setprofile(called)
        try:
            run(word, f"@{name}", files={name: held})
        finally:
            sys.setprofile(None)
        return count[0]

    def test_linear(self) -> None:
        """Twice as many take twice as long, and not four times."""
        for kind, few in ((elements, 150), (known_elements, 300), (attributes, 150), (members, 150), (repeated, 300),
                          (variables, 450), (alfa, 100)):
            with self.subTest(kind.__name__):
                none, one, two = (self.calls(*kind(count)) for count in (1, few, 2 * few))
                self.assertLess(two - none, 2.6 * (one - none))

    def test_remarks_are_few(self) -> None:
        """So many are printed, and the others are counted."""
        cases = json.dumps({"Policy": ["p.json"], "Root": "p", "Case": [1] * 500})
        for word, name, held, more in (("check", "p.json", members(500)[2], 304),
                                       ("import", "p.xml", elements(500)[2], 301), ("test", "c.json", cases, 300)):
            with self.subTest(word):
                _, written, told = run(word, f"@{name}", files={"p.json": POLICY, name: held})
                self.assertIn(f"{name}: {more} more; --json writes all", written + told)
                self.assertLess(len(written + told), 100_000)
        self.assertEqual(len(json.loads(run("check", "--json", "@p.json", files={"p.json": members(500)[2]})[1])), 504)

    def test_text_that_comes_in_pieces(self) -> None:
        """A text of many lines is one text."""
        lines = "line &lt; &#233;\n" * 500
        held = OPEN + f"<Description>{lines}</Description><Target/></Policy>"
        written = run("import", "@p.xml", files={"p.xml": held})[1]
        self.assertEqual(json.loads(written)["Policy"]["Description"], "line < \u00e9\n" * 500)


class Places(DeskTest):
    """Names of files and servers that none has."""

    def test_they_are_told(self) -> None:
        with tempfile.TemporaryDirectory() as folder:
            def status(server: str, name: str) -> subprocess.CompletedProcess[str]:
                with open(os.path.join(folder, "domain.json"), "w", encoding="utf-8") as file:
                    held = {"Server": server, "Domain": "mine", "Root": "p", "Documents": [name], "Cases": []}
                    json.dump(held, file)
                words = [sys.executable, str(TOOL / "policy.py"), "status", folder]
                surroundings = {**os.environ, "DALVEZOUR_TOKEN": "mine-admin-1"}
                return subprocess.run(words, env=surroundings, capture_output=True, text=True, check=False)

            for name, words in (("a\0b.json", "a name with a NUL byte"), ("a" * 5_000, "File name too long")):
                found = status("http://127.0.0.1:1", name)
                told = words in found.stderr
                self.assertEqual((found.returncode, told, "Traceback" in found.stderr), (2, True, False))
            with open(os.path.join(folder, "p.json"), "w", encoding="utf-8") as file:
                file.write(POLICY)
            for server in ("https://a b", "https://a\0b", "http://127.0.0.1:1/\u00e4"):
                found = status(server, "p.json")
                told = "is no address of a server" in found.stderr
                self.assertEqual((found.returncode, told, "Traceback" in found.stderr), (2, True, False))


class Links(DeskTest):
    """A folder that somebody else has made, as a clone."""

    def said(self, *words: str) -> tuple[int, str]:
        surroundings = {**os.environ, "DALVEZOUR_TOKEN": "mine-admin-1"}
        ran = subprocess.run([sys.executable, str(TOOL / "policy.py"), *words], env=surroundings, capture_output=True,
                             text=True, check=False, timeout=60)
        return ran.returncode, " ".join((ran.stdout + ran.stderr).split())

    def test_nothing_outside_is_named(self) -> None:
        """What stands elsewhere would be sent to the server that the folder names."""
        with tempfile.TemporaryDirectory() as above:
            folder = pathlib.Path(above, "theirs")
            folder.mkdir()
            for place in (folder, pathlib.Path(above)):
                (place / "p.json").write_text(POLICY)
                (place / "rows.json").write_text('{"Row":[]}')
            (folder / "linked.json").symlink_to("../p.json")
            held = {"Server": "http://127.0.0.1:1", "Domain": "mine", "Root": "p"}
            outside = [{"Documents": ["../p.json"]}, {"Documents": [f"{above}/p.json"]}, {"Documents": [".."]},
                       {"Documents": ["linked.json"]}, {}, {"Documents": ["p.json"], "Rows": "../rows.json"},
                       {"Documents": ["p.json"], "Cases": ["../c.json"]}]
            for more in outside:
                (folder / "domain.json").write_text(json.dumps({**held, **more}))
                status, said = self.said("deploy", "--yes", str(folder))
                self.assertEqual((status, "leads out of the folder" in said), (1, True), f"{more}: {said}")
            (folder / "linked.json").unlink()
            (folder / "domain.json").write_text(json.dumps({**held, "Documents": ["p.json", "./p.json"]}))
            self.assertNotIn("leads out of the folder", self.said("deploy", "--yes", str(folder))[1])

    def test_nothing_is_written_through_a_link(self) -> None:
        with tempfile.TemporaryDirectory() as above:
            folder, elsewhere = pathlib.Path(above, "theirs"), pathlib.Path(above, "elsewhere")
            folder.mkdir()
            pathlib.Path(above, "p.json").write_text(POLICY)
            (folder / "p.xml").symlink_to(elsewhere)
            status, said = self.said("export", f"{above}/p.json", "--to", str(folder))
            self.assertEqual((status, "p.xml is a link" in said, elsewhere.exists()), (2, True, False), said)
            (folder / "p.xml").unlink()
            (pathlib.Path(above) / "mine").symlink_to(folder)
            status, said = self.said("export", f"{above}/p.json", "--to", f"{above}/mine")
            self.assertEqual((status, (folder / "p.xml").is_file()), (0, True), said)

    def test_what_has_no_end_is_left_out(self) -> None:
        with tempfile.TemporaryDirectory() as folder:
            pathlib.Path(folder, "p.json").write_text(POLICY)
            os.mkfifo(f"{folder}/pipe.json")
            os.symlink("/dev/zero", f"{folder}/zero.json")
            self.assertEqual(self.said("check", "--program", "none", folder)[0], 0)


class Filter(DeskTest):
    """All that is written passes one filter."""

    def strange(self, written: str) -> None:
        for held in (*STRANGE, "\x1b"):
            self.assertNotIn(held, written)

    def test_texts_and_names_of_files(self) -> None:
        for held in STRANGE:
            name = held.replace("/", "") + "p.json"
            text = edited(POLICY, ('"staff"', json.dumps("staff" + held)), ('"Permit"', json.dumps("Perm" + held)))
            for words in (["check", f"@{name}"], ["check", f"@{name}", "--json"],
                          ["ask", "--policy", f"@{name}", "--request", "@p.json"], ["import", f"@{name}"],
                          ["check", "@p.json", "--off", held], ["check", "@p.json", "--root", held], [held]):
                with self.subTest(held, words=words[0]):
                    _, written, said = run(*words, files={name: text, "p.json": POLICY})
                    self.strange(written + said)

    def test_json_stays_what_it_is(self) -> None:
        """An escape in JSON means the letter."""
        text = edited(POLICY, ('"Permit"', json.dumps("Perm\u202e")))
        written = run("check", "@p.json", "--json", files={"p.json": text})[1]
        self.assertNotIn("\u202e", written)
        self.assertEqual(json.loads(written)[0]["found"], "Perm\u202e")

    def test_a_file_that_is_made_is_written_as_it_is(self) -> None:
        """Where standard output is no terminal."""
        held = OPEN + "<Description>left-to-right \u200e mark</Description><Target/></Policy>"
        self.assertIn("right \u200e mark", run("import", "@p.xml", files={"p.xml": held})[1])

    def test_a_terminal(self) -> None:
        """The desk's own colours alone reach it."""
        with tempfile.TemporaryDirectory() as folder:
            path = os.path.join(folder, "\x1b[8mp.json")
            with open(path, "w", encoding="utf-8") as file:
                file.write(edited(POLICY, ('"Permit"', json.dumps("\x1b[8mPerm"))))
            ours, theirs = pty.openpty()
            words = [sys.executable, str(TOOL / "policy.py"), "check", "--program", "none", path]
            environment = {name: held for name, held in os.environ.items() if name != "NO_COLOR"} | {"TERM": "xterm"}
            ran = subprocess.Popen(words, stdout=theirs, stderr=theirs, stdin=theirs, env=environment)
            os.close(theirs)
            written = b""
            try:
                while piece := os.read(ours, 4096):
                    written += piece
            except OSError:  # the other end is closed
                pass
            ran.wait()
            os.close(ours)
        self.assertIn(b"\x1b[1;31mfault", written)
        self.assertNotIn(b"\x1b[8m", written)


if __name__ == "__main__":
    unittest.main()
