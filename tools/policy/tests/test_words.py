"""What words say of files of another language, of a root that leads nowhere, and of a program that is compiled."""
from __future__ import annotations

import contextlib
import io
import pathlib
import time
import unittest
from unittest import mock

from .desk_tests import POLICY, DeskTest, program, run

FILES = {"p.json": POLICY}


class Words(DeskTest):
    """What is at fault, and what helps."""

    def test_files_of_another_language(self) -> None:
        """XML and ALFA are imported first."""
        for name, held, language in (("p.xml", "<?xml version='1.0'?><Policy/>", "XML"),
                                     ("p.json", " <Policy/>", "XML"),
                                     ("p.alfa", "import x.*", "ALFA"),
                                     ("p.json", "// a comment\nnamespace acme { }", "ALFA")):
            status, written, _ = run("check", f"@{name}", files={name: held})
            self.assertEqual(status, 1)
            self.assertIn(f"This is {language}: import it first. `policy import FILE`", " ".join(written.split()))
            self.assertIn("1 fault,", written)
        self.assertNotIn("import it first", run("check", "@p.json", files={"p.json": "{'Policy': 1}"})[1])

    def test_a_root_that_leads_nowhere(self) -> None:
        """The word is at fault, and no file."""
        status, written, _ = run("check", "@p.json", "--root", "urn:test:shops", files=FILES)
        self.assertEqual(status, 1)
        self.assertIn("--root:1:1: fault leads-nowhere", written)
        self.assertIn("text      urn:test:shops", written)
        self.assertIn("Did you mean urn:test:shop?", " ".join(written.split()))
        self.assertIn("p.json: policy urn:test:shop 1.0: taken", written)

    def test_a_program_that_is_compiled(self) -> None:
        """`try` takes the one that is kept, and says how long it takes to make one."""
        def compiled(name: str) -> pathlib.Path:
            time.sleep(0.2)
            return program.TOP / "build" / "unproved" / name
        with mock.patch.object(program, "BETWEEN_WORDS", 0.05), mock.patch.object(
                program.programs, "soonest_program", compiled), contextlib.redirect_stderr(io.StringIO()) as said:
            found = program.found("try")
        self.assertIn("compiling xa_trials without proof: 0 s so far", said.getvalue())
        self.assertEqual(found.command, [str(program.TOP / "build" / "unproved" / "xa_trials")])
        self.assertIn("isn't proved", found.warning)
        proved = program.programs.prover_output("xa_trials")
        with mock.patch.object(program.programs, "soonest_program", lambda _: proved):
            self.assertEqual(program.found("try").warning, "")
        none = mock.Mock(side_effect=program.programs.NotBuilt("no toolchain"))
        with mock.patch.object(program.programs, "soonest_program", none):
            status, _, said = run("check", "@p.json", files=FILES, program="try")
        self.assertEqual(status, 3)
        self.assertIn("no toolchain", said)


if __name__ == "__main__":
    unittest.main()
