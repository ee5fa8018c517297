"""The program that `--program try` takes: it is compiled once, and kept for the next time."""
from __future__ import annotations

import contextlib
import io
import pathlib
import tempfile
import unittest
from unittest import mock

from .desk_tests import POLICY, DeskTest, program, run

programs = program.programs
ECHO = "#!/bin/sh\nexec cat\n"


class Kept(DeskTest):
    """What is compiled is kept, and taken again while its sources are the same."""

    def setUp(self) -> None:
        folder = tempfile.TemporaryDirectory()
        self.addCleanup(folder.cleanup)
        self.top, self.sources, self.compiled = pathlib.Path(folder.name).resolve(), "these", 0
        held = {"TOP": self.top, "UNPROVED": self.top / "unproved", "fingerprint": lambda *_: self.sources,
                "compiled_program": self.compiling, "tower": lambda _: {"xa_trials": []}}
        for patch in (mock.patch.multiple(programs, **held), mock.patch.object(program, "TOP", self.top)):
            patch.start()
            self.addCleanup(patch.stop)

    def compiling(self, name: str, level: str) -> pathlib.Path:
        """Stands for the compiler: leaves a program that answers each row with itself."""
        self.compiled += 1
        path = programs.unproved_path(name, level)
        path.parent.mkdir(exist_ok=True)
        path.write_text(ECHO, encoding="ascii")
        path.chmod(0o755)
        programs.note(path, self.sources)
        return path

    def tried(self) -> tuple[program.Program, str]:
        """The program, and what is said meanwhile."""
        with contextlib.redirect_stderr(io.StringIO()) as said:
            found = program.tried()
        self.assertEqual(found.answers([["a", "b"], ["c"]]), [["a", "b"], ["c"]])
        self.assertIn("is compiled without proof", found.warning)
        return found, said.getvalue()

    def test_it_is_compiled_once(self) -> None:
        first, said = self.tried()
        self.assertIn("compiled without proof, in some three minutes, and kept for the next time", " ".join(
            said.replace("#", "").split()))
        second, said = self.tried()
        self.assertEqual((second.command, said, self.compiled), (first.command, "", 1))

    def test_of_other_sources_it_is_compiled_again(self) -> None:
        self.tried()
        self.sources = "others"
        self.tried()
        self.assertEqual(self.compiled, 2)

    def test_one_that_was_changed_is_not_taken(self) -> None:
        found, _ = self.tried()
        pathlib.Path(found.command[0]).write_text(ECHO + "# changed\n", encoding="ascii")
        self.tried()
        self.assertEqual(self.compiled, 2)

    def test_an_optimised_one_goes_before(self) -> None:
        self.tried()
        self.compiling("xa_trials", programs.OPTIMISED)
        self.assertEqual(self.tried()[0].command, [str(self.top / "unproved" / "xa_trials")])
        self.assertEqual(self.compiled, 2)


class Real(DeskTest):
    """A program of these sources that was compiled before."""

    def test_it_answers(self) -> None:
        kept = [path for level in (programs.OPTIMISED, programs.QUICKLY)
                if programs.is_of(path := programs.unproved_path("xa_trials", level),
                                  programs.fingerprint("xa_trials", ("src",)))]
        if not kept:
            self.skipTest("none of these sources was compiled")
        with mock.patch.object(programs, "compiled_program", side_effect=AssertionError("compiled again")):
            status, written, said = run("check", "@p.json", files={"p.json": POLICY}, program="try")
        self.assertEqual(status, 0, written + said)
        self.assertIn("the program says the same", written)


if __name__ == "__main__":
    unittest.main()
