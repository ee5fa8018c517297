"""The desk as one file: outside the clone, on each Python that is there, against a running server."""
from __future__ import annotations

import hashlib
import os
import pathlib
import re
import shutil
import subprocess
import sys
import tarfile
import tempfile
import unittest

from .deploy_tests import ADMIN, DeployTest
from .desk_tests import TOOL, TOP
from .test_deploy import P1, files

LEAST = (3, 9)


def pythons() -> list[str]:
    """The interpreters that are there and new enough: this one, the system's and those of pyenv."""
    root = pathlib.Path(os.environ.get("PYENV_ROOT", pathlib.Path.home() / ".pyenv"))
    paths = [sys.executable, "/usr/bin/python3", *map(str, sorted(root.glob("versions/*/bin/python3")))]
    found: dict[str, str] = {}
    for path in paths:
        if os.access(path, os.X_OK):
            words = [path, "-c", "import sys; print(*sys.version_info[:3])"]
            told = subprocess.run(words, capture_output=True, text=True, check=False).stdout.split()
            if tuple(map(int, told[:2])) >= LEAST:
                found.setdefault(".".join(told), path)
    return list(found.values())


def dist(program: pathlib.Path, folder: pathlib.Path) -> subprocess.CompletedProcess:
    """Packs that program, as `make dist PROGRAM=..` does."""
    words = [sys.executable, TOP / "deploy" / "dist.py", "--program", program, "--to", folder]
    return subprocess.run(words, capture_output=True, text=True, check=False)


class Packed(DeployTest):
    """The one file."""

    @classmethod
    def setUpClass(cls) -> None:
        super().setUpClass()
        cls.room = pathlib.Path(tempfile.mkdtemp(prefix="desk-packed-"))
        cls.addClassCleanup(shutil.rmtree, cls.room)
        cls.file = cls.room / "policy.pyz"
        subprocess.run([sys.executable, TOOL / "pack.py", cls.file], check=True, capture_output=True)
        shutil.copytree(TOP / "examples" / "ward", cls.room / "ward")

    def ran(self, python: str, *words: str) -> subprocess.CompletedProcess:
        """A run of the file where nothing of the clone is at hand."""
        environment = {"PATH": "/usr/bin:/bin", "HOME": str(self.room), "DALVEZOUR_TOKEN": ADMIN}
        return subprocess.run([python, str(self.file), *words], cwd=self.room, env=environment, capture_output=True,
                              text=True, stdin=subprocess.DEVNULL, check=False)

    def test_on_each_python(self) -> None:
        for python in pythons():
            with self.subTest(python):
                told = self.ran(python, "--version")
                self.assertRegex(told.stdout, r"^policy [0-9.]+, packed of [0-9a-f]{16}, Python 3[0-9.]+\n$",
                                 told.stderr)
                cases = self.ran(python, "test", "ward/cases.json")
                self.assertIn("5 cases: 5 ok, 0 failed, by the model alone", cases.stdout, cases.stderr)

    def test_its_words(self) -> None:
        """Those that need a clone say so."""
        checked = self.ran(sys.executable, "check", "ward/policy.json", "--rows", "ward/rows.json")
        self.assertEqual(checked.returncode, 0, checked.stderr)
        self.assertIn("by the model in Python alone", checked.stdout)
        self.assertIn("`--program PATH` names a program that answers too", " ".join(checked.stderr.split()))
        page = (TOOL / "README.md").read_text(encoding="utf-8")
        self.assertEqual(self.ran(sys.executable, "page").stdout, page + "\n")
        built = self.ran(sys.executable, "build")
        self.assertEqual((built.returncode, "has no sources" in built.stdout), (1, True))
        tried = self.ran(sys.executable, "check", "--program", "try", "ward/policy.json")
        self.assertEqual(tried.returncode, 3)
        self.assertIn("has no sources", " ".join(tried.stderr.replace("!", "").split()))

    def test_a_deployment(self) -> None:
        """It deploys to a server that runs, and each Python then finds there what the folder has."""
        folder = self.written(files(P1), "urn:p")
        deployed = self.ran(sys.executable, "deploy", "--yes", folder)
        self.assertEqual(deployed.returncode, 0, deployed.stdout + deployed.stderr)
        for python in pythons():
            with self.subTest(python):
                for words in (("status", "--strict"), ("diff", "--live", "--strict")):
                    done = self.ran(python, *words, folder)
                    self.assertEqual(done.returncode, 0, done.stdout + done.stderr)
                self.assertIn("is what runs there", done.stdout)
        self.assertEqual(self.listed(), {("urn:p", "1"): True})

    def test_the_same_bytes(self) -> None:
        other = self.room / "again.pyz"
        subprocess.run([sys.executable, TOOL / "pack.py", other], check=True, capture_output=True)
        self.assertEqual(other.read_bytes(), self.file.read_bytes())
        self.assertTrue(os.access(other, os.X_OK))

    def test_in_the_archive(self) -> None:
        """The archive of `make dist` holds these very bytes, to be run, and their checksum."""
        # any compiled program that tells a version stands for pdpd: here the interpreter
        packs = dist(pathlib.Path(sys.executable).resolve(), self.room / "dist")
        self.assertEqual(packs.returncode, 0, packs.stderr)
        (made,) = (self.room / "dist").glob("*.tar.gz")
        name = made.name[:-len(".tar.gz")]
        with tarfile.open(made) as archive:
            entry = archive.getmember(f"{name}/policy.pyz")
            archive.extractall(self.room / "unpacked")
            held, sums = archive.extractfile(entry).read(), archive.extractfile(f"{name}/SHA256SUMS").read()
        self.assertEqual((held == self.file.read_bytes(), entry.mode), (True, 0o755))
        self.assertIn(f"{hashlib.sha256(held).hexdigest()}  policy.pyz\n", sums.decode())

        subprocess.run([self.room / "unpacked" / name / "deploy" / "install", "/usr"], check=True,
                       capture_output=True, env={**os.environ, "DESTDIR": str(self.room / "there")})
        installed = self.room / "there" / "usr" / "lib" / "pdpd" / "policy.pyz"
        self.assertEqual((installed.read_bytes() == held, os.access(installed, os.X_OK)), (True, True))
        for page in ("README.md", "CHANGELOG.md", "SECURITY.md"):
            for folder in (self.room / "unpacked" / name, self.room / "there" / "usr" / "share" / "doc" / "pdpd"):
                self.assertEqual((folder / page).read_bytes(), (TOP / page).read_bytes(), folder)

    def test_a_script_in_place_of_the_program(self) -> None:
        """What `make run` leaves without a proof, or nothing at all, isn't packed, and a line says what to name."""
        script = self.room / "build" / "pdpd"
        script.parent.mkdir()
        script.write_text("#!/bin/sh\nexec /clone/build/unproved/pdpd \"$@\"\n", encoding="ascii")
        script.chmod(0o755)
        for named, told in ((script, "name that: /clone/build/unproved/pdpd"), (self.room / "absent", "No such file")):
            with self.subTest(named.name):
                packs = dist(named, self.room / "refused")
                self.assertEqual((packs.returncode, packs.stderr.count("\n")), (1, 1), packs.stderr)
                self.assertIn(told, packs.stderr)
                self.assertFalse((self.room / "refused").exists())

    def test_without_a_proof(self) -> None:
        """Where nothing is proved and no program is named, a line says how one is."""
        code = ("import sys; sys.path.insert(0, 'deploy'); import dist\n"
                "dist.programs.proved_program = lambda name: None\ndist.program_of(None)")
        packs = subprocess.run([sys.executable, "-c", code], cwd=TOP, capture_output=True, text=True, check=False)
        self.assertEqual((packs.returncode, packs.stderr.count("\n")), (1, 1), packs.stderr)
        self.assertIn("`make dist PROGRAM=PATH`", packs.stderr)

    def test_the_version(self) -> None:
        """It is that of pdpd."""
        held = (TOP / "crates" / "pdpd" / "src" / "help.rt").read_text(encoding="utf-8")
        version = re.search(r'VERSION: &str = "pdpd ([0-9.]+)["\n]', held)[1]
        self.assertTrue(self.ran(sys.executable, "--version").stdout.startswith(f"policy {version}, "))


if __name__ == "__main__":
    unittest.main()
