"""What the tests share: the desk's modules, runs of the command, and a policy that is right."""
from __future__ import annotations

import contextlib
import io
import os
import pathlib
import subprocess
import sys
import tempfile
import unittest

TOOL = pathlib.Path(__file__).resolve().parents[1]
TOP = TOOL.parents[1]
for folder in (TOOL, TOP / "tests" / "model" / "compare"):
    if str(folder) not in sys.path:
        sys.path.insert(1, str(folder))

from desk import check, cli, faults, lints, positions, program, text, together  # noqa: E402, F401

PROGRAM = None if "DESK_MODEL_ONLY" in os.environ else program.found()
FUNCTION = "urn:oasis:names:tc:xacml:1.0:function:"

POLICY = """{"Policy": {
  "PolicyId": "urn:test:shop",
  "Version": "1.0",
  "RuleCombiningAlgId": "urn:oasis:names:tc:xacml:3.0:rule-combining-algorithm:deny-overrides",
  "VariableDefinition": [
    {"VariableId": "open", "Expression": {"Apply": {
      "FunctionId": "urn:oasis:names:tc:xacml:2.0:function:time-in-range",
      "Expression": [
        {"Apply": {"FunctionId": "urn:oasis:names:tc:xacml:1.0:function:time-one-and-only",
                   "Expression": [{"AttributeDesignator": {"Category": "Environment", "AttributeId": "urn:oasis:names:tc:xacml:1.0:environment:current-time", "DataType": "time", "MustBePresent": true}}]}},
        {"AttributeValue": {"DataType": "time", "Value": "09:00:00Z"}},
        {"AttributeValue": {"DataType": "time", "Value": "17:00:00Z"}}]}}}],
  "Rule": [
    {"RuleId": "staff",
     "Effect": "Permit",
     "Target": {"AnyOf": [{"AllOf": [{"Match": [
       {"MatchId": "urn:oasis:names:tc:xacml:1.0:function:string-equal",
        "AttributeValue": {"DataType": "string", "Value": "staff"},
        "AttributeDesignator": {"Category": "AccessSubject", "AttributeId": "urn:test:role", "DataType": "string", "MustBePresent": false}}]}]}]},
     "Condition": {"VariableReference": {"VariableId": "open"}}},
    {"RuleId": "thieves",
     "Effect": "Deny",
     "Condition": {"Apply": {
       "FunctionId": "urn:oasis:names:tc:xacml:1.0:function:string-equal",
       "Expression": [
         {"Apply": {"FunctionId": "urn:oasis:names:tc:xacml:1.0:function:string-one-and-only",
                    "Expression": [{"AttributeDesignator": {"Category": "AccessSubject", "AttributeId": "urn:test:name", "DataType": "string", "MustBePresent": true}}]}},
         {"AttributeValue": {"DataType": "string", "Value": "thief"}}]}}}
  ]
}}
"""
REQUEST = """{"Request": {
  "AccessSubject": {"Attribute": [
    {"AttributeId": "urn:test:role", "Value": "staff"},
    {"AttributeId": "urn:test:name", "Value": "alice"}]}
}}
"""
ROWS = """{"Row": [
  {"Category": "AccessSubject", "Entity": "alice", "AttributeId": "urn:test:role", "DataType": "string", "Value": "staff"}
]}
"""


def edited(text: str, *pairs: tuple[str, str]) -> str:
    """The text with changes, each of which has to find what it changes."""
    for old, new in pairs:
        if old not in text:
            raise ValueError(f"nothing to change: {old}")
        text = text.replace(old, new, 1)
    return text


def checked(text: str, off: tuple[str, ...] = (), rows: str | None = None) -> check.Checked:
    """The document with the remarks of all checks."""
    found = check.checked("policy.json", text.encode())
    together.Together([found]).check()
    held = None if rows is None else check.checked_rows("rows.json", rows.encode())
    lints.Lints([found], held, set(off)).run()
    return found


def run(*words: str, files: dict[str, str] | None = None, program: str = "none") -> tuple[int, str, str]:
    """The status of the command in a folder with these files, and what it wrote; an argument @NAME is
    the file NAME there."""
    with tempfile.TemporaryDirectory() as folder:
        for name, held in (files or {}).items():
            path = pathlib.Path(folder, name)
            path.parent.mkdir(exist_ok=True)
            path.write_text(held, encoding="utf-8")
        given = [str(pathlib.Path(folder, word[1:])) if word.startswith("@") else word for word in words]
        if given and given[0] in ("check", "ask", "explain", "test", "diff", "import", "conformance") and program:
            given[1:1] = ["--program", program.replace("@", folder + "/")]
        out, err = io.StringIO(), io.StringIO()
        with contextlib.redirect_stdout(out), contextlib.redirect_stderr(err):
            try:
                status = cli.main(given)
            except SystemExit as ended:
                status = ended.code
        return status, out.getvalue().replace(folder + "/", ""), err.getvalue().replace(folder + "/", "")


def executed(*words: str) -> subprocess.CompletedProcess:
    """A run of the command itself, at the top of the repository."""
    return subprocess.run([str(TOOL / "policy.py"), *words], cwd=TOP, capture_output=True, text=True, check=False)


class DeskTest(unittest.TestCase):
    """A test of remarks."""

    def remark(self, remarks: faults.Remarks, code: str, offset: int, *words: str,
               level: str = "fault") -> faults.Remark:
        """The remark of this code at this offset, whose text for people has these words and fits 80 columns."""
        found = [one for one in remarks.found if one.code == code and one.start == offset and one.level == level]
        said = [(one.level, one.code, one.place.line, one.place.column, one.sentence) for one in remarks.found]
        self.assertTrue(found, f"no {level} {code} at {offset}, but {said}")
        shown = text.remark_shown(found[0])
        for word in words:
            self.assertIn(word, " ".join(shown.split()))
        self.narrow(shown)
        return found[0]

    def narrow(self, written: str) -> None:
        """What is written for people fits 80 columns, but for words that are longer and a response as
        the server writes it."""
        for line in written.split("\n"):
            self.assertTrue(len(line) <= 80 or len(line.split()) <= 2 or line.startswith('{"Response"'),
                            f"wider than 80 columns: {line}")
        self.assertNotIn("\033", written, "no colours but on a terminal")
