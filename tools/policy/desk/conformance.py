"""Test cases in the layout of the OASIS conformance suite: a policy, a request and the expected response.

A case NAME is NAMEPolicy.xml, NAMERequest.xml, NAMEResponse.xml, and further policies and sets
NAMEPolicy..xml, which are there to be referred to. The decisions are the program's, and the model's where
there is none.
"""
from __future__ import annotations

import json
import pathlib
import re
from dataclasses import dataclass, field

from . import ask, files, responses_in_xml, setting, text
from .check import Checked, Disagreement, checked
from .faults import Remark, Remarks
from .import_request import imported_request
from .importing import imported
from .model import rows, versions
from .program import Program
from .setting import Usage
from .verdicts import FAULTS, FINE

FILE = re.compile(r"(.+?)(Policy|Request|Response)(.*)\.xml")
COLOURS = {"pass": "green", "differs": "red", "out of scope": "yellow", "unread": "red"}


@dataclass
class Case:
    """A case: its files, and what became of it. A verdict is `pass`, `differs`, `out of scope` or
    `unread`."""
    name: str
    policies: list[pathlib.Path] = field(default_factory=list)
    request: pathlib.Path | None = None
    response: pathlib.Path | None = None
    verdict: str = ""
    why: list[str] = field(default_factory=list)
    held: setting.Setting | None = None
    body: bytes = b""
    expected: list | None = None
    notes: list[str] = field(default_factory=list)

    def ended(self, verdict: str, *why: str) -> None:
        self.verdict, self.why = verdict, list(why)

    def as_json(self) -> dict[str, object]:
        return {"case": self.name, "verdict": self.verdict, "why": self.why}


def cases_in(folder: pathlib.Path) -> list[Case]:
    """The cases of a folder, by their names."""
    found: dict[str, Case] = {}
    for path in sorted(folder.glob("*.xml")):
        parts = FILE.fullmatch(path.name)
        if parts is None:
            continue
        case = found.setdefault(parts[1], Case(parts[1]))
        if parts[2] == "Policy":
            case.policies.append(path)
        elif parts[2] == "Request":
            case.request = path
        else:
            case.response = path
    if not found:
        raise Usage(f"{folder} holds no files NAMEPolicy.xml, NAMERequest.xml and NAMEResponse.xml")
    return list(found.values())


def root_path(case: Case) -> pathlib.Path | None:
    """The file where a decision begins: NAMEPolicy.xml, or NAMEPolicySet.xml where there is none."""
    names = [f"{case.name}Policy.xml", f"{case.name}PolicySet.xml"]
    return next((path for name in names for path in case.policies if path.name == name), None)


def sentence_of(remark: Remark) -> str:
    """A remark on one line."""
    name = pathlib.Path(remark.source.path).name
    return f"{name}:{remark.place.line}:{remark.place.column}: {remark.sentence}"


def stopped(case: Case, found: list[Remarks]) -> bool:
    """Whether faults end the case: where all of them are of what is left out, it is out of scope."""
    faults = [remark for remarks in found for remark in remarks.faults()]
    if faults:
        verdict = "out of scope" if all(one.code == "LeftOut" for one in faults) else "unread"
        case.ended(verdict, *map(sentence_of, faults[:3] if verdict == "unread" else faults))
    return bool(faults)


def has_doubles(case: Case, held: list[Checked]) -> bool:
    """Whether two of the documents are of one kind, id and version, which ends the case: a server holds one
    of them alone."""
    seen: dict[str, str] = {}
    for one in held:
        key = repr((one.document.kind, one.document.id, versions.numbered(one.document.version.split("."))))
        if key in seen:
            case.ended("unread",
                       f"{one.document.id} {one.document.version} is in {seen[key]} and in "
                       f"{one.source.path}.")
            return True
        seen[key] = one.source.path
    return False


def prepared(case: Case) -> None:
    """Reads the files of a case; it ends here where they can't be asked."""
    wanted = ("Policy", root_path(case)), ("Request", case.request), ("Response", case.response)
    missing = [name for name, there in wanted if there is None]
    if missing:
        case.ended("unread",
                   f"{text.listed([f'{case.name}{name}.xml' for name in missing], 'and')} is missing")
        return
    documents = [(path, imported(path.name, files.held(path))) for path in case.policies]
    asked = imported_request(case.request.name, files.held(case.request))
    expected = responses_in_xml.expected_of(case.response)
    if stopped(case, [*(one.remarks for _, one in documents), asked.remarks, expected.remarks]):
        return
    unanswered = [remark for remark in asked.remarks.found if remark.code == "not-answered"
                  and "combine" in remark.sentence]
    if unanswered:
        case.ended("out of scope", *map(sentence_of, unanswered))
        return
    held: list[Checked] = [checked(path.name, one.text) for path, one in documents]
    if has_doubles(case, held):
        return
    root = held[[path for path, _ in documents].index(root_path(case))].document
    version = versions.numbered(root.version.split("."))
    case.held = setting.Setting(held, versions.Reference(root.kind, root.id, None, version, version), None)
    case.body, case.expected = asked.text, expected.results
    case.notes = [sentence_of(remark) for remark in expected.remarks.found]


def answered(cases: list[Case], moment: int, program: Program | None) -> list[tuple[str, str]]:
    """To each case the response of the model, and the program's, which is the model's where there is
    none."""
    models = [ask.by_model(case.held, case.body, moment) for case in cases]
    if program is None:
        return [(model, model) for model in models]
    written = program.answers([ask.row_of(case.held, case.body, moment) for case in cases])
    return [(model, rows.decoded(fields[0]).decode("utf-8", "replace"))
            for model, fields in zip(models, written)]


def judged(case: Case, by_model: str, by_program: str) -> None:
    """Compares the response with the expected one."""
    if by_model != by_program:
        raise Disagreement(f"MODEL AND PROGRAM DISAGREE on case {case.name}. The model: {by_model[:400]} "
                           f"The program: {by_program[:400]}")
    given = responses_in_xml.given_of(json.loads(by_program)["Response"])
    why = responses_in_xml.differences(case.expected, given)
    case.ended("differs" if why else "pass", *why, *case.notes)


def print_case(case: Case) -> None:
    """What became of a case, and why."""
    print(f"{case.name:10}  {text.painted(case.verdict, COLOURS[case.verdict])}")
    for why in case.why:
        print(text.wrapped(why, " " * 12))


def run(folders: list[str], moment: int, program: Program | None, is_json: bool) -> int:
    """Runs the cases of the folders; the exit status."""
    cases = [case for folder in folders for case in cases_in(pathlib.Path(folder))]
    for case in cases:
        prepared(case)
    asked = [case for case in cases if not case.verdict]
    for case, (by_model, by_program) in zip(asked, answered(asked, moment, program)):
        judged(case, by_model, by_program)
    if is_json:
        print(json.dumps([case.as_json() for case in cases], indent=2))
    else:
        for case in cases:
            print_case(case)
        counts = [f"{sum(case.verdict == verdict for case in cases)} {word}"
                  for verdict, word in (("pass", "passed"), ("out of scope", "out of scope"),
                                        ("differs", "differ"), ("unread", "unread"))]
        print(f"{text.counted(len(cases), 'case')}: {', '.join(counts)}"
              + ("; by the model alone." if program is None else "; by model and program."))
    return FAULTS if any(case.verdict in ("differs", "unread") for case in cases) else FINE
