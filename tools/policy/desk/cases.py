"""Cases: requests with the decisions that a team expects, kept beside its policies.

A file of cases is a JSON object:
    Policy    the documents' files, or folders of documents, relative to the file of cases
    Root      the id of the document where decisions begin; may be left out where there is one document
    Rows      a file of source rows, or {"Row": [..]} itself; may be left out
    Case      an array of cases, each with
        Name         what people call it; may be left out
        Request      a file, or {"Request": {..}} itself
        At           a time; may be left out, and is then 1970-01-01T00:00:00Z
        Decision     Permit, Deny, NotApplicable or Indeterminate
        Status       ok, missing-attribute, syntax-error or processing-error; not looked at where it is left out
        Obligations  an array, in order, of ids, or of objects {"Id": .., "Assignments": {ATTRIBUTE-ID: VALUE or
                     [VALUES]}}; not looked at where it is left out
        Advice       the same
        Results      in place of the five above, where the request has several results: an array
                     of objects of these five
"""
from __future__ import annotations

import argparse
import json
import pathlib
import xml.etree.ElementTree as xml
from dataclasses import dataclass, field

from . import ask, coverage, explain, explained, files, names, setting, text, together
from .check import Rows, json_of, rows_in
from .faults import Remarks
from .positions import Node, Source
from .program import Program
from .verdicts import print_remarks

OF_FILE = ["Policy", "Root", "Rows", "Case"]
OF_CASE = ["Name", "Request", "At", "Decision", "Status", "Obligations", "Advice", "Results"]
OF_RESULT = ["Decision", "Status", "Obligations", "Advice"]
DECISIONS = ["Permit", "Deny", "NotApplicable", "Indeterminate"]
STATUSES = ["ok", "missing-attribute", "syntax-error", "processing-error"]


@dataclass
class Case:
    """A case: the request's bytes, the moment, and what is expected of each result."""
    name: str
    node: Node
    held: bytes
    moment: int
    expected: list[dict]


@dataclass
class Outcome:
    """What became of a case: why it failed, or nothing."""
    case: Case
    failures: list[str]
    because: str = ""
    explained: list[dict] | None = None


@dataclass
class Suite:
    """A file of cases with its setting."""
    path: str
    setting: setting.Setting
    cases: list[Case]
    outcomes: list[Outcome] = field(default_factory=list)


class CaseReader:
    """Reads a file of cases, and remarks what is wrong with it."""

    def __init__(self, path: str):
        self.path, self.folder, self.remarks = path, pathlib.Path(path).parent, Remarks()
        self.source = Source(path, files.held(path))

    def fault(self, node: Node, sentence: str, **more: str) -> None:
        """Says what is wrong with the file of cases."""
        self.remarks.fault("case", node, sentence, **more)

    def known(self, node: Node | None, table: list[str], needed: list[str]) -> bool:
        """Whether the value is an object with the needed members; members that the table hasn't are faults."""
        if node is None or node.kind != "object":
            if node is not None:
                self.fault(node, f"Here belongs an object with the members {text.listed(table, 'and')}.")
            return False
        for member in node.members:
            if member.name not in table:
                nearest = names.nearest(member.name, table)
                self.fault(member.node,
                           f'There is no member "{member.name}" here.'
                           + (f' Did you mean "{nearest}"?' if nearest else ""),
                           expected=text.listed(table), nearest=nearest)
        for name in needed:
            if node.at(name) is None:
                other = names.other_file(node.last()) if name == "Case" else ""
                self.fault(node, f'The member "{name}" is missing.{other}')
        return all(node.at(name) is not None for name in needed)

    def text(self, node: Node | None, known: list[str] | None = None) -> str | None:
        """A text, or one of those known."""
        if node is None:
            return None
        if node.kind != "string" or known is not None and node.value not in known:
            nearest = names.nearest(str(node.value), known or [])
            self.fault(node,
                       f"Here belongs {text.listed(known) if known else 'a text'}."
                       + (f" Did you mean {nearest}?" if nearest else ""), nearest=nearest)
            return None
        return node.value

    def suite(self) -> Suite | None:
        """The suite; None where something is wrong with the file or with those that it names."""
        node = json_of(self.source, self.remarks)
        if self.remarks.faults() or not self.known(node, OF_FILE, ["Policy", "Case"]):
            return None
        held = self.setting(node)
        found = [self.case(item, number) for number, item in enumerate(self.items(node.at("Case")), 1)]
        return None if self.remarks.faults() or held is None else Suite(self.path, held,
                                                                        [case for case in found if case is not None])

    def items(self, node: Node | None) -> list[Node]:
        """The items of an array."""
        if node is not None and node.kind != "array":
            self.fault(node, "Here belongs an array.")
        return node.value if node is not None and node.kind == "array" else []

    def setting(self, node: Node) -> setting.Setting | None:
        """What decides on the cases."""
        policy = node.at("Policy")
        paths = [self.text(item) for item in ([policy] if policy.kind == "string" else self.items(policy))]
        documents = files.documents([str(self.folder / path) for path in paths if path is not None])
        together.Together(documents).doubles()
        rows = self.rows(node.at("Rows"))
        for remarks in [one.remarks for one in documents] + ([rows.remarks] if rows else []):
            self.remarks.found += remarks.faults()
        return None if self.remarks.faults() else setting.Setting(
            documents, setting.root_of(self.text(node.at("Root")), documents), rows)

    def rows(self, node: Node | None) -> Rows | None:
        """The source rows, which stand here or in a file."""
        if node is None:
            return None
        if node.kind == "object":
            return rows_in(node, self.source, Remarks(), node.text.encode())
        path = self.text(node)
        return None if path is None else files.rows(str(self.folder / path))

    def case(self, node: Node, number: int) -> Case | None:
        """A case."""
        if not self.known(node, OF_CASE,
                          ["Request"] + ["Decision"] * (node.kind == "object" and node.at("Results") is None)):
            return None
        results = node.at("Results")
        expected = ([self.result(node, OF_CASE)] if results is None else
                    [self.result(item) for item in self.items(results)])
        at = self.text(node.at("At"))
        try:
            moment = 0 if at is None else setting.moment_of(at)
        except setting.Usage as fault:
            self.fault(node.at("At"), f"{fault}.")
            return None
        return Case(self.text(node.at("Name")) or f"case {number}", node, self.request(node.at("Request")),
                    moment, expected)

    def request(self, node: Node) -> bytes:
        """The bytes of a request that stands here, or in a file."""
        if node.kind == "object":
            return node.text.encode()
        path = self.text(node)
        return b"" if path is None else files.held(self.folder / path)

    def result(self, node: Node, table: list[str] | None = None) -> dict:
        """What is expected of a result."""
        if not self.known(node, table or OF_RESULT, ["Decision"]):
            return {}
        found: dict = {"Decision": self.text(node.at("Decision"), DECISIONS),
                       "Status": self.text(node.at("Status"), STATUSES)}
        for name in ("Obligations", "Advice"):
            if node.at(name) is not None:
                found[name] = [self.duty(item) for item in self.items(node.at(name))]
        return found

    def duty(self, node: Node) -> dict:
        """An obligation, or advice, that is expected."""
        if node.kind == "string":
            return {"Id": node.value}
        if not self.known(node, ["Id", "Assignments"], ["Id"]):
            return {}
        held = node.at("Assignments")
        return {"Id": self.text(node.at("Id")), **({"Assignments": held.plain()} if held is not None else {})}


def duty_of(given: dict, wanted: dict) -> dict:
    """A returned obligation as a case says it, with its assignments where the case has them."""
    found: dict = {"Id": given["Id"]}
    if "Assignments" in wanted:
        held: dict[str, list] = {}
        for one in given.get("AttributeAssignment", []):
            held.setdefault(one["AttributeId"], []).append(one["Value"])
        found["Assignments"] = {name: several if isinstance(wanted["Assignments"].get(name), list)
                                or len(several) > 1 else several[0] for name, several in held.items()}
    return found


def differences(expected: dict, given: dict) -> list[str]:
    """How a result differs from what is expected."""
    found = []
    status = given["Status"]["StatusCode"]["Value"].rsplit(":", 1)[1]
    if expected["Decision"] != given["Decision"]:
        found.append(f"expected {expected['Decision']}, found {given['Decision']} ({status})")
    elif expected["Status"] not in (None, status):
        found.append(f"expected the status {expected['Status']}, found {status}")
    for name, member in (("Obligations", "Obligations"), ("Advice", "AssociatedAdvice")):
        if name in expected:
            wanted = expected[name]
            held = given.get(member, [])
            found_duties = [duty_of(one, wanted[place] if place < len(wanted) else {})
                            for place, one in enumerate(held)]
            if found_duties != wanted:
                found.append(f"expected {name.lower()} {shown(wanted)}, found {shown(found_duties)}")
    return found


def shown(duties: list[dict]) -> str:
    """Obligations, or advice, as a case has them."""
    held = [duty["Id"]
            if "Assignments" not in duty else f"{duty['Id']} {json.dumps(duty['Assignments'], ensure_ascii=False)}"
            for duty in duties]
    return ", ".join(held) or "none"


def outcome(case: Case, answer: ask.Answer, told: list[dict] | None) -> Outcome:
    """Whether the answer is the expected one."""
    if answer.is_refused:
        return Outcome(case, [f"the request is refused: {answer.body[1:]}"])
    results = answer.results()
    if len(results) != len(case.expected):
        return Outcome(case,
                       [f"expected {text.counted(len(case.expected), 'result')}, found {len(results)}: "
                        f"{', '.join(result['Decision'] for result in results)}"])
    failures, because = [], ""
    for number, (expected, given) in enumerate(zip(case.expected, results)):
        differ = differences(expected, given)
        failures += [f"result {number + 1}: {one}" if len(results) > 1 else one for one in differ]
        if differ and told and not because:
            because = told[number].get("tree", told[number]).get("because", "")
    return Outcome(case, failures, because, told)


def run_suite(suite: Suite, program: Program | None, reached: coverage.Coverage) -> bool:
    """Runs the cases; whether model and program agree on all of them."""
    answers = ask.answered(suite.setting, [(case.held, case.moment) for case in suite.cases], program)
    agree = True
    for case, answer in zip(suite.cases, answers):
        told = explain.explained(suite.setting, case.held, case.moment)
        suite.outcomes.append(outcome(case, answer, told))
        reached.add(told or [])
        if not answer.agrees or not ask.is_explained(answer.results(), told):
            agree = False
            text.loud(f"MODEL AND PROGRAM DISAGREE on {suite.path}, {case.name}. The model: "
                      f"{answer.by_model[:400]} The program: {(answer.by_program or '')[:400]}")
    return agree


def print_outcome(one: Outcome, is_explained: bool = False) -> None:
    """A case, and why it failed where it did: in a line, or by the whole tree."""
    place = f"{one.case.node.source.path}:{one.case.node.place.line}"
    if not one.failures:
        print(text.wrapped(f"{text.painted('ok', 'green')}      {one.case.name}", "", "        "))
        return
    print(text.wrapped(f"{text.painted('FAILED', 'bold', 'red')}  {one.case.name} ({place})", "", "        "))
    for failure in one.failures:
        print(text.wrapped(failure, "        "))
    if is_explained and one.explained:
        print(f"\n{explained.shown(one.explained)}\n")
    elif one.because:
        print(text.wrapped(f"because: {one.because}", "        ", "            "))


def junit(suites: list[Suite]) -> bytes:
    """The results as JUnit XML."""
    whole = xml.Element("testsuites")
    for suite in suites:
        failed = sum(bool(one.failures) for one in suite.outcomes)
        held = xml.SubElement(whole, "testsuite", name=suite.path, tests=str(len(suite.outcomes)), failures=str(failed),
                              errors="0")
        for one in suite.outcomes:
            case = xml.SubElement(held, "testcase", classname=suite.path, name=one.case.name, file=suite.path,
                                  line=str(one.case.node.place.line))
            if one.failures:
                xml.SubElement(case, "failure", message=one.failures[0]).text = "\n".join(
                    [*one.failures, *([f"because: {one.because}"] if one.because else [])])
    xml.indent(whole)
    return xml.tostring(whole, encoding="utf-8", xml_declaration=True) + b"\n"


def print_suite(suite: Suite, is_explained: bool) -> None:
    """The outcomes of a file of cases."""
    print(text.painted(suite.path, "bold"))
    for one in suite.outcomes:
        print_outcome(one, is_explained)


def run(readers: list[CaseReader], program: Program | None, options: argparse.Namespace) -> int:
    """Runs files of cases, as the options say; the exit status."""
    suites, has_faults, agree, reached = [], False, True, coverage.Coverage()
    for reader in readers:
        suite = reader.suite()
        if suite is None:
            has_faults = True
            print_remarks(reader.remarks.faults())
            continue
        suites.append(suite)
        reached.expect(suite.setting)
        agree = run_suite(suite, program, reached) and agree
        print_suite(suite, options.is_explained)
    if options.junit is not None:
        pathlib.Path(options.junit).write_bytes(junit(suites))
    if options.coverage:
        print("\n" + reached.shown())
    outcomes = [one for suite in suites for one in suite.outcomes]
    failed = sum(bool(one.failures) for one in outcomes)
    print("\n" + text.wrapped(
        f"{text.counted(len(outcomes), 'case')}: {len(outcomes) - failed} ok, {failed} failed, by "
        + ("the model alone" if program is None else "model and program")
        + ("; --explain shows how each failed one came about" if failed and not options.is_explained else "")))
    return 3 if not agree else 1 if failed or has_faults else 0
