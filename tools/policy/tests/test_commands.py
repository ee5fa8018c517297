"""The command: what each word writes, its exit statuses, and that model and program are compared."""
from __future__ import annotations

import json
import os
import pathlib
import pty
import resource
import subprocess
import tempfile
import time
import unittest
import xml.etree.ElementTree as xml
from unittest import mock

from .desk_tests import POLICY, PROGRAM, REQUEST, ROWS, TOP, DeskTest, cli, edited, executed, program, run

all_agree = cli.all_agree

FILES = {"p.json": POLICY, "r.json": REQUEST, "rows.json": ROWS}
ASK = ("--policy", "@p.json", "--request", "@r.json", "--at", "2026-11-23T10:00:00Z")
SUBJECT_ID = "urn:oasis:names:tc:xacml:1.0:subject:subject-id"
LIAR = "#!/bin/sh\nwhile read -r line; do printf '%%s\\n' '%s'; done\n"
CASES = {"Policy": "p.json", "Case": [
    {"Name": "staff by day", "Request": json.loads(REQUEST), "At": "2026-11-23T10:00:00Z", "Decision": "Permit",
     "Status": "ok",
     "Obligations": []},
    {"Name": "staff at night", "Request": "r.json", "At": "2026-11-23T20:00:00Z", "Decision": "NotApplicable"}]}


def ask(request: str, at: str = "2026-11-23T10:00:00Z", *more: str, word: str = "ask",
        **files: str) -> tuple[int, str, str]:
    return run(word, "--policy", "@p.json", "--request", "@r.json", "--at", at, *more,
               files={**FILES, "r.json": request, **files})


class Commands(DeskTest):
    """What is written, and with which status it ends."""

    def test_usage(self) -> None:
        for words in ([], ["no-such"], ["check"], ["ask"], ["check", "@none.json"], ["ask", *ASK[:-1], "9:00"],
                      ["ask", *ASK[:-1], "99999999999999"], ["diff", "@p.json", "@p.json"],
                      ["ask", "--policy", "@p.json", "@q.json", *ASK[2:]], ["test", "@none.json"]):
            with self.subTest(words):
                self.assertEqual(
                    run(*words, files={**FILES, "q.json": POLICY.replace("urn:test:shop", "urn:test:other")})[0], 2)

    def test_check(self) -> None:
        status, written, said = run("check", "@p.json", files=FILES)
        self.assertEqual((status, written),
                         (0, "p.json: policy urn:test:shop 1.0: taken\n"
                             "0 faults, 0 warnings, 0 notes; by the model in Python alone.\n"))
        self.assertIn("only the model in Python spoke.", " ".join(said.split()))
        self.assertNotIn("built", said)
        with mock.patch.object(program, "PLACES", ()), mock.patch.dict(os.environ, {"DESK_PROGRAM": ""}):
            status, _, said = run("check", "@p.json", files=FILES, program="")
        self.assertEqual(status, 0)
        self.assertIn("xa_trials, the desk's proved program, isn't built: only the model in Python spoke. `--program ",
                      " ".join(said.split()))
        status, written, _ = run("check", "@p.json", "--json",
                                 files={"p.json": edited(POLICY, ('"Permit"', '"Permitt"'))})
        self.assertEqual(status, 1)
        self.assertEqual([(one["line"], one["column"], one["pointer"], one["code"], one["nearest"], one["answered"])
                          for one in json.loads(written)],
                         [(15, 16, "/Policy/Rule/0/Effect", "BadValue", "Permit", True)])
        self.assertEqual(run("check", "@p.json", "--root", "urn:none", files=FILES)[0], 1)
        self.assertEqual(run("check", "@p.json", "--rows", "@rows.json", files={**FILES, "rows.json": "[]"})[0], 1)

    def test_a_long_chain_of_variables(self) -> None:
        chain = [{"VariableId": "100", "Expression": {"AttributeValue": {"DataType": "boolean", "Value": True}}}]
        chain += [{"VariableId": str(name), "Expression": {"VariableReference": {"VariableId": str(name - 1)}}}
                  for name in range(101, 947)]
        condition = {"VariableReference": {"VariableId": "946"}}
        held = json.dumps({"Policy": {
            "PolicyId": "p", "Version": "1",
            "RuleCombiningAlgId": "urn:oasis:names:tc:xacml:3.0:rule-combining-algorithm:deny-overrides",
            "VariableDefinition": chain, "Rule": [{"RuleId": "", "Effect": "Permit", "Condition": condition}]}},
                          separators=(",", ":"))
        for word in ("ask", "explain"):
            with self.subTest(word):
                status, written, _ = ask(REQUEST, word=word, **{"p.json": held})
                self.assertEqual(status, 0)
                self.assertIn("Permit", written)

    def test_a_program_that_says_otherwise(self) -> None:
        files = {**FILES, "cases.json": json.dumps(CASES)}
        for words in (["check", "@p.json", "--rows", "@rows.json"], ["ask", *ASK], ["explain", *ASK],
                      ["test", "@cases.json"], ["diff", "@p.json", "@p.json", "--requests", "@cases.json"]):
            for lie in ("!NotJson", '{"Response":[]}', "x", "\\xff"):
                with self.subTest(words[0], lie=lie), tempfile.NamedTemporaryFile("w", delete=False) as liar:
                    liar.write(LIAR % lie)
                    liar.close()
                    os.chmod(liar.name, 0o700)
                    status, _, said = run(*words, files=files, program=liar.name)
                    os.unlink(liar.name)
                    self.assertEqual(status, 3)
                    self.assertIn("DISAGREE", said)

    def test_a_program_that_doesnt_run(self) -> None:
        self.assertEqual(run("ask", *ASK, files=FILES, program="/bin/false")[0], 3)
        self.assertEqual(run("ask", *ASK, files=FILES, program="/no/such")[0], 3)

    def test_which_program_is_known_to_be_proved(self) -> None:
        """One of which `policy build` or `make prove` has noted that it, as it is, is of these
        sources, and no other."""
        these, no_kit = (mock.Mock(return_value="these"),
                         mock.Mock(side_effect=program.programs.NotBuilt("no toolchain")))
        kinds = ((None, "one", these, False), ("these", "one", these, True), ("these", "another", these, False),
                 ("others", "one", these, False), ("these", "one", no_kit, False), ("these", None, these, False))
        with tempfile.TemporaryDirectory() as folder:
            built = pathlib.Path(folder, "xa_trials")
            with mock.patch.multiple(program, PLACES=(built, built), TOP=built.parent):
                for noted, held, found, is_known in kinds:
                    built.write_text("one", encoding="ascii")
                    built.chmod(0o700)
                    if noted:
                        program.programs.note(built, noted)
                    if held is None:
                        built.unlink()
                    else:
                        built.write_text(held, encoding="ascii")
                    patched = mock.patch.object(program.programs, "fingerprint", found)
                    with self.subTest(noted=noted, held=held), patched:
                        self.assertEqual(program.warning_of(built) == "", is_known)
                        self.assertEqual(program.is_built(), is_known)

    def test_ask(self) -> None:
        status, written, _ = run("ask", *ASK, files=FILES)
        self.assertEqual(status, 0)
        self.assertTrue(written.startswith("Permit\n"))
        body = ('{"Response":[{"Decision":"Permit",'
                '"Status":{"StatusCode":{"Value":"urn:oasis:names:tc:xacml:1.0:status:ok"}}}]}')
        self.assertIn(body, written)
        self.assertEqual(run("ask", *ASK, "--raw", files=FILES)[1], body + "\n")
        self.assertTrue(run("ask", *ASK[:-1], "2026-11-23T20:00:00Z", files=FILES)[1].startswith("NotApplicable\n"))
        self.assertTrue(ask(edited(REQUEST, ("alice", "thief")))[1].startswith("Deny\n"))
        asked = edited(REQUEST, ('"urn:test:role", "Value": "staff"',
                                 '"urn:oasis:names:tc:xacml:1.0:subject:subject-id", "Value": "alice"'))
        status, written, _ = run("ask", *ASK, "--rows", "@rows.json", files={**FILES, "r.json": asked})
        self.assertEqual((status, written.split("\n")[0]), (0, "Permit"))
        self.assertNotIn("without rows", written)
        for word in ("ask", "explain"):
            self.assertIn("by the model alone; without rows (--rows)", run(word, *ASK, files=FILES)[1])

    def test_requests_with_faults(self) -> None:
        for held, code, words in ((edited(REQUEST, ('"AttributeId": "urn:test:role"', '"AtributeId": "urn:test:role"')),
                                   "NotProfile", 'needs the member "AttributeId"'),
                                  (edited(REQUEST, ('"staff"', "5.5")), "NotProfile", "A number is whole here"),
                                  (edited(REQUEST, ('"staff"', '["staff", 5]')), "NotProfile", "of one kind"),
                                  (edited(REQUEST, ('"Value": "staff"', '"Value": "x", "DataType": "integer"')),
                                   "NotProfile",
                                   "This is no integer"),
                                  (edited(REQUEST, ('"Value": "staff"', '"Value": "x", "DataType": "str"')),
                                   "NotProfile",
                                   'Did you mean "string"?'),
                                  (REQUEST.replace("Request", "Requst", 1), "NotProfile", 'Did you mean "Request"?'),
                                  (REQUEST[:-4], "NotJson", "ends too early")):
            with self.subTest(words):
                status, written, _ = ask(held)
                self.assertEqual(status, 1)
                self.assertIn(f"fault {code}", written)
                self.assertIn(words, " ".join(written.split()))
                self.assertIn('{"Error":"NotJson"}'
                              if code == "NotJson" else "Indeterminate  status syntax-error", written)
                self.narrow(written)

    def test_documents_with_faults(self) -> None:
        status, written, _ = run("ask", *ASK, files={**FILES, "p.json": edited(POLICY, ('"Permit"', '"Permitt"'))})
        self.assertEqual(status, 1)
        self.assertIn("p.json:15:16: fault BadValue", written)

    def test_explain(self) -> None:
        status, written, _ = ask(REQUEST, word="explain")
        self.assertEqual(status, 0)
        for words in ("Permit: policy urn:test:shop 1.0", "rule staff is Permit",
                      'true: string-equal "staff" with AccessSubject urn:test:role (string): "staff" from the request',
                      "time-in-range is true", "10:00:00Z from the clock", "condition is false"):
            self.assertIn(words, " ".join(written.split()))
        self.narrow(written)
        status, written, _ = ask(edited(REQUEST, (',\n    {"AttributeId": "urn:test:name", "Value": "alice"}', "")),
                                 word="explain")
        for words in ("Indeterminate{DP}",
                      "status missing-attribute from: rule thieves, the first that is Indeterminate",
                      "status missing-attribute from: the condition",
                      "found nowhere; the attribute is missing, and must be present"):
            self.assertIn(words, " ".join(written.split()))

    def test_policies_that_are_named(self) -> None:
        written = " ".join(ask(REQUEST, word="explain")[1].split())
        self.assertIn("named, where ReturnPolicyIdList asks for it: policy urn:test:shop 1.0", written)
        self.assertEqual(
            json.loads(ask(REQUEST, "2026-11-23T10:00:00Z", "--json", word="explain")[1])["results"][0]["names"],
            ["policy urn:test:shop 1.0"])
        self.assertNotIn("named", ask(REQUEST, "2026-11-23T20:00:00Z", word="explain")[1])
        asked = edited(REQUEST, ('{"Request": {', '{"Request": {"ReturnPolicyIdList": true, '))
        self.assertIn("\n    policy urn:test:shop 1.0\n", ask(asked)[1])
        self.assertIn("named, where", ask(asked, word="explain")[1])
        self.assertNotIn("policy urn:test:shop", ask(REQUEST)[1])

    def test_what_is_nearly_found(self) -> None:
        for old, new, words in (('"Value": "staff"', '"Value": "staff", "DataType": "anyURI"',
                                 "nearly: the request has it as an anyURI"),
                                ('"AccessSubject": {"Attribute": [\n'
                                 '    {"AttributeId": "urn:test:role", "Value": "staff"},',
                                 '"Resource": {"Attribute": {"AttributeId": "urn:test:role", "Value": "staff"}}, '
                                 '"AccessSubject": {"Attribute": [',
                                 "nearly: the request has it in the category Resource"),
                                ("urn:test:role", "urn:test:rol",
                                 "nearly: the request has it as urn:test:rol in place of urn:test:role"),
                                ("urn:test:role", "role",
                                 "nearly: the request has it as role in place of urn:test:role"),
                                ("urn:test:role", "https://example.org/role",
                                 "nearly: the request has it as https://example.org/role in place of urn:test:role")):
            with self.subTest(words):
                self.assertIn(words, " ".join(ask(edited(REQUEST, (old, new)), word="explain")[1].split()))
        self.assertNotIn("nearly", ask(edited(REQUEST, ("urn:test:role", "urn:test:none")), word="explain")[1])
        held = edited(REQUEST,
                      ('{"AttributeId": "urn:test:role", "Value": "staff"}',
                       '{"AttributeId": "urn:oasis:names:tc:xacml:1.0:subject:subject-id", "Value": "bob"}'))
        written = ask(held, "0", "--rows", "@rows.json", word="explain")[1]
        self.assertIn('nearly: a row has it for the entity "alice", and the request names "bob"',
                      " ".join(written.split()))
        written = ask(edited(held, (SUBJECT_ID, "subject-id")), "0", "--rows", "@rows.json", word="explain")[1]
        self.assertIn('nearly: a row has it for the entity "alice", and the request names none: it has subject-id in '
                      f"place of {SUBJECT_ID}", " ".join(written.split()))
        written = ask(edited(held, (SUBJECT_ID, "urn:test:else")), "0", "--rows", "@rows.json", word="explain")[1]
        self.assertIn("and the request names none NotApplicable: rule thieves", " ".join(written.split()))

    def test_rows_of_an_issuer(self) -> None:
        held = edited(REQUEST,
                      ('{"AttributeId": "urn:test:role", "Value": "staff"}',
                       '{"AttributeId": "urn:oasis:names:tc:xacml:1.0:subject:subject-id", "Value": "alice"}'))
        by_hr = edited(POLICY, ('"AttributeId": "urn:test:role",', '"AttributeId": "urn:test:role", "Issuer": "hr",'))
        for issuer, words in (("", "nearly: a row has it without an issuer"),
                              (', "Issuer": "it"', "nearly: a row has it by it"),
                              (', "Issuer": "hr"', '"staff" from the rows of "alice"')):
            rows = edited(ROWS, ('"Value": "staff"', f'"Value": "staff"{issuer}'))
            with self.subTest(words):
                files = {"p.json": by_hr, "rows.json": rows}
                written = ask(held, "2026-11-23T10:00:00Z", "--rows", "@rows.json", word="explain", **files)[1]
                self.assertIn(words, " ".join(written.split()))
                self.assertEqual("Permit" in written, "hr" in issuer)

    def test_explanation_as_json(self) -> None:
        held = json.loads(ask(REQUEST, "2026-11-23T10:00:00Z", "--json", word="explain")[1])
        tree = held["results"][0]["tree"]
        self.assertEqual((tree["decision"], tree["id"], tree["settled_by"]),
                         ("Permit", "urn:test:shop", ["rule staff"]))
        self.assertEqual([(rule["id"], rule["decision"], rule["line"]) for rule in tree["children"]],
                         [("staff", "Permit", 14), ("thieves", "NotApplicable", 21)])
        self.assertEqual(tree["children"][0]["target"]["any_of"][0]["all_of"][0]["matches"][0]["from"], "request")

    def test_duties(self) -> None:
        duty = ('"ObligationExpressions": [{"ObligationId": "urn:o", "FulfillOn": "Permit", '
                '"AttributeAssignmentExpression": [{"AttributeId": "urn:who", "Expression": %s}]}],\n     "Target"')
        given = (duty % '{"AttributeDesignator": {"Category": "AccessSubject", "AttributeId": "urn:test:name", '
                        '"DataType": "string", "MustBePresent": true}}')
        written = ask(REQUEST, word="explain", **{"p.json": edited(POLICY, ('"Target"', given))})[1]
        for words in ("adds the obligation urn:o (line 16)", 'urn:who = "alice"',
                      "is returned with the obligations urn:o"):
            self.assertIn(words, " ".join(written.split()))
        absent = given.replace("urn:test:name", "urn:none")
        written = ask(REQUEST, word="explain", **{"p.json": edited(POLICY, ('"Target"', absent))})[1]
        for words in ("the obligation urn:o has no value", "so Permit is Indeterminate{P}",
                      "status missing-attribute from: the obligation urn:o"):
            self.assertIn(words, " ".join(written.split()))

    def test_duties_behind_what_settled(self) -> None:
        given = ('"ObligationExpressions": [{"ObligationId": "urn:%s", "FulfillOn": "Deny"}],\n     "Condition"')
        more = edited(POLICY, ('"Effect": "Permit"', '"Effect": "Deny"'), ('"Condition"', given % "a"),
                      ('"Effect": "Deny",\n     "Condition"', '"Effect": "Deny",\n     ' + given % "b"))
        written = " ".join(ask(edited(REQUEST, ("alice", "thief")), word="explain", **{"p.json": more})[1].split())
        self.assertIn("is returned with the obligations urn:a", written)
        self.assertIn("adds the obligation urn:b (line 24) its obligations and advice are not gathered", written)

    def test_a_file_doesnt_steer_the_terminal(self) -> None:
        status, written, _ = run("check", "@p.json",
                                 files={"p.json": edited(POLICY, ('"1.0"', '"\\u001b]0;title\\u0007"'))})
        self.assertEqual(status, 1)
        self.assertNotIn("\x1b", written)
        self.assertIn("\\u001b]0;title\\u0007", written)

    def test_an_answer_takes_under_a_second(self) -> None:
        """Of processor time: what else the machine does is not the desk's."""
        for word in ("ask", "explain"):
            times = []
            for _ in range(3):
                before = resource.getrusage(resource.RUSAGE_CHILDREN)
                executed(word, "--policy", "examples/company", "--root", "urn:example:company", "--request",
                         "examples/company/request-two.json", "--at", "0",
                         *([] if PROGRAM else ["--program", "none"]))
                after = resource.getrusage(resource.RUSAGE_CHILDREN)
                times.append(after.ru_utime + after.ru_stime - before.ru_utime - before.ru_stime)
            self.assertLess(min(times), 1)


class Terminal(unittest.TestCase):
    """Colours are for terminals."""

    def on_terminal(self, **environment: str) -> str:
        """What `check` writes to a terminal."""
        mine, its = pty.openpty()
        ran = subprocess.Popen([str(TOP / "tools" / "policy" / "policy.py"), "check", "--program", "none",
                                "examples/ward/policy.json"], cwd=TOP, stdout=its, stderr=subprocess.DEVNULL,
                               env={**os.environ, "TERM": "xterm", **environment})
        os.close(its)
        held = b""
        try:
            while piece := os.read(mine, 4096):
                held += piece
        except OSError:
            pass
        ran.wait()
        os.close(mine)
        return held.decode()

    def test_colours(self) -> None:
        self.assertIn("\033[32mtaken", self.on_terminal())
        self.assertNotIn("\033", self.on_terminal(NO_COLOR="1"))
        self.assertNotIn("\033", executed("check", "--program", "none", "examples/ward/policy.json").stdout)


class Cases(DeskTest):
    """`test` and `diff`."""

    def run_cases(self, cases: dict, *more: str, **files: str) -> tuple[int, str, str]:
        held = {**FILES, **{f"{name}.json": text for name, text in files.items()}}
        return run("test", "@cases.json", *more, files={**held, "cases.json": json.dumps(cases, indent=1)})

    def changed(self, **more: object) -> dict:
        return {**CASES, "Case": [CASES["Case"][0], {**CASES["Case"][1], **more}]}

    def test_cases(self) -> None:
        status, written, _ = self.run_cases(CASES)
        self.assertEqual(status, 0)
        self.assertIn("2 cases: 2 ok, 0 failed, by the model alone", written)

    def test_cases_that_fail(self) -> None:
        for more, words in (({"Decision": "Deny"}, "expected Deny, found NotApplicable (ok)"),
                            ({"Status": "syntax-error"}, "expected the status syntax-error, found ok"),
                            ({"Obligations": ["urn:o"]}, "expected obligations urn:o, found none"),
                            ({"Advice": [{"Id": "urn:o", "Assignments": {}}]}, "expected advice urn:o {}, found none")):
            with self.subTest(words):
                status, written, _ = self.run_cases(self.changed(**more))
                self.assertEqual(status, 1)
                self.assertIn(words, written)
                self.assertIn("1 ok, 1 failed", written)
        several = {**CASES,
                   "Case": [{"Request": "r.json", "Results": [{"Decision": "Permit"}, {"Decision": "Permit"}]}]}
        self.assertIn("expected 2 results, found 1", self.run_cases(several)[1])

    def test_faults_in_files_of_cases(self) -> None:
        for cases, words in ((self.changed(Decison="Deny"), 'Did you mean "Decision"?'),
                             (self.changed(Decision="Permitt"), "Did you mean Permit?"),
                             ({**CASES, "Polcy": 1}, 'Did you mean "Policy"?'),
                             (self.changed(At="noon"), "is no dateTime"),
                             ({"Case": []}, 'The member "Policy" is missing.')):
            with self.subTest(words):
                status, written, _ = self.run_cases(cases)
                self.assertEqual(status, 1)
                self.assertIn(words, " ".join(written.split()))

    def test_junit(self) -> None:
        path = pathlib.Path("/tmp", f"desk-junit-{time.time_ns()}.xml")
        try:
            self.run_cases(self.changed(Decision="Deny"), "--junit", str(path))
            whole = xml.parse(path).getroot()
        finally:
            path.unlink()
        suite = whole.find("testsuite")
        self.assertEqual((suite.get("tests"), suite.get("failures")), ("2", "1"))
        self.assertEqual(suite.findall("testcase")[1].find("failure").get("message"),
                         "expected Deny, found NotApplicable (ok)")

    def test_coverage(self) -> None:
        _, written, _ = self.run_cases(CASES, "--coverage")
        for words in ("p.json:14: target of rule staff: no case where it doesn't match",
                      "p.json:21: rule thieves: no case where it applies",
                      "p.json:21: condition of rule thieves: no case where it is true",
                      "2 of 5 rules, targets and conditions reached both ways"):
            self.assertIn(words, " ".join(written.split()))
        more = [{"Request": edited_request, "Decision": decision, "At": "2026-11-23T10:00:00Z"}
                for edited_request, decision in (
                    (json.loads(edited(REQUEST, ("alice", "thief"))), "Deny"),
                    (json.loads(edited(REQUEST, ('"staff"', '"guest"'))), "NotApplicable"))]
        self.assertIn("5 of 5 rules", self.run_cases({**CASES, "Case": CASES["Case"] + more}, "--coverage")[1])

    def test_coverage_of_a_rule_that_always_applies(self) -> None:
        """There is no case in which it doesn't."""
        rules = [{"RuleId": "else", "Effect": "Deny"}]
        held = json.dumps({"Policy": {**json.loads(POLICY)["Policy"], "Rule": rules, "VariableDefinition": []}})
        for cases, words in (([], "rule else: no case where it applies 0 of 1 rules"),
                             ([{"Request": {"Request": {}}, "Decision": "Deny"}], "1 of 1 rules")):
            written = self.run_cases({**CASES, "Case": cases}, "--coverage", p=held)[1]
            self.assertIn(words, " ".join(written.split()))
            self.assertNotIn("doesn't apply", written)

    def test_what_stands_behind_the_first_that_applies(self) -> None:
        """Under first-applicable it isn't reached, by an explanation and by cases."""
        held = edited(POLICY, ("3.0:rule-combining-algorithm:deny-overrides",
                               "1.0:rule-combining-algorithm:first-applicable"))
        by_day, at_night = (run("explain", *ASK[:-1], f"2026-11-23T{hour}:00:00Z", files={**FILES, "p.json": held})[1]
                            for hour in (10, 20))
        unreached = "NotApplicable: rule thieves (p.json:21)\n    isn't reached: rule staff stands before it\n"
        self.assertIn(unreached, by_day)
        self.assertNotIn("isn't reached", at_night)
        told = self.run_cases({**CASES, "Case": CASES["Case"][:1]}, "--coverage", p=held)[1]
        self.assertIn("rule thieves: no case where it applies or where it doesn't apply", " ".join(told.split()))

    def test_how_a_failed_case_came_about(self) -> None:
        """`--explain` shows the tree of each that failed, and of no other."""
        told, shown = (self.run_cases(self.changed(Decision="Deny"), *words)[1] for words in ([], ["--explain"]))
        self.assertIn("--explain shows how each failed one came about", " ".join(told.split()))
        self.assertNotIn("condition (line 20)", told)
        explained = ask(REQUEST, "2026-11-23T20:00:00Z", word="explain")[1].partition("\nat 2026")[0].rstrip()
        self.assertIn(f"\n{explained}\n", shown)
        self.assertEqual(shown.count("policy urn:test:shop 1.0 ("), 1)
        self.assertNotIn("--explain", shown)

    def test_diff(self) -> None:
        files = {**FILES, "cases.json": json.dumps(CASES), "q.json": edited(POLICY, ("17:00:00Z", "21:00:00Z"))}
        status, written, _ = run("diff", "@p.json", "@q.json", "--requests", "@cases.json", files=files)
        self.assertEqual(status, 0)
        for words in ("staff at night at 2026-11-23T20:00:00Z", "before NotApplicable", "after Permit",
                      "1 of 2 answers change"):
            self.assertIn(words, " ".join(written.split()))
        self.assertEqual(run("diff", "@p.json", "@q.json", "--requests", "@cases.json", "--strict", files=files)[0], 1)
        self.assertIn("0 of 2 answers change",
                      run("diff", "@p.json", "@p.json", "--requests", "@cases.json", files=files)[1])

    def test_random_requests_find_what_changes(self) -> None:
        for old, new in (("17:00:00Z", "17:00:02Z"), ('"staff"},\n        "Attr', '"stuff"},\n        "Attr'),
                         ("thief", "thieves"), ('"Permit"', '"Deny"'), ("deny-overrides", "permit-overrides")):
            with self.subTest(new):
                files = {**FILES, "q.json": edited(POLICY, (old, new))}
                written = run("diff", "@p.json", "@q.json", "--random", "400", files=files)[1]
                self.assertFalse(written.split("\n")[-2].startswith("0 of 400 answers change"))
                self.narrow(written)
        self.assertIn("0 of 400 answers change", run("diff", "@p.json", "@p.json", "--random", "400", files=FILES)[1])


class Examples(DeskTest):
    """The examples of the repository, and what the desk's page shows."""

    def test_what_the_page_shows(self) -> None:
        slipped = edited((TOP / "examples" / "ward" / "policy.json").read_text(encoding="utf-8"),
                         ('"Condition"', '"Condtion"'))
        written = run("check", "@policy.json", files={"policy.json": slipped})[1]
        page = (TOP / "tools" / "policy" / "README.md").read_text(encoding="utf-8")
        self.assertIn("".join(f"    {line}\n" for line in written.split("\n\n")[0].split("\n")), page)

    def test_the_examples(self) -> None:
        program = [] if PROGRAM else ["--program", "none"]
        ran = executed("test", *program, "examples/ward/cases.json", "examples/company/cases.json", "--coverage")
        self.assertEqual(ran.returncode, 0, ran.stdout)
        self.assertIn("11 of 11 rules, targets and conditions reached both ways", ran.stdout)
        ran = executed("check", *program, "examples/ward", "examples/company", "--rows", "examples/ward/rows.json")
        self.assertEqual(ran.returncode, 0, ran.stdout)
        for folder, root in (("ward", "urn:example:ward:records"), ("company", "urn:example:company")):
            for request in sorted((TOP / "examples" / folder).glob("request-*.json")):
                rows = ["--rows", "examples/ward/rows.json"] if folder == "ward" else []
                ran = executed("explain", *program, "--policy", f"examples/{folder}", "--root", root, *rows,
                               "--request", str(request), "--at", "2026-11-23T10:00:00Z")
                self.assertEqual(ran.returncode, 0, ran.stdout)
                self.narrow(ran.stdout)


if __name__ == "__main__":
    unittest.main()
