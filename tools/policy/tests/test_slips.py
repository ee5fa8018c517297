"""Slips that authors make: each is named at its place, in a sentence that helps, with the code that
the server answers."""
from __future__ import annotations

import unittest

from .desk_tests import FUNCTION, POLICY, REQUEST, ROWS, DeskTest, check, checked, edited, lints, run, text

# what is slipped, where it stands then, the code, and words of the sentence
SLIPS = {
    "Condtion": (('"Condition": {"Var', '"Condtion": {"Var'), '"Condtion"', "UnknownMember",
                 ['no member "Condtion"', 'Did you mean "Condition"?', "/Policy/Rule/0/Condtion"]),
    "RuleCombiningAlgid": (("RuleCombiningAlgId", "RuleCombiningAlgid"), '"RuleCombiningAlgid"', "UnknownMember",
                           ['Did you mean "RuleCombiningAlgId"?']),
    "no Policy around": (('{"Policy": {', "{"), '"PolicyId"', "UnknownMember", ['put {"Policy": {..}} around']),
    "a comment": (('"Version"', '// the first\n  "Version"'), "// the first", "NotJson",
                  ["JSON has no comments", "Description"]),
    "string-eq": (("1.0:function:string-equal", "1.0:function:string-eq"), f'"{FUNCTION}string-eq"',
                  "IllTyped(UnknownFunction)",
                  ['Did you mean "string-equal"?']),
    "time-in-range 1.0": (("2.0:function:time-in-range", "1.0:function:time-in-range"), f'"{FUNCTION}time-in-range"',
                          "IllTyped(UnknownFunction)",
                          ["under another beginning", "urn:oasis:names:tc:xacml:2.0:function:time-in-range"]),
    "a number for a time": (('"09:00:00Z"', "9"), "9}},", "BadValue",
                            ["A value of type time is written as a text", "the number 9"]),
    "9:00": (('"09:00:00Z"', '"9:00"'), '"9:00"', "BadValue", ["is no time", 'Did you mean "09:00:00Z"?', "hh:mm:ss"]),
    "str": (('"DataType": "string", "Value": "staff"', '"DataType": "str", "Value": "staff"'), '"str"', "BadValue",
            ['no data type "str"', 'Did you mean "string"?']),
    "Permitt": (('"Permit"', '"Permitt"'), '"Permitt"', "BadValue", ["Permit or Deny", "Did you mean Permit?"]),
    "1.x": (('"1.0"', '"1.x"'), '"1.x"', "BadValue", ["numbers with dots between, as 1.0"]),
    "no MustBePresent": ((', "MustBePresent": false', ""), '{"Category": "AccessSubject"',
                         "MissingMember(MustBePresent)",
                         ['needs the member "MustBePresent"']),
    "permit": (('"Permit"', '"permit"'), '"permit"', "BadValue", ["Did you mean Permit?"]),
    "a policy's algorithm": (("3.0:rule-combining", "3.0:policy-combining"),
                             '"urn:oasis:names:tc:xacml:3.0:policy-combining',
                             "UnknownAlgorithm", ["doesn't combine rules"]),
    "a trailing comma": (('"thief"}}]}}}\n', '"thief"}}]}}},\n'), ",\n  ]\n}}", "NotJson", ["take it out"]),
    "true in quotes": (('"MustBePresent": true}}]}},\n        {', '"MustBePresent": "true"}}]}},\n        {'), '"true"',
                       "BadValue", ["true or false without quotes"]),
    "a rule in no array": (('"Rule": [\n', '"Rules": [\n'), '"Rules"', "UnknownMember", ['Did you mean "Rule"?']),
    "regular expressions": ((FUNCTION + "string-equal", FUNCTION + "string-regexp-match"), f'"{FUNCTION}string-regexp',
                            "IllTyped(UnknownFunction)", ["Regular expressions are left out", "string-starts-with"]),
    "a fraction": (('"DataType": "string", "Value": "staff"', '"DataType": "double", "Value": "1.5"'), '"double"',
                   "BadValue", ['no data type "double"', "Count in a smaller unit, as cents"]),
    "an unknown variable": (('{"VariableId": "open"}}}', '{"VariableId": "opne"}}}'), '{"VariableId": "opne"}',
                            "IllTyped(UnknownVariable)", ['Did you mean "open"?']),
    "no Apply around": (('"Condition": {"Apply": {\n', '"Condition": {\n'),
                        '"FunctionId": "urn:oasis:names:tc:xacml:1.0:function:string-equal",\n       "Expr',
                        "UnknownMember",
                        ['put {"Apply": {..}} around']),
}
NO_ONE_AND_ONLY = ('{"Apply": {"FunctionId": "urn:oasis:names:tc:xacml:1.0:function:string-one-and-only",\n'
                   '                    "Expression": [{"AttributeDesignator": {"Category": "AccessSubject", '
                   '"AttributeId": "urn:test:name", "DataType": "string", "MustBePresent": true}}]}}',
                   '{"AttributeDesignator": {"Category": "AccessSubject", "AttributeId": "urn:test:name", '
                   '"DataType": "string", "MustBePresent": true}}')


class Slips(DeskTest):
    """One slip in a policy that is right."""

    def test_the_policy_is_right(self) -> None:
        found = checked(POLICY)
        self.assertEqual([one.sentence for one in found.remarks.found], [])

    def test_each_slip(self) -> None:
        for name, (pair, marker, code, words) in SLIPS.items():
            with self.subTest(name):
                held = edited(POLICY, pair)
                if name in ("no Policy around", "no Apply around"):
                    held = (held[::-1].replace("}", "", 1)[::-1]
                            if name == "no Policy around" else edited(held, ('"thief"}}]}}}', '"thief"}}]}}')))
                found = checked(held)
                remark = self.remark(found.remarks, code, held.index(marker), *words)
                self.assertTrue(remark.is_first, "it is the one that the server answers")
                self.assertEqual(len(found.remarks.faults()), 1, "one slip is one fault")

    def test_a_forgotten_one_and_only(self) -> None:
        held = edited(POLICY, NO_ONE_AND_ONLY)
        remark = self.remark(checked(held).remarks, "IllTyped(WrongType)",
                             held.index('{"Category": "AccessSubject", "AttributeId": "urn:test:name"'),
                             "write string-is-in, with the value first, or any-of")
        self.assertIn("only if it has exactly one each time, wrap it in string-one-and-only", remark.sentence)
        self.assertEqual((remark.expected, remark.found), ("a string", "a bag of string"))
        behind = '",\n       "Expression"'
        held = edited(held, (FUNCTION + "string-equal" + behind, FUNCTION + "string-greater-than" + behind))
        self.remark(checked(held).remarks, "IllTyped(WrongType)",
                    held.index('{"Category": "AccessSubject", "AttributeId": "urn:test:name"'),
                    "or none: write any-of; only")

    def test_a_forgotten_one_and_only_of_three_arguments(self) -> None:
        one = ('{"Apply": {"FunctionId": "urn:oasis:names:tc:xacml:1.0:function:time-one-and-only",\n'
               '                   "Expression": [')
        held = edited(POLICY, (one, ""), ('"MustBePresent": true}}]}},\n', '"MustBePresent": true}},\n'))
        self.remark(checked(held).remarks, "IllTyped(WrongType)",
                    held.index('{"Category": "Environment"'), "wrap it in time-one-and-only")

    def test_an_integer_where_a_function_takes_a_time(self) -> None:
        held = edited(POLICY, ('{"DataType": "time", "Value": "09:00:00Z"}', '{"DataType": "integer", "Value": 9}'))
        self.remark(checked(held).remarks, "IllTyped(WrongType)", held.index('{"DataType": "integer"'),
                    'Argument 2 of "time-in-range" is a time, and this is an integer')

    def test_a_condition_that_is_no_boolean(self) -> None:
        held = edited(POLICY,
                      ('"Condition": {"VariableReference": {"VariableId": "open"}}',
                       '"Condition": {"AttributeValue": {"DataType": "string", "Value": "yes"}}'))
        self.remark(checked(held, off=("unused-variable",)).remarks, "IllTyped(WrongType)",
                    held.index('{"DataType": "string", "Value": "yes"}'),
                    "A condition is a boolean, and this is a string")

    def test_a_category_that_is_none(self) -> None:
        held = edited(POLICY,
                      ('"Category": "AccessSubject", "AttributeId": "urn:test:role"',
                       '"Category": "Subject", "AttributeId": "urn:test:role"'))
        self.remark(checked(held).remarks, "unknown-category", held.index('"Subject"'), 'Did you mean "AccessSubject"?',
                    level="warning")

    def test_two_rules_of_one_id(self) -> None:
        held = edited(POLICY, ('"RuleId": "thieves"', '"RuleId": "staff"'))
        self.remark(checked(held).remarks, "repeated-rule", held.rindex('"staff"'), "has the id", level="warning")

    def test_no_rules(self) -> None:
        held = POLICY[:POLICY.index(',\n  "Rule": [')] + "}}\n"
        self.remark(checked(held).remarks, "no-rules", held.index("{", 1), "has no rules", "NotApplicable",
                    level="warning")

    def test_a_misspelt_member_of_a_request(self) -> None:
        held = edited(REQUEST, ("AccessSubject", "AccesSubject"))
        status, written, _ = run("ask", "--policy", "@p.json", "--request", "@r.json", "--at", "0",
                                 files={"p.json": POLICY, "r.json": held})
        self.assertEqual(status, 0)
        self.assertIn("r.json:2:3: warning ignored-member", written)
        self.assertIn('Did you mean "AccessSubject"?', written)
        self.assertIn("Indeterminate  status missing-attribute", written)

    def test_rows_of_a_shorthand(self) -> None:
        found = check.checked_rows("rows.json", ROWS.encode())
        lints.Lints([], found, set()).run()
        note = self.remark(found.remarks, "shorthand", ROWS.index('"AccessSubject"'),
                           "is a shorthand for urn:oasis:names:tc:xacml:1.0:subject-category:access-subject",
                           "subject-id", level="note")
        self.assertEqual(text.remark_shown(note).partition("\n")[2], text.wrapped(note.sentence, "    "))

    def test_rows_of_a_misspelt_category(self) -> None:
        held = edited(ROWS, ("AccessSubject", "AccesSubject"))
        found = check.checked_rows("rows.json", held.encode())
        lints.Lints([], found, set()).run()
        self.remark(found.remarks, "unknown-category", held.index('"AccesSubject"'), 'Did you mean "AccessSubject"?',
                    level="warning")

    def test_a_root_that_leads_nowhere(self) -> None:
        status, written, _ = run("ask", "--policy", "@p.json", "--root", "urn:test:shp", "--request", "@r.json", "--at",
                                 "0", files={"p.json": POLICY, "r.json": REQUEST})
        self.assertEqual(status, 1)
        self.assertIn("--root:1:1: fault leads-nowhere", written)
        self.assertIn("Did you mean urn:test:shop?", " ".join(written.split()))
        self.assertIn("Indeterminate  status processing-error", written)

    def test_all_faults_and_not_the_first_alone(self) -> None:
        pairs = [pair for name,
                 (pair, *_) in SLIPS.items()
                 if name in ("Condtion", "RuleCombiningAlgid", "string-eq", "9:00", "str", "Permitt", "1.x",
                             "no MustBePresent",
                             "a comment")]
        found = checked(edited(POLICY, *pairs))
        self.assertEqual(len(found.remarks.faults()), len(pairs))
        self.assertEqual([one.code for one in found.remarks.faults() if one.is_first], ["NotJson"])


if __name__ == "__main__":
    unittest.main()
