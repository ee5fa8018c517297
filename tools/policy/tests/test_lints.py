"""Each lint warns of what it is for, at its place, is quiet where nothing is amiss, and can be switched off;
documents together."""
from __future__ import annotations

import json
import random
import re
import unittest

from .desk_tests import POLICY, ROWS, DeskTest, check, checked, edited, lints, run, together

from desk import contradictions  # noqa: E402

DENY = "urn:oasis:names:tc:xacml:3.0:rule-combining-algorithm:deny-overrides"
FIRST = "urn:oasis:names:tc:xacml:1.0:rule-combining-algorithm:first-applicable"
ONE = "urn:oasis:names:tc:xacml:1.0:policy-combining-algorithm:only-one-applicable"
SETS = "urn:oasis:names:tc:xacml:3.0:policy-combining-algorithm:deny-overrides"
FUNCTION = "urn:oasis:names:tc:xacml:1.0:function:"


def match(function: str, data_type: str, value: object, attribute: str = "urn:a") -> dict:
    return {"MatchId": FUNCTION + function, "AttributeValue": {"DataType": data_type, "Value": value},
            "AttributeDesignator": {"Category": "Resource", "AttributeId": attribute, "DataType": data_type,
                                    "MustBePresent": False}}


def target(*parts: list[list[dict]]) -> dict:
    return {"AnyOf": [{"AllOf": [{"Match": matches} for matches in part]} for part in parts]}


def rule(name: str, effect: str, **more: object) -> dict:
    return {"RuleId": name, "Effect": effect, **more}


def policy(rules: list[dict], algorithm: str = DENY, **more: object) -> str:
    return json.dumps({"Policy": {"PolicyId": "urn:p", "Version": "1", "RuleCombiningAlgId": algorithm, **more,
                                  "Rule": rules}}, indent=1)


def policy_set(name: str, children: list[dict], algorithm: str = SETS) -> str:
    return json.dumps({"PolicySet": {"PolicySetId": name, "Version": "1", "PolicyCombiningAlgId": algorithm,
                                     "Children": children}}, indent=1)


def to_set(name: str) -> dict:
    return {"PolicySetIdReference": {"Id": name}}


A, B = match("string-equal", "string", "a"), match("string-equal", "string", "b")
NEVER = {
    "two values": [target([[A, B]])], "two parts": [target([[A]], [[B]])],
    "an empty range": [target([[match("integer-less-than", "integer", 5),
                                match("integer-greater-than", "integer", 6)]])],
    "a strict bound": [target([[match("integer-less-than", "integer", 5),
                                match("integer-greater-than-or-equal", "integer", 5)]])],
    "a value out of a range": [target([[match("integer-equal", "integer", 5),
                                        match("integer-less-than", "integer", 5)]])],
    "the greatest": [target([[match("integer-less-than", "integer", 2**63 - 1)]])],
    "nothing before the empty text": [target([[match("string-greater-than", "string", "")]])],
    "every alternative": [target([[A, B], [B, A]])],
}
SOMETIMES = {
    "one value": [target([[A]])], "either": [target([[A], [B]])],
    "two attributes": [target([[A, match("string-equal", "string", "b", "urn:b")]])],
    "the same twice": [target([[A, A]])],
    "a range": [target([[match("integer-less-than", "integer", 5), match("integer-greater-than", "integer", 7)]])],
    "one of two": [target([[A], [B]], [[B]])],
    "at a bound": [target([[match("integer-less-than-or-equal", "integer", 5),
                            match("integer-greater-than-or-equal", "integer", 5)]])],
}


class Lints(DeskTest):
    """Warnings."""

    def codes(self, text: str, off: tuple[str, ...] = (), rows: str | None = None) -> list[str]:
        found = checked(text, off, rows)
        self.assertEqual(found.remarks.faults(), [], text)
        return sorted({one.code for one in found.remarks.found})

    def test_targets_that_never_match(self) -> None:
        for name, targets in NEVER.items():
            with self.subTest(name):
                self.assertEqual(self.codes(policy([rule("r", "Permit", Target=targets[0])])), ["never-matches"])
        for name, targets in SOMETIMES.items():
            with self.subTest(name):
                self.assertEqual(self.codes(policy([rule("r", "Permit", Target=targets[0])])), [])

    def test_a_target_inside_another(self) -> None:
        held = policy([rule("r", "Permit", Target=target([[B]]))], Target=target([[A]]))
        self.remark(checked(held).remarks, "never-matches",
                    held.index("{", held.index('"Target"', held.index('"Rule"'))), "Inside the target of line",
                    level="warning")
        self.assertEqual(self.codes(policy([rule("r", "Permit", Target=target([[A]]))], Target=target([[A], [B]]))), [])

    def test_idle_rules(self) -> None:
        until = "urn:oasis:names:tc:xacml:3.0:rule-combining-algorithm:"
        matched = {"Target": target([[A]])}
        for algorithm, rules, idle in (
            (until + "deny-unless-permit", [rule("a", "Permit", **matched), rule("b", "Deny", **matched)], 1),
            (until + "permit-unless-deny", [rule("a", "Permit", **matched), rule("b", "Deny", **matched)], 0),
            (FIRST, [rule("a", "Permit", **matched), rule("b", "Deny"), rule("c", "Permit")], 2),
            (FIRST, [rule("a", "Permit", **matched), rule("b", "Deny")], None),
            (DENY, [rule("a", "Permit", **matched), rule("b", "Deny")], 0),
            (DENY, [rule("a", "Permit"), rule("b", "Deny", **matched)], None),
            (until + "permit-overrides", [rule("a", "Permit"), rule("b", "Deny", **matched)], 1),
        ):
            with self.subTest(algorithm):
                found = checked(policy(rules, algorithm), off=("may-be-missing",))
                pointers = [one.pointer for one in found.remarks.found]
                self.assertEqual(pointers, [] if idle is None else [f"/Policy/Rule/{idle}"])

    def test_two_children_that_always_apply(self) -> None:
        inner = json.loads(policy([rule("r", "Permit")]))
        self.assertEqual(self.codes(policy_set("urn:s", [inner, inner], ONE)), ["idle-rule"])
        self.assertEqual(self.codes(policy_set("urn:s", [inner], ONE)), [])

    def test_a_deny_rule_that_may_miss_its_attribute(self) -> None:
        held = policy([rule("r", "Deny", Target=target([[A]]))])
        self.remark(checked(held).remarks, "may-be-missing", held.index("false"), "passed over in silence",
                    level="warning")
        self.assertEqual(self.codes(held.replace("false", "true")), [])

    def test_a_deny_condition_that_may_miss_its_attribute(self) -> None:
        """Only where a value is looked for; a function of one value isn't evaluated without it."""
        asked = {"AttributeDesignator": {"Category": "AccessSubject", "AttributeId": "urn:a",
                                         "DataType": "string", "MustBePresent": False}}
        value = {"AttributeValue": {"DataType": "string", "Value": "x"}}

        def applied(name: str, *arguments: dict) -> dict:
            return {"Apply": {"FunctionId": name, "Expression": list(arguments)}}
        v1, v3 = (f"urn:oasis:names:tc:xacml:{version}:function:" for version in ("1.0", "3.0"))
        equal = {"Function": {"FunctionId": v1 + "string-equal"}}
        few = applied(v1 + "integer-less-than", applied(v1 + "string-bag-size", asked),
                      {"AttributeValue": {"DataType": "integer", "Value": 2}})
        one = applied(v1 + "string-equal", applied(v1 + "string-one-and-only", asked), value)
        found = applied(v1 + "string-is-in", value, asked)
        for condition, is_told in ((found, True), (applied(v3 + "any-of", equal, value, asked), True),
                                   (applied(v1 + "and", one, found), True), (few, False), (one, False),
                                   (applied(v1 + "not", found), False),
                                   (applied(v3 + "all-of", equal, value, asked), False)):
            held = policy([rule("r", "Deny", Condition=condition)])
            self.assertEqual(self.codes(held), ["may-be-missing"] if is_told else [], condition)

    def test_variables_that_nothing_names(self) -> None:
        held = edited(POLICY,
                      ('{"VariableReference": {"VariableId": "open"}}',
                       '{"AttributeValue": {"DataType": "boolean", "Value": true}}'))
        self.remark(checked(held).remarks, "unused-variable", held.index('"open"'), 'Nothing names the variable "open"',
                    level="warning")

    def test_other_types(self) -> None:
        clock = edited(POLICY, (':current-time", "DataType": "time"', ':current-date", "DataType": "time"'))
        self.remark(checked(clock).remarks, "other-type", clock.index('"time"'),
                    "The clock gives current-date as a date", level="warning")
        rows = edited(ROWS, ('"string", "Value": "staff"', '"integer", "Value": 5'))
        found = checked(POLICY, rows=rows)
        self.remark(found.remarks, "other-type", POLICY.index('"string", "MustBePresent": false'),
                    "The rows have AccessSubject urn:test:role as an integer", level="warning")
        held = policy([rule("r", "Permit", Target=target([[A]])),
                       rule("s", "Permit", Target=target([[match("integer-equal", "integer", 1)]]))])
        self.remark(checked(held).remarks, "other-type", held.rindex('"integer"'), "as a string", level="warning")

    def test_rows_of_other_types(self) -> None:
        """The first row of an attribute that is of another type than the policies ask for, where others are of that
        type: where none is, the policy is warned of."""
        row = '"AttributeId": "urn:test:role", "DataType": "%s", "Value": %s}'
        of_text, of_number = row % ("string", '"staff"'), row % ("integer", "5")
        begins = '{"Category": "AccessSubject", "Entity": "bob", '
        rows = edited(ROWS, (of_text, f"{of_text}, {begins}{of_number}, {begins}{of_number}"))
        found = check.checked_rows("rows.json", rows.encode())
        lints.Lints([checked(POLICY)], found, set()).run()
        self.remark(found.remarks, "other-type", rows.index('"integer"'), "This row has urn:test:role as an integer, "
                    "and others as a string, as which policies ask for it", level="warning")
        self.assertEqual([one.code for one in found.remarks.found].count("other-type"), 1)

    def test_a_one_and_only_of_several_values_or_none(self) -> None:
        """By the rows at hand, issuers looked at; through a variable too."""
        def held(*found: tuple[str, str, str | None]) -> str:
            return json.dumps({"Row": [{"Category": "AccessSubject", "Entity": entity, "AttributeId": attribute,
                                        "DataType": "string", "Value": f"{entity} {place}",
                                        **({"Issuer": issuer} if issuer else {})}
                                       for place, (entity, attribute, issuer) in enumerate(found)]})
        name = "urn:test:name"
        start = POLICY.index('{"FunctionId": "urn:oasis:names:tc:xacml:1.0:function:string-one-and-only"')
        twice = held(("a", name, None), ("a", name, None))
        for rows, words in (
                (held(("carla", name, None), ("carla", name, "hr"), ("ben", name, None)), ["carla has 2 values"]),
                (held(("ben", name, None), ("carla", "urn:other", None)), ["carla has none"]),
                (held(*((who, name, None) for who in "aabbccdde")), ["a, b, c and 1 more have several values"]),
                (held(("a", name, None), ("a", name, None), ("b", "urn:other", None)),
                 ["a has 2 values and b has none"])):
            found = checked(POLICY, (), rows)
            remark = [one for one in found.remarks.found if one.code == "not-one-value"]
            self.assertEqual([(one.level, one.start) for one in remark], [("warning", start)])
            for word in [*words, "string-is-in"]:
                self.assertIn(word, remark[0].sentence)
        fine = held(("ben", name, None), ("carla", name, None)), held(("carla", "urn:other", None)), held()
        of_hr = edited(POLICY, ('"urn:test:name", "DataType"', '"urn:test:name", "Issuer": "hr", "DataType"'))
        for text, rows in (*((POLICY, rows) for rows in fine),
                           (of_hr, held(("carla", name, "hr"), ("carla", name, "own")))):
            self.assertNotIn("not-one-value", self.codes(text, (), rows))
        self.assertNotIn("not-one-value", self.codes(POLICY, ("not-one-value",), twice))
        shape = r'{"AttributeDesignator": {"Category": "AccessSubject", "AttributeId": "urn:test:name"[^}]*}}'
        asked = re.search(shape, POLICY)[0]
        named = edited(POLICY, (asked, '{"VariableReference": {"VariableId": "who"}}'), (
            '"VariableDefinition": [', f'"VariableDefinition": [{{"VariableId": "who", "Expression": {asked}}}, '))
        self.assertIn("not-one-value", self.codes(named, (), twice))

    def test_what_stands_in_place_of_a_one_and_only(self) -> None:
        """By the function in which it stands: only for equality is-in, only for a boolean any-of."""
        rows = json.dumps({"Row": [{"Category": "AccessSubject", "Entity": "a", "AttributeId": "urn:a",
                                    "DataType": "string", "Value": value} for value in "xy"]})
        asked = {"AttributeDesignator": {"Category": "AccessSubject", "AttributeId": "urn:a", "DataType": "string",
                                         "MustBePresent": False}}

        def applied(name: str, *arguments: object) -> dict:
            said = [one if isinstance(one, dict) else {"AttributeValue": {
                "DataType": "string" if isinstance(one, str) else "integer", "Value": one}} for one in arguments]
            return {"Apply": {"FunctionId": f"urn:oasis:names:tc:xacml:{name}", "Expression": said}}
        one = applied("1.0:function:string-one-and-only", asked)
        equal = {"Function": {"FunctionId": FUNCTION + "string-equal"}}
        number = applied("3.0:function:integer-from-string", one)
        for condition, word, other in (
                (applied("1.0:function:string-equal", one, "x"), "string-is-in", "bag-size"),
                (applied("1.0:function:string-less-than", one, "x"), 'any number with "string-less-than"', "is-in"),
                (applied("3.0:function:any-of", equal, one, asked), "any-of-any takes", "is-in"),
                (applied("1.0:function:string-equal", applied("3.0:function:string-substring", one, 0, 1), "x"),
                 "string-bag-size with 1", "any-of"),
                (applied("1.0:function:integer-equal", number, 1), "string-bag-size with 1", "any-of")):
            found = checked(policy([rule("r", "Permit", Condition=condition)]), (), rows)
            self.assertEqual([one.code for one in found.remarks.found], ["not-one-value"], word)
            self.assertIn(word, found.remarks.found[0].sentence)
            self.assertNotIn(other, found.remarks.found[0].sentence)

    def test_members_that_stand_twice(self) -> None:
        held = edited(POLICY, ('"Version": "1.0",', '"Version": "1.1",\n  "Version": "1.0",'))
        self.remark(checked(held).remarks, "repeated-member", held.index('"Version"'), "the last one counts",
                    level="warning")

    def test_each_lint_can_be_switched_off(self) -> None:
        every = policy([rule("r", "Deny", Target=target([[A, B]])),
                        rule("r", "Deny",
                             Target=target([[{**A,
                                              "AttributeDesignator": {**A["AttributeDesignator"],
                                                                      "Category": "Subject"}}]]))],
                       "urn:oasis:names:tc:xacml:3.0:rule-combining-algorithm:deny-unless-permit",
                       VariableDefinition=[{"VariableId": "v", "Expression": {"AttributeValue": A["AttributeValue"]}}])
        codes = self.codes(every)
        self.assertEqual(codes,
                         ["idle-rule", "may-be-missing", "never-matches", "repeated-rule", "unknown-category",
                          "unused-variable"])
        for code in codes:
            self.assertEqual(self.codes(every, (code,)), [one for one in codes if one != code])
        self.assertEqual(run("check", "@p.json", "--off", "no-such", files={"p.json": every})[0], 2)
        self.assertEqual(run("check", "@p.json", files={"p.json": every})[0], 0)
        self.assertEqual(run("check", "@p.json", "--strict", files={"p.json": every})[0], 1)

    def test_each_lint_is_listed(self) -> None:
        status, written, _ = run("lints")
        self.assertEqual(status, 0)
        for name in (*lints.NAMES, *together.NAMES):
            self.assertIn(name, written)


class Contradictions(unittest.TestCase):
    """Comparisons of one integer contradict each other exactly where no integer passes them all."""

    VERBS = ("equal", "less-than", "less-than-or-equal", "greater-than", "greater-than-or-equal")

    def test_against_all_integers(self) -> None:
        source, seen = random.Random(1), set()
        for _ in range(1500):
            held = policy([rule(
                "r", "Permit",
                Target=target([[match(f"integer-{source.choice(self.VERBS)}", "integer", source.randrange(6))
                                for _ in range(source.choice([1, 2, 3]))]]))])
            matches = list(check.checked("p.json", held.encode()).document.children[0].target.matches())
            passes = any(all(contradictions.holds(one, ("integer", value)) for one in matches)
                         for value in range(-2, 9))
            self.assertEqual(contradictions.contradiction(matches) is None, passes, held)
            seen.add(passes)
        self.assertEqual(seen, {True, False})


class Together(DeskTest):
    """Documents together."""

    def remarks_of(self, texts: list[str]) -> list[tuple[str, str]]:
        found = [check.checked(f"{place}.json", text.encode()) for place, text in enumerate(texts)]
        together.Together(found).check()
        return [(one.code, f"{remark.source.path}{remark.pointer}") for held in found for remark in held.remarks.found
                for one in [remark]]

    def test_a_reference_that_leads_nowhere(self) -> None:
        held = policy_set("urn:s", [to_set("urn:none"), {"PolicyIdReference": {"Id": "urn:p", "Version": "2.+"}}])
        self.assertEqual(self.remarks_of([held, policy([])]),
                         [("leads-nowhere", "0.json/PolicySet/Children/0/PolicySetIdReference"),
                          ("leads-nowhere", "0.json/PolicySet/Children/1/PolicyIdReference")])
        self.assertEqual(self.remarks_of([edited(held, ("2.+", "1"), ("urn:none", "urn:t")), policy([]),
                                          policy_set("urn:t", [])]), [])
        status, written, _ = run("check", "@s.json", "@p.json", files={"s.json": held, "p.json": policy([])})
        self.assertEqual(status, 1)
        self.assertIn("urn:p is there in version 1, which doesn't fit the reference.", " ".join(written.split()))
        # one that can't be read may be the one that is meant
        for unread in ("{", '{"Policy": {}}'):
            self.assertNotIn("leads-nowhere", [code for code, _ in self.remarks_of([held, unread])])

    def test_circles(self) -> None:
        held = [policy_set("urn:a", [to_set("urn:b")]), policy_set("urn:b", [to_set("urn:c")]),
                policy_set("urn:c", [to_set("urn:b")])]
        self.assertEqual(self.remarks_of(held), [("circle", "2.json/PolicySet/Children/0/PolicySetIdReference")])
        self.assertEqual(self.remarks_of([policy_set("urn:a", [to_set("urn:a")])]),
                         [("circle", "0.json/PolicySet/Children/0/PolicySetIdReference")])

    def test_ways_that_are_too_long(self) -> None:
        chain = [policy_set(f"urn:{place}", [to_set(f"urn:{place + 1}")] if place < 17 else []) for place in range(18)]
        self.assertEqual(self.remarks_of(chain),
                         [("way-too-long", "16.json/PolicySet/Children/0/PolicySetIdReference")])
        self.assertEqual(self.remarks_of(chain[1:]), [])

    def test_trees_that_are_too_large(self) -> None:
        inner = policy_set("urn:b", [json.loads(policy([]))] * 30)
        self.assertEqual(self.remarks_of([policy_set("urn:a", [to_set("urn:b")] * 33), inner])[0][0], "tree-too-large")
        self.assertEqual(self.remarks_of([policy_set("urn:a", [to_set("urn:b")] * 32), inner]), [])

    def test_documents_of_one_key(self) -> None:
        self.assertEqual(self.remarks_of([policy([]), policy([rule("r", "Deny")])]), [("same-key", "1.json/Policy")])


if __name__ == "__main__":
    unittest.main()
