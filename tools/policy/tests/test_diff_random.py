"""Random requests reach the rules that change: each change of one literal is found, or the rule is named."""
from __future__ import annotations

import copy
import json
import re
import unittest
from collections.abc import Iterator
from unittest import mock

from .desk_tests import TOP, DeskTest, run

F1, F3 = "urn:oasis:names:tc:xacml:1.0:function:", "urn:oasis:names:tc:xacml:3.0:function:"
RULES = "urn:oasis:names:tc:xacml:%s:rule-combining-algorithm:%s"
SETS = "urn:oasis:names:tc:xacml:3.0:policy-combining-algorithm:deny-overrides"
ACTION = "urn:oasis:names:tc:xacml:1.0:action:action-id"


def value(data_type: str, held: object) -> dict:
    return {"AttributeValue": {"DataType": data_type, "Value": held}}


def asked(category: str, name: str, data_type: str = "string") -> dict:
    return {"AttributeDesignator": {"Category": category, "AttributeId": name, "DataType": data_type,
                                    "MustBePresent": False}}


def apply(function: str, *arguments: dict) -> dict:
    return {"Apply": {"FunctionId": function if ":" in function else F1 + function, "Expression": list(arguments)}}


def one(category: str, name: str, data_type: str) -> dict:
    return apply(f"{data_type}-one-and-only", asked(category, name, data_type))


def target(*matches: tuple[str, str, str]) -> dict:
    return {"AnyOf": [{"AllOf": [{"Match": [{"MatchId": F1 + "string-equal", **value("string", held),
                                             **asked(category, name)}]}]} for category, name, held in matches]}


def rule(name: str, effect: str, held: dict | None = None, condition: dict | None = None) -> dict:
    return {"RuleId": name, "Effect": effect, **({"Target": held} if held else {}),
            **({"Condition": condition} if condition else {})}


def policy(name: str, algorithm: str, rules: list[dict], **more: object) -> dict:
    return {"Policy": {"PolicyId": name, "Version": "1", "RuleCombiningAlgId": algorithm, **more, "Rule": rules}}


ROLE, AMOUNT = asked("AccessSubject", "urn:acme:role"), one("Resource", "urn:acme:amount", "integer")
LIMIT = {"VariableReference": {"VariableId": "limit"}}
CLOCK = one("Environment", "urn:oasis:names:tc:xacml:1.0:environment:current-time", "time")
FINANCE = policy("urn:acme:finance", RULES % ("3.0", "deny-overrides"), [
    rule("create", "Permit", target(("Action", ACTION, "create"), ("Resource", "urn:acme:kind", "invoice")),
         apply("string-is-in", value("string", "accountant"), ROLE)),
    rule("approve", "Permit", target(("Action", ACTION, "approve"), ("Resource", "urn:acme:kind", "invoice")),
         apply("and", apply("string-is-in", value("string", "approver"), ROLE),
               apply("integer-less-than-or-equal", AMOUNT, LIMIT))),
    rule("four eyes", "Deny", target(("Action", ACTION, "approve")),
         apply("string-equal", one("AccessSubject", "urn:oasis:names:tc:xacml:1.0:subject:subject-id", "string"),
               one("Resource", "urn:acme:creator", "string"))),
    rule("large", "Permit", target(("Action", ACTION, "approve")),
         apply("and", apply("integer-greater-than", AMOUNT, LIMIT),
               apply("string-is-in", value("string", "director"), ROLE),
               apply("or", apply(F3 + "any-of", {"Function": {"FunctionId": F1 + "string-equal"}},
                                 value("string", "signed twice"), asked("Resource", "urn:acme:mark")),
                     apply(F3 + "any-of", {"Function": {"FunctionId": F3 + "string-starts-with"}},
                           value("string", "board-"), asked("Resource", "urn:acme:mark"))))),
], VariableDefinition=[{"VariableId": "limit", "Expression": value("integer", 1000)}])
SUPPORT = policy("urn:acme:support", RULES % ("1.0", "first-applicable"), [
    rule("by day", "Permit", target(("Action", ACTION, "open")),
         apply("urn:oasis:names:tc:xacml:2.0:function:time-in-range", CLOCK, value("time", "07:00:00Z"),
               value("time", "19:00:00Z"))),
    rule("closed", "Deny", target(("Action", ACTION, "open"), ("Resource", "urn:acme:kind", "ticket"))),
], Target=target(("Resource", "urn:acme:kind", "ticket")))
STAFF = policy("urn:acme:staff", RULES % ("3.0", "permit-overrides"), [
    rule("cleared", "Permit", target(("Action", ACTION, "read")),
         apply("integer-greater-than-or-equal", one("AccessSubject", "urn:acme:clearance", "integer"),
               apply("integer-add", one("Resource", "urn:acme:level", "integer"), value("integer", 2)))),
    rule("long there", "Permit", target(("Action", ACTION, "vote")),
         apply("date-less-than", one("AccessSubject", "urn:acme:since", "date"), value("date", "2020-01-01Z"))),
    rule("old enough", "Permit", None, apply(
        "and", apply("not", apply("string-is-in", value("string", "blocked"), ROLE)),
         apply("integer-greater-than", one("AccessSubject", "urn:acme:age", "integer"), value("integer", 17)),
         apply("string-is-in", value("string", "enter"), asked("Action", ACTION)))),
])
SET = {"PolicySet": {"PolicySetId": "urn:acme", "Version": "1", "PolicyCombiningAlgId": SETS,
                     "Children": [FINANCE, SUPPORT, STAFF]}}
ROWS = {"Row": [{"Category": "AccessSubject", "Entity": who, "AttributeId": "urn:acme:role", "DataType": "string",
                 "Value": role} for who, role in (("ann", "accountant"), ("bob", "approver"), ("bob", "accountant"),
                                                  ("carla", "director"), ("dan", "blocked"))]}
WARD = json.loads((TOP / "examples" / "ward" / "policy.json").read_text(encoding="utf-8"))
OTHERS = {"string": lambda held: [held + "s", "delete"], "integer": lambda held: [held + 1, held * 2],
          "time": lambda _: ["07:30:00Z", "22:15:00Z"], "date": lambda _: ["2020-01-02Z", "1999-01-01Z"]}


def places(held: object, path: tuple = ()) -> Iterator[tuple]:
    """Where the literals of a document's rules and variables stand."""
    if isinstance(held, list):
        for number, inner in enumerate(held):
            yield from places(inner, (*path, number))
    elif isinstance(held, dict):
        inner = held.get("AttributeValue")
        if isinstance(inner, dict) and ("Rule" in path or "VariableDefinition" in path):
            yield (*path, "AttributeValue")
        for name, inner in held.items():
            yield from places(inner, (*path, name))


def changed(document: dict, place: tuple, which: int) -> dict | None:
    """The document with another literal there."""
    found = copy.deepcopy(document)
    part = found
    for step in place:
        part = part[step]
    data_type = part["DataType"].rsplit("#", 1)[-1]
    if data_type not in OTHERS:
        return None
    other = OTHERS[data_type](part["Value"])[which]
    if other == part["Value"]:
        return None
    part["Value"] = other
    return found


def rule_at(document: dict, place: tuple) -> str:
    """The rule in which a place is; the empty text where it is a variable's."""
    last = max((number for number, step in enumerate(place) if step == "Rule"), default=None)
    part = document
    for step in place[:last + 2] if last is not None else ():
        part = part[step]
    return part["RuleId"] if last is not None else ""


class Random(DeskTest):
    """Changes of one literal each."""

    def diff(self, old: dict, new: dict, count: int, *words: str) -> tuple[str, str]:
        files = {"old.json": json.dumps(old), "new.json": json.dumps(new), "rows.json": json.dumps(ROWS)}
        status, written, said = run("diff", "@old.json", "@new.json", "--random", str(count), "--rows", "@rows.json",
                                    *words, files=files)
        self.assertEqual(status, 0, said)
        return " ".join(written.split()), " ".join(said.split())

    def test_each_change_is_found_or_named(self) -> None:
        """Of 30 and more, with fifty requests each; most are found."""
        tried, hidden = 0, []
        every = [(document, place, which) for document in (SET, WARD) for place in places(document) for which in (0, 1)]
        for document, place, which in every:
            new = changed(document, place, which)
            if new is None:
                continue
            tried += 1
            with self.subTest(place=place, which=which):
                written, said = self.diff(document, new, 50)
                name = rule_at(document, place)
                self.assertRegex(written, f"rule {name}.* changes: reached in ")
                if re.search(r"\b0 of 50 answers change", written):
                    self.assertIn(f"no answer shows what changes in rule {name}", said)
                    hidden.append(place)
        self.assertGreaterEqual(tried, 30)
        self.assertLessEqual(len(hidden), tried // 10, hidden)

    def test_values_behind_variables(self) -> None:
        """The attribute and its limit each stand in a variable, and one value alone shows the change."""
        held = {"amount": AMOUNT, "limit": value("integer", 7301),
                "late": {"VariableReference": {"VariableId": "limit"}}}
        condition = apply("integer-less-than-or-equal", {"VariableReference": {"VariableId": "amount"}},
                          {"VariableReference": {"VariableId": "late"}})
        old = policy("urn:acme:limits", RULES % ("3.0", "deny-overrides"), [
            rule("small", "Permit", target(("Action", ACTION, "pay")), condition)],
            VariableDefinition=[{"VariableId": name, "Expression": one} for name, one in held.items()])
        new = copy.deepcopy(old)
        new["Policy"]["VariableDefinition"][1]["Expression"] = value("integer", 7302)
        for seed in range(1, 6):
            written, said = self.diff(old, new, 50, "--seed", str(seed))
            self.assertIn("rule small of policy urn:acme:limits changes: reached in ", written)
            self.assertNotRegex(written, r"\b0 of 50 answers change")
            self.assertNotIn("no answer shows", said)

    def test_values_of_rows(self) -> None:
        """A condition that no literal makes true, but one row of many."""
        badges = [{"Category": "AccessSubject", "Entity": f"e{number}", "AttributeId": "urn:acme:badge",
                   "DataType": "string", "Value": f"{number:03}-{'gold' if number == 73 else 'iron'}"}
                  for number in range(100)]
        part = apply(F3 + "string-substring", one("AccessSubject", "urn:acme:badge", "string"), value("integer", 4),
                     value("integer", -1))
        old = policy("urn:acme:badges", RULES % ("3.0", "deny-overrides"), [
            rule("gold", "Permit", None, apply("string-equal", part, value("string", "gold")))])
        new = copy.deepcopy(old)
        new["Policy"]["Rule"][0]["Effect"] = "Deny"
        with mock.patch.dict(ROWS, Row=badges):
            for seed in range(1, 6):
                written, said = self.diff(old, new, 20, "--seed", str(seed))
                self.assertNotRegex(written, r"\b0 of 20 answers change")
                self.assertNotIn("no answer shows", said)

    def test_a_rule_that_none_reaches(self) -> None:
        """It is named; a change that answers show isn't."""
        new = copy.deepcopy(FINANCE)
        never = rule("never", "Permit", target(("Action", ACTION, "a"), ("Action", ACTION, "b")),
                     apply("and", value("boolean", False), apply("string-is-in", value("string", "x"), ROLE)))
        new["Policy"]["Rule"].insert(0, never)
        written, said = self.diff(FINANCE, new, 30)
        self.assertIn("rule never of policy urn:acme:finance changes: reached in 0 of 30 requests", written)
        self.assertIn("no answer shows what changes in rule never of policy urn:acme:finance", said)
        new["Policy"]["Rule"][0] = rule("always", "Deny")
        written, said = self.diff(FINANCE, new, 30)
        self.assertIn("rule always of policy urn:acme:finance changes: reached in 30 of 30 requests", written)
        self.assertNotIn("no answer shows", said)

    def test_what_changes_beside_rules(self) -> None:
        """Where no answer changes, it is named: the algorithm, the order, obligations, rows."""
        ordered, turned, told = (copy.deepcopy(SET) for _ in range(3))
        policy_of = ordered["PolicySet"]["Children"][0]["Policy"]
        policy_of["RuleCombiningAlgId"] = policy_of["RuleCombiningAlgId"].replace("deny-", "ordered-deny-")
        turned["PolicySet"]["Children"].reverse()
        told["PolicySet"]["Children"][1]["Policy"]["AdviceExpressions"] = [{"AdviceId": "urn:a", "AppliesTo": "Deny"}]
        told["PolicySet"]["Target"] = target(("Action", ACTION, "a"))
        told["PolicySet"]["Target"]["AnyOf"] += target(("Action", "urn:never", "b"))["AnyOf"]
        for new, words in ((ordered, "the combining algorithm of policy urn:acme:finance:"),
                           (turned, "the order of policy set urn:acme:")):
            written, said = self.diff(SET, new, 20)
            self.assertIn("0 of 20 answers change", written)
            self.assertIn(f"no answer shows what changes in {words}", said)
        old = copy.deepcopy(told)
        del old["PolicySet"]["Children"][1]["Policy"]["AdviceExpressions"]
        self.assertIn("what changes in the obligations or advice of policy urn:acme:support:",
                      self.diff(old, told, 5)[1])
        closed = copy.deepcopy(FINANCE)
        closed["Policy"]["RuleCombiningAlgId"] = RULES % ("3.0", "deny-unless-permit")
        written, said = self.diff(FINANCE, closed, 20)
        self.assertNotRegex(written, r"\b0 of 20 answers change")
        self.assertNotIn("no answer shows", said)

    def test_nothing_changes(self) -> None:
        written, said = self.diff(SET, SET, 20)
        self.assertIn("0 of 20 answers change", written)
        self.assertNotIn("reached in", written)
        self.assertNotIn("no answer shows", said)


if __name__ == "__main__":
    unittest.main()
