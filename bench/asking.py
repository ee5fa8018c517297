"""A domain of one policy, and decision requests to it."""
import json

from transcripts import TOKEN  # it makes `sent` importable
from sent import making, message

RULES = "urn:oasis:names:tc:xacml:3.0:rule-combining-algorithm:deny-overrides"
ID = "urn:oasis:names:tc:xacml:1.0:"


def match(value, attribute=ID + "action:action-id", category="Action"):
    """A match of an attribute of the request with that text."""
    return {"MatchId": ID + "function:string-equal", "AttributeValue": {"DataType": "string", "Value": value},
            "AttributeDesignator": {"Category": category, "AttributeId": attribute, "DataType": "string",
                                    "MustBePresent": False}}


def target(*matches):
    """A target of which one of the matches has to be true."""
    return {"AnyOf": [{"AllOf": [{"Match": [one]} for one in matches]}]}


def permitting(rule_id, *values, **which):
    """A rule that permits where an attribute, the action's id if none is named, is one of these texts."""
    return {"RuleId": rule_id, "Effect": "Permit", "Target": target(*(match(value, **which) for value in values))}


def rule(number, *alternatives):
    """A rule that permits one of these actions."""
    return permitting(str(number), *(f"read-{at:03}" for at in alternatives or (number,)))


def policy(rules=10, **members):
    """The text of a policy of so many rules, of which the last permits what is asked for, with
    these members besides."""
    held = {"PolicyId": "urn:p", "Version": "1.0", "RuleCombiningAlgId": RULES,
            "Rule": [rule(number) for number in reversed(range(rules))], **members}
    return json.dumps({"Policy": held}, separators=(",", ":"))


def alternatives(count):
    """The text of a policy of one rule, whose target has so many alternatives of one match, of which the last is true
    of what is asked for."""
    return policy(Rule=[rule(0, *reversed(range(count)))])


def domain(name, text):
    """The messages that make a domain with that policy."""
    return [held for held, _ in making(name, TOKEN, text)]


def request(number):
    """The body of an ask with three attributes, whose subject has the number."""
    found = [("AccessSubject", "subject:subject-id", f"person-{number:06}"),
             ("Resource", "resource:resource-id", "a-document"), ("Action", "action:action-id", "read-000")]
    objects = {category: {"Attribute": [{"AttributeId": ID + name, "Value": value}]} for category, name, value in found}
    return json.dumps({"Request": objects}, separators=(",", ":"))


def ask(name, number, token=TOKEN):
    return message("POST", f"/domains/{name}/pdp", token, request(number))


def ask_with_values(name, number, values):
    """An ask of the action with that number, whose action's id has so many values, none of which
    a policy here names."""
    action = {"AttributeId": ID + "action:action-id", "Value": [f"value number {at}" for at in range(values)]}
    body = {"Request": {"AccessSubject": {"Id": f"person-{number:06}"}, "Action": {"Attribute": [action]}}}
    return message("POST", f"/domains/{name}/pdp", TOKEN, json.dumps(body, separators=(",", ":")))
