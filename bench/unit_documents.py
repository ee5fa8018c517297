"""What forms are made of (unit_forms.py, unit_trees.py): documents, requests and values.

A form is its name, the documents of a domain, of which the first is the root, a request, and the domain's source rows.
"""
import base64
import collections
import json

from functions import V1, V3

Form = collections.namedtuple("Form", "name documents request rows", defaults=[()])
OLDER = ("first-applicable", "only-one-applicable")
INDIVIDUALS, TIMES = 64, 4
# a request of more bytes is decided anew each time
MOST_KEPT = 16_384


def written(document):
    return json.dumps(document, separators=(",", ":"))


# ---- documents


def combining(of, algorithm):
    return f"urn:oasis:names:tc:xacml:{1 if algorithm in OLDER else 3}.0:{of}-combining-algorithm:{algorithm}"


def policy(name="p", algorithm="deny-overrides", **members):
    return {"Policy": {"PolicyId": name, "Version": "1", "RuleCombiningAlgId": combining("rule", algorithm), **members}}


def policy_set(name, children, algorithm="deny-overrides", **members):
    return {"PolicySet": {"PolicySetId": name, "Version": "1", "PolicyCombiningAlgId": combining("policy", algorithm),
                          "Children": children, **members}}


def rule(effect="Permit", **members):
    return {"RuleId": "r", "Effect": effect, **members}


def to_policy(name="p"):
    return {"PolicyIdReference": {"Id": name}}


def to_set(name):
    return {"PolicySetIdReference": {"Id": name}}


def literal(data_type, value):
    return {"AttributeValue": {"DataType": data_type, "Value": value}}


def designator(name, data_type="string", present=False, category="Resource", **members):
    return {"AttributeDesignator": {"Category": category, "AttributeId": name, "DataType": data_type,
                                    "MustBePresent": present, **members}}


def variable(name):
    return {"VariableReference": {"VariableId": name}}


def apply(function, *arguments):
    return {"Apply": {"FunctionId": function, "Expression": list(arguments)}}


def inner(function):
    return {"Function": {"FunctionId": function}}


def match(function, sought_type, sought, name="a", **members):
    return {"MatchId": function, **literal(sought_type, sought),
            **designator(name, **{"data_type": sought_type, **members})}


def target(*matches, alternatives=1):
    return {"AnyOf": [{"AllOf": [{"Match": list(matches)}] * alternatives}]}


def denies_by(matches):
    """A policy that denies where one of these matches is true."""
    return policy(Rule=[rule("Deny", Target={"AnyOf": [{"AllOf": [{"Match": [one]} for one in matches]}]}), rule()])


def bag_function(name, data_type):
    return (V3 if data_type.endswith("Duration") else V1) + f"{data_type}-{name}"


def size_of(bag, data_type):
    """A False that rests on how many values the bag has."""
    return apply(V1 + "integer-less-than", apply(bag_function("bag-size", data_type), bag), literal("integer", 0))


def denies_if(*conditions, defined=(), times=TIMES):
    """A policy of a rule whose condition is that one of these is True, each so often."""
    definitions = [{"VariableId": name, "Expression": expression} for name, expression in defined]
    condition = apply(V1 + "or", *[one for one in conditions for _ in range(times)])
    members = {"VariableDefinition": definitions} if definitions else {}
    return policy(Rule=[rule("Deny", Condition=condition), rule()], **members)


# ---- requests


def attribute(name, values, data_type="string", **members):
    return {"AttributeId": name, "DataType": data_type, "Value": values, **members}


def request(*attributes, times=INDIVIDUALS, category="Resource", **others):
    """So many individual requests of one resource that has these attributes."""
    asked = {category: {"Id": "r", "Attribute": list(attributes)}, **others}
    if times > 1:
        asked["MultiRequests"] = {"RequestReference": [{"ReferenceId": "r"}] * times}
    return {"Request": asked}


def too_long_to_keep(asked):
    """The request, so long that its response is never kept."""
    short = MOST_KEPT + 1 - len(written(asked))
    if short > 0:
        asked = json.loads(written(asked))
        asked["Request"]["Environment"] = {"Attribute": [attribute("pad", "x" * short)]}
    return asked


# ---- values of each type, of so many bytes where that is said

LONGEST = {
    "boolean": False, "integer": -9_223_372_036_854_775_807, "date": "9999-12-30-13:59",
    "time": "23:59:59.123456789-13:59",
    "dateTime": "9999-12-30T23:59:59.123456789-13:59", "dayTimeDuration": "-P3652499DT23H59M59.123456789S",
    "yearMonthDuration": "-P9998Y11M",
}
SIZED = {
    "string": lambda size: "x" * size, "anyURI": lambda size: "x" * size, "hexBinary": lambda size: "AB" * size,
    "base64Binary": lambda size: base64.b64encode(b"\xab" * size).decode(),
}
SIZES = (1, 16, 100, 1_000)


def sizes_of(data_type):
    return SIZES if data_type in SIZED else (0,)


def value_of(data_type, size):
    return SIZED[data_type](size) if data_type in SIZED else LONGEST[data_type]


def bytes_shown(size):
    return "1 byte" if size == 1 else f"{size} bytes"
