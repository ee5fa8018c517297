"""Rows that are asked of the program by others, with their answers: of an expression or a target by the policies that
have it, which the code that serves reads.

An expression is what an obligation assigns, and a target is a policy's. A decision shows the value, or the status of
the fault; and of what has no type the document says why. That an expression is of the kind which its answer names is
told by the document, too: it has a definition that has no type else.
"""
import collections
import json

import responses
from expressions import CheckError, check_match
from functions import V1
from identifiers import NAMESPACE, STATUS
from json_texts import MOST_NESTED
from policies import without_duties
from questions import Questions, place_of
from rows import encoded, text_of
from servers import setup_and_events
from values import TYPES

RULES = "urn:oasis:names:tc:xacml:3.0:rule-combining-algorithm:deny-overrides"
MAX_DOCUMENT_BYTES = 65_536
CLOCK = "urn:oasis:names:tc:xacml:1.0:environment:current-"
STATUS_OF_FAULT = {
    "MissingAttribute": STATUS + "missing-attribute", "ProcessingError": STATUS + "processing-error",
    "SyntaxError": STATUS + "syntax-error",
}
# the events that are calls of a front alone
CALLS = ("begin", "piece", "answer", "finish", "moment")
# A row and its answer.
Row = collections.namedtuple("Row", "fields answer")
# A value as a row writes it.
Literal = collections.namedtuple("Literal", "data_type text")


def compact(held):
    """The text of JSON without white space."""
    return json.dumps(held, ensure_ascii=False, separators=(",", ":"))


# ---- what a row says, in JSON

class WrittenRow(Questions):
    """What a row says, with values as they are written."""

    def __init__(self, fields):
        self.held = collections.defaultdict(list)
        super().__init__(fields)

    def take_pair(self, word, text):
        if word == "has":
            place, held = text.split("=", 1)
            data_type, category, name, issuer = place_of(place)
            attribute = {"AttributeId": name, "Issuer": issuer, "DataType": data_type, "Value": text_of(held)}
            self.held[category].append(without_none(attribute))
        elif word in ("let", "any", "some", "function", "variable"):
            super().take_pair(word, text)
        else:
            self.put(("value", Literal(word, text_of(text))))

    def request(self):
        """The body of the request that has the row's attributes."""
        objects = [{"CategoryId": category, "Attribute": held} for category, held in self.held.items()]
        return compact({"Request": {"Category": objects} if objects else {}})


def without_none(members):
    """The members that have a value."""
    return {name: held for name, held in members.items() if held is not None}


def value_json(literal):
    return {"DataType": literal.data_type, "Value": literal.text}


def designator_json(held):
    return without_none({"Category": held.category, "AttributeId": held.attribute_id, "DataType": held.data_type,
                         "MustBePresent": held.must_be_present, "Issuer": held.issuer})


def expression_json(expression):
    """An expression (XACML 3.0, core, section 5.25)."""
    form, held = expression
    if form == "value":
        return {"AttributeValue": value_json(held)}
    if form == "designator":
        return {"AttributeDesignator": designator_json(held)}
    if form == "function":
        return {"Function": {"FunctionId": held}}
    if form == "variable":
        return {"VariableReference": {"VariableId": held}}
    return {"Apply": without_none({"FunctionId": held[0], "Expression": list(map(expression_json, held[1])) or None})}


def policy(variables=(), rule=None, target=None):
    """The text of a policy of one rule, which permits."""
    defined = [{"VariableId": name, "Expression": held} for name, held in variables]
    members = {
        "PolicyId": "p", "Version": "1", "RuleCombiningAlgId": RULES, "Target": target,
        "VariableDefinition": defined or None, "Rule": [{"RuleId": "r", "Effect": "Permit", **(rule or {})}],
    }
    return compact({"Policy": without_none(members)})


def by_function(name, argument):
    """An Apply of one argument."""
    return {"Apply": {"FunctionId": name, "Expression": [argument]}}


def assigning(variables, expression, kind):
    """The text of a policy whose rule assigns the expression. It has no type where the expression isn't of the
    kind."""
    named = {"VariableReference": {"VariableId": "(the expression)"}}
    form, data_type = kind.removesuffix(")").split("(")
    data_type = next(name for name in TYPES if name.lower() == data_type.lower())
    typed = by_function(f"{V1}{data_type}-bag" + ("-size" if form == "Bag" else ""), named)
    checked = [*variables, ("(the expression)", expression), ("(its kind)", typed)]
    whole = policy(checked, obliging(expression))
    return whole if len(whole.encode()) <= MAX_DOCUMENT_BYTES else policy(checked, obliging(named))


def obliging(*expressions):
    """The members of a rule with an obligation that assigns the expressions (5.39)."""
    assigned = [{"AttributeId": "v", "Expression": expression} for expression in expressions]
    obligation = {"ObligationId": "o", "FulfillOn": "Permit", "AttributeAssignmentExpression": assigned}
    return {"ObligationExpressions": [obligation]}


# ---- answers

def response(evaluated, **members):
    """The answer of a response with one result, to which members are added."""
    return [encoded(responses.body([{**responses.result(evaluated), **members}]))]


def assignment(data_type, text):
    """The assignment of the value that is written so in an answer."""
    text = text_of(text)
    plain = text == "true" if data_type == "boolean" else int(text) if data_type == "integer" else text
    return {"AttributeId": "v", "DataType": NAMESPACE + data_type, "Value": plain}


def response_to_values(shown):
    """The response that assigns the values of an answer's fields."""
    if shown[0].startswith("bag:"):
        assignments = [assignment(shown[0][4:], field[1:]) for field in shown[1:]]
    else:
        assignments = [assignment(*shown[0].split(":", 1))]
    return response_with(assignments)


def response_with(assignments):
    """The response with the obligation that has these assignments."""
    obligation = without_none({"Id": "o", "AttributeAssignment": assignments or None})
    return response(without_duties("Permit"), Obligations=[obligation])


def taken_answer(answer):
    """The fields of the first answer to an expression, which has a kind."""
    if answer[1].startswith("!"):
        return answer[:3]
    end = 2
    while answer[1].startswith("bag:") and end < len(answer) and answer[end].startswith("+"):
        end += 1
    return answer[:end]


# ---- rows of expressions and of targets

def decide_row(document, request, answer, *more):
    """A decision on the request, by the document alone."""
    return Row(["decide", "active:" + encoded(document), "root:policy|p|||", *more, encoded(request)], answer)


def document_row(document, fault):
    """A document that isn't read."""
    return Row(["document", encoded(document)], ["!" + fault])


def ill_typed(document, fault):
    """A document that isn't read, since an expression in it has no kind, or it is nested too deep."""
    if nested(json.loads(document)) > MOST_NESTED:
        return document_row(document, "NotJson")
    return document_row(document, f"IllTyped({fault.removeprefix('!')})")


def nested(held):
    """How many objects and arrays stand inside one another."""
    if not isinstance(held, (dict, list)):
        return 0
    return 1 + max(map(nested, held.values() if isinstance(held, dict) else held), default=0)


def definition_row(variables, definition, said):
    """A document with one more definition of a variable, to which the row's answer was said."""
    document = policy([*variables, definition])
    if said == "true":
        return Row(["document", encoded(document)], ["policy", "p", "1"])
    return document_row(document, "BadValue") if said == "false" else ill_typed(document, said)


def evaluate(fields, answer):
    """For each expression a decision that has its value, or a document that isn't read, since it has no kind; for each
    definition a document."""
    row, variables, name, made = WrittenRow(fields), [], None, []
    for form, held in row.said:
        if form == "let":
            name = held
            continue
        expression = expression_json((form, held))
        if name is not None:
            said, answer = answer[0], answer[1:]
            made.append(definition_row(variables, (name, expression), said))
            if said == "true":
                variables.append((name, expression))
        elif answer[0].startswith("!"):
            made.append(ill_typed(policy(variables, obliging(expression)), answer[0]))
            answer = answer[1:]
        else:
            shown = taken_answer(answer)
            answer = answer[len(shown):]
            is_fault = shown[1].startswith("!")
            given = response(without_duties("{P}", shown[2])) if is_fault else response_to_values(shown[1:])
            made.append(decide_row(assigning(variables, expression, shown[0]), row.request(), given))
        name = None
    return list({tuple(one.fields): one for one in made}.values())


def match_json(held):
    """A match (5.9)."""
    name, ((_, literal), (_, designator)) = held
    return {"MatchId": name, "AttributeValue": value_json(literal), "AttributeDesignator": designator_json(designator)}


def target_json(parts):
    """A target (5.6): a list of lists of lists of matches."""
    return {"AnyOf": [{"AllOf": [{"Match": all_of} for all_of in any_of]} for any_of in parts]} if parts else {}


def target(fields, answer):
    """A decision that shows the target, and for each match that may not be made a document that isn't read. No document
    has a part of a target in which nothing stands, as where none of its matches may be made: then no decision is asked
    for."""
    row, parts, all_of, matches = WrittenRow(fields), [], [], []
    made, found = [], answer[-1]
    faults = iter(answer[:-1])
    for form, held in row.said:
        if form == "|":
            all_of, matches = all_of + [matches], []
        elif form == ";":
            parts, all_of = parts + [all_of], []
        elif may_be_made(held):
            matches = matches + [match_json(held)]
        else:
            made.append(ill_typed(policy(target=target_json([[[match_json(held)]]])), next(faults)))
    if not all(any_of and all(any_of) for any_of in parts):
        return made
    if found.startswith("Indeterminate"):
        given = without_duties("{P}", STATUS_OF_FAULT[found[14:-1]])
    else:
        given = without_duties("Permit" if found == "Match" else "NotApplicable")
    return made + [decide_row(policy(target=target_json(parts)), row.request(), response(given))]


def may_be_made(held):
    """Whether a match's function takes its literal and the values of its designator."""
    name, ((_, literal), (_, designator)) = held
    try:
        check_match(name, literal, designator)
        return True
    except CheckError:
        return False


# ---- other rows: moments, a value that is held, versions, fronts


def moment(fields, answer):
    """A decision at the moment that assigns the clock's values."""
    clock = [{"AttributeDesignator": {"Category": "Environment", "AttributeId": CLOCK + name, "DataType": name,
                                      "MustBePresent": True}} for name in ("date", "time", "dateTime")]
    if answer == ["!None"]:
        given = ["!Malformed"]
    else:
        given = response_with([assignment(*field.split(":", 1)) for field in answer])
    return [decide_row(policy(rule=obliging(*clock)), compact({"Request": {}}), given, "moment:" + fields[0])]


def held(fields, answer):
    """A decision that has the value, which stands in a policy."""
    return evaluate(fields, [f"Value({fields[0].split(':')[0]})", *answer])


def matches(fields, answer):
    """Whether a reference with the pattern stands for a document of the version."""
    found = ["0" if answer == ["true"] else "!None"]
    return [Row(["resolve", f"policy|p|{fields[0]}||", "policy|p|" + fields[1]], found)]


def versions(fields, answer):
    """Whether a reference stands for a document of the one version, where the other is the earliest, and where it is
    the latest."""
    left, right = fields
    return [Row(["resolve", f"policy|p|{bounds}", "policy|p|" + left], ["!None" if answer == [beyond] else "0"])
            for bounds, beyond in ((f"|{right}|", "Less"), (f"||{right}", "Greater"))]


def front(fields, answer):
    """The row itself; and where its events are calls of a front alone, the same events, each of which is played."""
    words = {field.partition(":")[0] for field in setup_and_events(fields)[1]}
    return [Row([kind, *fields], answer) for kind in ("front", "played") if kind == "front" or words <= set(CALLS)]


BY_OTHERS = {
    "front": front, "evaluate": evaluate, "target": target, "moment": moment, "held": held, "matches": matches,
    "versions": versions,
}


def by_others(fields, answer):
    """The rows that ask what the row asks, each with its answer."""
    if fields[0] not in BY_OTHERS:
        return [Row(fields, answer)]
    return BY_OTHERS[fields[0]](fields[1:], answer)
