"""Policy documents in JSON (XACML 3.0, core, section 5): their shape by the tables of members, and their types.

The tables are written as the notation states them: `?` marks a member that may be left out, and of the members of an
object in ONE_OF exactly one is there. A document that is none raises DocumentFault with the name of its first fault.
"""
import collections

from expressions import CheckError, Designator, Variables, check, check_match
from identifiers import DATA_TYPES, category as category_named
from json_texts import NotJson, json_of
from rows import encoded, decoded
from values import Fault, read
from versions import PATTERN, VERSION, NoVersion, Reference, numbered, parts

MAX_BYTES, MAX_SETS, MAX_ID_BYTES = 65_536, 8, 512
IN_BOTH = ("deny-overrides", "permit-overrides", "ordered-deny-overrides", "ordered-permit-overrides",
           "deny-unless-permit", "permit-unless-deny")
TABLES = {
    "Policy": "PolicyId Version RuleCombiningAlgId Description? Target? VariableDefinition? Rule? "
              "ObligationExpressions? AdviceExpressions?",
    "PolicySet": "PolicySetId Version PolicyCombiningAlgId Description? Target? Children? ObligationExpressions? "
                 "AdviceExpressions?",
    "Reference": "Id Version? EarliestVersion? LatestVersion?",
    "Rule": "RuleId Effect Description? Target? Condition? ObligationExpressions? AdviceExpressions?",
    "Target": "AnyOf?",
    "AnyOf": "AllOf",
    "AllOf": "Match",
    "Match": "MatchId AttributeValue AttributeDesignator",
    "VariableDefinition": "VariableId Expression",
    "AttributeValue": "DataType Value",
    "AttributeDesignator": "Category AttributeId DataType MustBePresent Issuer?",
    "Apply": "FunctionId Description? Expression?",
    "Function": "FunctionId",
    "VariableReference": "VariableId",
    "ObligationExpression": "ObligationId FulfillOn AttributeAssignmentExpression?",
    "AdviceExpression": "AdviceId AppliesTo AttributeAssignmentExpression?",
    "AttributeAssignmentExpression": "AttributeId Category? Issuer? Expression",
    # the bodies of routes, and a row of a source of attributes
    "NewToken": "Role Token",
    "OldToken": "Token",
    "Source": "Row",
    "SourceRow": "Category Entity AttributeId DataType Value Issuer?",
}
ONE_OF = {
    "document": "Policy PolicySet",
    "child": "Policy PolicySet PolicyIdReference PolicySetIdReference",
    "expression": "AttributeValue AttributeDesignator Apply Function VariableReference",
}


def algorithms(kind, first):
    """The combining algorithms of rules, or of policies, by their URIs (appendix C)."""
    found = {f"urn:oasis:names:tc:xacml:3.0:{kind}-combining-algorithm:{name}": name for name in IN_BOTH}
    found.update({f"urn:oasis:names:tc:xacml:1.0:{kind}-combining-algorithm:{name}": name for name in first})
    return found


RULE_ALGORITHMS = algorithms("rule", ["first-applicable"])
POLICY_ALGORITHMS = algorithms("policy", ["first-applicable", "only-one-applicable"])


class DocumentFault(Exception):
    """Why bytes are no document."""


# A policy, whose children are its rules, or a policy set, which has no variables and whose children are
# documents and references.
Document = collections.namedtuple("Document", "form id version algorithm target variables children duties")
Rule = collections.namedtuple("Rule", "effect target condition duties")
# An obligation or advice, and one of its assignments.
Duty = collections.namedtuple("Duty", "id effect assignments")
Assignment = collections.namedtuple("Assignment", "attribute_id category issuer expression")


def members(table, value):
    """The value, which is an object whose members are those of the table."""
    if not isinstance(value, dict):
        raise DocumentFault("BadValue")
    names = TABLES[table].split()
    if any(name not in names and name + "?" not in names for name in value):
        raise DocumentFault("UnknownMember")
    for name in names:
        if not name.endswith("?") and name not in value:
            raise DocumentFault(f"MissingMember({name})")
    return value


def one_of(kind, value):
    """The name and the value of the one member."""
    if not isinstance(value, dict):
        raise DocumentFault("BadValue")
    names = ONE_OF[kind].split()
    if any(name not in names for name in value) or len(value) > 1:
        raise DocumentFault("UnknownMember")
    if not value:
        raise DocumentFault(f"MissingMember({names[0]})")
    return next(iter(value.items()))


def kept(holds, value, fault="BadValue"):
    """The value, if that holds."""
    if not holds:
        raise DocumentFault(fault)
    return value


def text(value):
    """A text."""
    return kept(isinstance(value, str), value)


def among(known, fault="BadValue"):
    """Reads one of the known texts."""
    return lambda value: known[kept(text(value) in known, value, fault)]


def array(value, least=0):
    """An array of at least so many items."""
    return kept(isinstance(value, list) and len(value) >= least, value)


def optional(reads, found, name):
    """What is read of a member, if it is there."""
    return reads(found[name]) if name in found else None


def each(reads, found, name):
    """What is read of each item of an array, which may be left out."""
    return [reads(item) for item in array(found.get(name, []))]


def identifier(value):
    """The id of a policy or of a set."""
    return kept(1 <= len(text(value).encode()) <= MAX_ID_BYTES, value)


def version_of(shape):
    """Reads the parts of a version, or of a pattern of versions."""
    def reads(value):
        try:
            return parts(shape, text(value))
        except NoVersion:
            raise DocumentFault("BadValue") from None
    return reads


version, pattern = version_of(VERSION), version_of(PATTERN)
effect = among({"Permit": "Permit", "Deny": "Deny"})
data_type = among(DATA_TYPES)
rule_algorithm = among(RULE_ALGORITHMS, "UnknownAlgorithm")
policy_algorithm = among(POLICY_ALGORITHMS, "UnknownAlgorithm")


def category(value):
    """A category, of which a shorthand stands for its URI."""
    return category_named(text(value))


def flag(value):
    """True or false."""
    return kept(isinstance(value, bool), value)


def typed_value(found):
    """The value of the members DataType and Value."""
    name, literal = data_type(found["DataType"]), found["Value"]
    if isinstance(literal, bool):
        return name, kept(name == "boolean", literal)
    if isinstance(literal, int):
        return name, kept(name == "integer" and -2**63 <= literal < 2**63, literal)
    try:
        return read(name, text(literal))
    except Fault:
        raise DocumentFault("BadValue") from None


def attribute_value(value):
    """An attribute value (5.31)."""
    return typed_value(members("AttributeValue", value))


def attribute_designator(value):
    """An attribute designator (5.29)."""
    found = members("AttributeDesignator", value)
    named, attribute_id = category(found["Category"]), text(found["AttributeId"])
    return Designator(category=named, attribute_id=attribute_id, data_type=data_type(found["DataType"]),
                      must_be_present=flag(found["MustBePresent"]), issuer=optional(text, found, "Issuer"))


def expression(value):
    """An expression (5.25): a value, a designator, an Apply, a function or a variable."""
    form, inner = one_of("expression", value)
    if form == "AttributeValue":
        return "value", attribute_value(inner)
    if form == "AttributeDesignator":
        return "designator", attribute_designator(inner)
    found = members(form, inner)
    if form == "VariableReference":
        return "variable", text(found["VariableId"])
    name = text(found["FunctionId"])
    if form == "Function":
        return "function", name
    optional(text, found, "Description")
    return "apply", (name, each(expression, found, "Expression"))


def match(value):
    """A match (5.9)."""
    found = members("Match", value)
    name, literal = text(found["MatchId"]), attribute_value(found["AttributeValue"])
    return name, literal, attribute_designator(found["AttributeDesignator"])


def all_of(value):
    """The matches of an AllOf (5.8)."""
    return [match(item) for item in array(members("AllOf", value)["Match"], 1)]


def any_of(value):
    """The alternatives of an AnyOf (5.7)."""
    return [all_of(item) for item in array(members("AnyOf", value)["AllOf"], 1)]


def target(found):
    """The target (5.6), which is empty if there is none."""
    return each(any_of, members("Target", found["Target"]), "AnyOf") if "Target" in found else []


def definitions(found):
    """The variables' names, no two alike, with their expressions."""
    names, read_so_far = set(), []
    for item in array(found.get("VariableDefinition", [])):
        definition = members("VariableDefinition", item)
        name = text(definition["VariableId"])
        kept(name not in names, name)
        names.add(name)
        read_so_far.append((name, expression(definition["Expression"])))
    return read_so_far


def assignment(value):
    """An assignment of an obligation or of advice (5.41)."""
    found = members("AttributeAssignmentExpression", value)
    name = text(found["AttributeId"])
    held = optional(category, found, "Category"), optional(text, found, "Issuer")
    return Assignment(name, *held, expression(found["Expression"]))


def duty(table, name, decision):
    """Reads an obligation (5.39) or advice (5.40), by the names of its table."""
    def reads(value):
        found = members(table, value)
        held = text(found[name]), effect(found[decision])
        return Duty(*held, each(assignment, found, "AttributeAssignmentExpression"))
    return reads


obligation, advice = (duty("ObligationExpression", "ObligationId", "FulfillOn"),
                      duty("AdviceExpression", "AdviceId", "AppliesTo"))


def duties(found):
    """The obligations, and the advice."""
    return each(obligation, found, "ObligationExpressions"), each(advice, found, "AdviceExpressions")


def rule(value):
    """A rule (5.21)."""
    found = members("Rule", value)
    text(found["RuleId"])
    held = effect(found["Effect"])
    optional(text, found, "Description")
    applies = target(found)
    return Rule(held, applies, optional(expression, found, "Condition"), duties(found))


def policy(value):
    """A policy (5.14)."""
    found = members("Policy", value)
    held = identifier(found["PolicyId"]), version(found["Version"]), rule_algorithm(found["RuleCombiningAlgId"])
    optional(text, found, "Description")
    applies, variables = target(found), definitions(found)
    return Document("Policy", *held, applies, variables, each(rule, found, "Rule"), duties(found))


def reference(kind, value):
    """A reference to a policy or a set (5.10, 5.11)."""
    found = members("Reference", value)
    held = text(found["Id"]), optional(pattern, found, "Version")
    earliest, latest = optional(version, found, "EarliestVersion"), optional(version, found, "LatestVersion")
    return Reference(kind, *held, earliest and numbered(earliest), latest and numbered(latest))


def child(value, sets):
    """A child of a policy set that stands in so many."""
    name, inner = one_of("child", value)
    if name == "Policy":
        return policy(inner)
    return (policy_set(inner, sets + 1)
            if name == "PolicySet" else reference("policy" if name == "PolicyIdReference" else "set", inner))


def policy_set(value, sets=1):
    """A policy set (5.1) inside this many, itself counted."""
    if isinstance(value, dict) and sets > MAX_SETS:
        raise DocumentFault("TooLarge")
    found = members("PolicySet", value)
    held = identifier(found["PolicySetId"]), version(found["Version"]), policy_algorithm(found["PolicyCombiningAlgId"])
    optional(text, found, "Description")
    applies = target(found)
    children = each(lambda item: child(item, sets), found, "Children")
    return Document("PolicySet", *held, applies, [], children, duties(found))


def check_target(applies):
    """That each match of the target may be made."""
    for alternatives in applies:
        for matches in alternatives:
            for held in matches:
                check_match(*held)


def check_duties(held, variables):
    """That each expression of obligations and advice has a kind."""
    for listed in held:
        for one in listed:
            for assigned in one.assignments:
                check(assigned.expression, variables)


def check_rule(held, variables):
    """The types of a rule, whose condition is a boolean (5.26)."""
    check_target(held.target)
    if held.condition is not None and check(held.condition, variables) != "boolean":
        raise CheckError("WrongType")
    check_duties(held.duties, variables)


def check_document(held):
    """The types of all that the document holds, in table order."""
    check_target(held.target)
    variables = Variables()
    for name, its_expression in held.variables:
        variables.define(name, its_expression)
    for inner in held.children:
        if isinstance(inner, Rule):
            check_rule(inner, variables)
        elif isinstance(inner, Document):
            check_document(inner)
    check_duties(held.duties, variables)


def document_of(held):
    """The document that the bytes are."""
    if len(held) > MAX_BYTES:
        raise DocumentFault("TooLarge")
    try:
        name, inner = one_of("document", json_of(held))
    except NotJson:
        raise DocumentFault("NotJson") from None
    found = policy(inner) if name == "Policy" else policy_set(inner)
    try:
        check_document(found)
    except CheckError as fault:
        raise DocumentFault(f"IllTyped({fault})") from None
    return found


def document(field):
    """The answer to a row: the document's kind, id and version, or its first fault."""
    try:
        found = document_of(decoded(field))
    except DocumentFault as fault:
        return ["!" + str(fault)]
    return ["policy" if found.form == "Policy" else "set", encoded(found.id), ".".join(found.version)]
