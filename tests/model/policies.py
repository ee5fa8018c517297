"""Rules, policies and policy sets (XACML 3.0, core, sections 7.11 to 7.15 and 7.18): decision, status,
obligations and advice.

What decides Permit or Deny tells of itself, and a set then of what its evaluated children tell of: by these a
response names policies.

A decision is Permit, Deny, NotApplicable, or Indeterminate as {P}, {D} or {DP}. A tree is a policy, or a set with the
trees of its children; LEAF stands for a reference for which there is no document.
"""
import collections

from combining import BY_DECISIONS, ending, only_one_applicable
from expressions import Evaluation, Matching, status, target_value
from identifiers import STATUS
from values import Fault

OK, PROCESSING_ERROR = STATUS + "ok", STATUS + "processing-error"
INDETERMINATE = {"Permit": "{P}", "Deny": "{D}"}
# what a rule, a policy or a set comes to, and for the sets above also what its target does
Evaluated = collections.namedtuple("Evaluated", "decision status obligations advice ids target", defaults=[(), None])
# a policy or a set as it is told of
Told = collections.namedtuple("Told", "form id version")
Returned = collections.namedtuple("Returned", "id assignments")
Assigned = collections.namedtuple("Assigned", "attribute_id category issuer value")
Tree = collections.namedtuple("Tree", "document children")
LEAF = Tree(None, ())
# the decision of a child behind which an algorithm evaluates no further one
SETTLING = {
    "deny-overrides": "Deny", "ordered-deny-overrides": "Deny", "permit-unless-deny": "Deny",
    "permit-overrides": "Permit", "ordered-permit-overrides": "Permit", "deny-unless-permit": "Permit",
}


def without_duties(decision, code=OK):
    """What decides so, without obligations and advice, and names nothing."""
    return Evaluated(decision, code, [], [])


def is_indeterminate(decision):
    """Whether the decision is an extended Indeterminate (7.10)."""
    return decision.startswith("{")


def assigned(evaluation, assignment):
    """An assignment for the value, or for each value of the bag."""
    found = evaluation.value(assignment.expression)
    values = found[1] if isinstance(found[1], list) else [found]
    return [Assigned(assignment.attribute_id, assignment.category, assignment.issuer, value) for value in values]


def returned(evaluation, duties, decision):
    """The obligations, or the advice, that belong to the decision."""
    return [Returned(duty.id, [one for assignment in duty.assignments for one in assigned(evaluation, assignment)])
            for duty in duties if duty.effect == decision]


def with_duties(evaluation, decision, children, duties):
    """Permit or Deny with the duties of those evaluated children that share it and then its own; Indeterminate where
    one of these is at fault."""
    try:
        obligations, advice = (returned(evaluation, listed, decision) for listed in duties)
    except Fault as fault:
        return without_duties(INDETERMINATE[decision], status(fault))
    alike = [child for child in children if child.decision == decision]
    return Evaluated(decision, OK, [one for child in alike for one in child.obligations] + obligations,
                     [one for child in alike for one in child.advice] + advice)


def rule_value(evaluation, rule):
    """What the rule comes to (7.11)."""
    target = target_value(evaluation, rule.target)
    if target.word == "Indeterminate":
        return without_duties(INDETERMINATE[rule.effect], target.status)
    try:
        if target.word == "NoMatch" or rule.condition is not None and not evaluation.value(rule.condition)[1]:
            return without_duties("NotApplicable")
    except Fault as fault:
        return without_duties(INDETERMINATE[rule.effect], status(fault))
    return with_duties(evaluation, rule.effect, [], rule.duties)


def up_to_first(children, settles):
    """The children up to and including the first whose decision settles it; all where none does."""
    place = next((place for place, child in enumerate(children) if settles(child.decision)), len(children))
    return children[:place + 1]


def only_one(children):
    """The decision of only-one-applicable, its status, and the one child that is evaluated."""
    targets = [child.target.word for child in children]
    decision, end = only_one_applicable([(child.decision, child.target.word) for child in children]), ending(targets)
    if end is not None:
        return decision, children[end].target.status or PROCESSING_ERROR, []
    chosen = [child for child in children if child.target.word == "Match"]
    return decision, chosen[0].status if chosen else OK, chosen


def combined(algorithm, children):
    """The decision of the algorithm over all children, the status that it has where it is Indeterminate, and the
    evaluated children."""
    if algorithm == "only-one-applicable":
        return only_one(children)
    settling = SETTLING.get(algorithm)
    evaluated = up_to_first(children,
                            lambda decision: decision == settling if settling else decision != "NotApplicable")
    first = next((child.status for child in children if is_indeterminate(child.decision)), OK)
    return BY_DECISIONS[algorithm]([child.decision for child in children]), first, evaluated


def tree_value(values_of, tree):
    """What the tree comes to where `values_of` gives the values that a designator names (7.12 to 7.15)."""
    if tree == LEAF:
        return Evaluated("{DP}", PROCESSING_ERROR, [], [], target=Matching("Indeterminate", PROCESSING_ERROR))
    document = tree.document
    evaluation = Evaluation(values_of, dict(document.variables))
    target = target_value(evaluation, document.target)
    if target.word == "NoMatch":
        return without_duties("NotApplicable")._replace(target=target)
    if document.form == "Policy":
        children = [rule_value(evaluation, rule) for rule in document.children]
    else:
        children = list(child_values(values_of, tree.children))
    return applied(evaluation, document, target, children)._replace(target=target)


def child_values(values_of, children):
    """What each of the children comes to; a policy that is referred to several times is worked out once."""
    found = {}
    for child in children:
        key = id(child.document) if child != LEAF and child.document.form == "Policy" else id(child)
        if key not in found:
            found[key] = tree_value(values_of, child)
        yield found[key]


def applied(evaluation, document, target, children):
    """What the policy or the set comes to, whose target isn't NoMatch (7.12 to 7.14)."""
    decision, code, evaluated = combined(document.algorithm, children)
    if target.word == "Indeterminate":
        decision, code = INDETERMINATE.get(decision, decision), target.status
    if decision in INDETERMINATE:
        return with_ids(with_duties(evaluation, decision, evaluated, document.duties), document, evaluated)
    return without_duties(decision, code if is_indeterminate(decision) else OK)


def with_ids(found, document, children):
    """Permit or Deny with the document itself and then what those evaluated children tell of, whatever they decide; of
    Indeterminate nothing."""
    if found.decision not in INDETERMINATE:
        return found
    itself = Told(document.form, document.id, ".".join(document.version))
    return found._replace(ids=[itself] + [one for child in children for one in child.ids])
