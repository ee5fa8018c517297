"""The decision of rules, policies and policy sets, as each step to it is charged before it is taken (XACML 3.0, core,
sections 7.10 to 7.18, appendix C)."""
from charged_expressions import ChargedEvaluation
from charges import ASSIGNMENT, CHILD, LOOK, STEP, length, units
from combining import BY_DECISIONS
from expressions import Matching, listed, status
from policies import (
    INDETERMINATE, LEAF, OK, PROCESSING_ERROR, SETTLING, Assigned, Evaluated, Returned, is_indeterminate, with_ids,
    without_duties)
from values import Fault


class ChargedDocument(ChargedEvaluation):
    """The rules, obligations and advice of one document, whose variables these definitions are."""

    def assigned(self, assignment):
        """An assignment for each value of its expression (5.41, 7.18)."""
        found = self.value_with_variables(assignment.expression)
        values = listed(found)
        texts = length(assignment.attribute_id) + length(assignment.category) + length(assignment.issuer)
        self.spend(len(values) * (ASSIGNMENT + texts) + units(values))
        return [Assigned(assignment.attribute_id, assignment.category, assignment.issuer, value) for value in values]

    def duty(self, duty):
        """An obligation, or advice, with its assignments."""
        self.spend(STEP + length(duty.id))
        return Returned(duty.id, [one for assignment in duty.assignments for one in self.assigned(assignment)])

    def returned(self, duties, decision):
        """The obligations, or the advice, that belong to the decision (7.18)."""
        self.spend(LOOK * len(duties))
        return [self.duty(duty) for duty in duties if duty.effect == decision]

    def with_duties(self, evaluated, duties):
        """A Permit or a Deny with its own obligations and advice behind those that it has."""
        if evaluated.decision not in INDETERMINATE:
            return evaluated
        self.spend(moving(evaluated))
        try:
            obligations, advice = (self.returned(some, evaluated.decision) for some in duties)
        except Fault as fault:
            return without_duties(INDETERMINATE[evaluated.decision], status(fault))
        return evaluated._replace(obligations=evaluated.obligations + obligations, advice=evaluated.advice + advice)

    def rule_target(self, rule):
        """What a rule's target comes to (7.7)."""
        self.spend(CHILD)
        return self.target(rule.target)

    def rule(self, rule, target):
        """What a rule comes to whose target isn't NoMatch (7.11)."""
        if target.word == "Indeterminate":
            return without_duties(INDETERMINATE[rule.effect], target.status)
        try:
            if rule.condition is not None and not self.value_with_variables(rule.condition)[1]:
                return without_duties("NotApplicable")
        except Fault as fault:
            return without_duties(INDETERMINATE[rule.effect], status(fault))
        return self.with_duties(without_duties(rule.effect), rule.duties)

    def rules(self, rules):
        """Of each rule its target, and what gives its value."""
        for rule in rules:
            target = self.rule_target(rule)
            yield target, lambda rule=rule, target=target: self.rule(rule, target)


# ---- combining algorithms

def moving(evaluated):
    """The units of moving obligations and advice up."""
    return STEP * (len(evaluated.obligations) + len(evaluated.advice))


def combined(algorithm, children, spend):
    """What the algorithm makes of its children (appendix C), each a pair of its target and what gives its value: those
    behind the one that ends it aren't looked at."""
    if algorithm == "only-one-applicable":
        return only_one(children)
    found = evaluated_children(algorithm, children, spend)
    decision = BY_DECISIONS[algorithm]([child.decision for child in found])
    if decision not in INDETERMINATE:
        first = next((child.status for child in found if is_indeterminate(child.decision)), OK)
        return without_duties(decision, first if is_indeterminate(decision) else OK)
    alike = [child for child in found if child.decision == decision]
    return Evaluated(decision, OK, [one for child in alike for one in child.obligations],
                     [one for child in alike for one in child.advice], [one for child in found for one in child.ids])


def evaluated_children(algorithm, children, spend):
    """The children that the algorithm evaluates, up to the one that ends it."""
    found, settling = [], SETTLING.get(algorithm)
    for target, value in children:
        if target.word == "NoMatch":
            continue
        child = value()
        spend(moving(child))
        found.append(child)
        if child.decision == settling if settling else child.decision != "NotApplicable":
            break
    return found


def only_one(children):
    """What only-one-applicable (C.9) makes of its children, of which it evaluates the applicable one alone."""
    applicable = None
    for target, value in children:
        if target.word == "Indeterminate":
            return without_duties("{DP}", target.status)
        if target.word == "Match" and applicable is not None:
            return without_duties("{DP}", PROCESSING_ERROR)
        if target.word == "Match":
            applicable = value
    return applicable() if applicable is not None else without_duties("NotApplicable")


# ---- trees

class ChargedDecision:
    """The decision on an individual request, whose context is charged."""

    def __init__(self, context):
        self.context, self.spend = context, context.spend

    def of(self, tree):
        """The decision of the tree, with its status, obligations and advice."""
        return self.value(tree, self.target(tree))

    def target(self, tree):
        """What the tree's target comes to (7.7); Indeterminate for a reference that has no document."""
        self.spend(CHILD)
        if tree == LEAF:
            return Matching("Indeterminate", PROCESSING_ERROR)
        return ChargedEvaluation(self.context).target(tree.document.target)

    def children(self, trees):
        """Of each tree its target, and what gives its value."""
        for tree in trees:
            target = self.target(tree)
            yield target, lambda tree=tree, target=target: self.value(tree, target)

    def value(self, tree, target):
        """What the tree comes to, whose target is known (7.12 to 7.14)."""
        if tree == LEAF:
            return without_duties("{DP}", PROCESSING_ERROR)
        if target.word == "NoMatch":
            return without_duties("NotApplicable")
        document = tree.document
        charged = ChargedDocument(self.context, document.variables)
        is_policy = document.form == "Policy"
        children = charged.rules(document.children) if is_policy else self.children(tree.children)
        found = combined(document.algorithm, children, self.spend)
        if target.word == "Indeterminate" and found.decision != "NotApplicable":
            found = without_duties(INDETERMINATE.get(found.decision, found.decision), target.status)
        return with_ids(charged.with_duties(found, document.duties), document, [found])
