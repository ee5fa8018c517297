"""The shape of policy documents: all its faults, in the order in which the server looks for them, and the
parts with their places.

The tables of members, the names and the texts are the model's. Behind a fault the reading goes on with what is there;
a misspelt member is read as the one that was meant.
"""
from __future__ import annotations

from collections.abc import Callable

from .elements import (
    AllOf, AnyOf, Assignment, Designator, Document, Duty, Expression, Match, Reference, Rule, Target, Variable)
from .members import WHOLE
from .model import documents, versions
from .positions import Node
from .scalars import Scalars

FORMS = {"AttributeValue": "value", "AttributeDesignator": "designator", "Apply": "apply", "Function": "function",
         "VariableReference": "variable"}


class Shapes(Scalars):
    """Reads parts of documents, and remarks what is wrong with them."""

    # Expressions.

    def designator(self, node: Node) -> Designator | None:
        """An attribute designator."""
        found = self.members("AttributeDesignator", node)
        if found is None:
            return None
        held = (self.optional(self.category, found, "Category"), self.optional(self.text, found, "AttributeId"),
                self.optional(self.data_type, found, "DataType"))
        return Designator(node, *held, self.optional(self.flag, found, "MustBePresent"),
                          self.optional(self.text, found, "Issuer"))

    def expression(self, node: Node) -> Expression | None:
        """An expression."""
        named = self.one_of("expression", node, "An expression")
        if named is None:
            return None
        name, inner = named
        if name == "AttributeValue":
            return Expression("value", inner, literal=self.literal(inner))
        if name == "AttributeDesignator":
            return Expression("designator", inner, designator=self.designator(inner))
        found = self.members(name, inner)
        if found is None:
            return None
        held = self.optional(self.text, found, "VariableId" if name == "VariableReference" else "FunctionId")
        self.optional(self.text, found, "Description")
        return Expression(FORMS[name], inner, held,
                          arguments=self.each(self.expression, found, "Expression") if name == "Apply" else [])

    # Targets.

    def match(self, node: Node) -> Match | None:
        """A match."""
        found = self.members("Match", node)
        if found is None:
            return None
        held = self.optional(self.text, found, "MatchId"), self.optional(self.literal, found, "AttributeValue")
        return Match(node, *held, self.optional(self.designator, found, "AttributeDesignator"))

    def all_of(self, node: Node) -> AllOf | None:
        """A conjunction of matches."""
        found = self.members("AllOf", node)
        return None if found is None else AllOf(node, self.each(self.match, found, "Match", 1))

    def any_of(self, node: Node) -> AnyOf | None:
        """A part of a target."""
        found = self.members("AnyOf", node)
        return None if found is None else AnyOf(node, self.each(self.all_of, found, "AllOf", 1))

    def target(self, node: Node) -> Target | None:
        """A target."""
        found = self.members("Target", node)
        return None if found is None else Target(node, self.each(self.any_of, found, "AnyOf"))

    # Rules, policies and sets.

    def assignment(self, node: Node) -> Assignment | None:
        """An assignment of an obligation or of advice."""
        found = self.members("AttributeAssignmentExpression", node, "An assignment")
        if found is None:
            return None
        held = self.optional(self.text, found, "AttributeId"), self.optional(self.category, found, "Category")
        self.optional(self.text, found, "Issuer")
        return Assignment(node, *held, self.optional(self.expression, found, "Expression"))

    def duty(self, table: str, name: str, decision: str) -> Callable[[Node], Duty | None]:
        """Reads an obligation, or advice, by the names of its table."""
        def reads(node: Node) -> Duty | None:
            found = self.members(table, node)
            if found is None:
                return None
            held = self.optional(self.text, found, name), self.optional(self.effect, found, decision)
            return Duty(node, table == "ObligationExpression", *held,
                        self.each(self.assignment, found, "AttributeAssignmentExpression"))
        return reads

    def duties(self, found: dict[str, Node]) -> list[Duty | None]:
        """Obligations, and then advice."""
        obligations = self.each(self.duty("ObligationExpression", "ObligationId", "FulfillOn"), found,
                                "ObligationExpressions")
        return (obligations
                + self.each(self.duty("AdviceExpression", "AdviceId", "AppliesTo"), found, "AdviceExpressions"))

    def rule(self, node: Node) -> Rule | None:
        """A rule."""
        found = self.members("Rule", node)
        if found is None:
            return None
        held = self.optional(self.text, found, "RuleId"), self.optional(self.effect, found, "Effect")
        self.optional(self.text, found, "Description")
        inner = self.optional(self.target, found, "Target"), self.optional(self.expression, found, "Condition")
        return Rule(node, *held, *inner, self.duties(found), "Target" in found, "Condition" in found)

    def variable(self, seen: dict[str, Node]) -> Callable[[Node], Variable | None]:
        """Reads a definition; `seen` are the names before it."""
        def reads(node: Node) -> Variable | None:
            found = self.members("VariableDefinition", node)
            if found is None:
                return None
            name = self.optional(self.text, found, "VariableId")
            if name in seen and name is not None:
                self.remarks.fault("BadValue", found["VariableId"],
                                   f'The variable "{name}" is defined already, in line {seen[name].place.line}.',
                                   expected="another VariableId", found=name)
            elif name is not None:
                seen[name] = found["VariableId"]
            return Variable(node, name, self.optional(self.expression, found, "Expression"))
        return reads

    def policy(self, node: Node) -> Document | None:
        """A policy."""
        found = self.members("Policy", node)
        if found is None:
            return None
        held = self.key(found, "PolicyId", self.algorithm("rules"), "RuleCombiningAlgId")
        target, variables = (self.optional(self.target, found, "Target"),
                             self.each(self.variable({}), found, "VariableDefinition"))
        return Document(node, "Policy", *held, target, variables, self.each(self.rule, found, "Rule"),
                        self.duties(found))

    def key(self, found: dict[str, Node], name: str, algorithm: Callable, algorithm_name: str) -> tuple:
        """Id, version and algorithm of a policy or a set, whose description is looked at too."""
        named, version = self.optional(self.identifier, found,
                                       name), self.optional(self.version(versions.VERSION), found, "Version")
        combines = self.optional(algorithm, found, algorithm_name)
        self.optional(self.text, found, "Description")
        return named, version and ".".join(version), combines

    def policy_set(self, node: Node, sets: int = 1) -> Document | None:
        """A policy set inside this many, itself counted."""
        if node.kind == "object" and sets > documents.MAX_SETS:
            self.remarks.fault("TooLarge", node,
                               f"At most {documents.MAX_SETS} policy sets stand inside one another: "
                               "refer to this one by a PolicySetIdReference.",
                               expected=f"at most {documents.MAX_SETS}", found=f"the {sets}th")
            return None
        found = self.members("PolicySet", node)
        if found is None:
            return None
        held = self.key(found, "PolicySetId", self.algorithm("policies"), "PolicyCombiningAlgId")
        target, children = self.optional(self.target, found,
                                         "Target"), self.each(lambda item: self.child(item, sets), found, "Children")
        return Document(node, "PolicySet", *held, target, [], children, self.duties(found))

    def reference(self, kind: str, node: Node) -> Reference | None:
        """A reference to a document of the kind."""
        found = self.members("Reference", node)
        if found is None:
            return None
        first = len(self.remarks.found)
        held = self.optional(self.text, found, "Id"), self.optional(self.version(versions.PATTERN), found, "Version")
        bounds = [self.optional(self.version(versions.VERSION), found, name)
                  for name in ("EarliestVersion", "LatestVersion")]
        is_read = held[0] is not None and len(self.remarks.found) == first
        whole = (versions.Reference(kind, *held, *(bound and versions.numbered(bound) for bound in bounds))
                 if is_read else None)
        return Reference(node, kind, held[0], whole)

    def child(self, node: Node, sets: int) -> Document | Reference | None:
        """A child of a policy set."""
        named = self.one_of("child", node, "A child of a policy set")
        if named is None:
            return None
        name, inner = named
        if name == "Policy":
            return self.policy(inner)
        if name == "PolicySet":
            return self.policy_set(inner, sets + 1)
        return self.reference("policy" if name == "PolicyIdReference" else "set", inner)

    def document(self, node: Node) -> Document | None:
        """The document of a whole text."""
        named = self.one_of("document", node, WHOLE)
        if named is None:
            return None
        name, inner = named
        return self.policy(inner) if name == "Policy" else self.policy_set(inner)
