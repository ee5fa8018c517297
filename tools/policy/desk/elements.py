"""The parts of policy documents with their places. A part that couldn't be read is None."""
from __future__ import annotations

from collections.abc import Iterator
from dataclasses import dataclass, field

from .positions import Node


@dataclass
class Designator:
    """An attribute designator."""
    node: Node
    category: str | None
    attribute_id: str | None
    data_type: str | None
    must_be_present: bool | None
    issuer: str | None

    def same_attribute(self, other: Designator) -> bool:
        return (self.category, self.attribute_id, self.data_type,
                self.issuer) == (other.category, other.attribute_id, other.data_type, other.issuer)


@dataclass
class Literal:
    """An attribute value: its type, and the value as the model has it."""
    node: Node
    data_type: str | None
    value: tuple | None


@dataclass
class Expression:
    """An expression of one of the forms value, designator, apply, function and variable; `name` is a
    function's or a variable's."""
    form: str
    node: Node
    name: str | None = None
    literal: Literal | None = None
    designator: Designator | None = None
    arguments: list[Expression | None] = field(default_factory=list)

    def all(self) -> Iterator[Expression]:
        """The expression and all inside it."""
        yield self
        for argument in self.arguments:
            if argument is not None:
                yield from argument.all()


@dataclass
class Match:
    node: Node
    function: str | None
    literal: Literal | None
    designator: Designator | None


@dataclass
class AllOf:
    node: Node
    matches: list[Match | None]


@dataclass
class AnyOf:
    node: Node
    alternatives: list[AllOf | None]


@dataclass
class Target:
    node: Node
    parts: list[AnyOf | None]

    def matches(self) -> Iterator[Match]:
        for part in self.parts:
            for alternative in part.alternatives if part else []:
                for match in alternative.matches if alternative else []:
                    if match is not None:
                        yield match


@dataclass
class Assignment:
    node: Node
    attribute_id: str | None
    category: str | None
    expression: Expression | None


@dataclass
class Duty:
    """An obligation or advice."""
    node: Node
    is_obligation: bool
    id: str | None
    effect: str | None
    assignments: list[Assignment | None]


@dataclass
class Variable:
    node: Node
    name: str | None
    expression: Expression | None


@dataclass
class Rule:
    node: Node
    id: str | None
    effect: str | None
    target: Target | None
    condition: Expression | None
    duties: list[Duty | None]
    has_target: bool = False
    has_condition: bool = False

    def expressions(self) -> Iterator[Expression]:
        if self.condition is not None:
            yield self.condition
        yield from of_duties(self.duties)


@dataclass
class Reference:
    """A reference to a document; `reference` is the model's, where all of it could be read."""
    node: Node
    kind: str
    id: str | None
    reference: tuple | None


@dataclass
class Document:
    """A policy, whose children are rules, or a policy set, whose children are documents and references."""
    node: Node
    form: str
    id: str | None
    version: str | None
    algorithm: str | None
    target: Target | None
    variables: list[Variable | None]
    children: list
    duties: list[Duty | None]

    @property
    def kind(self) -> str:
        return "policy" if self.form == "Policy" else "set"

    @property
    def name(self) -> str:
        return self.id if self.id is not None else "?"

    def documents(self) -> Iterator[Document]:
        """The document and all that stand inside it."""
        yield self
        for child in self.children:
            if isinstance(child, Document):
                yield from child.documents()

    def references(self) -> Iterator[Reference]:
        for document in self.documents():
            yield from (child for child in document.children if isinstance(child, Reference))

    def rules(self) -> list[Rule]:
        return [child for child in self.children if isinstance(child, Rule)]

    def expressions(self) -> Iterator[Expression]:
        """The expressions of the document's own variables, rules and duties."""
        for variable in self.variables:
            if variable is not None and variable.expression is not None:
                yield variable.expression
        for rule in self.rules():
            yield from rule.expressions()
        yield from of_duties(self.duties)

    def targets(self) -> Iterator[Target]:
        """The targets of the document itself and of its rules."""
        for held in [self, *self.rules()]:
            if held.target is not None:
                yield held.target

    def designators(self) -> Iterator[Designator]:
        """The designators of the document itself and of its rules."""
        for target in self.targets():
            yield from (match.designator for match in target.matches() if match.designator is not None)
        for expression in self.expressions():
            yield from (one.designator for one in expression.all() if one.designator is not None)


def of_duties(duties: list[Duty | None]) -> Iterator[Expression]:
    for duty in duties:
        for assignment in duty.assignments if duty else []:
            if assignment is not None and assignment.expression is not None:
                yield assignment.expression
