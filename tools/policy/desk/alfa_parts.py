"""The parts of ALFA files, as they are read: names, expressions, rules, policies, declarations,
namespaces."""
from __future__ import annotations

from dataclasses import dataclass, field

from .faults import Remarks
from .positions import Source
from .xml_reading import Spot


@dataclass
class Name:
    """A name, whose parts have dots between."""
    text: str
    spot: Spot

    @property
    def last(self) -> str:
        return self.text.rpartition(".")[2]


@dataclass
class Literal:
    """A value: a text, of another type where one is named, a number or a boolean."""
    kind: str
    text: str
    type: Name | None
    spot: Spot


@dataclass
class Attribute:
    """An attribute that is asked for."""
    name: Name
    is_needed: bool
    issuer: Literal | None
    spot: Spot


@dataclass
class Call:
    """A function of arguments; an operator has its sign for a name."""
    name: Name
    arguments: list
    spot: Spot
    is_operator: bool = False


@dataclass
class Function:
    """A function as an argument: function[name]."""
    name: Name
    spot: Spot


@dataclass
class Duty:
    """An obligation, or advice, and the decision that it belongs to."""
    kind: str
    name: Name
    decision: str
    assignments: list[tuple[Name, object]]
    spot: Spot


@dataclass
class Part:
    """A rule, a policy or a set. `target` has the clauses, each a list of alternatives, each a list of
    matches; `inner` has rules, or policies, sets and names of such. `is_cut` says that something in it couldn't be
    read, so that what is missing may stand there."""
    kind: str
    name: Name | None
    id: Literal | None
    spot: Spot
    target: list[list[list]] | None = None
    condition: object = None
    effect: str | None = None
    algorithm: Name | None = None
    inner: list = field(default_factory=list)
    duties: list[Duty] = field(default_factory=list)
    comments: list[str] = field(default_factory=list)
    is_cut: bool = False


@dataclass
class Declared:
    """An attribute, with its id, type and category; a category, an obligation or advice, with its id."""
    kind: str
    name: Name
    members: dict[str, Literal | Name]


@dataclass
class Namespace:
    """A namespace: its full name, and the one around it."""
    name: str
    around: Namespace | None
    imports: list[Name] = field(default_factory=list)
    declared: list[Declared] = field(default_factory=list)
    parts: list[Part] = field(default_factory=list)
    inner: list[Namespace] = field(default_factory=list)

    def all(self) -> list[Namespace]:
        """The namespace, and all inside it."""
        return [self, *(one for inner in self.inner for one in inner.all())]


@dataclass
class File:
    """A file that was read: the namespace around all of it that could be read, None where that is nothing; the names
    that are declared where something couldn't be, and whether an import stands there."""
    source: Source
    remarks: Remarks
    whole: Namespace | None
    passed: set[str] = field(default_factory=set)
    has_passed_import: bool = False
