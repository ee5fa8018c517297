"""The lint of one-and-only: attributes of which the source rows at hand give an entity several values, or none."""
from __future__ import annotations

import collections
from collections.abc import Iterator

from . import names
from .check import Checked, Rows
from .elements import Designator, Document, Expression
from .kinds import signature
from .model import functions
from .text import listed

MOST_NAMED = 3
ADVICE = "What it stands in is Indeterminate for them, unless the request has one value. {instead}"
LOGICAL = "and", "or", "not", "n-of"


def named(entities: list[str], what: str) -> str:
    """A few of the entities, and what they have."""
    shown = [entity or "the empty entity" for entity in entities[:MOST_NAMED]]
    more = [f"{len(entities) - MOST_NAMED} more"] if len(entities) > MOST_NAMED else []
    return f"{listed(shown + more, 'and')} {'has' if len(entities) == 1 else 'have'} {what}"


def instead(around: Expression | None, data_type: str) -> str:
    """What takes any number of values in place of a one-and-only that is an argument of the expression around it."""
    name = around.name if around is not None and around.form == "apply" else None
    short, known = names.short(name or ""), signature(name)
    if short == f"{data_type}-equal":
        return f"{data_type}-is-in, {data_type}-at-least-one-member-of and any-of take any number."
    if short in LOGICAL:
        return f"{data_type}-is-in, with true first, takes any number."
    if name in functions.HIGHER_ORDER:
        return "any-of-any takes any number for each argument."
    if known is not None and known[1] == "boolean" and not any(kind.startswith("bag ") for kind in known[0]):
        return f'any-of, or any-of-any for several such arguments, takes any number with "{short}" as its Function.'
    return (f'Where that may be so, compare {data_type}-bag-size with 1 first: what stands behind it in an "and" '
            f"isn't asked then.")


def with_around(held: Expression, around: Expression | None = None) -> Iterator[tuple[Expression, Expression | None]]:
    """The expression and all inside it, each with what it is an argument of."""
    yield held, around
    for argument in held.arguments:
        if argument is not None:
            yield from with_around(argument, held)


class OneValue:
    """Looks for attributes that have other than one value in the rows."""

    def __init__(self, rows: Rows):
        self.rows = rows.rows
        self.entities: dict[str | None, list[str]] = {}
        for row in self.rows:
            held = self.entities.setdefault(row.category, [])
            if row.entity is not None and row.entity not in held[-1:]:
                held.append(row.entity)
        self.counts: dict[tuple, collections.Counter[str | None]] = {}

    def counted(self, asked: Designator) -> collections.Counter[str | None]:
        """How many values each entity has of the attribute."""
        place = asked.category, asked.attribute_id, asked.data_type, asked.issuer
        if place not in self.counts:
            self.counts[place] = collections.Counter(
                row.entity for row in self.rows if asked.issuer in (None, row.issuer)
                and (row.category, row.attribute_id, row.literal.data_type) == place[:3])
        return self.counts[place]

    def run(self, documents: list[Checked]) -> None:
        """Adds the warnings to the remarks of each document."""
        for one in documents:
            for document in one.document.documents() if one.document is not None else ():
                for held in document.expressions():
                    for inner, around in with_around(held):
                        self.expression(one, document, inner, around)

    def expression(self, one: Checked, document: Document, held: Expression, around: Expression | None) -> None:
        """Warns of a one-and-only of such an attribute."""
        if held.form != "apply" or not (held.name or "").endswith("-one-and-only") or len(held.arguments) != 1:
            return
        asked = self.asked(document, held.arguments[0])
        counts = self.counted(asked) if asked is not None else {}
        if not counts:
            return
        several = [entity for entity, count in counts.items() if count > 1]
        none = [entity for entity in dict.fromkeys(self.entities[asked.category]) if entity not in counts]
        told = ([named(several, f"{counts[several[0]]} values" if len(several) == 1 else "several values")] if several
                else []) + ([named(none, "none")] if none else [])
        if told:
            sentence = (f"\"{names.short(held.name)}\" takes exactly one value of "
                        f"{names.attribute_shown(asked.attribute_id)}, and by the rows {' and '.join(told)}. "
                        f"{ADVICE.format(instead=instead(around, asked.data_type))}")
            one.remarks.warning("not-one-value", held.node, sentence)

    def asked(self, document: Document, held: Expression | None) -> Designator | None:
        """The designator that the expression is, or that its variable stands for."""
        if held is not None and held.form == "variable":
            defined = {one.name: one.expression for one in document.variables if one is not None}
            held = defined.get(held.name)
        is_whole = held is not None and held.designator is not None and held.designator.attribute_id is not None
        return held.designator if is_whole else None
