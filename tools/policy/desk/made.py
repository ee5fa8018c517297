"""Random requests, made from the values that policies and source rows name."""
from __future__ import annotations

import json
import random
from dataclasses import dataclass, field

from .elements import Designator, Document, Expression, Literal
from .model import contexts, identifiers, values
from .setting import FIRST_MOMENT, LAST_MOMENT, Setting

CLOCK_TYPES = ("time", "date", "dateTime")
NEIGHBOURS = {"integer": (-1, 1), "time": (-values.SECOND, values.SECOND)}
PLAIN = {"string": ["", "another"], "boolean": [True, False], "integer": [0, 1, 100], "anyURI": ["urn:another"]}


@dataclass
class Pools:
    """Of each attribute that the policies ask for the values that they compare it with, and the moments
    that they speak of."""
    of_attribute: dict[tuple[str, str, str], list] = field(default_factory=dict)
    of_type: dict[str, list] = field(default_factory=dict)
    issuers: dict[tuple[str, str, str], set] = field(default_factory=dict)
    clocks: list[int] = field(default_factory=list)

    def attribute(self, held: Designator) -> list:
        place = held.category, held.attribute_id, held.data_type
        self.issuers.setdefault(place, set()).add(held.issuer)
        return self.of_attribute.setdefault(place, [])

    def put(self, pool: list, value: tuple) -> None:
        """Adds the value, and its neighbours."""
        data_type, held = value
        near = []
        if data_type == "integer":
            near = [("integer", held + step) for step in NEIGHBOURS["integer"] if -2**63 <= held + step < 2**63]
        for one in [value, *near]:
            if one not in pool:
                pool.append(one)

    def literal(self, pool: list | None, literal: Literal) -> None:
        value = literal.value
        self.put(self.of_type.setdefault(value[0], []), value)
        if pool is not None and value[0] in identifiers.DATA_TYPES:
            self.put(pool, value)
        if value[0] in CLOCK_TYPES:
            self.clock(value)

    def clock(self, value: tuple) -> None:
        """Moments about that of a value: a second before it, and at it, on one day where it has none."""
        seconds = values.key(value) // values.SECOND
        if value[0] != "time":
            seconds -= values.key(values.read("dateTime", "1970-01-01T00:00:00Z")) // values.SECOND
        self.clocks += [moment
                        for moment in (seconds - 1, seconds, seconds + 1) if FIRST_MOMENT <= moment <= LAST_MOMENT]


def designators_in(held: Expression) -> list[Designator]:
    """The designators of an expression."""
    return [one.designator for one in held.all() if one.designator is not None]


def take_expression(pools: Pools, held: Expression, variables: dict[str | None, Expression | None]) -> None:
    """Takes in an expression: its literals, and those that its variables stand for, may be compared with the attributes
    of the same application."""
    for one in held.all():
        inside = [variables.get(inner.name) if inner is not None and inner.form == "variable" else inner
                  for inner in one.arguments]
        literals = [inner.literal for inner in inside if inner is not None and inner.literal is not None]
        near = [designator for inner in inside if inner is not None for designator in designators_in(inner)]
        for literal in literals:
            pools.literal(None, literal)
            for designator in near:
                if designator.data_type == literal.data_type:
                    pools.put(pools.attribute(designator), literal.value)
        for designator in designators_in(one):
            pools.attribute(designator)


def take_document(pools: Pools, document: Document) -> None:
    """Takes in a document: literals are compared with the attributes of the same match."""
    for target in document.targets():
        for match in target.matches():
            pool = pools.attribute(match.designator)
            pools.literal(pool if match.designator.data_type == match.literal.data_type else None, match.literal)
    variables = {one.name: one.expression for one in document.variables if one is not None}
    for expression in document.expressions():
        take_expression(pools, expression, variables)


def take_rows(pools: Pools, setting: Setting) -> None:
    """Takes in the entities of the rows, which requests name, and the rows' values and issuers."""
    for row in setting.source_rows():
        name = contexts.entity_id(row.category)
        if name is not None and row.entity:
            place = row.category, name, "string"
            pools.issuers.setdefault(place, set()).add(None)
            pools.put(pools.of_attribute.setdefault(place, []), ("string", row.entity))
        place = row.category, row.attribute_id, row.value[0]
        held = pools.of_attribute.get(place)
        if held is not None:
            pools.put(held, row.value)
            pools.issuers.setdefault(place, set()).add(row.issuer)


def pools_of(settings: list[Setting]) -> Pools:
    """The values that all the documents and rows name."""
    pools = Pools()
    for setting in settings:
        for one in setting.documents:
            for document in one.document.documents():
                take_document(pools, document)
    for setting in settings:
        take_rows(pools, setting)
    return pools


def plain(value: tuple) -> object:
    """The value in JSON."""
    return value[1] if value[0] in ("boolean", "integer") else values.to_text(value)


class Maker:
    """Random requests over the pools."""

    def __init__(self, pools: Pools, seed: int, moment: int | None):
        self.pools, self.random, self.moment = pools, random.Random(seed), moment

    def value(self, place: tuple[str, str, str]) -> object:
        """A value of the attribute's pool mostly, else another of its type."""
        pool, others = self.pools.of_attribute[place], self.pools.of_type.get(place[2], [])
        if pool and self.random.random() < 0.85:
            return plain(self.random.choice(pool))
        if others and self.random.random() < 0.6:
            return plain(self.random.choice(others))
        return (self.random.choice(PLAIN[place[2]]) if place[2] in PLAIN else plain(self.random.choice(others or pool))
                if others or pool else None)

    def attribute(self, place: tuple[str, str, str]) -> dict | None:
        """The attribute with one value mostly, or none or two; None where it is left out."""
        chance = self.random.random()
        if chance < 0.15:
            return None
        held = [self.value(place) for _ in range(2 if chance > 0.93 else 1)]
        if None in held:
            return None
        issuer = self.random.choice(sorted(self.pools.issuers[place], key=str))
        found = {"AttributeId": place[1], "DataType": place[2], "Value": held[0] if len(held) == 1 else held}
        return found if issuer is None else {**found, "Issuer": issuer}

    def request(self) -> tuple[bytes, int]:
        """The bytes of a request, and its moment."""
        categories: dict[str, list] = {}
        for place in self.pools.of_attribute:
            is_clock = place[0] == contexts.ENVIRONMENT and place[1:] in contexts.CLOCK
            found = None if is_clock else self.attribute(place)
            if found is not None:
                categories.setdefault(place[0], []).append(found)
        held = [{"CategoryId": category, "Attribute": attributes} for category, attributes in categories.items()]
        clocks = self.pools.clocks
        moment = self.moment if self.moment is not None else self.random.choice(clocks) if clocks else 0
        return json.dumps({"Request": {"Category": held}}, ensure_ascii=False).encode(), moment
