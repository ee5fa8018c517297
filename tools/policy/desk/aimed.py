"""Requests that are aimed at a rule: in which all targets around it and its own match, and its condition is true.

Values are sought by the model's own evaluation, among the literals of the rule and of its variables, their neighbours,
and what rows and other policies have of the attributes. What can't be found in a few tries is left to chance.
"""
from __future__ import annotations

import itertools
import json
import random

from .changed_rules import Way
from .made import Maker, Pools, plain
from .model import contexts, expressions, functions, values

TRIES = 60
# how often an attribute that isn't sought is there
OFTEN = 0.5
Place = tuple[str, str, str]


def place_of(designator: expressions.Designator) -> Place:
    """Where the values of a designator are kept: category, id and type."""
    return designator.category, designator.attribute_id, designator.data_type


def near(value: tuple) -> list[tuple]:
    """The value and its neighbours: the next ones, a longer text, the beginning of one."""
    data_type, held = value
    if data_type == "integer":
        return [("integer", one) for one in (held, held + 1, held - 1) if -2**63 <= one < 2**63]
    if data_type == "boolean":
        return [value, ("boolean", not held)]
    if data_type in ("string", "anyURI"):
        return [value, (data_type, held + "x"), (data_type, "x" + held), (data_type, held[:-1])]
    return [value, *beside(value)]


def beside(value: tuple) -> list[tuple]:
    """A time or a date a little earlier and a little later."""
    if value[0] not in ("time", "date", "dateTime"):
        return []
    since = values.key(values.read("dateTime", "1970-01-01T00:00:00Z")) if value[0] != "time" else 0
    seconds, found = (values.key(value) - since) // values.SECOND, []
    for step in (-86400, -3600, -1, 1, 3600, 86400):
        moment = seconds + step
        if contexts.FIRST_MOMENT <= moment <= contexts.LAST_MOMENT and (value[0] != "time" or 0 <= moment < 86400):
            found.append(contexts.moment_as(value[0], moment))
    return found


def sums(found: list[tuple]) -> list[tuple]:
    """Sums and differences of the integers, for conditions that reckon with them."""
    whole = [held for data_type, held in found if data_type == "integer"][:6]
    reckoned = {sign * one + other for one, other in itertools.permutations(whole, 2) for sign in (1, -1)}
    return [("integer", one) for one in sorted(reckoned) if -2**63 <= one < 2**63]


class Aim:
    """A request in the making: the values that each attribute has so far."""

    def __init__(self, way: Way, pools: Pools, chance: random.Random):
        self.way, self.pools, self.chance = way, pools, chance
        self.chosen: dict[Place, list[tuple]] = {}

    def values_of(self, designator: expressions.Designator) -> list[tuple]:
        """The values of a designator. An issuer's are there too: the request names it."""
        return self.chosen.get(place_of(designator), [])

    def run(self) -> None:
        """Chooses values by which the rule comes to its effect."""
        for target in [*self.way.targets, self.way.rule.target]:
            for alternatives in target:
                self.match(self.chance.choice(alternatives))
        if self.way.rule.condition is not None:
            self.seek(self.way.rule.condition, True)

    def match(self, matches: list[tuple]) -> None:
        """Chooses values by which all the matches are true."""
        for name, literal, designator in matches:
            held = self.chosen.setdefault(place_of(designator), [])
            if not any(self.holds(name, literal, one) for one in held):
                fitting = [one for one in self.candidates(designator, [literal]) if self.holds(name, literal, one)]
                held += [self.chance.choice(fitting)] if fitting else []

    def holds(self, name: str, literal: tuple, value: tuple) -> bool:
        """Whether a match is true of the value."""
        try:
            return functions.FUNCTIONS[name][2](literal, value)[1]
        except values.Fault:
            return False

    def candidates(self, designator: expressions.Designator, literals: list[tuple]) -> list[tuple]:
        """Values that the attribute may have: those of the literals come first."""
        found = [one for literal in literals if literal[0] == designator.data_type for one in near(literal)]
        found += self.pools.of_attribute.get(place_of(designator), [])
        if designator.data_type == "integer":
            found += sums(literals)
        return list(dict.fromkeys(found)) or self.pools.of_type.get(designator.data_type, []) or [
            one for one in PLAIN if one[0] == designator.data_type]

    def seek(self, held: tuple, wanted: bool) -> None:
        """Chooses values by which a condition is as it is wanted."""
        form, inner = held
        if form == "variable":
            self.seek(self.way.variables[inner], wanted)
            return
        verb = inner[0].rsplit(":", 1)[1] if form == "apply" else ""
        if verb == "not":
            self.seek(inner[1][0], not wanted)
        elif verb in ("and", "or", "n-of") and inner[1]:
            parts = inner[1][1:] if verb == "n-of" else inner[1]
            is_each = verb == "n-of" or (verb == "and") == wanted
            for part in parts if is_each else [self.chance.choice(parts)]:
                self.seek(part, wanted)
        elif form == "apply":
            self.leaf(held, wanted)

    def leaf(self, held: tuple, wanted: bool) -> None:
        """Chooses values of the attributes of a comparison: first of those that have none yet, then of all."""
        asked, literals = self.parts(held)
        free = [one for one in asked if place_of(one) not in self.chosen]
        before = dict(self.chosen)
        for some in [free, asked] if free else [asked]:
            for _ in range(TRIES):
                if self.is_so(held, wanted):
                    return
                for one in some:
                    possible = self.candidates(one, literals)
                    self.chosen[place_of(one)] = [self.chance.choice(possible)] if possible else []
        self.chosen = before

    def is_so(self, held: tuple, wanted: bool) -> bool:
        """Whether the condition is as it is wanted."""
        try:
            return expressions.Evaluation(self.values_of, self.way.variables).value(held)[1] is wanted
        except values.Fault:
            return False

    def parts(self, held: tuple) -> tuple[list[expressions.Designator], list[tuple]]:
        """The designators and the literals of an expression, and of the variables that it names."""
        asked, literals, left, seen = [], [], [held], set()
        while left:
            form, inner = left.pop()
            if form == "designator":
                asked.append(inner)
            elif form == "value":
                literals.append(inner)
            elif form == "variable" and inner not in seen:
                seen.add(inner)
                left.append(self.way.variables[inner])
            elif form == "apply":
                left += inner[1]
        return asked, literals


PLAIN = [("string", "another"), ("boolean", True), ("boolean", False), ("integer", 0), ("integer", 1)]


class Aiming:
    """Makes requests that are aimed at ways, over the values of a maker."""

    def __init__(self, maker: Maker, ways: list[Way]):
        self.maker, self.ways = maker, ways

    def request(self, number: int) -> tuple[bytes, int]:
        """The request of that number, and its moment: aimed at one way after another, and each fifth at none."""
        if number % 5 == 4 or not self.ways:
            return self.maker.request()
        aim = Aim(self.ways[(number - number // 5) % len(self.ways)], self.maker.pools, self.maker.random)
        aim.run()
        body, moment = self.maker.request()
        held = json.loads(body)
        categories = {one["CategoryId"]: one["Attribute"] for one in held["Request"]["Category"]}
        for category, found in categories.items():
            categories[category] = [
                one for one in found if (category, one["AttributeId"], one["DataType"]) not in aim.chosen
                and self.maker.random.random() < OFTEN]
        for place, chosen in aim.chosen.items():
            if chosen:
                categories.setdefault(place[0], []).append(self.attribute(place, chosen))
        held["Request"]["Category"] = [{"CategoryId": name, "Attribute": found} for name, found in categories.items()]
        return json.dumps(held, ensure_ascii=False).encode(), moment

    def attribute(self, place: Place, chosen: list[tuple]) -> dict[str, object]:
        """An attribute with these values, of an issuer that policies ask for."""
        issuers = sorted(one for one in self.maker.pools.issuers.get(place, ()) if one is not None)
        found = [plain(one) for one in chosen]
        return {"AttributeId": place[1], "DataType": place[2], "Value": found[0] if len(found) == 1 else found,
                **({"Issuer": self.maker.random.choice(issuers)} if issuers else {})}
