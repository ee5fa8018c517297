"""Targets that can never match, where each attribute has one value: contradicting matches, and
literals that nothing fits."""
from __future__ import annotations

import itertools

from . import names
from .elements import AllOf, Document, Match, Rule, Target
from .faults import Remarks
from .model import functions, values

MOST_WAYS = 256
ABOVE, BELOW = ("less-than", "less-than-or-equal"), ("greater-than", "greater-than-or-equal")


def verb(match: Match) -> str:
    """`equal`, `less-than`, of a match of values of one type; the empty text of another."""
    data_type = match.literal.data_type
    name = names.short(match.function)
    return name.removeprefix(data_type + "-") if name.startswith(data_type + "-") else ""


def is_whole(match: Match | None) -> bool:
    """Whether all of the match could be read."""
    return (match is not None and match.function in functions.FUNCTIONS and match.literal is not None
            and match.literal.value is not None
            and match.designator is not None and match.designator.data_type is not None)


def holds(match: Match, value: tuple) -> bool:
    """Whether the match is true of the value."""
    try:
        return functions.FUNCTIONS[match.function][2](match.literal.value, value)[1]
    except values.Fault:
        return False


def is_hopeless(match: Match) -> bool:
    """Whether the match is true of no value."""
    data_type, held = match.literal.value
    least = {"integer": -2**63, "string": ""}.get(data_type)
    if data_type in ("integer", "string") and held == least and verb(match) == "greater-than":
        return True
    if data_type == "integer" and held == 2**63 - 1 and verb(match) == "less-than":
        return True
    return (match.designator.data_type == "boolean"
            and not any(holds(match, ("boolean", value)) for value in (True, False)))


def empty_range(matches: list[Match]) -> tuple[Match, Match] | None:
    """Two comparisons of one attribute that no value passes."""
    lower = [match for match in matches if verb(match) in ABOVE]
    upper = [match for match in matches if verb(match) in BELOW]
    for low, high in itertools.product(lower, upper):
        left, right = values.key(low.literal.value), values.key(high.literal.value)
        strict = (verb(low) == "less-than") + (verb(high) == "greater-than")
        if low.literal.data_type == "integer" and left + strict > right or left > right or left == right and strict:
            return low, high
    return None


def contradiction(matches: list[Match]) -> tuple[Match, Match] | None:
    """Two of the matches, on one attribute, that no single value passes."""
    for first in matches:
        same = [match for match in matches if match.designator.same_attribute(first.designator)]
        if verb(first) == "equal":
            other = next((match for match in same if match.literal.data_type is not None
                          and not holds(match, first.literal.value)), None)
            if other is not None:
                return first, other
        found = empty_range(same)
        if found:
            return found
    return None


def ways(targets: list[Target]) -> list[list[Match]] | None:
    """The ways in which all the targets match: of each the matches; None where there are very many."""
    parts = [[[match for match in alternative.matches if is_whole(match)] for alternative in part.alternatives
              if alternative is not None]
             for target in targets for part in target.parts if part is not None]
    count = 1
    for part in parts:
        count *= len(part)
        if count > MOST_WAYS:
            return None
    return [[match for matches in way for match in matches] for way in itertools.product(*parts)]


def said(match: Match) -> str:
    """A match in a few words."""
    return f'{names.short(match.function)} "{values.to_text(match.literal.value)}" (line {match.node.place.line})'


class TargetLints:
    """Warns of targets that can never match."""

    def __init__(self, remarks: Remarks):
        self.remarks = remarks

    def warn(self, node, sentence: str) -> None:
        """Warns that a target never matches."""
        self.remarks.warning("never-matches", node, sentence)

    def document(self, held: Document, around: list[Document]) -> None:
        """Warns of targets of the document and of its rules."""
        outer = [document.target for document in around if document.target is not None]
        self.target(held.target, outer, held)
        inner = outer + ([held.target] if held.target is not None else [])
        for rule in held.rules():
            self.target(rule.target, inner, rule)

    def target(self, held: Target | None, around: list[Target], of: Document | Rule) -> None:
        """Warns of a target that can never match, alone or inside those around it."""
        if held is None:
            return
        alternatives = [alternative for part in held.parts if part for alternative in part.alternatives if alternative]
        if any([self.alternative(alternative) for alternative in alternatives]):
            return
        own = ways([held])
        pairs = [contradiction(way) for way in own or []]
        if own and all(pairs):
            self.warn(held.node,
                      f"This target can't match while {attribute_of(pairs[0])} has one value: "
                      f"{said(pairs[0][0])} and {said(pairs[0][1])} contradict each other.")
            return
        both = ways([*around, held]) if around else None
        pairs = [contradiction(way) for way in both or []]
        if both and all(pairs):
            lines = " and ".join(str(target.node.place.line) for target in around)
            self.warn(held.node,
                      f"Inside the target of line {lines} this one can't match while {attribute_of(pairs[0])} has one "
                      f"value: {said(pairs[0][0])} and {said(pairs[0][1])} contradict "
                                 "each other.")

    def alternative(self, held: AllOf) -> bool:
        """Whether the alternative can never match; it is warned of."""
        matches = [match for match in held.matches if is_whole(match)]
        hopeless = next((match for match in matches if is_hopeless(match)), None)
        if hopeless is not None:
            self.warn(hopeless.node,
                      f"Nothing passes {said(hopeless)}: the literal is the first argument, "
                      "and the attribute's value the second.")
            return True
        found = contradiction(matches)
        if found:
            self.warn(held.node,
                      f"This can't match while {attribute_of(found)} has one value: "
                      f"{said(found[0])} and {said(found[1])} contradict each other.")
        return found is not None


def attribute_of(pair: tuple[Match, Match]) -> str:
    """The attribute of two matches."""
    designator = pair[0].designator
    return f"{names.category_shown(designator.category or '?')} {names.attribute_shown(designator.attribute_id or '?')}"
