"""How the values of expressions and targets come about: each with the attributes that were looked up, and
where these came from.

Every value is the model's own; what is noted here is which parts were asked for, and what they gave.
"""
from __future__ import annotations

from . import names
from .elements import AllOf, AnyOf, Expression, Match, Target
from .model import contexts, expressions, functions, values

FAULTS = {
    "MissingAttribute": "the attribute is missing, and must be present", "ZeroDivisor": "the divisor is zero",
    "Overflow": "the result is outside 64 bits",
    "BadText": "the text is none of the type", "Position": "the numbers don't fit",
    "CalendarRange": "the result is outside the years 1 to 9999",
    "NotOne": "the bag has not exactly one value",
}
MOST_VALUES, MOST_NEAR = 8, 4


def value_shown(value: tuple) -> str:
    """A value as people read it: texts in quotes, a bag in brackets."""
    data_type, held = value
    if isinstance(held, list):
        shown = [value_shown(one) for one in held[:MOST_VALUES]]
        return "[" + ", ".join(shown + (["..."] if len(held) > MOST_VALUES else [])) + "]"
    text = values.to_text(value)
    return f'"{text}"' if data_type in ("string", "anyURI") else text


def fault_shown(fault: values.Fault) -> str:
    """A fault as people read it."""
    return FAULTS.get(str(fault), str(fault))


def attribute_shown(designator: expressions.Designator) -> str:
    """`Resource urn:example:kind (string)`."""
    issuer = f" by {designator.issuer}" if designator.issuer is not None else ""
    return (f"{names.category_shown(designator.category)} {names.attribute_shown(designator.attribute_id)}{issuer} "
            f"({designator.data_type})")


def attribute_members(designator: expressions.Designator) -> dict[str, object]:
    """The attribute in a few words, and whole."""
    held = {"attribute": attribute_shown(designator), "category": designator.category,
            "attribute_id": designator.attribute_id, "data_type": designator.data_type}
    return held if designator.issuer is None else {**held, "issuer": designator.issuer}


class Origins(contexts.Context):
    """A context that says where the values of a designator come from."""

    def origin(self, designator: expressions.Designator) -> str:
        """Where the values come from: request, clock, rows or nowhere."""
        data_type, category, attribute_id, issuer, _ = designator
        if self.asked(category, attribute_id, data_type, issuer):
            return "request"
        if not self.values_of(designator):
            return "nowhere"
        is_clock = issuer is None and category == contexts.ENVIRONMENT and (attribute_id, data_type) in contexts.CLOCK
        return "clock" if is_clock else "rows"

    def found(self, designator: expressions.Designator) -> dict[str, object]:
        """What the designator finds, and where; where it finds nothing, also what is nearly it."""
        origin, held = self.origin(designator), self.values_of(designator)
        found: dict[str, object] = {**attribute_members(designator), "from": origin,
                                    "values": [value_shown(value) for value in held[:MOST_VALUES]]}
        if len(held) > MOST_VALUES:
            found["count"] = len(held)
        if origin == "rows" and self.entity(designator.category):
            found["entity"] = self.entity(designator.category)
        if origin == "nowhere":
            near = self.near(designator)[:MOST_NEAR]
            return {**found, "near": near} if near else found
        return found

    def near(self, designator: expressions.Designator) -> list[str]:
        """Attributes of the request and of the rows that differ from the designator in one thing."""
        data_type, category, attribute_id, issuer, _ = designator
        found = []
        for held in self.objects:
            for attribute in held.attributes:
                same = (held.category == category, attribute.id == attribute_id, attribute.data_type == data_type,
                        issuer in (None, attribute.issuer))
                if sum(same) == 3 and attribute.values and names.may_be_meant(attribute.id, attribute_id):
                    of_it = attribute.id, attribute.data_type, attribute.issuer
                    found.append(said("the request has it", same, held.category, of_it, attribute_id))
        entity = self.entity(category)
        for row in self.source:
            same = (row.category == category, row.attribute_id == attribute_id, row.value[0] == data_type,
                    issuer in (None, row.issuer))
            if all(same):
                found.append(f'a row has it for the entity "{row.entity}", and the request names '
                             + (f'"{entity}"' if entity else f"none{self.short_entity(category)}"))
            elif sum(same) == 3 and row.entity == entity and names.may_be_meant(row.attribute_id, attribute_id):
                of_it = row.attribute_id, row.value[0], row.issuer
                found.append(said("a row has it", same, row.category, of_it, attribute_id))
        return list(dict.fromkeys(found))

    def short_entity(self, category: str) -> str:
        """What the request has in place of the id of the category's entity; nothing, where it has none such."""
        wanted = contexts.entity_id(category)
        return next((f": it has {attribute.id} in place of {wanted}" for held in self.objects
                     if wanted is not None and held.category == category for attribute in held.attributes
                     if attribute.id != wanted and names.may_be_meant(attribute.id, wanted)), "")


def said(who: str, same: tuple[bool, ...], category: str, of_it: tuple[str, str, str | None], wanted: str) -> str:
    """How an attribute, which is given by its id, data type and issuer, differs from the one of the wanted id."""
    held, data_type, issuer = of_it
    other = [f"in the category {names.category_shown(category)}", f"as {held} in place of {wanted}",
             f"as {names.kind_shown(data_type)}", f"by {issuer}" if issuer is not None else "without an issuer"]
    return f"{who} {other[same.index(False)]}"


class Tracing(expressions.Evaluation):
    """An evaluation that notes each expression that it evaluates, with its place and what it gave; `plain` is one
    that notes nothing."""

    def __init__(self, context: Origins, definitions: dict[str, tuple]):
        super().__init__(context.values_of, definitions)
        self.context, self.steps, self.placed = context, [], {}
        self.plain = expressions.Evaluation(context.values_of, definitions)

    def pair(self, expression: tuple, element: Expression) -> None:
        """Notes where each part of the model's expression stands in its file."""
        self.placed[id(expression)] = element
        if expression[0] == "apply":
            for argument, inner in zip(expression[1][1], element.arguments):
                self.pair(argument, inner)

    def value(self, expression: tuple) -> tuple:
        """The value of an expression; that it was asked for is noted."""
        element, around = self.placed.get(id(expression)), self.steps
        step = {"expression": shown(expression), **({"line": element.node.place.line} if element else {})}
        around.append(step)
        self.steps = []
        try:
            if expression[0] == "designator":
                step.update(self.context.found(expression[1]))
            found = super().value(expression)
            step["value"] = value_shown(found)
            return found
        except values.Fault as fault:
            step["fault"], step["status"] = fault_shown(fault), expressions.status(fault)
            raise
        finally:
            if self.steps:
                step["steps"] = self.steps
            self.steps = around

    def variable(self, name: str) -> tuple:
        """The value of a variable, which is looked at once."""
        is_known = name in self.known
        try:
            return super().variable(name)
        finally:
            if is_known:
                self.steps.append({"expression": "as above"})


def shown(expression: tuple) -> str:
    """An expression in a few words."""
    form, held = expression
    if form == "value":
        return value_shown(held)
    if form == "designator":
        return f"attribute {attribute_shown(held)}"
    if form == "variable":
        return f"variable {held}"
    return names.short(held if form == "function" else held[0])


def traced(tracing: Tracing, expression: tuple, element: Expression) -> dict[str, object]:
    """How the expression's value comes about."""
    tracing.pair(expression, element)
    tracing.steps = []
    try:
        tracing.value(expression)
    except values.Fault:
        pass
    return tracing.steps[0]


def word_of(matching: expressions.Matching) -> dict[str, object]:
    """What a part of a target comes to."""
    return {"is": matching.word, **({"status": matching.status} if matching.status else {})}


def match_traced(tracing: Tracing, match: tuple, element: Match) -> dict[str, object]:
    """Whether a match is true, and why."""
    name, literal, designator = match
    found = {"match": f"{names.short(name)} {value_shown(literal)}", "line": element.node.place.line,
             **tracing.context.found(designator),
             **word_of(expressions.match_value(tracing.plain, *match))}
    if found["is"] == "Indeterminate":
        found["because"] = fault_of(tracing, name, literal, designator)
    elif not found["values"]:
        found["because"] = "nothing is found, and MustBePresent is false"
    return found


def fault_of(tracing: Tracing, name: str, literal: tuple, designator: expressions.Designator) -> str:
    """Why a match is Indeterminate."""
    try:
        for value in tracing.plain.bag(designator)[1]:
            functions.FUNCTIONS[name][2](literal, value)
    except values.Fault as fault:
        return fault_shown(fault)
    return ""


def target_traced(tracing: Tracing, target: list, element: Target | None) -> dict[str, object]:
    """What a target comes to, with all its parts."""
    found = word_of(expressions.target_value(tracing.plain, target))
    if not target:
        return {**found, "because": "there is no target"}
    parts = [any_of_traced(tracing, part, inner) for part, inner in zip(target, element.parts)]
    return {**found, "line": element.node.place.line, "any_of": parts}


def any_of_traced(tracing: Tracing, part: list, element: AnyOf) -> dict[str, object]:
    """What a part of a target comes to."""
    alternatives = [all_of_traced(tracing, matches, inner) for matches, inner in zip(part, element.alternatives)]
    return {**word_of(expressions.target_value(tracing.plain, [part])), "all_of": alternatives}


def all_of_traced(tracing: Tracing, matches: list, element: AllOf) -> dict[str, object]:
    """What a conjunction of matches comes to."""
    held = [match_traced(tracing, match, inner) for match, inner in zip(matches, element.matches)]
    return {**word_of(expressions.target_value(tracing.plain, [[matches]])), "matches": held}
