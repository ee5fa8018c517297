"""Rows of expressions and targets.

The attributes of a request come first, `has:TYPE|CATEGORY|ID=TEXT` or `has:TYPE|CATEGORY|ID|ISSUER=TEXT`, a field for
each value. An expression is `TYPE:TEXT`, `any:TYPE|CATEGORY|ID`, `some:..` where it must be present, both also with
`|ISSUER`, `function:NAME`, `variable:NAME`, or `(NAME`, arguments and `)`. After `let:NAME` it defines a variable,
else it is a question. Of a target, `<NAME`, a literal, a designator and `>` are a match, `|` ends a conjunction of
matches, and `;` a part of the target.
"""
from expressions import (
    Attribute, CheckError, Designator, Evaluation, Variables, check, check_match, status, target_value, values_among)
from names import kind
from rows import bag_shown, shown, text_of, value_of
from values import Fault, read


def place_of(text):
    """Type, category, id and issuer of an attribute."""
    parts = [text_of(part) for part in text.split("|")]
    return (*parts, None) if len(parts) == 3 else tuple(parts)


def leaf(word, text):
    """The expression of a field that is one alone."""
    if word in ("any", "some"):
        return "designator", Designator(*place_of(text), word == "some")
    if word in ("function", "variable"):
        return word, text_of(text)
    return "value", value_of(f"{word}:{text}")


class Questions:
    """The attributes of a row, and what else it says, one after another: its expressions, and words before them."""

    def __init__(self, fields):
        self.attributes, self.said, self.open = [], [], []
        for field in fields:
            self.take(field)

    def take(self, field):
        if field.startswith(("(", "<")):
            self.open.append((text_of(field[1:]), []))
        elif field in (")", ">"):
            self.put(("apply" if field == ")" else "match", self.open.pop()))
        elif field in ("|", ";"):
            self.said.append((field, None))
        else:
            self.take_pair(*field.split(":", 1))

    def take_pair(self, word, text):
        if word == "has":
            place, held = text.split("=", 1)
            data_type, *rest = place_of(place)
            self.attributes.append(Attribute(data_type, *rest, read(data_type, text_of(held))))
        elif word == "let":
            self.said.append((word, text_of(text)))
        else:
            self.put(leaf(word, text))

    def put(self, expression):
        (self.open[-1][1] if self.open else self.said).append(expression)


def evaluate(*fields):
    """What each expression of the row is defined as, or comes to."""
    questions, variables, name, answers = Questions(fields), Variables(), None, []
    for form, held in questions.said:
        if form == "let":
            name = held
            continue
        try:
            if name is None:
                answers += value_answer(questions.attributes, variables, (form, held))
            else:
                answers.append("true" if variables.define(name, (form, held)) else "false")
        except CheckError as error:
            answers.append(f"!{error}")
        name = None
    return answers


def value_answer(attributes, variables, expression):
    """The kind of the expression, and its value, its bag or its fault."""
    found_kind = kind(check(expression, variables))
    try:
        found = Evaluation(values_among(attributes), variables.definitions).value(expression)
    except Fault as fault:
        return [found_kind, *fault_answer(status(fault))]
    return [found_kind, *(bag_shown(found) if isinstance(found[1], list) else [shown(found)])]


def fault_answer(code):
    """The fault of a status."""
    return ["!" + fault_named(code), code]


def fault_named(code):
    return "".join(word.capitalize() for word in code.rsplit(":", 1)[1].split("-"))


def target(*fields):
    """What the row's target comes to, after the faults of its matches, which are none of it."""
    questions, answers, parts, all_of, matches = Questions(fields), [], [], [], []
    for form, held in questions.said:
        if form == "|":
            all_of, matches = all_of + [matches], []
        elif form == ";":
            parts, all_of = parts + [all_of], []
        else:
            name, ((_, literal), (_, designator)) = held
            try:
                check_match(name, literal, designator)
                matches = matches + [(name, literal, designator)]
            except CheckError as error:
                answers.append(f"!{error}")
    found = target_value(Evaluation(values_among(questions.attributes), {}), parts)
    return answers + [found.word if found.status is None else f"{found.word}({fault_named(found.status)})"]
