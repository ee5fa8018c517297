"""Expressions and targets: their kinds and their values (XACML 3.0, core, sections 5.5 to 5.9, 5.25 to 5.32, 7.3.5
to 7.8, appendix A.3).

An expression is a pair of its form and what that holds: `value` a value, `designator` a Designator, `function`
and `variable` a name, `apply` a function's name and a list of expressions. A kind is a type's name, of a bag
with `bag ` before it.
"""
import collections
import sys

from functions import (
    BAG_FUNCTIONS, BAG_SIGNATURES, FUNCTIONS, HIGHER_ORDER, bag_function_named, boolean, by_places, fits, higher_order,
    takes_so_many)
from identifiers import STATUS
from values import Fault

MAX_DEPTH = 24
# a document of 65,536 bytes has chains of over 800 variables, each naming the one before
sys.setrecursionlimit(max(sys.getrecursionlimit(), 10_000))

# An attribute designator, and a value of an attribute of a request.
Designator = collections.namedtuple("Designator", "data_type category attribute_id issuer must_be_present")
Attribute = collections.namedtuple("Attribute", "data_type category attribute_id issuer value")


class CheckError(Exception):
    """Why an expression has no kind."""


class Variables:
    """Variables, by their definitions: each has a kind and an expression."""

    def __init__(self):
        self.kinds, self.definitions = {}, {}

    def define(self, name, expression):
        """Whether the variable is new; it stands for the expression from here on."""
        if name in self.definitions:
            return False
        self.kinds[name] = check(expression, self)
        self.definitions[name] = expression
        return True

    def kind(self, name):
        """The kind of a variable that is defined."""
        if name not in self.kinds:
            raise CheckError("UnknownVariable")
        return self.kinds[name]


def check(expression, variables, depth=1):
    """The kind of an expression that stands inside this many, itself counted; or the first fault."""
    form, held = expression
    if depth > MAX_DEPTH:
        raise CheckError("TooDeep")
    if form == "function":
        raise CheckError("WrongType")
    if form == "value":
        return held[0]
    if form == "designator":
        return "bag " + held.data_type
    if form == "variable":
        return variables.kind(held)
    name, arguments = held
    if name in HIGHER_ORDER:
        return check_higher(HIGHER_ORDER[name], arguments, variables, depth)
    takes, gives = signature_named(name)
    kinds = [check(argument, variables, depth + 1) for argument in arguments]
    if not takes_so_many(takes, len(kinds)):
        raise CheckError("WrongCount")
    if not fits(takes, kinds):
        raise CheckError("WrongType")
    return gives


def signature_named(name):
    """What the function of values or of bags takes and gives."""
    if name in FUNCTIONS:
        return FUNCTIONS[name][:2]
    found = bag_function_named(name)
    if found is None:
        raise CheckError("UnknownFunction")
    verb, data_type = found
    takes, gives = BAG_SIGNATURES[verb]
    return [kind.replace("T", data_type) for kind in takes], gives.replace("T", data_type)


def check_higher(verb, arguments, variables, depth):
    """The kind that a higher-order function gives, or the first fault."""
    if not arguments:
        raise CheckError("WrongCount")
    takes, gives = check_inner(arguments[0], depth + 1)
    kinds = [check(argument, variables, depth + 1) for argument in arguments[1:]]
    pairs = verb.startswith("all-of-")
    if len(kinds) != 2 if pairs else not takes_so_many(takes, len(kinds)):
        raise CheckError("WrongCount")
    bags = [kind.startswith("bag ") for kind in kinds]
    fewest, most = (2, 2) if pairs else (0, len(kinds)) if verb == "any-of-any" else (1, 1)
    if not fewest <= sum(bags) <= most or not fits(takes, [kind.removeprefix("bag ") for kind in kinds]):
        raise CheckError("WrongType")
    if verb == "map":
        return "bag " + gives
    if gives != "boolean":
        raise CheckError("WrongType")
    return "boolean"


def check_inner(expression, depth):
    """What the function of values that stands first in a higher-order Apply takes and gives."""
    form, held = expression
    if depth > MAX_DEPTH:
        raise CheckError("TooDeep")
    if form != "function":
        raise CheckError("WrongType")
    if held not in FUNCTIONS:
        raise CheckError("UnknownFunction")
    return FUNCTIONS[held][:2]


class Evaluation:
    """The values of checked expressions, where `values_of` gives the values that a designator names, and variables
    have these definitions."""

    def __init__(self, values_of, definitions):
        self.values_of, self.definitions, self.known = values_of, definitions, {}

    def bag(self, designator):
        """The values that the designator names."""
        found = self.values_of(designator)
        if not found and designator.must_be_present:
            raise Fault("MissingAttribute")
        return designator.data_type, found

    def variable(self, name):
        """What the variable's definition gives; it is looked at once."""
        if name not in self.known:
            try:
                self.known[name] = self.value(self.definitions[name])
            except Fault as fault:
                self.known[name] = fault
        if isinstance(self.known[name], Fault):
            raise self.known[name]
        return self.known[name]

    def value(self, expression):
        """The value, or the bag: a type's name and a list of values; or the first fault."""
        form, held = expression
        if form == "value":
            return held
        if form == "designator":
            return self.bag(held)
        if form == "variable":
            return self.variable(held)
        name, arguments = held
        verb = name.rsplit(":", 1)[1]
        if name in HIGHER_ORDER:
            return self.higher(HIGHER_ORDER[name], arguments[0][1], arguments[1:])
        if verb in ("or", "and"):
            return boolean(by_places(verb == "or", (self.value(argument)[1] for argument in arguments)))
        if verb == "n-of":
            return self.n_of(*arguments)
        given = [self.value(argument) for argument in arguments]
        if name in FUNCTIONS:
            return FUNCTIONS[name][2](*given)
        verb, data_type = bag_function_named(name)
        found = BAG_FUNCTIONS[verb](*map(listed, given))
        return (data_type, found) if isinstance(found, list) else found

    def n_of(self, count, *arguments):
        """True at the place that makes them enough, and False at the one after which they can't be."""
        wanted = self.value(count)[1]
        if not 0 <= wanted <= len(arguments):
            raise Fault("Position")
        found = 0
        for left in range(len(arguments), 0, -1):
            if found == wanted or found + left < wanted:
                break
            found += self.value(arguments[-left])[1]
        return boolean(found == wanted)

    def higher(self, verb, inner, arguments):
        """What a higher-order function gives (A.3.12)."""
        _, gives, meaning = FUNCTIONS[inner]
        found = higher_order(verb, meaning, [listed(self.value(argument)) for argument in arguments])
        return (gives, found) if verb == "map" else found


def values_among(attributes):
    """What gives the values that a designator names, where these are the attributes."""
    def values_of(designator):
        return [attribute.value for attribute in attributes if names(designator, attribute)]
    return values_of


def names(designator, attribute):
    """Whether the designator names the attribute (7.3.4)."""
    return designator[:3] == attribute[:3] and designator.issuer in (None, attribute.issuer)


def listed(given):
    """The values that an argument stands for."""
    return given[1] if isinstance(given[1], list) else [given]


def status(fault):
    """The code of the status by which a fault is told (5.55, B.8)."""
    return (STATUS
            + {"BadText": "syntax-error", "MissingAttribute": "missing-attribute"}.get(str(fault), "processing-error"))


def check_match(name, literal, designator):
    """Whether a match may be made of them; else why not."""
    if name in HIGHER_ORDER:
        raise CheckError("WrongType")
    takes, gives = signature_named(name)
    if gives != "boolean" or not fits(takes, [literal[0], designator.data_type]):
        raise CheckError("WrongType")


class Matching(collections.namedtuple("Matching", "word status")):
    """What a part of a target comes to: True, False, or Indeterminate with its status."""


TRUE, FALSE = Matching("Match", None), Matching("NoMatch", None)


def first_of(parts, wanted, otherwise):
    """What is wanted where a part is that, the first Indeterminate where there is one, and else what else there is."""
    if wanted in parts:
        return wanted
    return next((part for part in parts if part.word == "Indeterminate"), otherwise)


def match_value(evaluation, name, literal, designator):
    """What a match comes to (7.6)."""
    def part(value):
        try:
            return TRUE if FUNCTIONS[name][2](literal, value)[1] else FALSE
        except Fault as fault:
            return Matching("Indeterminate", status(fault))
    try:
        return first_of([part(value) for value in evaluation.bag(designator)[1]], TRUE, FALSE)
    except Fault as fault:
        return Matching("Indeterminate", status(fault))


def target_value(evaluation, target):
    """The target is a list of lists of lists of matches: all of them, of each one, of that all have to be true."""
    def all_of(matches):
        """All of the matches (7.7)."""
        return first_of([match_value(evaluation, *match) for match in matches], FALSE, TRUE)

    def any_of(alternatives):
        """One of the alternatives (7.7)."""
        return first_of([all_of(matches) for matches in alternatives], TRUE, FALSE)
    return first_of([any_of(alternatives) for alternatives in target], FALSE, TRUE)
