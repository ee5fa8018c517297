"""The values of expressions and of targets, as each step to them is charged before it is taken (XACML 3.0, core,
sections 7.4 to 7.8, appendix A.3).

What a step comes to is what `expressions.py` and `functions.py` say. Where evaluation goes no further, nothing more is
charged.
"""
import itertools

from charges import CALL, LIST, LITERAL, LOGIC, LOOK, STEP, VARIABLE, among, of_calls, units, units_of
from expressions import FALSE, TRUE, Evaluation, Matching, first_of, listed, status
from functions import BAG_FUNCTIONS, FUNCTIONS, HIGHER_ORDER, bag_function_named, boolean
from values import Fault


def comparisons(verb, arguments):
    """With how many others each value is compared at most by a bag or set function (A.3.10, A.3.11)."""
    counts = [len(listed(argument)) for argument in arguments]
    if verb in ("intersection", "at-least-one-member-of", "subset", "set-equals"):
        return among(min(counts))
    return among(sum(counts)) if verb == "union" else 1


def is_equality(function):
    """Whether it is an equality predicate (A.3.1)."""
    return function.endswith("-equal") and not function.endswith("-or-equal")


def is_at_once(verb, inner, arguments):
    """Whether a higher-order function (A.3.12) calls its inner function for no choice: of two bags that are compared,
    and of or, and and n-of."""
    name = inner.rsplit(":", 1)[1]
    if name in ("or", "and", "n-of"):
        return verb in ("any-of", "any-of-any")
    compares = name.endswith(
        ("-equal", "-greater-than", "-greater-than-or-equal", "-less-than", "-less-than-or-equal"))
    are_two_bags = len(arguments) == 2 and all(isinstance(held, list) for _, held in arguments)
    return compares and verb in ("any-of-any", "all-of-any", "all-of-all") and are_two_bags


def units_beside_calls(verb, inner, lists):
    """What a higher-order function takes beside its calls: its arguments; and where values are searched for, as often
    as they are compared."""
    whole = sum(map(units, lists))
    if verb in ("any-of-any", "all-of-any") and is_equality(inner):
        return whole * (among(min(map(len, lists))) if len(lists) == 2 else 1)
    return whole


def first_equal(stop, booleans):
    """The boolean `stop` if one of these is that, which are looked at until then; else the other boolean."""
    return boolean(next((held for held in booleans if held == stop), not stop))


def match_of(name, literal, value):
    """What the match's function gives of its literal and one value (7.6)."""
    try:
        return TRUE if FUNCTIONS[name][2](literal, value)[1] else FALSE
    except Fault as fault:
        return Matching("Indeterminate", status(fault))


def in_turn(parts, settles, otherwise):
    """What the parts come to, each of which is looked at until one settles it."""
    seen = []
    for part in parts:
        seen.append(part)
        if part == settles:
            break
    return first_of(seen, settles, otherwise)


class ChargedEvaluation(Evaluation):
    """The values of expressions, in a context that is charged, with the variables of these definitions."""

    def __init__(self, context, definitions=()):
        self.context, self.spend = context, context.spend
        self.names, self.expressions = [name for name, _ in definitions], [held for _, held in definitions]
        # what the first variables give, or their faults: those that were worked out
        self.results = []

    def bag(self, designator):
        """The values that the designator names (7.3.5)."""
        found = self.context.bag(designator)
        self.spend(STEP + units(found))
        if not found and designator.must_be_present:
            raise Fault("MissingAttribute")
        return designator.data_type, found

    # ---- variables

    def value_with_variables(self, expression):
        """The value; the variables that it names are worked out, and those before them (7.8)."""
        if len(self.results) < len(self.expressions):
            last = self.last_variable(expression)
            while len(self.results) <= last:
                self.spend(VARIABLE)
                try:
                    self.results.append(self.value(self.expressions[len(self.results)]))
                except Fault as fault:
                    self.results.append(fault)
        return self.value(expression)

    def last_variable(self, expression):
        """The place of the last variable that the expression names, which is looked through; -1 for none."""
        self.spend(LOOK)
        form, held = expression
        if form == "variable":
            return self.names.index(held)
        if form != "apply":
            return -1
        name, arguments = held
        return max((self.last_variable(argument) for argument in arguments[name in HIGHER_ORDER:]), default=-1)

    def variable(self, name):
        """A copy of what the variable gave."""
        found = self.results[self.names.index(name)]
        if isinstance(found, Fault):
            raise found
        self.spend(units(listed(found)))
        return found

    # ---- expressions

    def value(self, expression):
        """The value or the bag of an expression (5.25, 7.4)."""
        self.spend(STEP)
        form, held = expression
        if form == "value":
            self.spend(LITERAL + units_of(held))
            return held
        if form == "designator":
            return self.bag(held)
        if form == "variable":
            return self.variable(held)
        return self.application(*held)

    def application(self, name, arguments):
        """What the function gives of the values of the arguments (5.27)."""
        verb = name.rsplit(":", 1)[1]
        if name in HIGHER_ORDER:
            return self.higher(HIGHER_ORDER[name], arguments[0][1], arguments[1:])
        if verb in ("or", "and", "n-of", "not"):
            self.spend(LOGIC)
        if verb in ("or", "and"):
            return first_equal(verb == "or", (self.value(argument)[1] for argument in arguments))
        if verb == "n-of":
            return self.n_of(*arguments)
        self.spend(LIST)
        given = [self.value(argument) for argument in arguments]
        if name in FUNCTIONS:
            self.spend(of_calls(name, 1, units(given)))
            return FUNCTIONS[name][2](*given)
        verb, data_type = bag_function_named(name)
        self.spend(sum(units(listed(argument)) for argument in given) * comparisons(verb, given))
        found = BAG_FUNCTIONS[verb](*map(listed, given))
        return (data_type, found) if isinstance(found, list) else found

    def higher(self, verb, inner, arguments):
        """What a higher-order function gives (A.3.12)."""
        self.spend(LIST)
        given = [self.value(argument) for argument in arguments]
        lists = [listed(argument) for argument in given]
        self.spend(units_beside_calls(verb, inner, lists))
        _, gives, meaning = FUNCTIONS[inner]
        call = meaning if is_at_once(verb, inner, given) else self.charged_calls(inner, meaning)
        if verb == "map":
            return gives, [call(*choice) for choice in itertools.product(*lists)]
        if verb in ("any-of", "any-of-any", "all-of"):
            return first_equal(verb != "all-of", (call(*choice)[1] for choice in itertools.product(*lists)))
        first, second = lists
        of_each = (first_equal(verb == "all-of-any", (call(one, other)[1] for other in second))[1] for one in first)
        return first_equal(False, of_each)

    def charged_calls(self, inner, meaning):
        """The meaning of an inner function, each call of which is charged."""
        def call(*values):
            self.spend(CALL + of_calls(inner, 1, units(values)))
            return meaning(*values)
        return call

    # ---- targets

    def match(self, name, literal, designator):
        """A match (5.9, 7.6): by equality its literal is looked for where the values are."""
        if is_equality(name):
            self.spend(STEP)
            found = self.context.look_for(designator, literal)
            if not found and designator.must_be_present:
                return Matching("Indeterminate", status(Fault("MissingAttribute")))
            self.spend(STEP)
        else:
            try:
                found = self.bag(designator)[1]
            except Fault as fault:
                return Matching("Indeterminate", status(fault))
            arguments = len(found) * units_of(literal) + units(found)
            self.spend(STEP + (len(found) + 1) * STEP + units_of(literal) + of_calls(name, len(found), arguments))
        return first_of([match_of(name, literal, value) for value in found], TRUE, FALSE)

    def all_of(self, matches):
        """What the matches of an AllOf come to (7.7)."""
        self.spend(LOOK)
        return in_turn((self.match(*match) for match in matches), FALSE, TRUE)

    def any_of(self, alternatives):
        """What the alternatives of an AnyOf come to (7.7)."""
        self.spend(LOOK)
        return in_turn((self.all_of(matches) for matches in alternatives), TRUE, FALSE)

    def target(self, target):
        """What a target comes to: a list of lists of lists of matches (5.6 to 5.8, 7.7)."""
        return in_turn((self.any_of(alternatives) for alternatives in target), FALSE, TRUE)
