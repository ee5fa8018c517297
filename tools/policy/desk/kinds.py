"""The type check of policy documents: all its faults, in the order in which the server looks for them.

A kind is a type's name, of a bag with `bag ` before it, and None where a fault leaves it unknown; what rests on an
unknown kind is no fault.
"""
from __future__ import annotations

from . import left_out, names
from .elements import Document, Duty, Expression, Match, Rule, Target
from .faults import Remarks
from .model import expressions, functions
from .text import counted, listed

PAIRS = ("all-of-any", "all-of-all")


def signature(name: str | None) -> tuple[list[str], str] | None:
    """What a function of values or of bags takes and gives."""
    try:
        return expressions.signature_named(name) if name is not None else None
    except expressions.CheckError:
        return None


def takes_shown(takes: list[str]) -> str:
    """`a string and a bag of string`, `two or more integers`."""
    if takes and takes[-1].endswith("*"):
        rest = takes[:-1]
        return (listed([names.kind_shown(kind) for kind in rest], "and") + " and "
                if rest else "") + f"any number of {takes[-1].rstrip('*')}"
    return listed([names.kind_shown(kind) for kind in takes], "and")


def wanted_at(takes: list[str], place: int) -> str:
    """The kind of the argument at the place."""
    return takes[min(place, len(takes) - 1)].rstrip("*")


def way_from(found: str, wanted: str) -> str:
    """What turns an expression of one kind into one of another, as advice; the empty text where nothing does."""
    data_type = found.removeprefix("bag ")
    if found == "bag " + wanted:
        return f"wrap it in {wanted}-one-and-only"
    if wanted == "bag " + found:
        return f"wrap it in {found}-bag"
    if wanted.startswith("bag ") or found.startswith("bag "):
        return f"it takes {wanted.removeprefix('bag ')}, and this is of {data_type}"
    if wanted == "string" and functions.V3 + f"string-from-{found}" in functions.FUNCTIONS:
        return f"wrap it in string-from-{found}"
    if found == "string" and functions.V3 + f"{wanted}-from-string" in functions.FUNCTIONS:
        return f"wrap it in {wanted}-from-string"
    return ""


def way_for_bag(name: str | None, takes: list[str], kinds: list[str | None], place: int) -> str:
    """What to write where an attribute, which may have several values or none, stands for a value in a function that
    gives a boolean, as advice; the empty text anywhere else."""
    wanted, known = wanted_at(takes, place), signature(name)
    if kinds[place] != "bag " + wanted or known is None or known[1] != "boolean" or len(kinds) != 2:
        return ""
    is_equal = names.short(name) == f"{wanted}-equal"
    if all(kind is not None and kind.startswith("bag ") for kind in kinds):
        write = (f"{wanted}-at-least-one-member-of or " if is_equal else "") + "any-of-any"
    else:
        write = (f"{wanted}-is-in, with the value first, or " if is_equal else "") + "any-of"
    return (f"an attribute may have several values, or none: write {write}; only if it has exactly one each time, wrap "
            f"it in {wanted}-one-and-only")


def function_for(name: str, kinds: list[str | None]) -> str:
    """The function of the same verb that takes these kinds, as `integer-equal` for `string-equal`."""
    short = names.short(name)
    found = functions.bag_function_named(name)
    verb = found[0] if found else short.partition("-")[2]
    types = {kind.removeprefix("bag ") for kind in kinds if kind is not None}
    if len(types) != 1 or None in kinds:
        return ""
    wanted = f"{types.pop()}-{verb}"
    same = [other for other in names.function_names() if names.short(other) == wanted and wanted != short]
    return same[0] if same and functions.fits(signature(same[0])[0], kinds) else ""


class Kinds:
    """The kinds of a document's expressions; `variables` are those of the policy so far."""

    def __init__(self, remarks: Remarks):
        self.remarks, self.variables, self.later = remarks, {}, {}
        self.is_sure = True

    def ill_typed(self, code: str, node, sentence: str, **more: str) -> None:
        """Says that the server answers IllTyped of this code."""
        self.remarks.fault(f"IllTyped({code})", node, sentence, **more)

    # Expressions.

    def kind(self, held: Expression | None, depth: int = 1) -> str | None:
        """The kind of an expression that stands inside this many, itself counted."""
        if held is None or self.is_too_deep(held, depth):
            return None
        if held.form == "value":
            return held.literal.data_type if held.literal else None
        if held.form == "designator":
            return f"bag {held.designator.data_type}" if held.designator and held.designator.data_type else None
        if held.form == "variable":
            return self.variable(held)
        if held.form == "function":
            self.ill_typed("WrongType", held.node,
                           "A Function stands only first in an Apply of any-of, all-of, any-of-any, map, "
                           "all-of-any or all-of-all.",
                           expected="a value or a bag", found="a Function")
            return None
        return self.apply(held, depth)

    def is_too_deep(self, held: Expression, depth: int) -> bool:
        """Whether the expression stands inside too many; it is remarked."""
        if depth > expressions.MAX_DEPTH:
            self.ill_typed("TooDeep", held.node,
                           f"At most {expressions.MAX_DEPTH} expressions stand inside one another: "
                           "give a part a name by a VariableDefinition.",
                           expected=f"at most {expressions.MAX_DEPTH}", found=f"the {depth}th")
        return depth > expressions.MAX_DEPTH

    def variable(self, held: Expression) -> str | None:
        """The kind of a variable's definition."""
        if held.name is None or held.name in self.variables or not self.is_sure:
            return self.variables.get(held.name)
        nearest = names.nearest(held.name, self.variables)
        if held.name in self.later:
            sentence = (f'The variable "{held.name}" is defined only in line {self.later[held.name]}: '
                        'a definition may refer to those before it alone.')
        else:
            sentence = (f'No variable "{held.name}" is defined in this policy.'
                        + (f' Did you mean "{nearest}"?' if nearest else ""))
        self.ill_typed("UnknownVariable", held.node, sentence,
                       expected=f"one of {listed(list(self.variables))}" if self.variables else "no variable",
                       found=held.name,
                       nearest=nearest)
        return None

    def apply(self, held: Expression, depth: int) -> str | None:
        """The kind that a function gives, whose arguments are checked."""
        if held.name in functions.HIGHER_ORDER:
            return self.higher(functions.HIGHER_ORDER[held.name], held, depth)
        known = signature(held.name)
        if known is None and held.name is not None:
            self.unknown_function(held)
        kinds = [self.kind(argument, depth + 1) for argument in held.arguments]
        if known is None:
            return None
        takes, gives = known
        if not functions.takes_so_many(takes, len(kinds)):
            self.ill_typed("WrongCount", held.node,
                           f'"{names.short(held.name)}" takes {takes_shown(takes)}, '
                           f'and has {counted(len(kinds), "argument")} here.',
                           expected=takes_shown(takes), found=counted(len(kinds), "argument"))
        else:
            self.fit(held, takes, kinds)
        return gives

    def unknown_function(self, held: Expression, known=None) -> None:
        """Remarks a function that isn't there, with the nearest that is."""
        sentence, nearest = left_out.unknown_function(held.name, known)
        self.ill_typed("UnknownFunction", held.node.at("FunctionId") or held.node, sentence,
                       expected="the name of a function", found=held.name, nearest=nearest)

    def fit(self, held: Expression, takes: list[str], kinds: list[str | None], first: int = 0) -> None:
        """Remarks each argument that doesn't fit."""
        wrong = [place for place, kind in enumerate(kinds) if kind is not None and kind != wanted_at(takes, place)]
        better = function_for(held.name, kinds) if len(wrong) == len(kinds) else ""
        for place in wrong:
            wanted, found = wanted_at(takes, place), kinds[place]
            other = way_for_bag(held.name, takes, kinds, place) or way_from(found, wanted)
            way = f"write {better}" if better else other
            sentence = (f'Argument {place + 1} of "{names.short(held.name)}" is {names.kind_shown(wanted)}, '
                        f'and this is {names.kind_shown(found)}')
            self.ill_typed("WrongType", held.arguments[place + first].node, sentence + (f"; {way}." if way else "."),
                           expected=names.kind_shown(wanted), found=names.kind_shown(found), nearest=better)

    # Higher-order functions.

    def higher(self, verb: str, held: Expression, depth: int) -> str | None:
        """The kind that a higher-order function gives, whose arguments are checked."""
        if not held.arguments:
            self.ill_typed("WrongCount", held.node,
                           f'"{verb}" takes a Function and then values and bags, and has no argument here.',
                           expected="a Function first", found="no argument")
            return "boolean" if verb != "map" else None
        known = self.inner(verb, held.arguments[0], depth + 1)
        kinds = [self.kind(argument, depth + 1) for argument in held.arguments[1:]]
        if known is None:
            return "boolean" if verb != "map" else None
        takes, gives = known
        if len(kinds) != 2 if verb in PAIRS else not functions.takes_so_many(takes, len(kinds)):
            count = "two bags" if verb in PAIRS else f"{takes_shown(takes)}, one of them as a bag"
            self.ill_typed("WrongCount", held.node,
                           f'"{verb}" takes behind this Function {count}, '
                           f'and has {counted(len(kinds), "argument")} there.',
                           expected=count,
                           found=counted(len(kinds), "argument"))
        elif None not in kinds:
            self.fit_inner(verb, held, takes, kinds)
        if verb != "map" and gives != "boolean":
            self.ill_typed("WrongType", held.arguments[0].node,
                           f'"{verb}" asks a function that gives a boolean, '
                           f'and this one gives {names.kind_shown(gives)}.',
                           expected="a function that gives a boolean", found=names.kind_shown(gives))
        return "bag " + gives if verb == "map" else "boolean"

    def inner(self, verb: str, held: Expression | None, depth: int) -> tuple[list[str], str] | None:
        """What the function that stands first takes and gives."""
        if held is None or self.is_too_deep(held, depth):
            return None
        if held.form != "function":
            self.ill_typed("WrongType", held.node,
                           f'First in "{verb}" stands a Function: {{"Function": {{"FunctionId": ..}}}}.',
                           expected="a Function", found=f"a {held.form}")
            return None
        if held.name is not None and held.name not in functions.FUNCTIONS:
            self.unknown_function(held, functions.FUNCTIONS)
        return functions.FUNCTIONS[held.name][:2] if held.name in functions.FUNCTIONS else None

    def fit_inner(self, verb: str, held: Expression, takes: list[str], kinds: list[str]) -> None:
        """Remarks where the values and bags behind a Function don't fit it."""
        bags = [place for place, kind in enumerate(kinds) if kind.startswith("bag ")]
        if verb in PAIRS and not functions.takes_so_many(takes, 2):
            self.ill_typed("WrongType", held.arguments[0].node, f'"{verb}" asks a function of two values.',
                           expected="a function of two values", found=takes_shown(takes))
            return
        found = [kind.removeprefix("bag ") for kind in kinds]
        if not functions.fits(takes, found):
            self.fit(Expression("apply", held.node, held.arguments[0].name, arguments=held.arguments[1:]), takes, found)
            return
        wanted = len(kinds) if verb in PAIRS else 1
        if verb != "any-of-any" and len(bags) != wanted:
            self.ill_typed("WrongType", held.node,
                           f'"{verb}" takes {"bags alone" if verb in PAIRS else "exactly one bag"} behind the '
                           f'Function, and has {counted(len(bags), "bag")} here.',
                           expected=counted(wanted, "bag"), found=counted(len(bags), "bag"))

    # Targets, rules, documents.

    def match(self, held: Match) -> None:
        """Remarks a match that its function doesn't take."""
        if held.function is None:
            return
        node, known = held.node.at("MatchId") or held.node, signature(held.function)
        kinds = [held.literal and held.literal.data_type, held.designator and held.designator.data_type]
        if known is None and held.function not in functions.HIGHER_ORDER:
            sentence, nearest = left_out.unknown_function(held.function)
            self.ill_typed("UnknownFunction", node, sentence, expected="the name of a function", found=held.function,
                           nearest=nearest)
        elif None not in kinds and (known is None or known[1] != "boolean" or not functions.fits(known[0], kinds)):
            better = function_for(held.function, kinds)
            takes = (f'takes {takes_shown(known[0])} and gives {names.kind_shown(known[1])}'
                     if known else "is a higher-order function")
            self.ill_typed("WrongType", node,
                           'A match asks a function of the literal\'s and the designator\'s types that gives a '
                           f'boolean; "{names.short(held.function)}" {takes}.'
                           + (f" Write {better}." if better else ""),
                           expected=f"a function of {names.kind_shown(kinds[0])} and {names.kind_shown(kinds[1])} that "
                                    "gives a boolean",
                           found=names.short(held.function), nearest=better)

    def target(self, held: Target | None) -> None:
        """Remarks the matches of a target."""
        for match in held.matches() if held else []:
            self.match(match)

    def duties(self, held: list[Duty | None]) -> None:
        """Remarks the expressions of obligations and advice."""
        for duty in held:
            for assignment in duty.assignments if duty else []:
                if assignment is not None:
                    self.kind(assignment.expression)

    def rule(self, held: Rule) -> None:
        """Remarks what is ill-typed in a rule."""
        self.target(held.target)
        kind = self.kind(held.condition)
        if kind not in (None, "boolean"):
            way = ("wrap it in boolean-one-and-only"
                   if kind == "bag boolean" else "ask something of it, as an -equal or -is-in does")
            self.ill_typed("WrongType", held.condition.node,
                           f"A condition is a boolean, and this is {names.kind_shown(kind)}; {way}.",
                           expected="a boolean", found=names.kind_shown(kind))
        self.duties(held.duties)

    def define(self, held: Document) -> None:
        """The kinds of the document's variables, each of which may refer to those before it."""
        self.variables, self.later = {}, {}
        self.is_sure = all(variable is not None and variable.name is not None for variable in held.variables)
        self.later = {variable.name: variable.node.place.line for variable in held.variables if variable is not None}
        for variable in held.variables:
            if variable is not None:
                kind = self.kind(variable.expression)
                self.variables.setdefault(variable.name, kind)

    def document(self, held: Document) -> None:
        """Remarks what is ill-typed in a document, in table order."""
        self.target(held.target)
        self.define(held)
        for child in held.children:
            if isinstance(child, Rule):
                self.rule(child)
            elif isinstance(child, Document):
                self.document(child)
        if held.form == "PolicySet":
            self.variables, self.later, self.is_sure = {}, {}, True
        self.duties(held.duties)
