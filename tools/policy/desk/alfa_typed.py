"""Expressions of ALFA as drafts of the notation's.

An operator is a function of the standard, by the types of its sides. Where a side is a bag, which every
attribute is, a comparison holds where it holds of some value of it: any-of, and any-of-any where both are.
"""
from __future__ import annotations

from . import left_out, names
from .alfa_names import FUNCTIONS, Entry, Names, dashed, in_alfa, meant, plain
from .alfa_parts import Attribute, Call, Function, Literal, Name
from .drafted import Draft
from .faults import Remarks
from .importing import value_in_json
from .kinds import signature
from .model import functions, values
from .xml_reading import Spot

ORDERED = ("integer", "string", "time", "date", "dateTime")
COMPARED = {"==": "equal", ">": "greater-than", "<": "less-than", ">=": "greater-than-or-equal",
            "<=": "less-than-or-equal"}
TURNED = {"==": "==", ">": "<", "<": ">", ">=": "<=", "<=": ">="}
SUMS = {"+": "add", "-": "subtract"}
PRODUCTS = {"*": "multiply", "/": "divide"}


def function_of(sign: str, left: str, right: str) -> str:
    """The function that an operator is for these types; the empty text where it is none."""
    if sign in COMPARED:
        name = f"{left}-{COMPARED[sign]}" if left == right and (sign == "==" or left in ORDERED) else ""
    elif sign in SUMS and left != right:
        name = f"{left}-{SUMS[sign]}-{right}"
    else:
        name = f"{left}-{(SUMS | PRODUCTS)[sign]}"
    return next((uri for uri in functions.FUNCTIONS if names.short(uri) == name), "")


class Expressions:
    """Makes drafts of expressions; beside each stands its kind, a type or a bag of one, or None where a fault
    leaves it unknown."""

    def __init__(self, known: Names, entry: Entry, remarks: Remarks):
        self.known, self.namespace, self.remarks = known, entry.namespace, remarks
        # where something stands in place of what has a fault, which is said
        self.placeholders: set[tuple[int, int]] = set()

    def fault(self, code: str, spot: Spot, sentence: str, **more: str) -> None:
        self.remarks.fault(code, spot, sentence, **more)

    def type(self, name: Name | None, default: str, spot: Spot) -> str | None:
        """The name of a data type."""
        held = default if name is None else plain(name)
        if held in values.TYPES:
            return held
        sentence = left_out.data_type(held)
        nearest = names.nearest(held, values.TYPES)
        self.fault("LeftOut" if sentence else "NoSuchName", spot,
                   in_alfa(sentence) or f'There is no type "{held}".' + meant(nearest),
                   found=held, nearest="" if sentence else nearest)
        return None

    def literal(self, held: Literal) -> tuple[Draft, str | None]:
        """A value."""
        default = "string" if held.kind == "text" else held.kind
        kind = self.type(held.type, default, held.type.spot if held.type else held.spot)
        if kind is None:
            return self.nothing(held.spot), None
        members = {"DataType": Draft(kind, held.spot),
                   "Value": Draft(value_in_json(kind, held.text), held.spot)}
        return Draft({"AttributeValue": Draft(members, held.spot)}, held.spot), kind

    def designator(self, held: Attribute) -> tuple[Draft | None, str | None]:
        """An attribute that is asked for, and its type."""
        entry = self.known.one("attribute", held.name, self.namespace, self.remarks)
        if entry is None:
            return None, None
        if plain(entry.held.members["type"]) not in [*values.TYPES, *left_out.TYPES]:  # it is said where it is declared
            return None, None
        kind = self.type(entry.held.members["type"], "", held.name.spot)
        if kind is None:
            return None, None
        if not self.known.category(entry):
            self.placeholders.add((held.spot.start, held.spot.end))
        members = {"Category": self.known.category(entry), "AttributeId": entry.id,
                   "DataType": kind, "MustBePresent": held.is_needed}
        found = {name: Draft(value, held.spot) for name, value in members.items()}
        if held.issuer is not None:
            found["Issuer"] = Draft(held.issuer.text, held.issuer.spot)
        return Draft(found, held.spot), kind

    def nothing(self, spot: Spot) -> Draft:
        """What stands in place of an expression with a fault that is said; its kind isn't known."""
        self.placeholders.add((spot.start, spot.end))
        no_type = {name: Draft("", spot) for name in ("DataType", "Value")}
        return Draft({"AttributeValue": Draft(no_type, spot)}, spot)

    def no_match(self, spot: Spot) -> Draft:
        """What stands in place of a match with a fault that is said."""
        self.placeholders.add((spot.start, spot.end))
        return Draft({}, spot)

    def expression(self, held: object) -> tuple[Draft, str | None]:
        """An expression, with its name around it."""
        if isinstance(held, Literal):
            return self.literal(held)
        if isinstance(held, Attribute):
            found, kind = self.designator(held)
            if found is None:
                return self.nothing(held.spot), None
            return Draft({"AttributeDesignator": found}, held.spot), f"bag {kind}"
        if isinstance(held, Function):
            name = Draft(self.function(held.name) or "", held.spot)
            return Draft({"Function": Draft({"FunctionId": name}, held.spot)}, held.spot), None
        return self.operator(held) if held.is_operator else self.call(held)

    def function(self, name: Name) -> str | None:
        """The function of that name."""
        found = FUNCTIONS.get(plain(name))
        if found is not None:
            return found
        sentence = left_out.function(functions.V1 + dashed(plain(name)))
        nearest = "" if sentence else names.nearest(name.text, FUNCTIONS)
        self.fault("LeftOut" if sentence else "NoSuchName", name.spot,
                   in_alfa(sentence) or f'There is no function "{name.text}".' + meant(nearest),
                   found=name.text, nearest=nearest)
        return None

    def applied(self, uri: str, name: Name, arguments: list[Draft], spot: Spot) -> Draft:
        members = {"FunctionId": Draft(uri, name.spot)}
        if arguments:
            members["Expression"] = Draft(arguments, spot)
        return Draft({"Apply": Draft(members, spot)}, spot)

    def call(self, held: Call) -> tuple[Draft, str | None]:
        """A function of arguments."""
        uri = self.function(held.name)
        arguments = [self.expression(argument)[0] for argument in held.arguments]
        if uri is None:
            return self.nothing(held.spot), None
        found = self.applied(uri, held.name, arguments, held.spot)
        if functions.HIGHER_ORDER.get(uri) == "map":
            inner = held.arguments[0] if held.arguments else None
            gives = signature(FUNCTIONS.get(plain(inner.name))) if isinstance(inner, Function) else None
            return found, f"bag {gives[1]}" if gives else None
        gives = signature(uri)
        return found, "boolean" if uri in functions.HIGHER_ORDER else gives[1] if gives else None

    def operator(self, held: Call) -> tuple[Draft, str | None]:
        """An operator between expressions."""
        sides = [self.expression(argument) for argument in held.arguments]
        arguments, kinds = [one for one, _ in sides], [kind for _, kind in sides]
        sign, spot = held.name.text, held.spot
        if sign in ("&&", "||"):
            return self.applied(FUNCTIONS["and" if sign == "&&" else "or"], held.name, arguments,
                                spot), "boolean"
        uri = self.operator_function(held, [kind and kind.removeprefix("bag ") for kind in kinds])
        if not uri:
            return self.nothing(spot), None
        bags = sum(kind.startswith("bag ") for kind in kinds)
        if sign not in COMPARED or bags == 0:
            return self.applied(uri, held.name, arguments, spot), signature(uri)[1]
        inner = Draft({"Function": Draft({"FunctionId": Draft(uri, held.name.spot)}, held.name.spot)},
                      held.name.spot)
        around = FUNCTIONS["anyOf" if bags == 1 else "anyOfAny"]
        return self.applied(around, held.name, [inner, *arguments], spot), "boolean"

    def operator_function(self, held: Call, kinds: list[str | None], is_turned: bool = False) -> str:
        """The function that the operator is, for sides of these kinds, or for these sides turned round; the
        empty text where it is none, which is remarked unless the kind of a side isn't known."""
        sign = held.name.text
        if sign == "~":
            pattern = next((one.text for one in held.arguments if isinstance(one, Literal)), "")
            said = [left_out.function(functions.V1 + "string-regexp-match"), left_out.regular(pattern)]
            self.fault("LeftOut", held.name.spot, in_alfa(" ".join(filter(None, said))), found=sign)
            return ""
        if None in kinds:
            return ""
        found = function_of(TURNED[sign], *kinds[::-1]) if is_turned else function_of(sign, *kinds)
        if not found:
            self.fault("IllTyped(WrongType)", held.spot,
                       f"There is no {sign} between {names.kind_shown(kinds[0])} and "
                       f"{names.kind_shown(kinds[1])}." + self.instead(sign, kinds), found=sign)
        return found

    def instead(self, sign: str, kinds: list[str]) -> str:
        """What could be written instead."""
        if sign == "+" and kinds == ["string", "string"]:
            return " Write stringConcatenate(.., ..)."
        if "string" in kinds and kinds[0] != kinds[1]:
            other = next(kind for kind in kinds if kind != "string")
            name = f"{other}FromString"
            written = ("without quotes" if other in ("integer", "boolean") else f'"..":{other}')
            return (f" A value of the type {other} is written {written}"
                    + (f", and {name}(..) makes one of a text." if name in FUNCTIONS else "."))
        return ""
