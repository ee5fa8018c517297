"""Forms of what a message may ask for, to be asked what a unit of the limit of work takes there: each function of
values and of bags at sizes, and those of unit_trees.py."""
import base64

from functions import FUNCTIONS, V1, V3
from unit_documents import (
    SIZED, SIZES, Form, apply, attribute, bag_function, bytes_shown, denies_if, designator, inner, literal,
    match, policy, request, rule, size_of, sizes_of, target, value_of, variable)
from unit_trees import TREES

VALUES = 200
# what a function is given in the place of an argument, where the longest of its type would be its fault
GIVEN = {
    V3 + "string-substring": {1: 0, 2: -1}, V1 + "integer-abs": {0: -7}, V1 + "integer-add": {0: 1},
    V1 + "integer-multiply": {0: 1}, V1 + "integer-subtract": {0: -1}, V1 + "n-of": {0: 1},
    V3 + "dateTime-add-dayTimeDuration": {1: "-P3000DT1H"}, V3 + "dateTime-subtract-dayTimeDuration": {1: "P3000DT1H"},
    V3 + "dateTime-add-yearMonthDuration": {1: "-P99Y11M"}, V3 + "dateTime-subtract-yearMonthDuration": {1: "P99Y11M"},
    V3 + "date-add-yearMonthDuration": {1: "-P99Y11M"}, V3 + "date-subtract-yearMonthDuration": {1: "P99Y11M"},
}


def text_of(data_type, size):
    """The text that a value of the type is read from."""
    value = value_of(data_type, size)
    return "false" if value is False else str(value)


def arguments_of(function, size):
    """The types and values that the function takes, the texts of so many bytes."""
    takes, _, _ = FUNCTIONS[function]
    name = function.rpartition(":")[2]
    if name.endswith("-from-string"):
        read = name.removesuffix("-from-string")
        return [("string", text_of(read, size))]
    named = [one.rstrip("*") for one in takes]
    named = named * 2 if takes == ["boolean*"] else named[:2] if takes[-1] == "integer*" else named
    return [(one, GIVEN.get(function, {}).get(place, value_of(one, size))) for place, one in enumerate(named)]


def sizes_for(function):
    takes, _, _ = FUNCTIONS[function]
    name = function.rpartition(":")[2]
    read = name.removesuffix("-from-string") if name.endswith("-from-string") else None
    return sizes_of(read) if read else SIZES if any(one.rstrip("*") in SIZED for one in takes) else (0,)


def map_of(function, size):
    """Map of the function over a bag in the place of its last argument, which a variable holds."""
    arguments = arguments_of(function, size)
    gives = FUNCTIONS[function][1]
    *first, (data_type, last) = arguments
    count = max(8, min(VALUES, 100_000 // (len(str(last)) + 8)))
    expression = apply(V3 + "map", inner(function), *[literal(*one) for one in first], variable("v"))
    held_by = [("v", designator("a", data_type))]
    return [denies_if(size_of(expression, gives), defined=held_by)], request(attribute("a", [last] * count, data_type))


def calls_of(function, size):
    """The function of variables, again and again in a bag."""
    arguments = arguments_of(function, size)
    gives = FUNCTIONS[function][1]
    defined = [(f"v{place}", literal(*one)) for place, one in enumerate(arguments)]
    one = apply(function, *[variable(name) for name, _ in defined])
    bag = apply(bag_function("bag", gives), *[one] * 100)
    return [denies_if(size_of(bag, gives), defined=defined, times=2)], request(attribute("b", ["x"]))


def functions_of_values():
    for function, (takes, gives, _) in FUNCTIONS.items():
        name = function.rpartition(":")[2]
        for size in sizes_for(function):
            of = f", {bytes_shown(size)}" if size else ""
            if name != "n-of":
                yield Form(f"map of {name}{of}", *map_of(function, size))
            yield Form(f"{name}{of}", *calls_of(function, size))


# texts in which the first is looked for in vain, and what makes it hard
PARTS = {
    "all alike": lambda n, m: ("a" * (n - 1) + "b", "a" * m),
    "all alike, at the front": lambda n, m: ("b" + "a" * (n - 1), "a" * m),
    "in the middle": lambda n, m: ("a" * (n // 2) + "b" + "a" * (n - n // 2 - 1), "a" * m),
    "by twos": lambda n, m: ("ab" * (n // 2) + "b", "ab" * (m // 2)),
    "nearly there": lambda n, m: ("ab" * (n // 2 - 1) + "aa", "ab" * (m // 2 - 1) + "ba"),
    "by threes": lambda n, m: ("aab" * (n // 3) + "b", "aab" * (m // 3)),
    "rare": lambda n, m: ("z" + "e" * (n - 1), "e" * m),
    "equal": lambda n, m: ("abcdefgh" * (n // 8), "abcdefgh" * (n // 8)),
}


def searches():
    """string-contains of texts of hard forms, by any-of-any, by map and by matches."""
    function = V3 + "string-contains"
    for hard, made in PARTS.items():
        for n, m in ((1, 1), (2, 16), (8, 8), (8, 64), (16, 400), (32, 64), (32, 400), (33, 33), (33, 64), (40, 200),
                     (64, 64), (64, 100), (100, 400), (200, 200), (200, 400), (400, 400), (400, 4_000), (4_000, 4_000),
                     (2_000, 20_000)):
            part, text = made(n, m)
            count = max(2, min(40, 20_000 // (len(text) + 1)))
            expression = apply(V3 + "any-of-any", inner(function), variable("v"), variable("w"))
            defined = [("v", designator("a")), ("w", designator("b"))]
            asked = request(attribute("a", [part] * count), attribute("b", [text] * count))
            yield Form(f"string-contains, {n} in {m}, {hard}", [denies_if(expression, defined=defined, times=1)], asked)


def functions_of_bags():
    """Each bag function of each type of some sizes, of bags of some numbers of values."""
    for data_type in ("integer", "string", "dateTime", "hexBinary"):
        for count in (1, 2, 8, 31, 64, 400):
            for size in (1, 100) if data_type in SIZED else (0,):
                values = distinct(data_type, size, count)
                v, w = variable("v"), variable("w")
                defined = [("v", designator("a", data_type)), ("w", designator("b", data_type))]
                of = {
                    "bag-size": [v],
                    "is-in": [apply(bag_function("one-and-only", data_type), designator("c", data_type)), v],
                    "intersection": [v, w], "union": [v, w],
                    "at-least-one-member-of": [v, w], "subset": [v, w], "set-equals": [v, v],
                }
                for name, arguments in of.items():
                    one = apply(bag_function(name, data_type), *arguments)
                    condition = size_of(one, data_type) if name in ("intersection", "union") else \
                        apply(V1 + "integer-less-than", one, literal("integer", 0)) if name == "bag-size" else one
                    if name in ("subset", "set-equals"):
                        condition = apply(V1 + "not", condition)
                    asked = request(attribute("a", values, data_type),
                                    attribute("b", values[::-1] if name != "at-least-one-member-of"
                                              else distinct(data_type, size, count, 5_000), data_type),
                                    attribute("c", distinct(data_type, size, 1, 9_000), data_type))
                    yield Form(f"{data_type}-{name}, {count} values{f', {bytes_shown(size)}' if size else ''}",
                               [denies_if(condition, defined=defined)], asked)


def distinct(data_type, size, count, start=0):
    """So many values of the type, each another."""
    places = range(start, start + count)
    return {
        "integer": lambda: [2**40 + place for place in places],
        "string": lambda: ["x" * max(size - 5, 0) + f"{place:05}" for place in places],
        "dateTime": lambda: [
            f"2{place // 1000 % 1000:03}-01-01T00:{place % 60:02}:{place // 60 % 60:02}.123456789-13:59"
            for place in places],
        "hexBinary": lambda: ["AB" * max(size - 3, 0) + f"{place:06}" for place in places],
    }[data_type]()


def matches_by_functions():
    """Matches by each function that may stand in one, on bags of some numbers of values."""
    for function, (takes, gives, _) in FUNCTIONS.items():
        if gives != "boolean" or len(takes) != 2 or takes[0].endswith("*"):
            continue
        name = function.rpartition(":")[2]
        for size in sizes_for(function):
            for count in (1, 8, 100):
                (first_type, first), (second_type, second) = arguments_of(function, size)
                if name.endswith(("-equal", "-contains", "-starts-with", "-ends-with")):
                    first = other(first_type, size)
                matches = [match(function, first_type, first, data_type=second_type)]
                times = 100 if size < 1_000 else 25
                draft = policy(Rule=[rule("Deny", Target=target(*matches, alternatives=times)), rule()])
                yield Form(f"match by {name}{f', {bytes_shown(size)}' if size else ''}, {count} values", [draft],
                           request(attribute("a", [second] * count, second_type)))


def other(data_type, size):
    """Another value than the longest of the type, alike up to its end."""
    ends = {
        "boolean": True, "integer": -9_223_372_036_854_775_806, "date": "9999-12-29-13:59",
        "time": "23:59:59.123456788-13:59", "dateTime": "9999-12-30T23:59:59.123456788-13:59",
        "dayTimeDuration": "-P3652499DT23H59M59.123456788S", "yearMonthDuration": "-P9998Y10M",
        "hexBinary": "AB" * (size - 1) + "AC",
        "base64Binary": base64.b64encode(b"\xab" * (size - 1) + b"\xac").decode(),
    }
    return ends[data_type] if data_type in ends else "x" * (size - 1) + "y"


def forms():
    """All forms."""
    for some in (functions_of_values, searches, functions_of_bags, matches_by_functions, *TREES):
        yield from some()
