"""The names of the functions (XACML 3.0, core, appendix A.3), each with the function that it names and its signature.

NAMES has each function by its URI: the function's families, and what it takes and gives, as the program writes them. A
function that no version of the standard has is of the version "", and its name is the whole URI. TAKEN has the kinds
that each takes and gives, as they are written here; of a higher-order function it has none.
"""
from values import TYPES

VERSIONS = ("1.0", "2.0", "3.0")
DURATIONS = ("dayTimeDuration", "yearMonthDuration")
ORDERED = ("integer", "string", "time", "date", "dateTime")
PRINTED = ("boolean", "integer", "date", "time", "dateTime", "anyURI") + DURATIONS
NAMES, TAKEN = {}, {}


def uri(version, name):
    return f"urn:oasis:names:tc:xacml:{version}:function:{name}" if version else name


def word(name):
    """A name as the enums spell it: `time-in-range` is `TimeInRange`, and `anyURI` is `AnyUri`."""
    return "".join(part[0].upper() + part[1:] for part in name.replace("URI", "Uri").split("-"))


def kind(name):
    """`bag string` is a bag of strings, `string` one of them."""
    first, _, held = name.partition(" ")
    return f"Bag({word(held)})" if held else f"Value({word(first)})"


def parameters(takes):
    """`a a*` is two or more, `a*` any number, and `a b*` one and any number of the other."""
    kinds = [kind(name.rstrip("*")) for name in takes]
    if takes[-1].endswith("*"):
        if len(set(kinds)) == 1:
            return f"AtLeast({len(takes) - 1}, {kinds[0]})"
        return f"OneAndMore({', '.join(kinds)})"
    return f"{['One', 'Two', 'Three'][len(kinds) - 1]}({', '.join(kinds)})"


def function(version, name, is_named, takes, gives):
    NAMES[uri(version, name)] = (is_named, f"FirstOrder({parameters(takes)}, {kind(gives)})")
    TAKEN[uri(version, name)] = (takes, gives)


for t in TYPES:
    function("3.0" if t in DURATIONS else "1.0", f"{t}-equal", f"Equal({word(t)})", [t, t], "boolean")
for t in ORDERED:
    for verb in ("greater-than", "greater-than-or-equal", "less-than", "less-than-or-equal"):
        function("1.0", f"{t}-{verb}", f"Compare({word(verb)}, {word(t)})", [t, t], "boolean")
for verb in ("add", "multiply"):
    function("1.0", f"integer-{verb}", f"Arithmetic({word(verb)})", ["integer", "integer", "integer*"], "integer")
for verb in ("subtract", "divide", "mod"):
    function("1.0", f"integer-{verb}", f"Arithmetic({word(verb)})", ["integer", "integer"], "integer")
function("1.0", "integer-abs", "IntegerAbs", ["integer"], "integer")
function("1.0", "or", "Logic(Or)", ["boolean*"], "boolean")
function("1.0", "and", "Logic(And)", ["boolean*"], "boolean")
function("1.0", "n-of", "Logic(NOf)", ["integer", "boolean*"], "boolean")
function("1.0", "not", "Logic(Not)", ["boolean"], "boolean")
function("1.0", "string-normalize-space", "Text(NormalizeSpace)", ["string"], "string")
function("2.0", "string-concatenate", "Text(Concatenate)", ["string", "string", "string*"], "string")
function("3.0", "string-substring", "Text(Substring)", ["string", "integer", "integer"], "string")
for t in ("string", "anyURI"):
    for verb in ("starts-with", "ends-with", "contains"):
        function("3.0", f"{t}-{verb}", f"Part({word(verb)}, {word(t)})", ["string", t], "boolean")
for t in PRINTED:
    function("3.0", f"string-from-{t}", f"StringFrom({word(t)})", [t], "string")
    function("3.0", f"{t}-from-string", f"FromString({word(t)})", ["string"], t)
for verb in ("add", "subtract"):
    for moved, duration in (("dateTime", "dayTime"), ("dateTime", "yearMonth"), ("date", "yearMonth")):
        function("3.0", f"{moved}-{verb}-{duration}Duration", f"Move({word(moved)}By{word(duration)}, {word(verb)})",
                 [moved, duration + "Duration"], moved)
function("2.0", "time-in-range", "TimeInRange", ["time", "time", "time"], "boolean")
for t in TYPES:
    bag = "bag " + t
    for version in ("1.0", "3.0") if t in DURATIONS else ("1.0",):
        for verb, takes, gives in (
            ("one-and-only", [bag], t), ("bag-size", [bag], "integer"), ("is-in", [t, bag], "boolean"),
            ("bag", [t + "*"], bag), ("intersection", [bag, bag], bag), ("union", [bag, bag, bag + "*"], bag),
            ("at-least-one-member-of", [bag, bag], "boolean"), ("subset", [bag, bag], "boolean"),
            ("set-equals", [bag, bag], "boolean"),
        ):
            function(version, f"{t}-{verb}", f"Bag({word(verb)}, {word(t)})", takes, gives)
for version, verb in ([("3.0", v) for v in ("any-of", "all-of", "any-of-any", "map")]
                      + [("1.0", v) for v in ("all-of-any", "all-of-all")]):
    NAMES[uri(version, verb)] = (f"HigherOrder({word(verb)})", f"HigherOrder({word(verb)})")


def rows():
    """Each name under each of the three versions, and one of no version as it is, with what it names."""
    asked = [uri(version, held.rsplit(":", 1)[-1]) for held in NAMES for version in VERSIONS]
    for name in dict.fromkeys([*asked, *NAMES]):
        yield ["function", name], list(NAMES.get(name, ["!None"]))
