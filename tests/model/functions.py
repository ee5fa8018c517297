"""The functions of values, of bags, and the higher-order functions (XACML 3.0, core, appendix A.3).

FUNCTIONS has each function of values by its URI: the types that it takes, the type that it gives, and what it gives. A
last type `integer*` in the list means any number of further integers.
"""
import itertools
import math

from values import DAY, SECOND, TYPES, WHITE_SPACE, Fault, date_of, day_number, days_in, key, read, to_text

V1, V2, V3 = (f"urn:oasis:names:tc:xacml:{version}.0:function:" for version in (1, 2, 3))
DURATIONS = ("dayTimeDuration", "yearMonthDuration")
FUNCTIONS = {}


def function(beginning, name, takes, gives, meaning):
    """Puts a function of values under its URI."""
    FUNCTIONS[beginning + name] = (takes, gives, meaning)


def boolean(holds):
    """The value of a boolean."""
    return "boolean", holds


def integer(number):
    """The value of an integer, within 64 bits."""
    if not -2**63 <= number < 2**63:
        raise Fault("Overflow")
    return "integer", number


def from_left(step):
    """What sums or multiplies two integers or more (A.3.2)."""
    def meaning(first, *others):
        for other in others:
            first = integer(step(first[1], other[1]))
        return first
    return meaning


def quotient(dividend, divisor):
    """The quotient, cut towards zero."""
    if divisor == 0:
        raise Fault("ZeroDivisor")
    whole = abs(dividend) // abs(divisor)
    return whole if (dividend < 0) == (divisor < 0) else -whole


def n_of(count, *booleans):
    """Whether so many of the booleans are true (A.3.5)."""
    if not 0 <= count[1] <= len(booleans):
        raise Fault("Position")
    return boolean(sum(held for _, held in booleans) >= count[1])


def substring(text, begin, end):
    """The part of a text from a place up to another, or to the end (A.3.9)."""
    length = len(text[1])
    last = length if end[1] == -1 else end[1]
    if not 0 <= begin[1] <= last <= length:
        raise Fault("Position")
    return "string", text[1][begin[1]:last]


def from_string(data_type):
    """What reads the value of a text (A.3.9)."""
    def meaning(text):
        try:
            return read(data_type, text[1])
        except Fault:
            raise Fault("BadText") from None
    return meaning


def after_months(date, months):
    """The date so many months later (A.3.7): on the month's last day, if the day isn't there."""
    count = date[0] * 12 + date[1] - 1 + months
    year, month = count // 12, count % 12 + 1
    if not 1 <= year <= 9999:
        raise Fault("CalendarRange")
    return year, month, min(date[2], days_in(year, month))


def after_nanos(moment, nanos):
    """The date and time so many nanoseconds later (A.3.7)."""
    date, clock, zone = moment
    day, rest = divmod(day_number(*date) * DAY + clock + nanos, DAY)
    if not 0 <= day <= day_number(9999, 12, 31):
        raise Fault("CalendarRange")
    return date_of(day), rest, zone


def time_in_range(time, start, end):
    """Whether a time is from one to another (A.3.8), which may be on the next day; a bound without zone has the
    time's."""
    own = time[1][1] or 0

    def instant(bound):
        return bound[1][0] - (own if bound[1][1] is None else bound[1][1]) * 60 * SECOND
    return boolean((instant(time) - instant(start)) % DAY <= (instant(end) - instant(start)) % DAY)


for t in TYPES:
    function(V3 if t in DURATIONS else V1, f"{t}-equal", [t, t], "boolean", lambda a, b: boolean(key(a) == key(b)))
for t in ("integer", "string", "time", "date", "dateTime"):
    function(V1, f"{t}-greater-than", [t, t], "boolean", lambda a, b: boolean(key(a) > key(b)))
    function(V1, f"{t}-greater-than-or-equal", [t, t], "boolean", lambda a, b: boolean(key(a) >= key(b)))
    function(V1, f"{t}-less-than", [t, t], "boolean", lambda a, b: boolean(key(a) < key(b)))
    function(V1, f"{t}-less-than-or-equal", [t, t], "boolean", lambda a, b: boolean(key(a) <= key(b)))
TWO = ["integer", "integer"]
function(V1, "integer-add", TWO + ["integer*"], "integer", from_left(lambda a, b: a + b))
function(V1, "integer-multiply", TWO + ["integer*"], "integer", from_left(lambda a, b: a * b))
function(V1, "integer-subtract", TWO, "integer", lambda a, b: integer(a[1] - b[1]))
function(V1, "integer-divide", TWO, "integer", lambda a, b: integer(quotient(a[1], b[1])))
function(V1, "integer-mod", TWO, "integer", lambda a, b: integer(a[1] - b[1] * quotient(a[1], b[1])))
function(V1, "integer-abs", ["integer"], "integer", lambda a: integer(abs(a[1])))
function(V1, "or", ["boolean*"], "boolean", lambda *held: boolean(any(b for _, b in held)))
function(V1, "and", ["boolean*"], "boolean", lambda *held: boolean(all(b for _, b in held)))
function(V1, "n-of", ["integer", "boolean*"], "boolean", n_of)
function(V1, "not", ["boolean"], "boolean", lambda a: boolean(not a[1]))
function(V1, "string-normalize-space", ["string"], "string", lambda a: ("string", a[1].strip(WHITE_SPACE)))
function(V2, "string-concatenate", ["string", "string", "string*"], "string",
         lambda *held: ("string", "".join(s for _, s in held)))
for t in ("string", "anyURI"):
    function(V3, f"{t}-starts-with", ["string", t], "boolean", lambda a, b: boolean(b[1].startswith(a[1])))
    function(V3, f"{t}-ends-with", ["string", t], "boolean", lambda a, b: boolean(b[1].endswith(a[1])))
    function(V3, f"{t}-contains", ["string", t], "boolean", lambda a, b: boolean(a[1] in b[1]))
function(V3, "string-substring", ["string"] + TWO, "string", substring)
for t in ("boolean", "integer", "date", "time", "dateTime", "anyURI") + DURATIONS:
    function(V3, f"string-from-{t}", [t], "string", lambda a: ("string", to_text(a)))
    function(V3, f"{t}-from-string", ["string"], t, from_string(t))
for word, sign in (("add", 1), ("subtract", -1)):
    function(V3, f"dateTime-{word}-dayTimeDuration", ["dateTime", "dayTimeDuration"], "dateTime",
             lambda a, b, sign=sign: ("dateTime", after_nanos(a[1], sign * b[1])))
    function(V3, f"dateTime-{word}-yearMonthDuration", ["dateTime", "yearMonthDuration"], "dateTime",
             lambda a, b, sign=sign: ("dateTime", (after_months(a[1][0], sign * b[1]), *a[1][1:])))
    function(V3, f"date-{word}-yearMonthDuration", ["date", "yearMonthDuration"], "date",
             lambda a, b, sign=sign: ("date", (after_months(a[1][0], sign * b[1]), a[1][1])))
function(V2, "time-in-range", ["time"] * 3, "boolean", time_in_range)


def is_among(value, others):
    """Whether the value equals one of the others."""
    return any(key(value) == key(other) for other in others)


def distinct(values):
    """Each value at its first appearance alone."""
    found = {}
    for value in values:
        found.setdefault(key(value), value)
    return list(found.values())


def subset(first, second):
    """Whether each value of the first is among the second (A.3.11)."""
    return all(is_among(value, second) for value in first)


def one_and_only(values):
    """The one value of a bag (A.3.10)."""
    if len(values) != 1:
        raise Fault("NotOne")
    return values[0]


# What the bag functions give for the lists of values that their arguments stand for; a list for a bag.
BAG_FUNCTIONS = {
    "one-and-only": one_and_only,
    "bag-size": lambda values: ("integer", len(values)),
    "is-in": lambda value, values: boolean(is_among(value[0], values)),
    "bag": lambda *values: [value for one in values for value in one],
    "intersection": lambda first, second: distinct([value for value in first if is_among(value, second)]),
    "union": lambda *bags: distinct([value for bag in bags for value in bag]),
    "at-least-one-member-of": lambda first, second: boolean(any(is_among(value, second) for value in first)),
    "subset": lambda first, second: boolean(subset(first, second)),
    "set-equals": lambda first, second: boolean(subset(first, second) and subset(second, first)),
}


def by_places(stop, booleans):
    """The join of booleans that are made one after another, until the one that stops it; a fault made
    before is the result."""
    for held in booleans:
        if held == stop:
            return stop
    return not stop


def higher_order(name, meaning, arguments):
    """What the function gives for the inner function and the lists of values that the arguments stand for."""
    if name == "map":
        return [meaning(*choice) for choice in itertools.product(*arguments)]
    if max(map(len, arguments), default=0) > 100:
        # a value that stands again gives what it gave before, and didn't decide there
        arguments = [list(dict.fromkeys(argument)) for argument in arguments]
    if math.prod(map(len, arguments)) > 10**6 and name.startswith("any-of") and meaning in RISING:
        # what is True with a False is True with the True beside it
        arguments = [[boolean(True)] if boolean(True) in argument else list(dict.fromkeys(argument))
                     for argument in arguments]
    choices = itertools.product(*arguments)
    if name in ("any-of", "any-of-any"):
        return boolean(by_places(True, (meaning(*choice)[1] for choice in choices)))
    if name == "all-of":
        return boolean(by_places(False, (meaning(*choice)[1] for choice in choices)))
    first, second = arguments
    enough = name == "all-of-any"
    return boolean(by_places(False, (by_places(enough, (meaning(v, w)[1] for w in second)) for v in first)))


# Functions of booleans that never turn False, or to a fault or from one, as one of the booleans turns True.
RISING = [FUNCTIONS[V1 + name][2] for name in ("or", "and", "n-of")]

HIGHER_ORDER = {V3 + name: name for name in ("any-of", "all-of", "any-of-any", "map")}
HIGHER_ORDER.update({V1 + name: name for name in ("all-of-any", "all-of-all")})


# What the bag functions of a type T take and give; `bag T` is a bag, and `T*` at the end any number.
BAG_SIGNATURES = {
    "one-and-only": (["bag T"], "T"), "bag-size": (["bag T"], "integer"), "is-in": (["T", "bag T"], "boolean"),
    "bag": (["T*"], "bag T"), "intersection": (["bag T", "bag T"], "bag T"),
    "union": (["bag T", "bag T", "bag T*"], "bag T"),
    "at-least-one-member-of": (["bag T", "bag T"], "boolean"), "subset": (["bag T", "bag T"], "boolean"),
    "set-equals": (["bag T", "bag T"], "boolean"),
}


def bag_function_named(name):
    """The bag function of that name, and its type; of the durations each has two names."""
    for data_type in TYPES:
        for beginning in (V1, V3) if data_type in DURATIONS else (V1,):
            verb = name.removeprefix(beginning + data_type + "-")
            if verb != name and verb in BAG_FUNCTIONS:
                return verb, data_type
    return None


def takes_so_many(takes, count):
    """Whether the function takes this many arguments."""
    more = bool(takes) and takes[-1].endswith("*")
    return count >= len(takes) - 1 if more else count == len(takes)


def fits(takes, kinds):
    """Whether arguments of these kinds fit."""
    last = takes[-1] if takes and takes[-1].endswith("*") else None
    needed = takes[:-1] if last else takes
    return (kinds[:len(needed)] == list(needed)
            and all(last and kind == last.rstrip("*") for kind in kinds[len(needed):]))
