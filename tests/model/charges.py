"""What each step of a decision is charged, in units, by the table of docs/PERFORMANCE.md ("What a unit is"), and the
work that is left of a limit."""

# an expression, a variable that is worked out, a match, a call of its function, an obligation, a bag of the context, an
# individual request and each of its places
STEP = 32
# a value that is compared where it is, and what else only looks: an AnyOf, an AllOf, a stated duty
LOOK = 8
# a value that is made, copied or compared, beside its bytes
VALUE = 16
# a call of an inner function
CALL = 64
# a policy, a set or a rule that is looked at
CHILD = 80
# an assignment that is made, beside what it holds
ASSIGNMENT = 64
# the list of a call's arguments
LIST = 16
# beside its texts and values: an attribute, a Category object, an obligation and a result
MEMBERS = 128
# a byte that an escape adds to a text
ESCAPED = 7
# a literal, beside the step of its expression and its value
LITERAL = VALUE
# a call of a function of booleans, beside the step of its expression
LOGIC = LOOK
# a variable that is worked out, beside its expression
VARIABLE = STEP
# what is printed takes so much beside its value, by its type
PRINTING = {
    "dateTime": 192, "dayTimeDuration": 192, "time": 128, "date": 96, "yearMonthDuration": 64, "hexBinary": 64,
    "base64Binary": 64, "boolean": 32, "integer": 32, "string": 0, "anyURI": 0,
}
# how many items are looked at one after another where one is searched for; more are in order
FEW = 8
# a search among more: each time that they are halved
HALVING = 48
# a policy or a set that is named, beside its id and version
NAME = 32
# each number of its version
NUMBER = 10
# with how many others a value is compared at most that is searched for
COMPARISONS = 32
# of how many values a bag is large
LARGE = 256
# how often the large bags of a request are searched value by value before they are put in order
SCANS = 16
# how often the units count of each value of a large bag that is put in order, and of one that is searched for in it
ORDERED = 18


# ---- the work that is left

class Refused(Exception):
    """More is asked for than the limit allows."""


class WantsOrder(Exception):
    """The large bags of the request are searched so often that their values are put in order."""


class Work:
    """What is left of the work, and of the looks at values of large bags, which hold so many values together."""

    def __init__(self, limit, large=0):
        self.left, self.scans, self.is_ordered = limit, large * SCANS, False

    def spend(self, count):
        """Takes so many units of what is left."""
        if count > self.left:
            raise Refused
        self.left -= count

    def scan(self, count):
        """That so many values of a large bag are looked at one after another."""
        if count > self.scans:
            raise WantsOrder
        self.scans -= count


# ---- values, as they are made, copied or compared

def length(text):
    """The bytes of a text; none if there is no text."""
    return len(text.encode()) if text is not None else 0


def bytes_of(value):
    """The bytes of a value's text or of its binary."""
    data_type, held = value
    if data_type in ("string", "anyURI"):
        return length(held)
    return len(held) if data_type in ("hexBinary", "base64Binary") else 0


def units_of(value):
    """What a value takes that is made, copied or compared."""
    return VALUE + bytes_of(value)


def units(values):
    """What values take together."""
    return sum(map(units_of, values))


# ---- values and texts, as they are written

def escaped(text):
    """What it is to write a text in JSON: its bytes, and seven for each byte that its escapes add (RFC 8259,
    section 7)."""
    if text is None:
        return 0
    short = sum(text.count(one) for one in '"\\\b\f\n\r\t')
    long = sum(ord(one) < 32 and one not in "\b\f\n\r\t" for one in text)
    return length(text) + ESCAPED * (short + 5 * long)


def written(value):
    """What it is to write a value."""
    data_type, held = value
    if data_type in ("string", "anyURI"):
        return VALUE + escaped(held)
    more = {"hexBinary": lambda: len(held), "base64Binary": lambda: len(held) // 3}.get(data_type, lambda: 0)()
    return units_of(value) + PRINTING[data_type] + more


# ---- calls of functions, and searches

def rate(function):
    """What a call of a function of values takes beside a step: for itself, and how often its arguments."""
    name = function.rsplit(":", 1)[1]
    if name == "string-substring":
        return STEP, 3
    if name in ("string-normalize-space", "string-concatenate"):
        return STEP, 1
    if name.endswith("-contains"):
        return 128, 4
    if name.startswith("string-from-"):
        return STEP + PRINTING[name.removeprefix("string-from-")], 1
    if name.endswith("-from-string"):
        return 2 * STEP, 1
    moves_a_day = name.startswith(("dateTime-add-", "dateTime-subtract-", "date-add-", "date-subtract-"))
    return (64 if moves_a_day else 0), 1


def of_calls(function, count, arguments):
    """The units of so many calls, whose arguments take so much together."""
    call, times = rate(function)
    return call * count + times * arguments


def of_search(count):
    """The units of a search among so many items."""
    return HALVING * count.bit_length() if count > FEW else 0


def among(count):
    """With how many of so many others a value is compared at most that is searched for among them."""
    return max(1, min(count, COMPARISONS))
