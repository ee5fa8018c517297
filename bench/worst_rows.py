"""Inputs that a tenant may send or upload, of a size: rows for the program xa_trials."""
import itertools
import random
from functools import partial

from functions import V1, V2, V3
from unit_documents import (
    apply, designator, literal, match, policy, policy_set, rule, target, to_policy, to_set, written)
from worst_ends import MOST_DOCUMENT, ask, in_a_field, to_ones

EQUAL, STARTS = V1 + "string-equal", V3 + "string-starts-with"
# how much more time twice the size may take, and where it is kept in tables
LINEAR, IN_TABLES = 2.7, 3.3


# ---- functions

def higher(function, called, first, second):
    """A function of a function over two bags of so many values."""
    def row(size):
        bags = [[f"bag:{data_type}", *map(value, range(size))] for data_type, value in (first, second)]
        return ["higher", function, called, *bags[0], *bags[1]]
    return row


def integers(start):
    return ("integer", lambda i: f"+{start + i}")


def all_equal(value):
    return ("integer", lambda i: f"+{value}")


def texts(start):
    return ("string", lambda i: f"+a text that is somewhat longer {start + i}")


def choices(called, *first):
    """Any-of-any over so many bags of two values, after a bag of so many numbers where the function takes one."""
    return lambda size: ["higher", V3 + "any-of-any", V1 + called, *first, *["+1"] * (size if first else 0),
                         *["bag:boolean", "+false", "+false"] * size]


def contains(size):
    return ["apply", V3 + "string-contains", "string:" + "a" * size + "b", "string:" + "a" * (4 * size)]


def union(size):
    """The union of 20 bags, each of the same values."""
    return ["apply", V1 + "integer-union", *["bag:integer", *(f"+{number}" for number in range(size))] * 20]


def joined(size):
    """So many texts of 2,000 bytes, one after another."""
    return ["apply", V2 + "string-concatenate", *["string:" + "x" * 2_000] * size]


def variables(size):
    """An expression that names each of so many variables, and each of these the one before it."""
    fields = ["let:v0", "integer:1"]
    for place in range(1, size):
        fields += [f"let:v{place}", f"({V1}integer-abs", f"variable:v{place - 1}", ")"]
    return ["evaluate", *fields, f"({V1}integer-add", *(f"variable:v{place}" for place in range(size)), ")"]


# ---- documents

def lost_references(size):
    """A set with references to one set so often that the tree has 1,000, each with this many references that lead to
    nothing."""
    documents = [policy_set("s", [to_set("t")] * 999), policy_set("t", [to_set("none")] * size),
                 *(policy(f"p{i}") for i in range(1_020))]
    return ["link", "set|s|||", *map(written, documents)]


def versions(size, count=250, wanted="1.{}"):
    """A root of this many references to so many versions of a policy, by patterns."""
    documents = []
    for minor in range(count):
        document = policy("p")
        document["Policy"]["Version"] = f"1.{minor}"
        documents.append(document)
    children = [{"PolicyIdReference": {"Id": "p", "Version": wanted.format(i % count)}} for i in range(size)]
    return ["link", "set|s|||", *map(written, [policy_set("s", children), *documents])]


def shapes():
    """The shapes of patterns: of at most eight parts each a number, here True, or `*`, and the last maybe `+`."""
    for count in range(9):
        for parts in itertools.product((True, "*"), repeat=count):
            yield from ([*parts, *end] for end in ((), ("+",)) if 0 < count + len(end) <= 8)


def any_shapes(size, count):
    """A tree of this many references to so many versions of a policy, of eight numbers each. Their patterns have all
    shapes in turn, and their bounds pass over half of the versions that match, and leave none."""
    draw, each = random.Random(0), itertools.cycle(shapes())
    held = {tuple(draw.randrange(4) for _ in range(8)) for _ in range(2 * count)}
    held = draw.sample(sorted(held), count)
    children = []
    for _ in range(size):
        first, latest = draw.choice(held), draw.choice(held)
        pattern = [first[place] if part is True else part for place, part in enumerate(next(each))]
        bounds = {"EarliestVersion": "9", "LatestVersion": ".".join(map(str, latest))}
        children.append({"PolicyIdReference": {"Id": "p", "Version": ".".join(map(str, pattern)), **bounds}})
    sets = [policy_set(f"s{at}", children[at:at + 480]) for at in range(0, size, 480)]
    root = policy_set("s", [to_set(f"s{at}") for at in range(0, size, 480)])
    policies = [policy("p") for _ in held]
    for draft, version in zip(policies, held):
        draft["Policy"]["Version"] = ".".join(map(str, version))
    return ["link", "set|s|||", *map(written, [root, *sets, *policies])]


def decide(documents, root, request):
    return ["decide", *("active:" + written(draft) for draft in documents), f"root:{root}", written(request)]


def obligations_carried(size):
    """So many obligations, carried up through 120 nested sets."""
    duty = {"ObligationId": "urn:o", "FulfillOn": "Permit"}
    documents, child = [policy("end", Rule=[rule()], ObligationExpressions=[duty] * size)], to_policy("end")
    for level in range(15):
        for place in range(7):
            child = policy_set(f"inner{place}", [child])
        documents.append(policy_set(f"s{level}", [child]))
        child = to_set(f"s{level}")
    return decide(documents, "set|s14|||", {"Request": {}})


def policies_named(size):
    """A set of so many references to one policy, and 64 individual requests that ask which policies led to their
    decisions."""
    references = {"RequestReference": [{"ReferenceId": []}] * 64}
    request = {"Request": {"ReturnPolicyIdList": True, "MultiRequests": references}}
    return decide([to_ones(size), policy("p", Rule=[rule()])], "set|s|||", request)


def request_of(values):
    """A request of one resource, whose attribute has these values."""
    return {"Request": {"Resource": {"Attribute": [{"AttributeId": "urn:a", "Value": values}]}}}


def matches(function, count, values):
    """A policy of so many matches that are all false, on a bag of so many texts."""
    draft = policy("p", Target=target(match(function, "string", "value none", "urn:a"), alternatives=count))
    assert len(written(draft)) <= MOST_DOCUMENT
    return decide([draft], "policy|p|||", request_of([f"value {i}" for i in range(values)]))


def matches_named(size):
    """A set that names so often a policy of 100 matches that are all false, on a bag of 40 times as many texts."""
    draft = policy("p", Target=target(match(EQUAL, "string", "value none", "urn:a"), alternatives=100))
    return decide([to_ones(size), draft], "set|s|||", request_of([f"value {i}" for i in range(40 * size)]))


def bag_named(count, values):
    """A condition that names a bag of so many integers so often, and looks in it for one that it hasn't."""
    each = apply(V1 + "integer-is-in", literal("integer", 2), designator("urn:a", "integer"))
    draft = policy("p", Rule=[rule(Condition=apply(V1 + "or", *[each] * count))])
    assert len(written(draft)) <= MOST_DOCUMENT
    return decide([draft], "policy|p|||", request_of([1] * values))


# ---- messages

def head(size):
    """A head of so many bytes that comes a byte a piece."""
    text = "GET / HTTP/1.1\\r\\n" + "x:yyyyyyyyyyyyyyyyyyyyyyyyyyyyyyyyyyyyyyyyyyyyyyyyyyyyyyyyyyyyyyyyyyy"
    pieces, at = [], 0
    while len(pieces) < size:
        step = 2 if text[at % len(text)] == "\\" else 1
        pieces.append(text[at:at + step] if at < len(text) else "y")
        at += step
    return ["stream", *pieces]


def head_to_server(size):
    """A head of so many bytes, of lines of 250, that comes to a server a byte a piece."""
    text = "GET / HTTP/1.1\n" + ("x" * 248 + ":\n") * (size // 250)
    return ["server_in_memory", *("piece:" + ("\\n" if byte == "\n" else byte) for byte in text[:size])]


ACME = ["domain:acme", "ask:acme-token-1", "document:" + written(policy("p")), "root:policy|p|||"]


def asks_at_once(count):
    """So many asks in one piece."""
    text = ask({"Request": {}}).removeprefix("piece:")
    return ["server_in_memory", *ACME, "piece:" + text * count]


# ---- what is kept in tables

def in_tables(*pieces):
    return ["server_in_tables", *ACME, "admin:acme-admin-1", *("piece:" + piece for piece in pieces)]


def sent(request, token, body=""):
    """A message, as a field of a row has it."""
    length = f"Content-Length: {len(body)}\\r\\n" if body else ""
    return f"{request} HTTP/1.1\\r\\nAuthorization: Bearer {token}\\r\\n{length}\\r\\n{in_a_field(body)}"


def by_admin(request, body=""):
    method, path = request.split(" ")
    return sent(f"{method} /domains/acme/{path}", "acme-admin-1", body)


def rows_put(size):
    """So many rows of a source, put and shown."""
    rows = [{"AttributeId": "a", "Category": "urn:c", "DataType": "string", "Entity": "", "Value": str(number)}
            for number in range(size)]
    return in_tables(by_admin("PUT pip", written({"Row": rows})), by_admin("GET pip"))


def domains_made(size):
    """So many domains, listed ten times."""
    made = "".join(sent(f"PUT /operator/domains/d{number}", "operator-token-1") for number in range(size))
    return in_tables(made, sent("GET /operator/domains", "operator-token-1") * 10)


# what it is, its row of a size, a size, and how much more time twice that may take
LINES = [
    ("any-of-any of equal integers, two bags of n",
     higher(V3 + "any-of-any", V1 + "integer-equal", integers(0), integers(10**6)), 80_000, LINEAR),
    ("any-of-any of equal texts, two bags of n",
     higher(V3 + "any-of-any", V1 + "string-equal", texts(0), texts(10**6)), 40_000, LINEAR),
    ("all-of-any of equal integers, two bags of n",
     higher(V1 + "all-of-any", V1 + "integer-equal", integers(0), integers(0)), 80_000, LINEAR),
    ("all-of-all of equal integers, two bags of n",
     higher(V1 + "all-of-all", V1 + "integer-equal", all_equal(7), all_equal(7)), 160_000, LINEAR),
    ("any-of-any by order, two bags of n",
     higher(V3 + "any-of-any", V1 + "integer-greater-than", integers(0), integers(10**6)), 160_000, LINEAR),
    ("all-of-all by order, two bags of n",
     higher(V1 + "all-of-all", V1 + "integer-less-than", integers(0), integers(10**6)), 160_000, LINEAR),
    ("any-of-any of or over n bags of two", choices("or"), 80_000, LINEAR),
    ("any-of-any of and over n bags of two", choices("and"), 80_000, LINEAR),
    ("any-of-any of n-of by n numbers over n bags of two", choices("n-of", "bag:integer"), 80_000, LINEAR),
    ("string-contains, n in 4n", contains, 500_000, LINEAR),
    ("the union of 20 bags of n integers", union, 8_000, LINEAR),
    ("n texts of 2,000 bytes, joined", joined, 1_000, LINEAR),
    ("an expression that names n variables", variables, 8_000, LINEAR),
    ("a tree of 1,000 sets with n references each that lead nowhere", lost_references, 600, LINEAR),
    ("a root of n references over 250 versions", versions, 250, LINEAR),
    ("a root of n references by *.1.N over 1,000 versions", partial(versions, count=1_000, wanted="*.1.{}"), 600,
     LINEAR),
    ("a tree of n references of all shapes over 1,014 versions", partial(any_shapes, count=1_014), 2_048, LINEAR),
    ("a tree of 4,096 references of all shapes over n versions", partial(any_shapes, 4_096), 507, LINEAR),
    ("a tree of n references of all shapes over 730 versions", partial(any_shapes, count=730), 69_000, LINEAR),
    ("n obligations through 120 nested sets", obligations_carried, 500, LINEAR),
    ("n policies that each of 64 individuals names", policies_named, 499, LINEAR),
    ("a head of n bytes, a byte a piece", head, 4_000, LINEAR),
    ("a head of n bytes to a server, a byte a piece", head_to_server, 8_000, LINEAR),
    ("256 matches by equality on a bag of n texts", partial(matches, EQUAL, 256), 40_000, LINEAR),
    ("n matches by equality on a bag of 80,000 texts", partial(matches, EQUAL, values=80_000), 128, LINEAR),
    ("100 n matches by equality on a bag of 40 n texts", matches_named, 120, LINEAR),
    ("n namings of a bag of 130,000 integers", partial(bag_named, values=130_000), 64, LINEAR),
    ("130 namings of a bag of n integers", partial(bag_named, 130), 65_000, LINEAR),
    ("n decision requests in one piece", asks_at_once, 2_000, LINEAR),
    ("200 matches by string-starts-with on a bag of n texts", partial(matches, STARTS, 200), 5_000, LINEAR),
    ("n rows of a source, put and shown, in tables", rows_put, 2_048, IN_TABLES),
    ("n domains, made and listed, in tables", domains_made, 1_000, IN_TABLES),
]
