"""Inputs that only a limit of work ends, and decision requests to domains with as many bytes of policies as may be
read for one message: rows of a server for the program xa_trials."""
from functions import V1, V2, V3
from unit_documents import (
    apply, designator, inner, literal, match, policy, policy_set, rule, target, to_policy, to_set, variable, written)

LIMIT, REPLY = 800_000_000, 2**24
READING, ROOM = 16_000_000, 2**28
DUTY = {"ObligationId": "o", "FulfillOn": "Permit"}
ACTION_ID = "urn:oasis:names:tc:xacml:1.0:action:action-id"
MOST_DOCUMENT, MOST_BODY = 65_536, 524_288


# ---- messages

def in_a_field(text):
    """A text as a field of a row has it: what JSON escapes by a backslash stays escaped."""
    return text.replace("\\", "\\\\")


def ask(body, domain="acme"):
    """The field of an ask."""
    held = written(body)
    assert len(held) <= MOST_BODY, len(held)
    head = (f"POST /domains/{domain}/pdp HTTP/1.1\\r\\nAuthorization: Bearer acme-token-1\\r\\n"
            f"Content-Length: {len(held)}")
    return f"piece:{head}\\r\\n\\r\\n{in_a_field(held)}"


COMBINED = ask({"Request": {"CombinedDecision": True}})
NO_JSON = ("piece:POST /domains/acme/pdp HTTP/1.1\\r\\nAuthorization: Bearer acme-token-1\\r\\n"
           "Content-Length: 1\\r\\n\\r\\n{")


def to_ones(count):
    """A set of so many references to one policy."""
    return policy_set("s", [to_policy("p")] * count)


# ---- what only a limit ends: documents, of which the first is the root, and a request

def permits_if(condition, **members):
    return policy("p", Rule=[rule(Condition=condition)], **members)


def permits(duties, **members):
    """A policy that permits, with these obligations."""
    return policy("p", **members, Rule=[rule()], ObligationExpressions=duties)


def assigning(attribute, expression, times=1):
    """An obligation with so many assignments of the attribute."""
    return {**DUTY, "AttributeAssignmentExpression": [{"AttributeId": attribute, "Expression": expression}] * times}


def joined_to_itself(first, count):
    """So many variables, of which each is the one before joined to itself."""
    steps = [{"VariableId": "v0", "Expression": literal("string", first)}]
    return steps + [{"VariableId": f"v{n}",
                     "Expression": apply(V2 + "string-concatenate", *[variable(f"v{n - 1}")] * 2)}
                    for n in range(1, count)]


def resource(times=1, is_included=False, **values):
    """A request of one resource with these attributes, so many times."""
    attributes = [{"AttributeId": name, "Value": held, "IncludeInResult": is_included,
                   **({"DataType": "time"} if name.startswith("time") else {})} for name, held in values.items()]
    asked = {"Resource": {"Id": "r", "Attribute": attributes}}
    if times > 1:
        asked["MultiRequests"] = {"RequestReference": [{"ReferenceId": "r"}] * times}
    return {"Request": asked}


def doubling_variables():
    condition = apply(V1 + "string-equal", variable("v59"), literal("string", "x"))
    return [permits_if(condition, VariableDefinition=joined_to_itself("x" * 100, 60))], resource()


def map_of_long_text():
    joined = apply(V3 + "map", inner(V2 + "string-concatenate"),
                   apply(V1 + "string-one-and-only", designator("one")), designator("many"))
    size = apply(V1 + "string-bag-size", joined)
    return ([permits_if(apply(V1 + "integer-greater-than", size, literal("integer", 0)))],
            resource(one="x" * 100_000, many=["y"] * 40_000))


def many_matches():
    draft = policy("p", Target=target(match(V1 + "string-equal", "string", "none"), alternatives=200))
    return [to_ones(999), draft], resource(64, a=[f"value {n}" for n in range(10_000)])


def many_obligations():
    return [to_ones(999), permits([DUTY] * 1_500)], resource(64)


def long_assignments():
    return [permits([assigning("x" * 60_000, designator("a", "integer"))])], resource(a=[1] * 130_000)


def escaped_assignments():
    """Assignments of a text of control characters, each of which is six bytes in the response."""
    steps = joined_to_itself("\x01" * 1_000, 10)
    return [permits([assigning("a", variable("v9"), 200)], VariableDefinition=steps)], resource(4)


def included_values():
    return [policy("p", Rule=[rule()])], resource(64, True, a=["x"] * 65_000)


def long_names():
    """931 policies whose ids are written by six bytes a byte, each named by 64 individual requests."""
    held = [policy("\x01" * 512, Rule=[rule()])] * 19
    asked = {"Request": {"ReturnPolicyIdList": True, "Action": [{}] * 64}}
    return [policy_set("s", [to_set("t")] * 49), policy_set("t", held)], asked


def all_beginnings():
    condition = apply(V1 + "all-of-all", inner(V3 + "string-starts-with"), designator("a"), designator("b"))
    return [permits_if(condition)], resource(a=[""] * 40_000, b=[""] * 40_000)


def any_time_in_range():
    bags = [designator(f"time{n}", "time") for n in range(3)]
    values = {f"time{n}": [f"{12 + n}:00:00"] * 5_000 for n in range(3)}
    return [permits_if(apply(V3 + "any-of-any", inner(V2 + "time-in-range"), *bags))], resource(**values)


def any_or():
    two = apply(V1 + "boolean-bag", *[literal("boolean", False)] * 2)
    return [permits_if(apply(V3 + "any-of-any", inner(V1 + "or"), *[two] * 40))], resource()


ENDED = [
    ("60 variables, each the one before joined to itself", doubling_variables),
    ("map of a text of 100,000 bytes over a bag of 40,000", map_of_long_text),
    ("64 individuals, 999 references, 200 matches on 10,000 texts", many_matches),
    ("64 individuals, 999 references, 1,500 obligations", many_obligations),
    ("an id of 60,000 bytes with each of 130,000 values", long_assignments),
    ("4 times 200 assignments of 512,000 control characters", escaped_assignments),
    ("64 times 65,000 values that are included", included_values),
    ("64 individuals, 931 policies named by 512 control characters", long_names),
    ("all-of-all of string-starts-with, two bags of 40,000", all_beginnings),
    ("any-of-any of time-in-range, three bags of 5,000", any_time_in_range),
    ("any-of-any of or over 40 bags of two", any_or),
]


def limited_row(documents, body):
    """The row of a server with the limits, asked that and then what costs little."""
    texts = [written(draft) for draft in documents]
    assert all(len(held) <= MOST_DOCUMENT for held in texts), [len(held) for held in texts]
    root = "root:set|s|||" if "PolicySet" in documents[0] else "root:policy|p|||"
    return ["server_in_memory", f"limit:{LIMIT}", f"reply:{REPLY}", "domain:acme", "ask:acme-token-1",
            *("document:" + in_a_field(held) for held in texts), root, ask(body), COMBINED]


# ---- what an ask of a large domain costs: the fields of domains, and asks

def rule_of_action(number):
    """A rule of some 500 bytes that permits the one action with this number."""
    action = match(V1 + "string-equal", "string", f"action-{number:03}", ACTION_ID, category="Action")
    return {"RuleId": str(number), "Effect": "Permit", "Target": target(action)}


def large_policy(name, size):
    """A policy of rules, of about so many bytes, that applies to nothing that is asked."""
    none = match(V1 + "string-equal", "string", name, "urn:none")
    rules = size // (len(written(rule_of_action(100))) + 1) - 1
    draft = policy(name, Target=target(none), Rule=[rule_of_action(number) for number in range(rules)])
    assert size - 1_500 < len(written(draft)) <= MOST_DOCUMENT
    return draft


def domain(name, documents, root):
    """The fields that make a domain of these documents."""
    return [f"domain:{name}", "ask:acme-token-1", *("document:" + written(draft) for draft in documents), *root]


def of_policies(name, size, root=("root:set|s|||",), led_to=255, times=1):
    """A domain of 255 policies of about so many bytes each, which differ from those of others, and of a root that
    refers to so many of them, so many times."""
    documents = [large_policy(f"{name}-{number}", size) for number in range(255)]
    documents.append(policy_set("s", [to_policy(f"{name}-{number}") for number in range(led_to)] * times))
    return domain(name, documents, root)


def too_costly(name, size):
    """The same, of 254 policies and one more that asks for more work than may be done."""
    costly, _ = doubling_variables()
    documents = [large_policy(f"{name}-{number}", size) for number in range(254)] + costly
    documents.append(policy_set("s", [to_policy(draft["Policy"]["PolicyId"]) for draft in documents]))
    return domain(name, documents, ["root:set|s|||"])


def other_asks(name, first, count):
    """Asks that differ in their subject, so that none of their responses is held."""
    return [ask({"Request": {"AccessSubject": {"Id": f"person {number}"}}}, name)
            for number in range(first, first + count)]


def in_turn(count, *names):
    """So many asks of each domain, in turn."""
    return [one for number in range(count) for name in names for one in other_asks(name, number, 1)]


READ, TOO_MUCH = 60_000, 65_000
# (there is room for the views of two)
THREE = ("acme", "beta", "gamma")


def large_asks(most_seconds):
    """What is asked, what comes before and isn't counted, the asks, the most seconds of processor time for one of
    them, and the statuses of the replies."""
    kept, too_much = of_policies("acme", READ), of_policies("acme", TOO_MUCH)
    first, again = other_asks("acme", 0, 1), other_asks("acme", 0, 20)
    before = other_asks("acme", 1_000, 1)
    return [
        ("no JSON", kept, [NO_JSON] * 100, 0.001, {"400"}),
        ("a combined decision", kept, [COMBINED] * 100, 0.001, {"200"}),
        ("the domain has no root", of_policies("acme", READ, root=()), again, 0.01, {"200"}),
        ("the root leads to one policy", of_policies("acme", READ, led_to=1), first, 0.1, {"200"}),
        ("the root leads to 255 policies, which are read", kept, first, most_seconds, {"200"}),
        ("the same, once their view is kept", kept + before, again, 0.01, {"200"}),
        ("the root leads to each of them four times: too large a tree", of_policies("acme", READ, times=4), first,
         most_seconds, {"200"}),
        ("the root leads to more than may be read", too_much, first, most_seconds, {"503"}),
        ("the same, once that is known", too_much + before, again, 0.01, {"503"}),
        ("each is refused for its work, so that no view is kept", too_costly("acme", READ),
         other_asks("acme", 0, 2), most_seconds, {"503"}),
        ("three such domains in turn, each driven out", [field for name in THREE for field in of_policies(name, READ)],
         in_turn(2, *THREE), most_seconds, {"200"}),
    ]


def large_row(fields):
    """The row of a server with the limits, of these domains, asked that."""
    return ["server_in_memory", f"limit:{LIMIT}", f"reply:{REPLY}", f"reading:{READING}", f"room:{ROOM}", *fields]
