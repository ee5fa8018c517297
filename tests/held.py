"""Memory that both programs hold, counted by a few lines of C before the C library: however many messages of a route
have come, no more is held at once, and none is left at the end; each takes no more allocations than it may, and a
response that is refused for its length no more than one that is sent."""
import collections
import json
import os
import subprocess
import tempfile

from growths import encoded, line
from sent import OPERATOR, UNAVAILABLE, making, message, policy, policy_of, rows_body

# The most bytes that are held at once, those that are held at the end, how many allocations there were, and how many
# bytes they took, told then.
COUNTING = r"""
#define _GNU_SOURCE
#include <dlfcn.h>
#include <malloc.h>
#include <stdio.h>
#include <stdlib.h>

static size_t held, most, count, bytes;

static void *taken(void *place) {
    held += malloc_usable_size(place);
    bytes += malloc_usable_size(place);
    count++;
    if (held > most) most = held;
    return place;
}

void *malloc(size_t size) {
    static void *(*next)(size_t);
    if (!next) next = dlsym(RTLD_NEXT, "malloc");
    return taken(next(size));
}

void *realloc(void *old, size_t size) {
    static void *(*next)(void *, size_t);
    if (!next) next = dlsym(RTLD_NEXT, "realloc");
    size_t before = malloc_usable_size(old);
    void *place = next(old, size);
    if (place || !size) held -= before;
    return place ? taken(place) : place;
}

void free(void *place) {
    static void (*next)(void *);
    if (!next) next = dlsym(RTLD_NEXT, "free");
    held -= malloc_usable_size(place);
    next(place);
}

__attribute__((destructor)) static void tell(void) {
    fprintf(stderr, "%zu %zu %zu %zu\n", most, held, count, bytes);
}
"""

# How often a cycle of messages comes, and then twice as often: decisions and views far more often than so many are
# kept (512 and 128), until the table of those that are kept grows no more.
OFTEN, DECISIONS = 60, 1_000
DOMAINS, RULES = 129, 40
# Bytes of an entry of the transcript, and how many more may be held at once if messages come twice as often.
ENTRY, MOST_MORE = 40_000, 4_096
# Values of one response, the bytes that they may take at once, and those that all allocations for one of them may take.
VALUES, MOST_OF_VALUES, MOST_OF_A_VALUE = 4_097, 16 * 2 ** 20, 16_384
DATES, TIMES = ("urn:dates", "date"), ("urn:times", "dateTime")
# A request with two objects of each category, which is 64 individual requests, and the bytes that a result shows of an
# object: the response has 32 times the bytes of the request.
CATEGORIES, SHOWN, ASSIGNMENTS = 6, 40_000, 100

# What a run has held: the most bytes at once, those that are left at its end, how many allocations it took, and how
# many bytes these had together.
Held = collections.namedtuple("Held", "most left allocations taken")


def counted(words, library, given):
    """What a run holds, and what it writes."""
    surroundings = {**os.environ, "LD_PRELOAD": library}
    with tempfile.TemporaryFile() as input_file:  # (of a pipe a read may give less, which takes other room)
        input_file.write(given)
        input_file.seek(0)
        ran = subprocess.run(words, stdin=input_file, capture_output=True, env=surroundings, check=True)
    return Held(*map(int, ran.stderr.split()[-4:])), ran.stdout


def most_and_left(program, library, transcript):
    """The most bytes that a run over a transcript holds at once, and those that are left at its end."""
    return counted([program, "replay", OPERATOR], library, transcript)[0][:2]


# ---- messages

def telling_policy():
    """A policy that permits, with an obligation that has each date and each time of the request."""
    told = [{"AttributeId": name, "Expression": {"AttributeDesignator": {
        "Category": "Resource", "AttributeId": name, "DataType": data_type, "MustBePresent": False}}}
        for name, data_type in (DATES, TIMES)]
    made = json.loads(policy("Permit"))
    made["Policy"]["ObligationExpressions"] = [{"ObligationId": "o", "FulfillOn": "Permit",
                                                "AttributeAssignmentExpression": told}]
    return json.dumps(made)


def in_acme(request, body=None, token="acme-token-1"):
    method, path = request.split(" ")
    return message(method, f"/domains/acme/{path}", token, body)


def asking(name, data_type, values, domain="acme"):
    """A decision request with an attribute of the resource."""
    attribute = {"AttributeId": name, "DataType": data_type, "Value": values}
    body = json.dumps({"Request": {"Resource": {"Attribute": [attribute]}}})
    return message("POST", f"/domains/{domain}/pdp", f"{domain}-token-1", body)


def day(number):
    return f"{1000 + number // 28:04}-01-{number % 28 + 1:02}"


def ruled_policy(number):
    """A policy of so many rules that it takes most of what is done to read it."""
    rules = ",".join(f'{{"RuleId":"r{rule}","Effect":"Permit"}}' for rule in range(RULES))
    return policy_of(rules, f"urn:r{number}")


def on_beta(method, more="", body=None):
    return message(method, f"/operator/domains/beta{more}", OPERATOR, body)


def beginning():
    """Messages that make the domains, each with that policy."""
    names = ["acme", *(f"d{number}" for number in range(DOMAINS))]
    return [held for name in names for held, _ in making(name, f"{name}-token-1", telling_policy())]


# Two roots that lead to one policy.
ROOTS = '{"PolicyIdReference":{"Id":"urn:p"}}', '{"PolicyIdReference":{"Id":"urn:p","Version":"1.0"}}'

# What is sent again and again, by name, each time with another number: it begins in the state in which it ends.
CYCLES = {
    "domains and tokens": lambda _: [
        on_beta("PUT"), message("GET", "/operator/domains", OPERATOR),
        on_beta("POST", "/tokens", '{"Role":"ask","Token":"beta-token-1"}'),
        message("POST", "/domains/beta/pdp", "beta-token-1", "{"),
        on_beta("DELETE", "/tokens", '{"Token":"beta-token-1"}'), on_beta("DELETE")],
    "documents": lambda _: [
        in_acme("POST pap/policies", policy("Deny", "urn:q")), in_acme("GET pap/policy/urn:q/1.0"),
        in_acme("PUT pap/policy/urn:q/1.0/active"), in_acme("GET pap/policies"),
        in_acme("DELETE pap/policy/urn:q/1.0/active"), in_acme("DELETE pap/policy/urn:q/1.0")],
    "root and rows": lambda _: [in_acme("PUT pap/root", '{"PolicyIdReference":{"Id":"urn:p"}}'),
                                in_acme("PUT pip", rows_body(8_000)), in_acme("GET pip")],
    "a decision that is kept": lambda _: [in_acme("POST pdp", '{"Request":{}}')],
    "a decision that is worked out": lambda number: [asking(*DATES, [day(number)])],
    "a decision that is too long to be kept": lambda number: [asking("urn:n", "string", [f"{number:020}" * 900])],
    "refusals": lambda _: [in_acme("GET pap/policy/urn:q/1.0"), message("GET", "/", OPERATOR),
                           in_acme("GET pip", token="no-token"), in_acme("POST pdp", "{")],
    "a change and an ask": lambda number: [in_acme("PUT pap/root", ROOTS[number % 2]),
                                           in_acme("POST pdp", '{"Request":{}}')],
    "a view that is evicted": lambda number: [asking(*DATES, [day(number)], f"d{number % DOMAINS}")],
    "a policy that is read": lambda number: [
        in_acme("POST pap/policies", ruled_policy(number)), in_acme(f"PUT pap/policy/urn:r{number}/1.0/active"),
        in_acme("PUT pap/root", '{"PolicyIdReference":{"Id":"urn:r%d"}}' % number),
        in_acme("POST pdp", '{"Request":{}}'), in_acme("PUT pap/root", ROOTS[0]),
        in_acme(f"DELETE pap/policy/urn:r{number}/1.0/active"), in_acme(f"DELETE pap/policy/urn:r{number}/1.0")],
}

# How many allocations a cycle may take, and how many bytes these may have together, beside 130 domains: a twelfth more
# than it took when this was written. What is done twice takes more.
MOST_TAKEN = {
    "domains and tokens": (860, 85_000), "documents": (645, 77_000), "root and rows": (365, 159_000),
    "a decision that is kept": (12, 800), "a decision that is worked out": (43, 6_600),
    "a decision that is too long to be kept": (35, 63_500), "refusals": (123, 11_300),
    "a change and an ask": (247, 27_600), "a view that is evicted": (95, 13_900),
    "a policy that is read": (1_400, 353_000),
}


def transcript_of(messages):
    """The messages, in entries of one connection that have equally many bytes."""
    held = b"".join(messages)
    entries = [held[at:at + ENTRY] for at in range(0, len(held), ENTRY)]
    return b"".join(b"0 0 %d\n%b\n" % (len(each), each) for each in entries)


# ---- what is looked at

def faults_of_route(name, few, many, often):
    """What is wrong with the memory of a cycle of messages that came so often, and then twice as often."""
    taken = (many.allocations - few.allocations) / often, (many.taken - few.taken) / often
    if many.most > few.most + MOST_MORE or many.left:
        yield (f"{name}: {few.most} bytes are held at once if it comes {often} times, {many.most} if it comes twice as "
               f"often; {many.left} bytes are left")
    if any(found > most for found, most in zip(taken, MOST_TAKEN[name])):
        yield (f"{name}: it takes {taken[0]:.1f} allocations of {taken[1]:.0f} bytes, and at most "
               f"{MOST_TAKEN[name]} are wanted")


def faults_of_routes(program, library):
    """What is wrong with the memory that the messages of each route take."""
    faults, first = [], beginning()
    for name, cycle in CYCLES.items():
        often = DECISIONS if name.startswith("a ") else OFTEN
        few, many = (counted([program, "replay", OPERATOR], library, transcript_of(
            [*first, *(each for number in range(count) for each in cycle(number))]))[0] for count in (often, 2 * often))
        faults += faults_of_route(name, few, many, often)
    print(f"tests/memory.py: {len(CYCLES)} kinds of messages, and twice as many: {len(faults)} faults")
    return faults


def faults_of_values(program, library):
    """What is wrong with the memory that the texts of many values take in one response."""
    faults = []
    for name, data_type, value in ((*DATES, "2026-11-29"), (*TIMES, "2026-11-29T20:00:00Z")):
        (few, _), (many, written) = (counted([program, "replay", OPERATOR], library, transcript_of(
            [*beginning(), asking(name, data_type, [value] * count)])) for count in (1, VALUES))
        more, taken = many.most - few.most, (many.taken - few.taken) // VALUES
        print(f"tests/memory.py: {more} bytes more are held at once for {VALUES} values of {data_type}, and each takes "
              f"{taken} in all")
        if more > MOST_OF_VALUES or taken > MOST_OF_A_VALUE:
            faults.append(f"{VALUES} values of {data_type} take {more} bytes at once, and each takes {taken}")
        if written.count(f'"Value":"{value}"'.encode()) != VALUES:
            faults.append(f"{VALUES} values of {data_type} aren't answered")
    return faults


def duty_policy():
    """A policy that permits, with an obligation of many assignments: to make one takes more allocations than to write
    it."""
    told = [{"AttributeId": f"a{number}", "Expression": {"AttributeValue": {"DataType": "string", "Value": "v"}}}
            for number in range(ASSIGNMENTS)]
    made = json.loads(policy("Permit"))
    made["Policy"]["ObligationExpressions"] = [{"ObligationId": "o", "FulfillOn": "Permit",
                                                "AttributeAssignmentExpression": told}]
    return json.dumps(made)


def asking_for_much():
    """A decision request whose response shows each of its objects 32 times."""
    shown = [{"AttributeId": "a", "IncludeInResult": True, "Value": "x" * SHOWN}]
    objects = [{"CategoryId": f"urn:c{number // 2}", "Attribute": shown} for number in range(2 * CATEGORIES)]
    return in_acme("POST pdp", json.dumps({"Request": {"Category": objects}}))


def responding(program, library, most):
    """What a row of xa_trials holds in which that is asked, where a response may have so many bytes; and the reply."""
    messages = [*(held for held, _ in making("acme", "acme-token-1", duty_policy())), asking_for_much()]
    row = line(["server_in_memory", f"reply:{most}", *("piece:" + encoded(each) for each in messages)])
    held, written = counted([program], library, row.encode())
    return held, written.rstrip(b"\n").split(b"\t")[-1]


def faults_of_refusals(program, library):
    """What is wrong with the memory and the allocations of a response that is refused for its length: at a quarter of
    it, and at the last of its 64 results, behind which nothing is decided again."""
    sent, reply = responding(program, library, 2 ** 40)
    length = 2 ** CATEGORIES * CATEGORIES * SHOWN
    early, late = (responding(program, library, most) for most in (length // 4, length - SHOWN))
    print(f"tests/memory.py: a response of over {length} bytes takes {sent.allocations} allocations; refused at its "
          f"last result, {late[0].allocations}; at a quarter of it, {early[0].most} bytes are held at once")
    refusal = encoded(UNAVAILABLE).encode()
    faults = [] if len(reply) > length and {early[1], late[1]} == {refusal} else ["a long response is answered wrongly"]
    if early[0].most > length // 2:
        faults.append(f"a response that is refused early takes {early[0].most} bytes")
    if late[0].allocations > sent.allocations:
        faults.append(f"a response that is refused takes {late[0].allocations} allocations, {sent.allocations} if sent")
    return faults
