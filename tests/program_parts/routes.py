"""All routes, in entries that are cut in every way; moments; and the transcripts of examples/."""
from sent import ABSENT, CREATED, DONE, UNAUTHORIZED, decided, message, policy_of, reply, rows_of

from .shared import (
    ASK, DENYING, FIRST_MOMENT, LAST_MOMENT, NO_ROUTE, PERMITTING, REPLY, TOP, by_operator, entry, expect, in_acme,
    making_of, replay, run, written)

ROWS, EMPTY_REQUEST = rows_of("x"), '{"Request":{}}'


# ---- messages to all routes

def conflict(code):
    return reply("409 Conflict", f'{{"Error":"{code}"}}')


def listed(*documents):
    """The reply that lists versions of `urn:p`, each with whether it is active."""
    items = ",".join(f'{{"Active":{active},"Id":"urn:p","Kind":"policy","Version":"{version}"}}'
                     for version, active in documents)
    return reply("200 OK", f'{{"Policy":[{items}]}}')


def of_documents():
    """Messages about documents, each with its reply, that follow those which make `acme`."""
    policies, first, second = "pap/policies", "pap/policy/urn:p/1.0", "pap/policy/urn:p/1.1"
    return [
        (ASK, REPLY),
        (in_acme(f"GET {policies}"), listed(("1.0", "true"))),
        (in_acme(f"GET {first}"), reply("200 OK", policy_of(PERMITTING))),
        (in_acme(f"POST {policies}", policy_of(PERMITTING)), DONE),
        (in_acme(f"POST {policies}", policy_of(DENYING)), conflict("SameVersionOtherText")),
        (in_acme(f"POST {policies}", policy_of(DENYING, version="1.1")), CREATED),
        (ASK, REPLY),
        (in_acme(f"PUT {second}/active"), DONE),
        (ASK, decided("Deny")),
        (in_acme(f"GET {policies}"), listed(("1.0", "true"), ("1.1", "true"))),
        (in_acme(f"DELETE {first}"), conflict("StillActive")),
        (in_acme(f"DELETE {first}/active"), DONE),
        (in_acme(f"DELETE {first}"), DONE),
        (in_acme(f"GET {first}"), ABSENT),
        (in_acme(f"DELETE {second}/active"), DONE),
        (ASK, decided("Indeterminate", "processing-error")),
        (in_acme("PUT pap/root", "{}"), DONE),
        (ASK, decided("NotApplicable")),
    ]


def of_the_others():
    """Messages to the routes that are left, each with its reply, that follow those about documents."""
    return [
        (in_acme("GET pip"), reply("200 OK", '{"Row":[]}')),
        (in_acme("PUT pip", ROWS), DONE),
        (in_acme("GET pip"), reply("200 OK", ROWS)),
        (by_operator("POST /acme/tokens", '{"Role":"ask","Token":"other-token-1"}'), DONE),
        (in_acme("PUT pap/root", "{}", "other-token-1"), reply("403 Forbidden", '{"Error":"Forbidden"}')),
        (in_acme("POST pdp", EMPTY_REQUEST, "other-token-1"), decided("NotApplicable")),
        (by_operator("DELETE /acme/tokens", '{"Token":"other-token-1"}'), DONE),
        (in_acme("POST pdp", EMPTY_REQUEST, "other-token-1"), UNAUTHORIZED),
        (by_operator("PUT /acme"), conflict("Exists")),
        (by_operator("PUT /beta"), CREATED),
        (by_operator("GET "), reply("200 OK", '{"Domain":["acme","beta"]}')),
        (by_operator("PUT /Acme"), reply("400 Bad Request", '{"Error":"BadDomain"}')),
        (in_acme("GET nowhere"), NO_ROUTE),
        (in_acme("PATCH pip"), reply("405 Method Not Allowed", '{"Error":"BadMethod"}', more="Allow: GET, PUT\r\n")),
        (by_operator("DELETE /acme"), DONE),
        (by_operator("DELETE /acme"), ABSENT),
        (ASK, UNAUTHORIZED),
        (by_operator("GET "), reply("200 OK", '{"Domain":["beta"]}')),
    ]


def whole(steps, connection=3):
    """The messages of the steps in one piece, and all that is written to their connection."""
    return b"".join(held for held, _ in steps), b"".join(written(connection, wanted) for _, wanted in steps)


def in_two_entries(held, place):
    return run(entry(3, 0, held[:place]) + entry(3, 0, held[place:]))


def routes():
    """All routes: in one entry, one for each message or byte, on one connection and on many, and in two entries."""
    expect("no domain is made with another token",
           run(entry(0, 0, message("PUT", "/operator/domains/acme", "operator-token-2"))),
           (written(0, UNAUTHORIZED), b"", 0))
    expect("no domain at first", run(entry(0, 0, by_operator("GET ") + ASK)),
           (written(0, reply("200 OK", '{"Domain":[]}')) + written(0, UNAUTHORIZED), b"", 0))
    steps = making_of("acme", PERMITTING) + of_documents() + of_the_others()
    held, wanted = whole(steps)
    expect("all routes in one entry", run(entry(3, 0, held)), (wanted, b"", 0))
    expect("each message in an entry", run(b"".join(entry(3, 0, one) for one, _ in steps)), (wanted, b"", 0))
    expect("each byte in an entry", run(b"".join(entry(3, 0, held[place:place + 1]) for place in range(len(held)))),
           (wanted, b"", 0))
    each = b"".join(entry(number % 64, number, one) for number, (one, _) in enumerate(steps))
    expect("each message on another connection", run(each),
           (b"".join(written(number % 64, one) for number, (_, one) in enumerate(steps)), b"", 0))
    for place in range(1, len(held), 7):
        expect(f"all routes in two entries, cut after {place} bytes", in_two_entries(held, place), (wanted, b"", 0))
    held, wanted = whole(making_of("acme", PERMITTING) + [(ASK, REPLY)])
    for place in range(1, len(held)):
        expect(f"a domain from nothing to a decision, cut after {place} bytes", in_two_entries(held, place),
               (wanted, b"", 0))


def mixed_routes():
    """Domains that are made and asked at the same time, each on a connection of its own, a byte of each in turn."""
    streams = {}
    for connection, domain, rule, decision in ((0, "acme", PERMITTING, "Permit"), (63, "beta", DENYING, "Deny"),
                                               (7, "gamma", "", "NotApplicable")):
        ask = message("POST", f"/domains/{domain}/pdp", f"{domain}-token-1", EMPTY_REQUEST)
        streams[connection] = making_of(domain, rule) + [(ask, decided(decision))] * 3
    bytes_of = {connection: whole(steps)[0] for connection, steps in streams.items()}
    transcript, ends = b"", []
    for place in range(max(map(len, bytes_of.values()))):
        for connection, held in bytes_of.items():
            if place < len(held):
                transcript += entry(connection, 0, held[place:place + 1])
    for turn, (connection, steps) in enumerate(streams.items()):
        end = 0
        for held, wanted in steps:
            end += len(held)
            ends.append((end, turn, written(connection, wanted)))
    wanted = b"".join(held for _, _, held in sorted(ends))
    expect("three domains, a byte of each in turn", run(transcript), (wanted, b"", 0))


def removed():
    """A message is answered by what holds when its last byte comes, whatever held when its first one came."""
    half, rest = entry(1, 0, ASK[:50]), entry(1, 0, ASK[50:])
    remove, make = entry(2, 0, by_operator("DELETE /acme")), entry(2, 0, by_operator("PUT /acme"))
    gone, back = written(2, DONE), written(2, CREATED)
    expect("a domain removed between two asks", replay(half + rest + remove + half + rest),
           (written(1, REPLY) + gone + written(1, UNAUTHORIZED), b"", 0))
    expect("a domain removed within an ask", replay(half + remove + rest), (gone + written(1, UNAUTHORIZED), b"", 0))
    expect("a domain made anew within an ask", replay(remove + half + make + rest),
           (gone + back + written(1, UNAUTHORIZED), b"", 0))
    steps = making_of("acme", DENYING)
    again = b"".join(entry(3, 0, held) for held, _ in steps)
    wanted = written(1, REPLY) + gone + whole(steps)[1] + written(1, decided("Deny"))
    expect("a domain made anew to deny", replay(half + rest + remove + half + again + rest), (wanted, b"", 0))
    withdraw = entry(2, 0, in_acme("DELETE pap/policy/urn:p/1.0/active"))
    expect("a policy withdrawn within an ask", replay(half + withdraw + rest),
           (gone + written(1, decided("Indeterminate", "processing-error")), b"", 0))


# ---- moments

CLOCK = ('{"AttributeDesignator":{"Category":"Environment",'
         '"AttributeId":"urn:oasis:names:tc:xacml:1.0:environment:current-time",'
         '"DataType":"time","MustBePresent":true}}')


def apply(function, *terms):
    return (f'{{"Apply":{{"FunctionId":"urn:oasis:names:tc:xacml:{function}",'
            f'"Expression":[{",".join(terms)}]}}}}')


def time_of_day(text):
    return f'{{"AttributeValue":{{"DataType":"time","Value":"{text}"}}}}'


def moments():
    """A decision is made at the moment of the entry that has the last byte."""
    night = apply("2.0:function:time-in-range", apply("1.0:function:time-one-and-only", CLOCK),
                  time_of_day("22:00:00Z"), time_of_day("06:00:00Z"))
    steps = making_of("acme", f'{{"RuleId":"r","Effect":"Permit","Condition":{night}}}')
    asked = [(82_800, "Permit"), (111_600, "NotApplicable"), (-3_600, "Permit"), (43_200, "NotApplicable"),
             (FIRST_MOMENT, "Permit"), (LAST_MOMENT, "Permit")]
    transcript, wanted = b"".join(entry(0, 0, held) for held, _ in steps), whole(steps, 0)[1]
    for place, (moment, decision) in enumerate(asked):
        transcript += entry(1, asked[place - 1][0], ASK[:60]) + entry(1, moment, ASK[60:])
        wanted += written(1, decided(decision))
    expect("decisions at several moments", run(transcript), (wanted, b"", 0))


# ---- examples

def examples():
    """The transcripts of examples/ with their replies, and whether each file of a folder, but for the desk's (cases,
    the domain) and the walk over sockets, is the body of a message."""
    for folder in ("ward", "company"):
        held = {file.name: file.read_bytes() for file in (TOP / "examples" / folder).iterdir()}
        transcript = held.pop("transcript")
        for other in ("cases.json", "domain.json", "walk"):
            held.pop(other, None)
        expect(f"the example {folder}", run(transcript), (held.pop("replies"), b"", 0))
        for name, body in held.items():
            expect(f"{name} in the transcript of {folder}",
                   b"Content-Length: %d\r\n\r\n%s\n" % (len(body), body) in transcript, True)
