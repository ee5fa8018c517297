"""The limits of one decision request: the bytes of its reply, its work, and the bytes of policies that are read."""
import json
import resource

from checks import Between
from sent import growing_policy, rows_body, written
from serving import CREATED, DONE, UNAVAILABLE, policy, reply

from .shared import ASK, LIST, PERMIT, environment, expect, in_acme, listing, make_domain, serving, within

OK = {"StatusCode": {"Value": "urn:oasis:names:tc:xacml:1.0:status:ok"}}
ALGORITHM = "urn:oasis:names:tc:xacml:3.0:policy-combining-algorithm:deny-overrides"


def response(results):
    return reply("200 OK", written({"Response": results}), "xacml+json")


# ---- replies that are long

def grown_reply(assignments):
    """The reply by that policy."""
    assigned = {"AttributeId": "a", "DataType": "http://www.w3.org/2001/XMLSchema#string", "Value": "\x01" * 512_000}
    return response([{"Decision": "Permit", "Obligations": [{"AttributeAssignment": [assigned] * assignments,
                                                             "Id": "o"}], "Status": OK}])


def to_root(assignments):
    """The message that makes that policy the root."""
    return in_acme("PUT pap/root", json.dumps({"PolicyIdReference": {"Id": f"urn:p{assignments}"}}))


def making_root(assignments):
    """Messages that have that policy taken and make it the root."""
    return [*activating(growing_policy(assignments), f"policy/urn:p{assignments}"), to_root(assignments)]


def activating(document, path):
    """Messages that have a document of acme's taken and made active."""
    return [in_acme("POST pap/policies", document), in_acme(f"PUT pap/{path}/1.0/active")]


def long_replies():
    """A response of more bytes than PDPD_REPLY says, or than 16 MiB, is refused before there is room for it, and the
    next message is answered; with 0 it is sent."""
    for most, wanted in (("110", UNAVAILABLE), ("111", PERMIT)):
        with serving(f"reply-{most}.db", env=environment(PDPD_REPLY=most)) as served:
            make_domain(served)
            expect(f"a response of 111 bytes, where {most} are the most", served.once(ASK, LIST, ASK),
                   [wanted, listing(["acme"]), wanted])
    with serving("long.db") as served:
        make_domain(served)
        served.once(*making_root(5))
        expect("a response of 15 MB", served.once(ASK), [grown_reply(5)])
    with serving("long.db") as served:
        served.once(*making_root(6))
        expect("a response of 18 MB", served.once(ASK, LIST), [UNAVAILABLE, listing(["acme"])])
        served.once(*making_root(200))
        expect("one of 600 MB", served.once(ASK, LIST), [UNAVAILABLE, listing(["acme"])])
        within("the KiB of memory that both took", served.resident(), range(256 * 1024))
    with serving("long.db", env=environment(PDPD_REPLY="0")) as served:
        served.once(to_root(6))
        expect("18 MB without a limit", served.once(ASK), [grown_reply(6)])


# ---- work, and what is read

def set_of(set_id, names):
    """A set of references to the policies of those names."""
    children = [{"PolicyIdReference": {"Id": name}} for name in names]
    return written({"PolicySet": {"PolicySetId": set_id, "Version": "1.0", "PolicyCombiningAlgId": ALGORITHM,
                                  "Children": children}})


def asked_by_root(served, set_id, ask=ASK):
    """What is answered once that set is the root."""
    return served.once(in_acme("PUT pap/root", json.dumps({"PolicySetIdReference": {"Id": set_id}})), ask)


def limits():
    """PDPD_WORK and PDPD_READING limit what an ask may take, beside all that else is set; with 0 neither does. An
    ask takes 32 units, a policy 80, a rule 80 and a result 128."""
    for name, takes in (("PDPD_WORK", 32 + 80 + 80 + 128), ("PDPD_READING", len(policy()))):
        for value, wanted in ((takes, PERMIT), (takes - 1, UNAVAILABLE), (0, PERMIT)):
            with serving(f"{name}-{value}.db", env=environment(**{name: str(value)})) as served:
                make_domain(served)
                expect(f"an ask that takes {takes} under {name}={value}", served.once(ASK, LIST),
                       [wanted, listing(["acme"])])


# Each limit with one that is a unit too low for an ask, and how a line names it.
TOO_LOW = (("PDPD_WORK", 319, "more work than the limit"), ("PDPD_REPLY", 110, "a longer response than the limit"),
           ("PDPD_READING", len(policy()) - 1, "more policies to read than the limit"))


def refusals_in(lines):
    """Of how many messages that were refused the lines tell, themselves or as others before."""
    return len(lines) + sum(int(line.partition("; and ")[2].partition(" ")[0] or 0) for line in lines)


def refusals_told(served, reason):
    """The lines of a program that refuses each ask, about three on one connection: the domain, the reason and no
    token, and each refused message once."""
    make_domain(served)
    expect(f"asks with {reason}", served.once(ASK, ASK, LIST, ASK), [UNAVAILABLE, UNAVAILABLE, listing(["acme"]),
                                                                     UNAVAILABLE])
    expect("another connection", served.once(LIST), [listing(["acme"])])
    served.kill()
    lines = served.said.decode().splitlines()
    line = f"pdpd: refused a message of acme: {reason}"
    expect(f"lines about {reason}", {told.partition("; and ")[0] for told in lines}, {line})
    expect(f"messages refused by {reason}", refusals_in(lines), 3)


def limits_told():
    """A line on standard error tells of a message that is refused its domain, and by which limit it was."""
    for name, value, reason in TOO_LOW:
        with serving(f"told-{name}.db", env=environment(**{name: str(value)})) as served:
            refusals_told(served, reason)


def told_of(served, reason):
    """The lines of a program that has refused one message of acme for that, once its connection has ended."""
    expect("another connection", served.once(LIST), [listing(["acme"])])
    served.kill()
    expect(f"lines about {reason}", served.said.decode().splitlines(), [f"pdpd: refused a message of acme: {reason}"])


def failures_told():
    """And of one that is refused without memory, or since the storage fails, a line tells which of both it was."""
    with serving("failures.db") as served:
        make_domain(served)
        served.once(in_acme("PUT pip", rows_body(520_000)))
        with open(f"/proc/{served.process.pid}/statm") as held:
            room = int(held.read().split()[0]) * resource.getpagesize()
        resource.prlimit(served.process.pid, resource.RLIMIT_AS, (room, resource.RLIM_INFINITY))
        expect("rows without memory for them", served.once(in_acme("GET pip")), [UNAVAILABLE])
        told_of(served, "out of memory")
    # Python ignores SIGXFSZ, and so the program does then
    with serving("failures.db", restore_signals=False) as served:
        resource.prlimit(served.process.pid, resource.RLIMIT_FSIZE, (1, resource.RLIM_INFINITY))
        expect("a file that may not grow", served.once(in_acme("PUT pip", '{"Row":[]}')), [UNAVAILABLE])
        told_of(served, "the storage failed")


def much_asked(served, rules):
    """What is answered to 64 individual requests, each of two objects, by a set that names a policy of so
    many rules 999 times."""
    held = json.loads(policy("Permit", f"urn:p{rules}"))
    held["Policy"]["Rule"] = [{"RuleId": f"r{number}", "Effect": "Permit"} for number in range(rules)]
    ask = in_acme("POST pdp", json.dumps({"Request": {"Resource": [{}] * 8, "Action": [{}] * 8}}))
    make_domain(served)
    served.once(*activating(written(held), f"policy/urn:p{rules}"),
                *activating(set_of("urn:s", [f"urn:p{rules}"] * 999), "policyset/urn:s"))
    return asked_by_root(served, "urn:s", ask)


def work_unless_set():
    """Where PDPD_WORK isn't set an ask may take 150,000,000 units, and by 0 more. An individual request takes 32,
    each of its objects too, a set 80, a result 128."""
    permits = response([{"Decision": "Permit", "Status": OK}] * 64)
    for rules, settings in ((28, {}), (29, {}), (29, {"PDPD_WORK": "0"})):
        units = 64 * (32 + 2 * 32 + 80 + 999 * (80 + 80 * rules) + 128)
        with serving(f"work-{rules}-{len(settings)}.db", env=environment(**settings)) as served:
            wanted = permits if settings or units <= 150_000_000 else UNAVAILABLE
            expect(f"an ask that takes {units:,} units", much_asked(served, rules), [DONE, wanted])


def policy_of_size(name, size):
    return policy("Permit", name, description="x" * (size - len(policy("Permit", name, description=""))))


def read_much():
    """Messages that make two sets of 250 policies each: what is read for one is 16,000,000 bytes, and a byte
    more for the other."""
    names = [f"urn:m{number}" for number in range(1, 250)]
    named = {"urn:s": [*names, "urn:a"], "urn:t": [*names, "urn:b"]}
    rest = 16_000_000 - 249 * 64_000 - len(set_of("urn:s", named["urn:s"]))
    sizes = {**dict.fromkeys(names, 64_000), "urn:a": rest, "urn:b": rest + 1}
    messages = [one for name, size in sizes.items() for one in activating(policy_of_size(name, size), f"policy/{name}")]
    return messages + [one for name in named for one in activating(set_of(name, named[name]), f"policyset/{name}")]


def seconds_again(served):
    """The processor time of another ask, once one was answered."""
    expect("an ask", served.once(ASK), [PERMIT])
    began = served.processor_seconds()
    expect("another", served.once(in_acme("POST pdp", '{"Request":{} }')), [PERMIT])
    return served.processor_seconds() - began


def reading_and_views():
    """Where PDPD_READING isn't set 16,000,000 bytes of policies may be read for an ask, and by 0 more. They are
    read once, and by PDPD_VIEWS=0 for each ask."""
    with serving("reading.db") as served:
        make_domain(served)
        expect("documents that are taken and made active", set(served.once(*read_much())), {CREATED, DONE})
        expect("16,000,001 bytes", asked_by_root(served, "urn:t"), [DONE, UNAVAILABLE])
        expect("16,000,000 bytes", asked_by_root(served, "urn:s"), [DONE, PERMIT])
        kept = seconds_again(served)
    with serving("reading.db", env=environment(PDPD_VIEWS="0")) as served:
        within("by PDPD_VIEWS=0 an ask that was answered takes over four times as long", seconds_again(served),
               Between(4 * kept))
    with serving("reading.db", env=environment(PDPD_READING="0")) as served:
        expect("16,000,001 bytes without a limit", asked_by_root(served, "urn:t"), [DONE, PERMIT])
