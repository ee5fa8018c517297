"""The whole walk by the ward's example, and that what it makes is kept."""
import datetime
import json

from serving import CREATED, DONE, OPERATOR, decided, message, reply

from .shared import LIST, TOP, ends_well, expect, in_acme, make_domain, serving, within

WARD = TOP / "examples" / "ward"
POLICY_ID = "urn:example:ward:records"
TEXT = "http://www.w3.org/2001/XMLSchema#string"


# ---- messages and replies

def read(name):
    return (WARD / name).read_text()


def ward_messages():
    """Messages that load the ward's domain, each with its reply."""
    operator, pap = "/operator/domains/ward", "/domains/ward/pap"
    return [(message("PUT", operator, OPERATOR), CREATED),
            (message("POST", f"{operator}/tokens", OPERATOR, '{"Role":"admin","Token":"ward-admin-1"}'), DONE),
            (message("POST", f"{operator}/tokens", OPERATOR, '{"Role":"ask","Token":"ward-asks-1"}'), DONE),
            (message("POST", f"{pap}/policies", "ward-admin-1", read("policy.json")), CREATED),
            (message("PUT", f"{pap}/policy/{POLICY_ID}/1.0/active", "ward-admin-1"), DONE),
            (message("PUT", f"{pap}/root", "ward-admin-1", '{"PolicyIdReference":{"Id":"%s"}}' % POLICY_ID), DONE),
            (message("PUT", "/domains/ward/pip", "ward-admin-1", read("rows.json")), DONE)]


def ask_of(name):
    return message("POST", "/domains/ward/pdp", "ward-asks-1", read(f"request-{name}.json"))


def readings_of_ward():
    """Messages to which the replies show all that is kept of the ward."""
    paths = ("pap/policies", f"pap/policy/{POLICY_ID}/1.0", "pip")
    return [LIST, *(message("GET", f"/domains/ward/{path}", "ward-admin-1") for path in paths)]


def ward_permits(who, at):
    when = {"AttributeId": "urn:example:when", "DataType": "http://www.w3.org/2001/XMLSchema#dateTime",
            "Value": at.strftime("%Y-%m-%dT%H:%M:%SZ")}
    assigned = [{"AttributeId": "urn:example:who", "DataType": TEXT, "Value": who},
                {"AttributeId": "urn:example:what", "DataType": TEXT, "Value": "record-42"}, when]
    result = {"Decision": "Permit", "Obligations": [{"AttributeAssignment": assigned, "Id": "urn:example:log"}],
              "Status": {"StatusCode": {"Value": "urn:oasis:names:tc:xacml:1.0:status:ok"}}}
    return reply("200 OK", json.dumps({"Response": [result]}, separators=(",", ":")), "xacml+json")


def answers_at(who, at):
    """What the ward's policy answers at that second: from 22:00 to 06:00 alice isn't on duty."""
    is_night = not 6 * 3600 < at.hour * 3600 + at.minute * 60 + at.second < 22 * 3600
    return decided("Deny") if who == "alice" and is_night else ward_permits(who, at)


def this_second():
    return datetime.datetime.now(datetime.timezone.utc).replace(microsecond=0)


# ---- the parts

def asks_ward(what, client):
    """Asks the ward's two questions: each reply is that of a second of this moment."""
    for who in ("alice", "bob"):
        before = this_second()
        found = client.ask(ask_of(who))
        count = int((this_second() - before).total_seconds()) + 1
        allowed = [answers_at(who, before + datetime.timedelta(seconds=more)) for more in range(count)]
        within(f"{what}: {who} asks at {before}", found, allowed)


def walk():
    """A domain is made, gets tokens, a policy, a root and rows, is asked, and is there after a stop, after a kill
    and on another port."""
    with serving("walk.db", 2) as served:
        expect("the first line", served.listened(), None)
        with served.client() as client:
            for held, wanted in ward_messages():
                expect(held.split(b"\r\n")[0].decode(), client.ask(held), wanted)
            asks_ward("at first", client)
        replies = served.once(*readings_of_ward())
        expect("the policy's text as it was uploaded", replies[2], reply("200 OK", read("policy.json")))
        document = '{"Active":true,"Id":"%s","Kind":"policy","Version":"1.0"}' % POLICY_ID
        expect("the documents", replies[1], reply("200 OK", '{"Policy":[%s]}' % document))
        ends_well("the walk", served)
    for what in ("after a stop", "once more"):
        with serving("walk.db", 2) as served:
            with served.client() as client:
                asks_ward(what, client)
            expect(f"{what} all is there", served.once(*readings_of_ward()), replies)
            ends_well(what, served)
    for _ in range(2):
        with serving("walk.db") as served:
            expect("all is there, and is killed", served.once(*readings_of_ward()), replies)


def fewer_rows():
    """A source of rows is replaced by a longer and by a shorter one, and is there after each stop."""
    with serving("rows.db", 1) as served:
        make_domain(served)
        ends_well("no rows", served)
    row = {"AttributeId": "a", "Category": "urn:oasis:names:tc:xacml:3.0:attribute-category:action", "DataType": TEXT}
    for count in (2, 40, 3, 0, 1):
        body = json.dumps({"Row": [{**row, "Entity": "", "Value": f"v{place}"} for place in range(count)]},
                          separators=(",", ":"))
        with serving("rows.db", 1) as served:
            expect(f"{count} rows", served.once(in_acme("PUT pip", body)), [DONE])
            ends_well(f"{count} rows", served)
        with serving("rows.db", 1) as served:
            expect(f"{count} rows after a stop", served.once(in_acme("GET pip")), [reply("200 OK", body)])
