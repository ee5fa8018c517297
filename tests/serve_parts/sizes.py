"""Sizes far past those of other tests, each within the limits of docs/guide/API.md: a call that gives up there, as its
contract lets it for want of memory, is answered with 503, and a store that has them isn't opened."""
import json

from serving import ABSENT, CREATED, DONE, OPERATOR, answered, fault, message, policy, reply

from .limits import OK, growing_policy, response
from .shared import (
    ASK, LIST, PERMIT, creates, environment, expect, in_acme, listing, make_domain, room_in_memory, serving)

ROWS, DOCUMENTS, BODY = 4_096, 1_024, 524_288
STARTED = CREATED[:12].decode()
ROW = ('{"AttributeId":"a","Category":"urn:c","DataType":"http://www.w3.org/2001/XMLSchema#string","Entity":"","Value":'
       '"%s"}')


def long_parts():
    """Parts of a path, with each letter as three bytes and as one, up to nearly the longest head."""
    with serving("parts.db") as served:
        make_domain(served)
        for letter, counts in (("%61", (682, 683, 1_366, 5_000)), ("a", (2_048, 2_049, 4_097, 15_000))):
            for count in counts:
                part = letter * count
                asked = in_acme(f"GET pap/policy/{part}/1.0"), creates(part)
                expect(f"{count} times {letter} in a path", served.once(*asked),
                       [ABSENT, fault("400 Bad Request", "BadDomain")])


def many_domains():
    """The list of 1,200 domains, before and after a stop."""
    names = [f"d{number:04}" for number in range(1_200)]
    with room_in_memory() as room:
        with serving(f"{room}/domains.db") as served:
            expect("the last of 1,200 domains", answered(served, [creates(name) for name in names]), STARTED)
            expect("1,200 domains", served.once(LIST), [listing(names)])
        with serving(f"{room}/domains.db") as served:
            expect("1,200 domains after a stop", served.once(LIST), [listing(names)])


def long_text():
    """A text of over 8 MB, which a policy joins of two halves and a response has."""
    with serving("joined.db") as served:
        make_domain(served, text=growing_policy(1, "a" * 1_000, 13).replace("urn:p1", "urn:p"))
        assigned = {"AttributeId": "a", "DataType": "http://www.w3.org/2001/XMLSchema#string", "Value": "a" * 8_192_000}
        expect("a text of 8,192,000 bytes", served.once(ASK), [response([
            {"Decision": "Permit", "Obligations": [{"AttributeAssignment": [assigned], "Id": "o"}], "Status": OK}])])


def many_assignments():
    """An assignment of each value of a request, of which there are as many as its body has room for."""
    designator = {"Category": "Action", "AttributeId": "a", "DataType": "integer", "MustBePresent": True}
    held = json.loads(policy())
    each = {"AttributeId": "b", "Expression": {"AttributeDesignator": designator}}
    held["Policy"]["ObligationExpressions"] = [
        {"ObligationId": "o", "FulfillOn": "Permit", "AttributeAssignmentExpression": [each]}]
    begun, ended = '{"Request":{"Action":{"Attribute":{"AttributeId":"a","Value":[', "]}}}}"
    count = (BODY - len(begun) - len(ended) + 1) // 2
    assigned = {"AttributeId": "b", "DataType": "http://www.w3.org/2001/XMLSchema#integer", "Value": 0}
    with serving("assignments.db", env=environment(PDPD_REPLY="0")) as served:
        make_domain(served, text=json.dumps(held))
        expect(f"{count:,} assignments", served.once(in_acme("POST pdp", begun + ",".join("0" * count) + ended)), [
            response([{"Decision": "Permit", "Obligations": [{"AttributeAssignment": [assigned] * count, "Id": "o"}],
                       "Status": OK}])])


def filling(texts, ids, rows, row):
    """Fills acme with documents, each made active, and rows; and beta with one row."""
    def fill(served):
        for name in ("acme", "beta"):
            make_domain(served, name)
        expect("its documents", answered(served, [in_acme("POST pap/policies", each) for each in texts]), STARTED)
        active = [in_acme(f"PUT pap/policy/{name}/1.0/active") for name in ids]
        expect("each is active", answered(served, active), DONE[:12].decode())
        expect("its rows", served.once(in_acme("PUT pip", rows), in_beta("PUT", row)), [DONE, DONE])

    return fill


def in_beta(method, body=None):
    return message(method, "/domains/beta/pip", "beta-token-1", body)


def full_domain():
    """A domain with all that it may have, among it the longest document, and one with the longest row: both are there
    after a stop."""
    ids = [f"urn:m{number:04}" for number in range(DOCUMENTS - 1)]
    longest = policy("Permit", ids[0], description="x" * (65_536 - len(policy("Permit", ids[0], description=""))))
    rows = '{"Row":[%s]}' % ",".join(ROW % number for number in range(ROWS))
    row = '{"Row":[%s]}' % (ROW % ("y" * (BODY - len('{"Row":[%s]}' % (ROW % "")))))
    assert len(longest) == 65_536 and len(row) == BODY >= len(rows)
    asked = [in_acme(f"GET pap/policy/{ids[0]}/1.0"), in_acme("GET pip"), ASK, in_beta("GET")]
    wanted = [reply("200 OK", longest), reply("200 OK", rows), PERMIT, reply("200 OK", row)]
    fill = filling([longest, *(policy("Permit", name) for name in ids[1:])], ids, rows, row)
    with room_in_memory() as room:
        for what, before in (("a full domain", fill), ("a full domain after a stop", lambda served: None)):
            with serving(f"{room}/full.db") as served:
                expect(f"{what}: it listens", faults := served.listened(), None)
                if faults:
                    return
                before(served)
                expect(what, served.once(*asked), wanted)
                found = json.loads(served.once(in_acme("GET pap/policies"))[0].partition(b"\r\n\r\n")[2])["Policy"]
                expect(f"{what}: its documents", [(it["Id"], it["Active"]) for it in found],
                       [(name, True) for name in [*ids, "urn:p"]])
