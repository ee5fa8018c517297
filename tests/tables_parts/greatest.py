"""The greatest numbers that a column holds, and as many rows as there may be."""
import json

from changing import issued_rows
from kept import Model, write
from serving import OPERATOR, making, message, policy

from .shared import (
    creates, expect, expect_replies, expect_rows, filled_model, folder, puts_rows, readings, serving, to_acme)

GREATEST = 2**63 - 1
UNRAISED = b"HTTP/1.1 503"
MOST_ROWS = 4_096


def raising(name):
    """Changes of which each raises the next number or the epoch of acme."""
    return [creates(name), to_acme("PUT", "/pap/root", "{}"),
            to_acme("PUT", "/pip", '{"Row":[]}'), to_acme("POST", "/pap/policies", policy("Deny", "urn:new")),
            to_acme("DELETE", "/pap/policy/urn:p/1.0/active"), to_acme("PUT", "/pap/policy/urn:q/1.0/active"),
            to_acme("DELETE", "/pap/policy/urn:q/1.0")]


def on_tokens():
    """Changes of a token of acme."""
    at, token = "/operator/domains/acme/tokens", {"Token": "another-token-1"}
    removes = message("DELETE", at, OPERATOR, json.dumps(token))
    return [message("POST", at, OPERATOR, json.dumps({**token, "Role": "ask"})), removes, removes]


def unraising():
    """Messages that raise neither: those that are refused for another reason, those that change nothing,
    and changes of tokens."""
    many = [{"Category": "Action", "Entity": "", "AttributeId": "a", "DataType": "string", "Value": "v"}] * 4_097
    return [creates("acme"), message("DELETE", "/operator/domains/absent", OPERATOR),
            to_acme("PUT", "/pap/root", '{"PolicyIdReference":{"Id":"urn:p"}}'), puts_rows(issued_rows()),
            puts_rows(many), to_acme("POST", "/pap/policies", policy("Permit")),
            to_acme("POST", "/pap/policies", policy("Deny")), to_acme("PUT", "/pap/policy/urn:p/1.0/active"),
            to_acme("DELETE", "/pap/policy/urn:q/1.0/active"), to_acme("DELETE", "/pap/policy/urn:p/1.0"),
            to_acme("PUT", "/pap/policy/urn:absent/1.0/active"), to_acme("DELETE", "/pap/policy/urn:absent/1.0"),
            *on_tokens(), *readings()]


def greatest():
    """The next number and an epoch are the greatest that a column holds: nothing raises them, and whatever doesn't is
    answered as ever. One below there is one raise more."""
    for below in (0, 1):
        path, model = folder / f"greatest-{below}.db", filled_model()
        model.answer(to_acme("POST", "/pap/policies", policy("Permit", "urn:q")))
        model.next, model.numbers["acme"] = GREATEST - below, (1, GREATEST - below)
        write(path, model.rows())
        what = f"{below} below the greatest"
        with serving(path) as served:
            expect(f"{what}: the store opens", served.listened(), None)
            expect_replies(what, served, model, unraising())
            if below:
                expect_replies(f"{what}: the last raise", served, model, raising("third")[:2])
                expect_replies(f"{what}: and then", served, model,
                               [creates("third"), to_acme("PUT", "/pap/root", "{}")])
            changes = [held for held in raising("fourth") if not (below and b"/pap/root" in held)]
            expect(f"{what}: nothing is raised", [held[:12] for held in served.once(*changes)],
                   [UNRAISED] * len(changes))
            if not below:
                expect_replies(f"{what}: as before", served, model, unraising())
            expect_replies(f"{what}: a removal raises nothing", served, model,
                           [message("DELETE", "/operator/domains/beta", OPERATOR)])
        expect_rows(f"{what}: what is kept", path, model)


def full():
    """More than 4,096 rows of one table, of two domains with as many rows of a source as one may have: the store
    opens, and opens again."""
    path, model = folder / "full.db", Model(OPERATOR)
    rows = [{"Category": "Action", "Entity": "", "AttributeId": "a", "DataType": "integer", "Value": str(place)}
            for place in range(MOST_ROWS)]
    for name in ("d-0", "d-1"):
        for held in [*(held for held, _ in making(name, f"{name}-token-1")), puts_rows(rows, name)]:
            model.answer(held)
    write(path, model.rows())
    for change in ("d-2", "d-3"):
        with serving(path) as served:
            expect("full: it opens", served.listened(), None)
            expect_replies("full: what is kept", served, model,
                           [message("GET", "/domains/d-1/pip", "d-1-token-1"), creates(change)])
    expect_rows("full", path, model)
    expect("full: the rows of one table", len(model.rows()["sources"]), 2 * MOST_ROWS)
