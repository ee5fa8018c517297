"""A change that is made twice in succession leaves what it leaves once: a daemon rests on that which doesn't know
whether pdpd has made the entry that it sends."""
import contextlib
import json
import random
import shutil

from kept import opened, rows_in
from serving import OPERATOR, Served, message, policy

from .kills import by_name
from .shared import PROGRAM, SEED, expect, memory, status_of

NAMES, CHANGES, EACH = ("one", "two"), 400, 20
ROW = '{"Row":[{"Category":"AccessSubject","Entity":"e%d","AttributeId":"urn:a","DataType":"string","Value":"%d"}]}'


def admin_of(name):
    return f"{name}-admin-1"


def drawn(chance):
    """A change of one of two domains, which is refused as often as not; each kind that there is."""
    name, number = chance.choice(NAMES), chance.randrange(3)
    at, pap, text = f"/operator/domains/{name}", f"/domains/{name}/pap", f"urn:p:{number}"
    operators = [("PUT", at, None), ("PUT", at, None), ("DELETE", at, None),
                 *(("POST", f"{at}/tokens", json.dumps({"Role": role, "Token": token})) for role, token in
                   (("admin", admin_of(name)), ("admin", admin_of(name)), ("ask", f"{name}-asks-{number}"))),
                 ("DELETE", f"{at}/tokens", json.dumps({"Token": f"{name}-asks-{number}"}))]
    own = [("POST", f"{pap}/policies", policy(chance.choice(("Permit", "Deny")), text)),
           ("POST", f"{pap}/policies", "{"),
           ("DELETE", f"{pap}/policy/{text}/1.0", None), ("PUT", f"{pap}/policy/{text}/1.0/active", None),
           ("DELETE", f"{pap}/policy/{text}/1.0/active", None),
           ("PUT", f"{pap}/root", json.dumps({"PolicyIdReference": {"Id": text}})),
           ("PUT", f"/domains/{name}/pip", ROW % (number, chance.randrange(3))), ("PUT", f"/domains/{name}/pip", "{}")]
    if chance.random() < 0.15:
        method, path, body = chance.choice(operators)
        return message(method, path, OPERATOR, body)
    method, path, body = chance.choice(own)
    return message(method, path, admin_of(name), body)


def kept(served, place):
    """What stands in the tables of its store, in a copy of the files."""
    shutil.rmtree(place, ignore_errors=True)
    place.mkdir()
    for path in memory.glob(f"{served.store}*"):
        shutil.copy(path, place)
    with contextlib.closing(opened(place / served.store)) as db:
        return by_name(rows_in(db))


class Store(Served):
    """A pdpd over a store of that name."""

    def __init__(self, name):
        token = memory / "token-of-twice"
        token.write_text(f"{OPERATOR}\n")
        self.store = f"{name}.db"
        super().__init__(PROGRAM, str(memory / self.store), str(token), command="listen")


def twice():
    """Two stores get the same changes, the one each once and the other each twice: they have the same all the time,
    though some second replies are others. Of two changes that are made twice as a pair that doesn't hold."""
    chance, seen, others = random.Random(SEED), set(), 0
    with Store("once") as once, Store("twice") as two:
        for number in range(CHANGES):
            change = drawn(chance)
            (single,), (first, second) = once.once(change), two.once(change, change)
            seen.add(status_of(single))
            others += first != second
            if first != single or number % EACH == 0 and kept(once, memory / "1") != kept(two, memory / "2"):
                expect(f"change {number}: {change[:300]!r}", (first, kept(two, memory / "2")),
                       (single, kept(once, memory / "1")))
        expect("what is kept at the end", kept(two, memory / "2"), kept(once, memory / "1"))
        expect("what was answered", seen >= {200, 201, 400, 401, 404, 409}, True)
        expect("second replies that are others", others > 20, True)
        of_pair(once, two)


def of_pair(once, two):
    """A policy that is active can't be deleted, and then it is withdrawn: that pair, made twice, deletes it."""
    at, pap, admin = "/operator/domains/pair", "/domains/pair/pap", admin_of("pair")
    own = f"{pap}/policy/urn:p:0/1.0"
    make = [message("PUT", at, OPERATOR),
            message("POST", f"{at}/tokens", OPERATOR, json.dumps({"Role": "admin", "Token": admin})),
            message("POST", f"{pap}/policies", admin, policy("Permit", "urn:p:0")),
            message("PUT", f"{own}/active", admin)]
    pair = [message("DELETE", own, admin), message("DELETE", f"{own}/active", admin)]
    expect("one pair", [status_of(one) for one in once.once(*make, *pair)], [201, 200, 201, 200, 409, 200])
    expect("twice", [status_of(one) for one in two.once(*make, *pair, *pair)][4:], [409, 200, 200, 404])
    expect("they differ", kept(once, memory / "1") != kept(two, memory / "2"), True)


PARTS = (twice,)
