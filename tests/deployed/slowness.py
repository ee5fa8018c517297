"""Clients that are slow, and domains that ask too much: nobody waits for them."""
import time

from checks import Between

from . import clients
from .clients import Client, decision, many, message, once, status
from .machine import PLAIN, shards

RULES = "urn:oasis:names:tc:xacml:3.0:rule-combining-algorithm:deny-overrides"


def slow_clients(kind, ask, count=50):
    """Connections that stay: silent, within a head, or within a body."""
    held = []
    for _ in range(count if kind != "none" else 0):
        client = Client(PLAIN)
        if kind == "head":
            client.send(ask[:40])
        elif kind == "body":
            client.send(ask.replace(b"Content-Length: 14", b"Content-Length: 60000") + b" " * 30_000)
        held.append(client)
    return held


def slow(machine, checks):
    """50 slow clients of each kind beside 100 good ones: the good ones are answered, the slow ones turned away."""
    machine.operator.clear()
    asks = many(machine, 8)
    script = clients.script_of(machine.folder / "asks.lua", [ask for ask, _ in asks])
    for kind in ("none", "silent", "head", "body"):
        held = slow_clients(kind, asks[0][0])
        found = clients.wrk(script, 100, 4)
        checks.say(f"{kind}: {clients.in_a_line(found)}")
        checks.expect(f"{kind}: all are answered with success", (found["bad"], found["errors"]), (0, ""))
        checks.expect(f"{kind}: none waits for seconds", (found["rate"] > 300, found["p99"] < 2000), (True, True))
        for client in held:
            checks.within(f"{kind}: a slow one", status(client.all()), [408, None])
            client.close()


def ask_of_large(individuals):
    """An ask for so many decisions of the domain `large`."""
    attribute = '{"Attribute":[{"AttributeId":"urn:a","Value":"%d"}]}'
    objects = ",".join(attribute % number for number in range(individuals))
    return message("POST", "/domains/large/pdp", "large-token-1", f'{{"Request":{{"Resource":[{objects}]}}}}')


def makes_large(machine):
    """Makes the domain `large`, each decision of which has an obligation of 60,000 bytes."""
    value = f'{{"AttributeValue":{{"DataType":"string","Value":"{"x" * 60_000}"}}}}'
    duty = ('{"ObligationId":"o","FulfillOn":"Permit",'
            f'"AttributeAssignmentExpression":[{{"AttributeId":"a","Expression":{value}}}]}}')
    text = (f'{{"Policy":{{"PolicyId":"urn:p","Version":"1.0","RuleCombiningAlgId":"{RULES}",'
            f'"Rule":[{{"RuleId":"r","Effect":"Permit"}}],"ObligationExpressions":[{duty}]}}}}')
    machine.operator.makes("large", text=text)


def shard_of(name):
    return shards("where", name).strip()


def slow_readers(machine, checks):
    """Nobody who doesn't read a reply holds a shard; and a reply of over a million bytes is refused."""
    machine.operator.clear()
    makes_large(machine)
    beside = next(f"b{number}" for number in range(99) if shard_of(f"b{number}") == shard_of("large"))
    ask = machine.operator.makes(beside)
    held = []
    for _ in range(5):
        client = Client(PLAIN)
        client.socket.setsockopt(clients.socket.SOL_SOCKET, clients.socket.SO_RCVBUF, 4096)
        client.send(ask_of_large(12))
        held.append(client)
    time.sleep(0.3)
    found = clients.wrk(clients.script_of(machine.folder / "beside.lua", [ask]), 100, 3)
    checks.say(f"beside 5 slow readers, on their shard: {clients.in_a_line(found)}")
    checks.expect("100 clients beside slow readers", (found["bad"], found["errors"]), (0, ""))
    checks.within("the milliseconds that 99 of 100 of them wait", found["p99"], Between(0, 2000))
    for client in held:
        client.close()
    checks.expect("720,000 bytes", decision(once(ask_of_large(12))), "Permit")
    checks.expect("a reply of over a million bytes", status(once(ask_of_large(40))), 503)
    checks.expect("and the next", decision(once(ask)), "Permit")


def rates(machine, checks):
    """With RATE a domain that asks more is turned away, and the others are not; with CHANGE_RATE one that changes
    more is, and its decisions aren't."""
    machine.operator.clear()
    loud, quiet = machine.operator.makes("loud"), machine.operator.makes("quiet")
    machine.set(RATE=50)
    otherwise = loud.replace(b"Bearer ", b"Basic ")
    checks.expect("a token that is shown otherwise", [status(once(data)) for data in (loud, otherwise)], [200, 401])
    found = [decision(once(loud)) for _ in range(150)]
    checks.expect("a loud domain at first", found[:50], ["Permit"] * 50)
    checks.expect("and then", (set(found[50:]) <= {"Permit", 429}, 429 in found), (True, True))
    checks.expect("a quiet one", decision(once(quiet)), "Permit")
    machine.set(RATE=0, CHANGE_RATE=20)
    changes = {name: message("PUT", f"/domains/{name}/pip", f"{name}-token-1", '{"Row":[]}')
               for name in ("loud", "quiet")}
    found = [status(once(changes["loud"])) for _ in range(60)]
    checks.expect("changes at first, and then", (set(found[:20]), set(found[20:]), found[-1]), ({200}, {200, 429}, 429))
    checks.expect("a quiet one's", status(once(changes["quiet"])), 200)
    reading = message("GET", "/domains/loud/pip", "loud-token-1")
    checks.expect("decisions and readings beside it", {status(once(one)) for one in (loud, reading) * 30}, {200})
    machine.set(CHANGE_RATE=0)
    checks.expect("without a limit", (decision(once(loud)), status(once(changes["loud"]))), ("Permit", 200))
