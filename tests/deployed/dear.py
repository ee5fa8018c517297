"""The dearest messages: many of them at a time, and a program that is told to end while it answers some."""
import json
import os
import signal
import threading
import time
from collections import Counter

from checks import Between

from . import clients
from .attacking import counted
from .attacking import kills as killed_by_watchdog
from .clients import Load, decision, message, once, status
from .machine import pid, place, sh, shards, wait_until

# the limit of work that is installed, one that is tried first, and the most; how long the dearest message is to take
WORK, TRIED, MOST_WORK, DEAR = 150_000_000, 2_000_000, 2_400_000_000, 0.25
CONTAINS = "urn:oasis:names:tc:xacml:3.0:function:string-contains"


def makes_dear(operator, name):
    """Makes a domain, and gives an ask of it that only the limit of work ends: 64 decisions, each of which looks for
    500 texts in 500 others."""
    values = {"AttributeDesignator": {"Category": "Resource", "DataType": "string", "MustBePresent": False}}
    one, other = ({"AttributeDesignator": {**values["AttributeDesignator"], "AttributeId": word}} for word in "ab")
    function = {"FunctionId": "urn:oasis:names:tc:xacml:3.0:function:any-of-any",
                "Expression": [{"Function": {"FunctionId": CONTAINS}}, one, other]}
    text = json.loads(clients.policy("Permit"))
    text["Policy"]["Rule"][0]["Condition"] = {"Apply": function}
    operator.makes(name, text=json.dumps(text))
    attributes = [{"AttributeId": word, "Value": [f"{word}{number:04}" for number in range(500)]} for word in "ab"]
    asked = {"Resource": {"Id": "r", "Attribute": attributes},
             "MultiRequests": {"RequestReference": [{"ReferenceId": "r"}] * 64}}
    return message("POST", f"/domains/{name}/pdp", f"{name}-token-1", json.dumps({"Request": asked}))


def time_of(ask, shard):
    """How many seconds a shard takes to give that up, for its limit of work."""
    began = time.time()
    found = status(once(ask, place(shard)))
    if found != 503:
        raise RuntimeError(f"the dearest message is answered with {found}")
    return time.time() - began


def set_work(machine, checks, ask, shard, seconds):
    """Has the dearest message of a shard take so long. (The program may be one of another speed, on a machine that
    others use.)"""
    machine.set(WORK=TRIED)
    shards("restart", shard)
    work = min(MOST_WORK, int(TRIED * seconds / max(time_of(ask, shard), time_of(ask, shard))))
    machine.set(WORK=work)
    shards("restart", shard)
    checks.say(f"the dearest message takes {time_of(ask, shard):.2f} s, by WORK={work}")


def asking(ask, found):
    """Three threads that ask at the same time, and keep the statuses of the replies."""
    threads = [threading.Thread(target=lambda: found.append(status(once(ask)))) for _ in range(3)]
    for thread in threads:
        thread.start()
    return threads


def in_order(machine, checks):
    """A program that is told to end answers what it has, and then ends. One that is killed doesn't."""
    operator = machine.operator
    operator.clear()
    ask = makes_dear(operator, "dear")
    shard = int(shards("where", "dear"))
    set_work(machine, checks, ask, shard, 1.0)
    # (503 is the program's own answer: it is the limit of work that ends the decision)
    for what, ends, wanted in (("told to end", lambda: sh(f"sv down /etc/service/pdpd-{shard}"), {503}),
                               ("killed", lambda: os.kill(pid(shard), signal.SIGKILL), {502})):
        # (what waits at the door of a program that is told to end isn't taken: so the connections are there before)
        for thread in asking(ask, []):
            thread.join()
        found, old = [], pid(shard)
        threads = asking(ask, found)
        wait_until(lambda: counted(f"shard{shard}", "pdpd", "scur") == 3, "they don't come to the shard")
        ends()
        for thread in threads:
            thread.join()
        checks.expect(f"{what}: what is answered", set(found), wanted)
        wait_until(lambda old=old: pid(shard) != old, "it doesn't end")
        sh(f"sv up /etc/service/pdpd-{shard}")
        wait_until(operator.is_answered, "the shard isn't there again")
    machine.set(WORK=WORK)
    shards("restart", shard)


# so many clients ask the dearest for so long, in seconds
CROWD, MINUTE = 64, 60


def behind_several(machine, checks):
    """While many clients ask for nothing but the dearest that the limit of work allows, the watchdog's question waits
    behind those that the program has, and nothing is killed. Who asks something ordinary waits for his turn, and is
    answered, or told within the time of the page that he had none."""
    operator = machine.operator
    operator.clear()
    ask = makes_dear(operator, "dear")
    shard = int(shards("where", "dear"))
    name = next(f"b{number}" for number in range(99) if int(shards("where", f"b{number}")) == shard)
    ordinary = operator.makes(name)
    set_work(machine, checks, ask, shard, DEAR)
    before = pid(shard), killed_by_watchdog()
    found, waits, end = Counter(), [], time.time() + MINUTE
    with Load(lambda _number: found.update([status(once(ask))]), CROWD):
        while time.time() < end:
            began = time.time()
            found.update([f"ordinary {decision(once(ordinary))}"])
            waits.append(time.time() - began)
    checks.expect("the program, and kills", (pid(shard), killed_by_watchdog()), before)
    kinds = set(found) - {"ordinary 503"}
    checks.expect(f"what is answered: {found}", kinds, {503, "ordinary Permit"})
    checks.say(f"beside {CROWD} clients that ask the dearest {len(waits)} ordinary questions: the longest waited "
               f"{max(waits):.1f} s")
    checks.within("the longest wait of an ordinary question", max(waits), Between(0, 13))
    machine.set(WORK=WORK)
    shards("restart", shard)
