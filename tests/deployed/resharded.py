"""A domain goes to another shard on all of three machines, and all get one shard more."""
import collections
import contextlib
import threading
import zlib

from . import chaos
from .machine import wait_until
from .recovered import are_well
from .three import NAMES, SHARDS, commands


@contextlib.contextmanager
def asking(client):
    """Meanwhile all machines are asked for a decision again and again; what they said."""
    is_over, found = threading.Event(), collections.Counter()

    def work():
        while not is_over.is_set():
            for name in NAMES:
                found[str(client.decision(name, 5))] += 1
    thread = threading.Thread(target=work)
    thread.start()
    try:
        yield found
    finally:
        is_over.set()
        thread.join()


def wait_for(three, command, words):
    """Gives a command until it says so."""
    wait_until(lambda: words in three.run("a", command, None), lambda: three.run("a", command, None), 60)


def has_rows(client, name):
    """Whether a machine takes a change of rows."""
    rows = (chaos.WARD / "rows.json").read_text()
    return client.sent(name, "PUT", "/domains/ward/pip", chaos.ADMIN, rows)[0] == 200


def steps_from(shard, place):
    """The page's commands that bring a domain from a shard to another one."""
    return [step.replace("acme 2 0", f"ward {shard} {place}").replace("acme 0", f"ward {place}")
            .replace("acme 2", f"ward {shard}") for step in commands("Moving a domain", 0)]


def moved(three, client, checks):
    """A domain goes to the other shard on all machines. It is decided all the time, and keeps its tokens."""
    shard = client.shard(three)
    place = 1 - shard
    freeze, move, lead, unmake, thaw = steps_from(shard, place)
    checks.expect("while changes are taken", "freeze first" in three.run("a", move, 1), True)
    with asking(client) as found:
        three.run("a", freeze)
        checks.say(three.run("a", move).strip())
        checks.expect("a second time", "has a domain 'ward' already" in three.run("a", move, 1), True)
        checks.expect("too soon", "this machine leads ward there" in three.run("a", unmake, 1), True)
        three.run("a", lead)
        wait_for(three, unmake, "leads domains otherwise")
        for name in "bc":
            three.run(name, lead)
        wait_for(three, unmake, "no ward any more")
        wait_for(three, thaw, "are taken")
    checks.expect("decisions meanwhile", sorted(found) in (["503", "Permit"], ["Permit"]), True)
    checks.say(f"decisions meanwhile: {dict(found)}")
    wait_until(lambda: has_rows(client, "c"), "no change is taken", 60)
    are_well(three)
    found = {three.run(name, "pdpd-shards where ward").strip() for name in NAMES}
    checks.expect("where it is", found, {f"{place}"})
    listed = [client.sent(name, "GET", "/operator/domains", client.operator) for name in NAMES]
    checks.expect("lists", [one[2].count('"ward"') for one in listed], [1] * 3)
    checks.expect("decisions", [client.own_decision(name) for name in NAMES], ["Permit"] * 3)
    said = three.everywhere("pdpd-replicas rows")
    checks.expect("equal rows", {text.count("a, b, c have the same") for text in said.values()}, {SHARDS})


def older_moved(three, client, checks):
    """A domain that is older than the log goes to the other shard from the machine that was alone then, and stands in
    the log by that: another machine brings it back."""
    for name in "ab":
        shard = client.shard(three)
        freeze, move, lead, unmake, thaw = steps_from(shard, 1 - shard)
        three.run("a", freeze)
        if name == "a":
            said = three.run("b", move, 1)
            checks.expect(f"another machine: {said}", "give this on the machine that had it then" in said, True)
        checks.say(three.run(name, move).strip())
        for one in NAMES:
            three.run(one, lead)
        wait_for(three, unmake, "no ward any more")
        wait_for(three, thaw, "are taken")
        wait_until(lambda: has_rows(client, "c"), "no change is taken", 60)
        are_well(three)
        found = {three.run(one, "pdpd-shards where ward").strip() for one in NAMES}
        checks.expect("where it is", found, {f"{1 - shard}"})
        checks.expect("decisions", [client.own_decision(one) for one in NAMES], ["Permit"] * 3)
    said = three.everywhere("pdpd-replicas rows")
    checks.expect("equal rows", {text.count("a, b, c have the same") for text in said.values()}, {SHARDS})


def grown(three, client, checks):
    """All machines get one shard more, while no change is taken; a domain that comes into it is on all."""
    freeze, *steps, thaw = commands("More shards", 0)
    three.run("a", freeze)
    with asking(client) as found:
        for number, step in enumerate(steps):
            told = three.everywhere(step.replace(" 6", f" {SHARDS + 1}"))
            checks.say(f"$ {step}\n    {told['a'].strip()[-200:]}")
            if not number:
                checks.expect("too soon", "run the same one" in three.run("a", thaw, 1), True)
    checks.say(f"decisions meanwhile: {dict(found)}")
    checks.expect("decisions meanwhile", sorted(found) in (["503", "Permit"], ["Permit"]), True)
    for name in NAMES:
        wait_until(lambda name=name: client.own_decision(name) == "Permit", f"{name} doesn't decide", 60)
    checks.expect("a change meanwhile", client.sent("b", "PUT", "/operator/domains/soon", client.operator)[0], 503)
    wait_until(lambda: "are taken" in three.run("a", thaw, None), lambda: three.run("a", thaw, None), 60)
    made = [name for name in (f"grown-{number}" for number in range(99))
            if zlib.crc32(name.encode()) % (SHARDS + 1) == SHARDS][:2]
    for name, machine in zip(made, "ac"):
        wait_until(lambda name=name, machine=machine: client.has_made(machine, name), f"{name} isn't made", 60)
    are_well(three)
    places = {three.run(one, f"pdpd-shards where {name}").strip() for name in made for one in NAMES}
    checks.expect("where they are", places, {str(SHARDS)})
    listed = [client.sent(name, "GET", "/operator/domains", client.operator) for name in NAMES]
    checks.expect("lists", [(one[0], [name for name in made if name not in one[2]]) for one in listed], [(200, [])] * 3)
    said = three.everywhere("pdpd-replicas rows")
    checks.expect("equal rows", {text.count("a, b, c have the same") for text in said.values()}, {SHARDS + 1})
