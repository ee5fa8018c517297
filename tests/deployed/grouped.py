"""Two groups of three machines: the page's commands, and domains that go from one to the other while all six are asked
and domains are changed, machines don't follow, and the command is killed."""
import collections
import contextlib
import json
import random
import subprocess
import threading
import time
import zlib

from . import chaos
from .machine import wait_until
from .recovered import are_well
from .three import NAMES, SHARDS, commands, install_later, known_as, prepare

SECOND = ("d", "e", "f")
ALL = (*NAMES, *SECOND)
GROUP = {**dict.fromkeys(NAMES, "one"), **dict.fromkeys(SECOND, "two")}
SECTION = "Groups of machines"
KILLS, SEED = 8, 7


def machines_of(names):
    return " ".join(f"{one}={known_as(one)}" for one in names)


def make_second(three, client, checks):
    """Three further machines, by the page's commands for the first ones."""
    for name in SECOND:
        three.make(name)
        for step in commands("Setting it up", 0):
            three.run(name, step)
    # (a part before may have upgraded it)
    three.run("a", f"cp /usr/local/lib/pdpd/pdpd {three.folder}/program")
    once = commands("Setting it up", 1)[0].split(" a=")[0]
    three.run("a", f"{once} {machines_of(SECOND)}")
    for name in SECOND:
        install_later(three, name, f"cp {three.folder}/program pdpd")
        prepare(three, name)
        three.run(name, f"echo {client.operator} > /etc/pdpd/token")
    set_up, *steps = commands("Setting it up", 2)[:-1]
    for step in (set_up, *steps):
        ran = [(name, three.words(name, of(step, name))) for name in SECOND]
        at_once(ran)
        checks.say(f"$ {of(step, 'd')}")
    wait_until(lambda: "WRONG" not in three.run("d", "pdpd-replicas status", None),
               lambda: three.run("d", "pdpd-replicas status", None), 60)


def of(step, name):
    """The command of the page for one of the second group's machines."""
    return (step.replace("SELF=a/", f"SELF={name}/")
            .replace(machines_of(NAMES), machines_of(SECOND)))


def at_once(ran):
    """Runs commands on several machines at the same time."""
    how = {"stdin": subprocess.DEVNULL, "stdout": subprocess.PIPE, "stderr": subprocess.STDOUT, "text": True}
    running = [(name, words, subprocess.Popen(words, **how)) for name, words in ran]
    for name, words, one in running:
        said = one.communicate(timeout=300)[0]
        if one.returncode:
            raise RuntimeError(f"{name}: {words[-1]}\n{said[-3000:]}")


def join_groups(three, checks):
    """The page's commands by which all machines are of groups."""
    (settings,), (fill, apply, thaw) = commands(SECTION, 0), commands(SECTION, 1)
    at_once([(name, three.words(name, settings.replace("GROUP=two", f"GROUP={GROUP[name]}"))) for name in ALL])
    for name in "ad":
        checks.say(three.run(name, fill).strip())
    at_once([(name, three.words(name, apply)) for name in ALL])
    for name in "ad":
        wait_until(lambda name=name: "are taken" in three.run(name, thaw, None),
                   lambda name=name: three.run(name, thaw, None), 60)


@contextlib.contextmanager
def under_way(client):
    """Meanwhile all six machines are asked for decisions, and change the domain's rows; what they said."""
    is_over, asked, changed = threading.Event(), collections.Counter(), collections.Counter()
    rows = (chaos.WARD / "rows.json").read_text()

    def ask():
        while not is_over.is_set():
            for name in ALL:
                asked[str(client.decision(name, 30))] += 1

    def change():
        while not is_over.is_set():
            for name in ALL:
                changed[client.sent(name, "PUT", "/domains/ward/pip", chaos.ADMIN, rows)[0]] += 1
                time.sleep(0.05)
    threads = [threading.Thread(target=work) for work in (ask, ask, change)]
    for one in threads:
        one.start()
    try:
        yield asked, changed
    finally:
        is_over.set()
        for one in threads:
            one.join()


ASKED = """python3 - <<'END'
import socket
for name in ("moved", "groups"):
    with socket.socket(socket.AF_UNIX) as asked:
        asked.connect("/run/haproxy/admin.sock")
        asked.sendall(b"show map /var/lib/pdpd-replica/map/%s.map\\n" % name.encode())
        print(b"".join(iter(lambda: asked.recv(65536), b"")).decode())
END"""


def place(three, name="a", domain="ward"):
    """Where a domain is, as HAProxy of a machine has it."""
    found = {}
    for line in three.run(name, ASKED).splitlines():
        if len(words := line.split()) == 3:
            found.setdefault(*words[1:])
    return found.get(domain)


def carried(three, source, to, status=0):
    """Gives the page's command for the domain of the test on a machine."""
    shard = place(three, source).split(".")[1]
    (step,) = commands(SECTION, 2)
    return three.run(source, step.replace("acme 2 two.0", f"ward {shard} {to}"), status)


def make_anew(three, client, checks):
    """Makes the domain anew. (A part before may have left one that is older than the log, and can't be carried.)"""
    wait_until(lambda: client.sent("a", "DELETE", "/operator/domains/ward", client.operator)[0] in (200, 404),
               "it isn't removed", 60)
    checks.expect("a domain", client.make_ward("a"), [201, 200, 200, 201, 200, 200, 200])


def two_groups(three, client, checks):
    make_anew(three, client, checks)
    make_second(three, client, checks)
    join_groups(three, checks)
    wait_until(lambda: [client.decision(name) for name in ALL] == ["Permit"] * len(ALL),
               lambda: str([client.decision(name) for name in ALL]), 60)
    for part in (asked_everywhere, new_domains, there_and_back, older_carried, unfollowed, restarted, killed):
        began = time.time()
        part(three, client, checks)
        checks.say(f"{part.__name__}: {time.time() - began:.0f} s")
    for name in "ad":
        three.run(name, "pdpd-shards backup > /dev/null")
        wait_until(lambda name=name: "WRONG" not in three.run(name, "pdpd-shards status", None),
                   lambda name=name: three.run(name, "pdpd-shards status", None), 60)


def asked_everywhere(three, client, checks):
    """What each machine answers is what the group answers that has the domain."""
    checks.expect("a wrong token", {client.sent(name, "POST", "/domains/ward/pdp", "wrong-token-1", "{}")[0]
                                    for name in ALL}, {401})
    checks.expect("no such domain", {client.sent(name, "POST", "/domains/nobody/pdp", chaos.ASKS, "{}")[0]
                                     for name in ALL}, {401})
    text = (chaos.WARD / "rows.json").read_text()
    found = [client.sent(name, "PUT", "/domains/ward/pip", chaos.ADMIN, text)[0] for name in ALL]
    checks.expect("changes by all", found, [200] * len(ALL))
    read = {client.sent(name, "GET", "/domains/ward/pip", chaos.ADMIN)[2] for name in ALL}
    checks.expect("rows read at all", len(read), 1)
    listed = [client.sent(name, "GET", "/operator/domains", client.operator)[2].count('"ward"') for name in ALL]
    checks.expect("lists", listed, [1, 1, 1, 0, 0, 0])


def shards_of(three, name):
    """How many shards a machine has by its settings (a part before may have added one)."""
    return int(three.run(name, "sed -n 's/^SHARDS=//p' /etc/pdpd/shards.conf"))


def new_domains(three, client, checks):
    """A domain comes into the group that is asked, and is known to all soon; one that is in the other is made once."""
    for name, domain in (("e", "of-two"), ("b", "of-one")):
        found = client.sent(name, "PUT", f"/operator/domains/{domain}", client.operator)[0]
        checks.expect(f"made at {name}", found, 201)
        shard = zlib.crc32(domain.encode()) % shards_of(three, name)
        wait_until(lambda domain=domain: {place(three, one, domain) for one in "af"} != {None}, "it isn't known", 10)
        checks.expect(f"where {domain} is", {place(three, one, domain) for one in ALL}, {f"{GROUP[name]}.{shard}"})
        again = {client.sent(one, "PUT", f"/operator/domains/{domain}", client.operator)[0] for one in ALL}
        checks.expect("made again", again, {409})
    both = [threading.Thread(target=client.sent, args=(name, "PUT", "/operator/domains/at-once", client.operator))
            for name in "ad"]
    for one in both:
        one.start()
    for one in both:
        one.join()
    wait_until(lambda: place(three, "a", "at-once"), "it isn't made", 10)
    found = [json.loads(client.sent(name, "GET", "/operator/domains", client.operator)[2])["Domain"] for name in "ad"]
    checks.expect("made in one group", sum("at-once" in names for names in found), 1)


def there_and_back(three, client, checks):
    """A domain goes to the other group, to another shard there, and back."""
    tokens = three.run("a", "pdpd-replicas carry ward 0 three.0", 1)
    checks.expect("no such group", "there is no group three" in tokens, True)
    for source, to in (("a", "two.0"), ("d", "two.1"), ("e", f"one.{SHARDS - 1}"), ("b", "one.0")):
        with under_way(client) as (asked, changed):
            time.sleep(1)
            checks.say(carried(three, source, to).strip())
            wait_until(lambda to=to: {place(three, one) for one in ALL} == {to}, "it isn't followed", 20)
            wait_until(lambda: {client.decision(name) for name in ALL} == {"Permit"}, "it isn't decided", 20)
            time.sleep(1)
        checks.say(f"decisions {dict(asked)}, changes {dict(changed)}")
        checks.expect(f"to {to}: what was answered", ({*asked} - {"Permit", "503"}, {*changed} - {200, 503}),
                      (set(), set()))
        checks.expect("decisions", asked["Permit"] > 5 * asked["503"], True)
        group = to.split(".")[0]
        listed = [client.sent(name, "GET", "/operator/domains", client.operator)[2].count('"ward"') for name in ALL]
        checks.expect(f"{to}: lists", listed, [int(GROUP[name] == group) for name in ALL])
        text = (chaos.WARD / "rows.json").read_text()
        found = [client.sent(name, "PUT", "/domains/ward/pip", chaos.ADMIN, text)[0] for name in ALL]
        checks.expect(f"{to}: changes by all", found, [200] * len(ALL))
    are_well(three)


def older_carried(three, client, checks):
    """A domain that is older than its group's log goes to the other group from the machine that was alone, if a part
    before has left one."""
    if '"first"' not in client.sent("a", "GET", "/operator/domains", client.operator)[2]:
        return
    (step,) = commands(SECTION, 2)
    shard = place(three, "a", "first").split(".")[1]
    step = step.replace("acme 2 two.0", f"first {shard} two.0")
    checks.expect("another machine", "give this on the machine that had it then" in three.run("b", step, 1), True)
    checks.say(three.run("a", step).strip())
    wait_until(lambda: {place(three, one, "first") for one in ALL} == {"two.0"}, "it isn't followed", 20)
    listed = [client.sent(name, "GET", "/operator/domains", client.operator)[2].count('"first"') for name in "ad"]
    checks.expect("lists", listed, [0, 1])
    are_well(three)


def unfollowed(three, client, checks):
    """A machine whose HAProxy isn't told where a domain is now decides nothing for it, and takes no change: what was
    withdrawn is never permitted."""
    three.signal("b", "pdpd-map", "STOP")
    said = carried(three, "a", "two.0")
    checks.expect(f"who doesn't follow: {said}", "b decides nothing" in said, True)
    checks.expect("its map is of before", place(three, "b"), "one.0")
    checks.expect("b", client.decision("b"), 503)
    checks.expect("a change at b", client.sent("b", "PUT", "/domains/ward/pip", chaos.ADMIN, '{"Row":[]}')[0], 503)
    checks.expect("the others", {client.decision(name) for name in ALL if name != "b"}, {"Permit"})
    checks.expect("a withdrawal", client.sent("a", "DELETE", chaos.AT, chaos.ADMIN)[0], 200)
    found = collections.Counter(client.decision(name) for _ in range(20) for name in ALL)
    checks.expect("behind it", found["Permit"], 0)
    told = three.run("a", "pdpd-replicas status", None)
    checks.expect(f"it is told: {told}", "b: domains are led by change" in told, True)
    checks.expect("put again", client.sent("a", "PUT", chaos.AT, chaos.ADMIN)[0], 200)
    three.signal("b", "pdpd-map", "CONT")
    wait_until(lambda: client.decision("b") == "Permit", "it doesn't decide again", 30)
    checks.say(carried(three, "d", "one.0").strip())
    are_well(three)


def restarted(three, client, checks):
    """HAProxy that begins with an older map answers nothing before it goes by the one that counts; so does a machine
    whose follower was away."""
    three.run("c", "sv down /etc/service/pdpd-map; sv down /etc/service/haproxy")
    checks.say(carried(three, "a", "two.1").strip())
    three.run("c", "sv up /etc/service/haproxy")
    wait_until(lambda: client.decision("c") != 0, "HAProxy isn't there", 30)
    checks.expect("without a follower", {client.decision("c") for _ in range(10)}, {503})
    three.run("c", "sv up /etc/service/pdpd-map")
    seen = set()
    wait_until(lambda: seen.add(client.decision("c")) or "Permit" in seen, "it doesn't decide again", 30)
    checks.expect("meanwhile", seen - {503, 0}, {"Permit"})
    checks.expect("its map", place(three, "c"), "two.1")
    for name in ALL:
        three.run(name, "sv restart /etc/service/haproxy")
    seen = collections.Counter()
    wait_until(lambda: seen.update(found := [client.decision(name) for name in ALL]) or set(found) == {"Permit"},
               "they don't decide again", 30)
    checks.expect("behind a restart of all", {*seen} - {"Permit", 503, 0}, set())
    checks.say(carried(three, "d", "one.0").strip())


def killed(three, client, checks):
    """The command is killed at any place, and given again."""
    chance, to = random.Random(SEED), ["two.0", "one.0"]
    for number in range(KILLS):
        source, there = ("a", to[0]) if place(three).startswith("one") else ("d", to[1])
        shard, cut = place(three).split(".")[1], chance.uniform(0.2, 4.0)
        (step,) = commands(SECTION, 2)
        step = step.replace("acme 2 two.0", f"ward {shard} {there}")
        three.run(source, f"timeout -s KILL {cut:.2f} {step} || true", None)
        mid = {client.decision(name) for name in ALL}
        checks.expect(f"{number}: cut after {cut:.2f} s", mid - {"Permit", 503}, set())
        three.run(source, step)
        wait_until(lambda: {client.decision(name) for name in ALL} == {"Permit"}, "it isn't decided", 30)
        checks.expect("where it is", {place(three, name) for name in ALL}, {there})
        text = (chaos.WARD / "rows.json").read_text()
        checks.expect("a change", {client.sent(name, "PUT", "/domains/ward/pip", chaos.ADMIN, text)[0] for name in ALL},
                      {200})
    are_well(three)
