"""What an operator of three machines does when something is lost: rows, an entry, all of etcd; and how one machine
becomes three."""
import json
import re
import time

from . import chaos
from .machine import wait_until
from .three import NAMES, PAGE, commands

FOLDERS = "/var/lib/pdpd/{0} /var/lib/pdpd-replica/{0}"
# (what is written stays in the store's log, where pdpd gives it its sums)
CHANGED = """setpriv --reuid=pdpd --regid=pdpd --clear-groups python3 - <<'END'
import os, sqlite3
base = sqlite3.connect('/var/lib/pdpd/{0}/pdpd.db')
base.execute("PRAGMA wal_autocheckpoint = 0")
base.execute("UPDATE sources SET value = value || 'x'")
base.commit()
os._exit(0)
END"""
# an entry as a daemon appends it, which no pdpd answers, since none is there
APPENDED = """cd / && python3 - <<'END'
import sys
sys.dont_write_bytecode = True
sys.path.insert(0, '/usr/local/lib/pdpd')
from operating.settings import read
from replica import cli, core
log = cli.logs_of(read())[{0}]
head = {{"domain": "never", "who": "operator", "method": "PUT", "path": "/operator/domains/never", "fields": []}}
appending = core.Appending(log, core.CLOCK, lambda look: "", print)
change = core.Change(head, b"", core.CLOCK.monotonic() + 10)
appending.append([change])
print(change.number)
END"""

# what a machine does with etcd by its own certificates
BY_ETCD = """cd / && python3 - <<'END'
import contextlib, sys
sys.dont_write_bytecode = True
sys.path.insert(0, '/usr/local/lib/pdpd')
from operating.settings import read
from replica import cli, etcd
known = cli.etcd_from(read())
{0}
END"""
FILL = """with contextlib.suppress(etcd.Refused, etcd.Open):
    for _ in range(64):
        known.put(b"/filler", b"x" * 1_000_000)"""
QUOTA = "sed -i 's/^ETCD_QUOTA_BACKEND_BYTES=.*/ETCD_QUOTA_BACKEND_BYTES=\"{0}\"/' /etc/default/etcd"


def are_well(three):
    wait_until(lambda: chaos.are_level(three), lambda: three.run("b", "pdpd-replicas status", None), 90)


def rows_differ(three, client, checks):
    """A row that was changed by hand is found, its machine is out, and comes back by a copy of another one."""
    are_well(three)
    (compare,), shard = commands("Rows", 0), client.shard(three)
    said = three.everywhere(compare)
    checks.say(f"$ {compare}\n    {said['a'].strip()}")
    checks.expect("equal rows", {text.count("a, b, c have the same behind entry") for text in said.values()}, {2})
    three.run("c", f"sv stop /etc/service/pdpd-{shard}")
    three.run("c", CHANGED.format(shard))
    three.run("c", f"sv start /etc/service/pdpd-{shard}")
    wait_until(lambda: isinstance(client.own_decision("c"), str), "it doesn't decide", 60)
    said = three.everywhere(compare, 1)
    checks.expect("rows that differ", {f"shard {shard}: rows behind entry" in text for text in said.values()}, {True})
    wait_until(lambda: "c is out: rows behind entry" in three.run("a", "pdpd-replicas status", 1), "it isn't told", 60)
    wait_until(lambda: client.own_decision("c") == 503, "it decides", 60)
    checks.expect("the others", [client.own_decision(name) for name in "ab"], ["Permit"] * 2)
    said = three.run("c", f"pdpd-replicas copy {shard} > copy.tar", 1)
    checks.expect("a copy of it", "this machine is out" in said, True)
    aside = "sv stop /etc/service/pdpd-replica-{0} /etc/service/pdpd-{0}; rm -rf " + FOLDERS
    three.run("c", aside.format(shard))
    joined(three, shard, "a", "c")
    wait_until(lambda: client.own_decision("c") == "Permit", "it doesn't decide again", 60)
    are_well(three)
    checks.expect("equal rows again", "WRONG" in "".join(three.everywhere(compare).values()), False)


def joined(three, shard, source, name):
    """Takes a shard from another machine by the page's two commands."""
    copy, join = (command.replace("shard-0.tar", f"{three.folder}/copy.tar").replace(" 0 ", f" {shard} ")
                  for command in commands("A lost shard", 0))
    three.run(source, copy)
    return three.run(name, join)


def skipped(three, client, checks):
    """An entry that no pdpd answers is taken out."""
    shard = client.shard(three)
    three.everywhere(f"sv stop /etc/service/pdpd-{shard}")
    number = three.run("a", APPENDED.format(shard)).strip()
    freeze, skip, *_ = steps = commands("An entry that no `pdpd` takes", 0)
    checks.expect("it can't be applied", "hasn't applied all" in three.run("a", freeze, 1), True)
    checks.say(three.run("a", skip.replace(" 0 7", f" {shard} {number}")).strip())
    three.everywhere(f"sv start /etc/service/pdpd-{shard}")
    wait_until(lambda: "WRONG: shard 0: the log is frozen" in three.run("a", "pdpd-replicas status", None)
               and "behind" not in three.run("a", "pdpd-replicas status", None), "they aren't level", 60)
    three.everywhere(steps[2])
    three.run("a", steps[3])
    listed = [client.sent(name, "GET", "/operator/domains", client.operator) for name in NAMES]
    checks.expect("nobody has it", [(one[0], "never" in one[2]) for one in listed], [(200, False)] * 3)
    wait_until(lambda: client.own_decision("c") == "Permit", "it doesn't decide again", 60)
    are_well(three)


def other_program(three, client, checks):
    """A pdpd that restarts by itself as another program than the log's applies nothing, and its machine decides
    nothing, until it is that one again."""
    shard, place = client.shard(three), "/usr/local/lib/pdpd/pdpd"
    three.run("c", f"cp {place} right && cp right other && printf y >> other && mv other {place}")
    three.signal("c", f"pdpd-{shard}", "KILL")
    wait_until(lambda: client.own_decision("c") == 503, "it decides", 60)
    told = f"WRONG: shard {shard}: c runs the program"
    wait_until(lambda: told in three.run("a", "pdpd-replicas status", None), "it isn't told", 60)
    with chaos.changing(client, "a") as changes:
        wait_until(lambda: len(changes) > 2, "nothing is changed", 60)
        checks.expect("it decides nothing", client.own_decision("c"), 503)
    checks.expect("changes elsewhere", 200 in changes, True)
    three.run("c", f"mv right {place}")
    three.signal("c", f"pdpd-{shard}", "KILL")
    wait_until(lambda: client.own_decision("c") == "Permit", "it doesn't decide again", 60)
    are_well(three)


def rotated(three, client, checks):
    """The operator's token is replaced on one machine after another, while changes are made."""
    old, new = client.operator, "operator-of-another-day"
    puts, drops = (commands("The operator's token", number) for number in range(2))

    def taken(name, token):
        made = f"by-{name}-{len(token)}"
        wait_until(lambda: client.sent(name, "PUT", f"/operator/domains/{made}", token)[0] in (201, 409),
                   f"{name} takes no {made}", 60)
        return made
    with chaos.changing(client, "a") as changes:
        made = [taken(name, old) for name in NAMES]
        for name in NAMES:
            three.run(name, f"(umask 077; echo {new} > new)")
            for step in puts:
                three.run(name, step)
            made += [taken(name, new), taken(name, old)]
        client.operator = new
        for name in NAMES:
            for step in drops:
                three.run(name, step)
            taken(name, new)
    are_well(three)
    checks.expect("changes meanwhile", {status for status in changes if status not in chaos.NONE}, {200})
    listed = [client.sent(name, "GET", "/operator/domains", new) for name in NAMES]
    checks.expect("what was made by both", [(one[0], [name for name in made if name not in one[2]]) for one in listed],
                  [(200, [])] * 3)
    found = [client.sent(name, "PUT", "/operator/domains/late", old)[0] for name in NAMES]
    checks.expect("the old one at the end", found, [401] * 3)


def mistake_undone(three, client, checks):
    """A domain gets what it had at a moment, by its archive and the desk, while another one is changed."""
    with chaos.others_changing(client) as sent:
        undo_mistake(three, client, checks)
    made = [one for one in sent if one[3] in (200, 201)]
    checks.expect("changes meanwhile", {one[3] for one in sent} - {200, 201, *chaos.NONE}, set())
    checks.expect("enough of them", len(made) > 2, True)


def undo_mistake(three, client, checks):
    moment = three.run("b", "sleep 1; date +%s.%N; sleep 1").strip()
    status = 0
    while status != 200:
        status = client.sent("a", "DELETE", chaos.AT, chaos.ADMIN)[0]
    checks.expect("the mistake", client.own_decision("c") in ("Permit", 503), False)
    for step in commands("A moment of before", 0):
        step = step.replace("acme", "ward").replace("2026-11-29T15:00:00Z", moment)
        step = step.replace("https://localhost", "http://localhost")
        said = three.run("b", f"(umask 077; echo {chaos.ADMIN} > admin); {step}")
        checks.say(f"$ {step}\n    {said.strip()[-200:]}")
    for name in NAMES:
        wait_until(lambda name=name: client.own_decision(name) == "Permit", f"{name} doesn't decide as before", 60)


def entries(three):
    """How many entries the logs of all shards have."""
    return sum(one["entry"] for one in json.loads(three.run("a", "pdpd-replicas status --json", None))["shards"])


def etcd_lost(three, client, checks):
    """All of etcd is lost, while somebody changes rows: what was acknowledged comes back from the archives."""
    before, (anew, push, thaw) = entries(three), commands("All of etcd is lost", 0)
    with chaos.changing(client, "a") as changes:
        wait_until(lambda: changes.count(200) > 5, "nothing is changed", 60)
        three.everywhere(anew)
        wait_until(lambda: client.own_decision("b") == 503, "leases don't end", 60)
        lost = ("b", "PUT", "/operator/domains/lost", client.operator)
        checks.expect("a change", client.sent(*lost)[0] in (503, 504), True)
        for name in NAMES:
            wait_until(lambda name=name: "has those up to" in (said := three.run(name, push, None)) and "then" in said,
                       lambda name=name: three.run(name, push, None), 60)
        wait_until(lambda: client.own_decision("b") == "Permit", "it doesn't decide again", 60)
        acknowledged = changes.count(200)
        checks.expect("what the log has", entries(three) >= before + acknowledged, True)
        checks.expect("a change before the thaw", client.sent(*lost)[0], 503)
        wait_until(lambda: "are taken" in three.run("a", thaw, None), lambda: three.run("a", thaw, None), 60)
        wait_until(lambda: changes.count(200) > acknowledged, "no change is taken", 60)
    are_well(three)
    checks.say(f"{acknowledged} changes before, {changes.count(200) - acknowledged} behind")
    checks.expect("changes meanwhile", {status for status in changes if status not in chaos.NONE}, {200})
    checks.expect("what it has then", entries(three) >= before + changes.count(200), True)


def limited(three, size):
    """Has each member of etcd take so many bytes at the most."""
    for name in NAMES:
        three.run(name, f"{QUOTA.format(size)}; sv restart /etc/service/pdpd-etcd")
        are_well(three)


def etcd_full(three, client, checks):
    """An etcd that is full: no change is taken, decisions go on, and the page's command has it take changes again."""
    before = re.search(r'QUOTA_BACKEND_BYTES="(\d+)"', three.run("a", "cat /etc/default/etcd"))[1]
    limited(three, 32 << 20)
    three.run("a", BY_ETCD.format(FILL))
    full = ("b", "PUT", "/operator/domains/full", client.operator)
    wait_until(lambda: client.sent(*full)[0] == 503, "it takes changes", 60)
    time.sleep(11)  # (two leases)
    checks.expect("decisions", [client.own_decision(name) for name in NAMES], ["Permit"] * 3)
    three.run("a", BY_ETCD.format('known.delete(b"/filler")'))
    checks.expect("the command is the page's", "`pdpd-replicas trim`" in PAGE.read_text(), True)
    checks.say(three.run("a", "pdpd-replicas trim").strip())
    wait_until(lambda: client.has_made("b", "full"), lambda: three.run("a", "pdpd-replicas status", None), 60)
    limited(three, before)
    with chaos.changing(client, "a") as changes:
        said, seen = three.run("b", "pdpd-replicas trim").strip(), len(changes)
        wait_until(lambda: len(changes) > seen + 2, "nothing is changed", 60)
    checks.say(f"{said} ({len(changes)} changes meanwhile)")
    checks.expect("changes meanwhile", {status for status in changes if status not in chaos.NONE}, {200})
    are_well(three)


def alone(three, client, checks):
    """Has nothing on any machine, and one of them be alone, with a domain."""
    three.everywhere("sv force-stop /etc/service/* || true; "
                     "rm -rf /var/lib/pdpd/* /var/lib/pdpd-replica/* /var/lib/etcd/* /etc/haproxy/leases.map "
                     "/etc/haproxy/domains.map /etc/haproxy/haproxy.cfg")
    three.run("a", "rm /etc/service/pdpd-etcd /etc/service/pdpd-rows; cp /etc/pdpd/shards.conf /root/three.conf; "
              "sed -i 's/^REPLICAS=.*/REPLICAS=/' /etc/pdpd/shards.conf; pdpd-shards config --write && "
              "pdpd-shards services")
    wait_until(lambda: client.sent("a", "GET", "/operator/domains", client.operator)[0] == 200, "it isn't there", 60)
    wait_until(lambda: client.has_made("a", "first"), "no change is taken", 60)
    checks.expect("a domain of one machine", client.make_ward("a"), [201, 200, 200, 201, 200, 200, 200])
    checks.expect("a decision", client.decision("a"), "Permit")


def one_to_three(three, client, checks):
    """One machine becomes three by the page's commands, while somebody changes rows; nobody is locked out."""
    alone(three, client, checks)
    others, first = (commands("From one machine to three", number) for number in range(2))
    for name in "bc":
        for step in others:
            three.run(name, step)
    with chaos.changing(client, "a") as changes:
        for step in first:
            said = three.run("a", step.replace("SELF=a/", "SELF=a/"))
            checks.say(f"$ {step}\n    {said.strip()[-200:]}")
        wait_until(lambda: client.own_decision("a") == "Permit",
                   lambda: three.run("a", "pdpd-replicas status", None), 60)
        checks.expect("a machine that has nothing yet", client.own_decision("b"), 503)
        for name in "bc":
            for shard in range(2):
                checks.say(joined(three, shard, "a", name).strip())
        are_well(three)
    checks.expect("changes meanwhile", {status for status in changes if status not in (0, 502, 503, 504)}, {200})
    for name in NAMES:
        wait_until(lambda name=name: client.own_decision(name) == "Permit", f"{name} doesn't decide", 60)
    status = client.sent("c", "PUT", "/domains/ward/pip", chaos.ADMIN, (chaos.WARD / "rows.json").read_text())[0]
    checks.expect("a change by a token of before", status, 200)
    said = three.everywhere("pdpd-replicas rows")
    checks.expect("equal rows", {text.count("a, b, c have the same") for text in said.values()}, {2})
    checks.expect("services that were away", "doesn't run" in three.run("a", "pdpd-shards status", None), False)
