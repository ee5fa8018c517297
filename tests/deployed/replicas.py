"""Three machines that hold the same, by the commands of docs/guide/REPLICAS.md, and a short chaos among them."""
import os
import pathlib
import time
import traceback

from . import chaos, figures, grouped, recovered, rejoined, resharded
from .machine import wait_until
from .three import NAMES, OPERATOR, Three, commands, install_later, prepare

# by hand, as `run` for a longer chaos alone (CHAOS_SEED, CHAOS_SECONDS, CHAOS_CLIENTS)
ONLY = os.environ.get("REPLICAS_ONLY", "").split()
# each command that is wanted beside those of one machine, with Debian's package of it
WANTED = {"etcd": "etcd-server", "nsenter": "util-linux"}


def set_up(alone, checks):
    """Gives the page's commands on each machine; the machines."""
    three = Three(alone.folder, alone.packed())
    install, (once,), steps = (commands("Setting it up", number) for number in range(3))
    # (with that of packages)
    checks.expect("so many commands on each machine", 1 + len(install) + len(steps) <= 10, True)
    for step in install:
        three.everywhere(step)
    three.run("a", once)
    for name in NAMES:
        prepare(three, name)
    for step in steps[:-1]:
        said = three.everywhere(step.replace("SELF=a/", "SELF={machine}/"))["a"]
        checks.say(f"$ {step}\n    {said.strip()[-200:]}")
    wait_until(lambda: "WRONG" not in three.run("a", steps[-1], None), lambda: three.run("a", steps[-1], None), 60)
    checks.say(three.run("a", steps[-1]))
    return three


def replicas(alone, checks):
    """The whole."""
    three = set_up(alone, checks)
    client = chaos.Client(OPERATOR, three.folder / "disks" / "a" / "made" / "a")
    checks.expect("a domain", client.make_ward("a"), [201, 200, 200, 201, 200, 200, 200])
    for name in NAMES:
        checks.expect(f"a decision of {name}", client.own_decision(name), "Permit")
    if "FIGURES" in os.environ:
        figures.figures(three, client, checks)
    is_right, failed = False, checks.failed
    try:
        for part in parts():
            timed(checks, part, three, client)
        is_right = checks.failed == failed
    finally:
        if not is_right:
            checks.keep(three.logs())


def parts():
    """What an operator does while all is well; a chaos; and what he does when more is lost, and when machines come and
    go. By hand some alone."""
    all_parts = (looked_at, upgraded, recovered.other_program, lost_disk, recovered.rows_differ, recovered.skipped,
                 recovered.rotated, recovered.mistake_undone, recovered.etcd_full, resharded.moved, chaos.run,
                 rejoined.lost_machine, rejoined.added, recovered.etcd_lost, rejoined.all_lost, recovered.one_to_three,
                 resharded.older_moved, resharded.grown, grouped.two_groups)
    return [part for part in all_parts if not ONLY or part.__name__ in ONLY]


def timed(checks, part, three, client):
    """Runs a part, and tells how long it took. What goes wrong in it has failed; the next one is run all the same."""
    began = time.time()
    try:
        part(three, client, checks)
    except Exception:  # noqa: BLE001
        checks.expect(f"{part.__name__}\n{traceback.format_exc()[-3000:]}", "an error", "none")
    checks.say(f"{part.__name__}: {time.time() - began:.0f} s")


def looked_at(three, client, checks):
    """What `status` tells of a machine that is away, and of a frozen log."""
    wait_until(lambda: chaos.are_level(three), lambda: three.run("b", "pdpd-replicas status", None), 60)
    said = three.run("a", "haproxy -c -f /etc/haproxy/haproxy.cfg 2>&1")
    checks.expect("what HAProxy says to its file", said.strip(), "Configuration file is valid")
    for words in ("put-back 0 20260101T000000.000Z --yes", "move ward 0 1", "grow 3", "remap"):
        checks.expect(f"pdpd-shards {words}", "machine" in three.run("a", f"pdpd-shards {words}", 1), True)
    three.run("b", "pdpd-replicas freeze by hand")
    status = client.sent("c", "PUT", "/operator/domains/other", client.operator)[0]
    checks.expect("a change of a frozen log", status, 503)
    checks.expect("a decision of a frozen log", client.own_decision("c"), "Permit")
    told = "WRONG: shard 0: the log is frozen: by hand"
    checks.expect("it is told", told in three.run("c", "pdpd-replicas status", 1), True)
    three.run("c", "pdpd-replicas thaw")
    wait_until(lambda: client.has_made("c", "other"), "no change is taken", 60)
    three.run("a", f"sv stop /etc/service/pdpd-replica-{client.shard(three)}")
    wait_until(lambda: "a isn't there" in three.run("b", "pdpd-replicas status", None), "it isn't told", 60)
    checks.expect("a machine without its daemon decides nothing", client.own_decision("a"), 503)
    checks.expect("others do", [client.own_decision(name) for name in "bc"], ["Permit"] * 2)
    passed_on(client, checks)
    three.run("a", f"sv start /etc/service/pdpd-replica-{client.shard(three)}")
    wait_until(lambda: client.own_decision("a") == "Permit", "it doesn't decide again", 60)
    # (what is away for a second is; and then all but HAProxy)
    for services in (f"pdpd-{client.shard(three)}", "pdpd-*"):
        three.run("a", f"sv stop /etc/service/{services}; sleep 2")
        passed_on(client, checks)
        three.run("a", f"sv start /etc/service/{services}")
        wait_until(lambda: client.own_decision("a") == "Permit", "it doesn't decide again", 60)


def passed_on(client, checks):
    """A machine that may not decide asks another one, for what changes nothing alone."""
    checks.expect("decisions of others", {client.decision("a") for _ in range(20)}, {"Permit"})
    at = "/domains/ward/pap/policies"
    listed = [client.sent(name, "GET", at, chaos.ADMIN)[::2] for name in "ab"]
    checks.expect("what it lists", (listed[0], listed[0][0]), (listed[1], 200))
    checks.expect("all domains", client.sent("a", "GET", "/operator/domains", client.operator)[0], 200)
    checks.expect("who isn't entitled", client.sent("a", "GET", at, "nobody-at-all")[0], 401)
    status = client.sent("a", "PUT", "/domains/ward/pip", chaos.ADMIN, (chaos.WARD / "rows.json").read_text())[0]
    checks.expect("a change", status in chaos.NONE, True)


def upgraded(three, client, checks):
    """Another program on one machine after another: no change is taken meanwhile, and all machines decide."""
    three.run("a", "pdpd-replicas freeze upgrade")
    with resharded.asking(client) as found:
        for name in NAMES:
            if name == "c":
                checks.expect("too soon", "all machines have to run" in three.run("a", "pdpd-replicas thaw", 1), True)
            install_later(three, name, "printf x >> pdpd")
            three.run(name, "pdpd-shards upgrade")
            for one in NAMES:
                wait_until(lambda one=one: client.own_decision(one) == "Permit", f"{one} doesn't decide behind {name}",
                           60)
    checks.expect("decisions meanwhile", sorted(found) in (["503", "Permit"], ["Permit"]), True)
    checks.say(f"decisions meanwhile: {dict(found)}")
    status = client.sent("b", "PUT", "/operator/domains/more", client.operator)[0]
    checks.expect("a change before the thaw", status, 503)
    wait_until(lambda: "are taken" in three.run("a", "pdpd-replicas thaw", None), "it isn't thawed", 60)
    wait_until(lambda: client.has_made("b", "more"), "no change is taken", 60)
    wait_until(lambda: chaos.are_level(three), lambda: three.run("b", "pdpd-replicas status", None), 60)


def lost_disk(three, client, checks):
    """A machine that has lost a shard takes it from another one, under changes."""
    shard = client.shard(three)
    three.run("c", f"sv stop /etc/service/pdpd-replica-{shard} /etc/service/pdpd-{shard}; "
              f"rm -rf /var/lib/pdpd/{shard} /var/lib/pdpd-replica/{shard}")
    copy = three.folder / "copy.tar"
    with chaos.changing(client, "a") as changes:
        three.run("b", f"pdpd-replicas copy {shard} > {copy}")
        said = three.run("c", f"pdpd-replicas join {shard} < {copy}")
        wait_until(lambda: client.own_decision("c") == "Permit", "it doesn't decide again", 60)
    checks.say(f"{said.strip()} ({len(changes)} changes meanwhile)")
    checks.expect("changes meanwhile", {status for status in changes if status not in (503, 504)}, {200})
    checks.expect("a second time", "isn't empty" in three.run("c", f"pdpd-replicas join {shard} < {copy}", 1), True)
    half = pathlib.Path(f"{copy}.half")
    half.write_bytes(copy.read_bytes()[:copy.stat().st_size // 2])
    three.run("c", f"sv stop /etc/service/pdpd-replica-{shard} /etc/service/pdpd-{shard}; "
              f"mv /var/lib/pdpd/{shard} /var/lib/pdpd/old; mv /var/lib/pdpd-replica/{shard} /var/lib/pdpd-replica/old")
    said = three.run("c", f"pdpd-replicas join {shard} < {half}", 1)
    checks.expect("half a copy", "the copy isn't whole" in said, True)
    three.run("c", f"rm -rf /var/lib/pdpd/{shard} /var/lib/pdpd-replica/{shard}; "
              f"mv /var/lib/pdpd/old /var/lib/pdpd/{shard}; mv /var/lib/pdpd-replica/old /var/lib/pdpd-replica/{shard}; "
              f"sv start /etc/service/pdpd-{shard} /etc/service/pdpd-replica-{shard}")
    wait_until(lambda: client.own_decision("c") == "Permit", "it doesn't decide again", 60)
