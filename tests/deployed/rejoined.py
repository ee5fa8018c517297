"""Machines that come, come back with nothing, and go."""
from . import chaos
from .machine import wait_until
from .recovered import are_well, joined
from .three import NAMES, SHARDS, commands, install_later, known_as, prepare

# a machine has nothing any more but its settings, its certificates and the operator's token
LOST = ("sv force-stop /etc/service/* || true; rm -rf /var/lib/pdpd/* /var/lib/pdpd-replica/* /var/lib/etcd/* "
        "/etc/default/etcd /etc/haproxy/haproxy.cfg /etc/haproxy/*.map /etc/service/* /etc/sv/pdpd-*")


def begin_beside(three, name, checks):
    """Gives a machine that has nothing the page's commands, by which it begins beside those that are there."""
    steps = commands("More machines, and fewer", 1)
    for step in steps:
        said = three.run(name, step.replace("SELF=d/", f"SELF={name}/"))
        checks.say(f"$ {step}\n    {said.strip()[-200:]}")
    for shard in range(SHARDS):
        checks.say(joined(three, shard, "b", name).strip())


def lost_machine(three, client, checks):
    """A machine that has lost its disk comes back, while changes are made elsewhere."""
    are_well(three)
    three.run("c", f"{LOST}; sleep 7")
    (take,) = commands("More machines, and fewer", 0)
    for word, why in (("a", "that is this machine"), ("b", "etcd of b answers")):
        checks.expect(f"take {word}", why in three.run("a", take.replace(" d", f" {word}"), 1), True)
    with chaos.changing(client, "a") as changes:
        checks.say(three.run("a", take.replace(" d", " c")).strip())
        set_machines(three, "c", NAMES)
        begin_beside(three, "c", checks)
        wait_until(lambda: client.own_decision("c") == "Permit",
                   lambda: three.run("c", "pdpd-replicas status", None), 60)
    are_well(three)
    checks.expect("changes meanwhile", {status for status in changes if status not in chaos.NONE}, {200})
    others = [name for name in NAMES if name != "c"]
    three.run("b", "sv down /etc/service/pdpd-etcd")
    wait_until(lambda: client.has_made("a", "with-c"), "its etcd is of no majority", 60)
    three.run("b", "sv up /etc/service/pdpd-etcd")
    are_well(three)
    checks.expect("decisions", [client.own_decision(name) for name in others], ["Permit"] * 2)


def set_machines(three, name, names):
    """Writes REPLICAS, as the page says."""
    words = " ".join(f"{one}={known_as(one)}" for one in names)
    three.run(name, f"sed -i 's/^REPLICAS=.*/REPLICAS=\"{words}\"/' /etc/pdpd/shards.conf")


def added(three, client, checks):
    """A fourth machine comes, decides, and goes again."""
    three.make("d")
    for step in commands("Setting it up", 0):
        three.run("d", step)
    # (the others have another program by now)
    three.run("a", f"cp /usr/local/lib/pdpd/pdpd {three.folder}/program")
    install_later(three, "d", f"cp {three.folder}/program pdpd")
    three.run("a", commands("Setting it up", 1)[0].split(" a=")[0] + f" d={known_as('d')}")
    prepare(three, "d")
    three.run("d", f"echo {client.operator} > /etc/pdpd/token")
    for name in (*NAMES, "d"):
        set_machines(three, name, (*NAMES, "d"))
    (take,), (drop,) = (commands("More machines, and fewer", number) for number in (0, 2))
    with chaos.changing(client, "a") as changes:
        three.run("a", take)
        begin_beside(three, "d", checks)
        wait_until(lambda: client.own_decision("d") == "Permit",
                   lambda: three.run("d", "pdpd-replicas status", None), 60)
        are_well(three)
        found = client.sent("d", "PUT", "/domains/ward/pip", chaos.ADMIN, (chaos.WARD / "rows.json").read_text())[0]
        checks.expect("a change there", found, 200)
        checks.say(three.run("a", drop).strip())
        checks.expect("it decides nothing any more", client.own_decision("d"), 503)
        for name in NAMES:
            set_machines(three, name, NAMES)
    are_well(three)
    checks.expect("changes meanwhile", {status for status in changes if status not in chaos.NONE}, {200})
    three.remove("d")


def all_lost(three, client, checks):
    """All machines are lost, and are made anew by the page's commands and copies of the shards that were kept: they
    have what these have."""
    are_well(three)
    wait_until(lambda: client.has_made("c", "before-the-copy"), "no change is taken", 60)
    copies = {shard: three.folder / f"kept-{shard}.tar" for shard in range(SHARDS)}
    copy, join = commands("A lost shard", 0)
    with chaos.changing(client, "a") as changes:
        for shard, path in copies.items():
            three.run("b", copy.replace("shard-0.tar", str(path)).replace(" 0 ", f" {shard} "))
        wait_until(lambda: client.has_made("c", "behind-the-copy"), "no change is taken", 60)
    three.everywhere(LOST)
    for step in commands("Setting it up", 2)[:-2]:
        three.everywhere(step.replace("SELF=a/", "SELF={machine}/"))
    for name in NAMES:
        for shard, path in copies.items():
            checks.say(three.run(name, join.replace("shard-0.tar", str(path)).replace(" 0 ", f" {shard} ")).strip())
    _, push, thaw = commands("All of etcd is lost", 0)
    for name in NAMES:
        wait_until(lambda name=name: "has those up to" in three.run(name, push, None),
                   lambda name=name: three.run(name, push, None), 60)
    wait_until(lambda: "are taken" in three.run("a", thaw, None), lambda: three.run("a", thaw, None), 60)
    are_well(three)
    checks.expect("decisions", [client.own_decision(name) for name in NAMES], ["Permit"] * 3)
    listed = [client.sent(name, "GET", "/operator/domains", client.operator)[2] for name in NAMES]
    checks.expect("domains", [[f'"{word}-the-copy"' in one for word in ("before", "behind")] for one in listed],
                  [[True, False]] * 3)
    found = client.sent("c", "PUT", "/domains/ward/pip", chaos.ADMIN, (chaos.WARD / "rows.json").read_text())[0]
    checks.expect("a change by a token of before", found, 200)
    said = three.everywhere("pdpd-replicas rows")
    checks.expect("equal rows", {text.count("a, b, c have the same") for text in said.values()}, {SHARDS})
    checks.say(f"{changes.count(200)} changes while copies were written")
