"""Changes of the deployment itself while it is asked: domains that move, and more shards."""
import itertools
import os
import pathlib
import re
import signal
import sys
import threading
import time
import zlib

from checks import Between

from . import clients
from .attacking import counted
from .clients import Deciders, Load, Makers, decision, many, message, once, read, status
from .machine import LIBRARY, SETTINGS, admin, backs_up, ended_shards, holder, pid, place, sh, shards, wait_until


def shown_of(name):
    """What a domain shows of itself: its documents, one of them, its rows and a decision."""
    token, at = f"{name}-token-1", f"/domains/{name}"
    asks = [message("GET", f"{at}/pap/policies", token), message("GET", f"{at}/pap/policy/urn:p/1.0", token),
            message("GET", f"{at}/pip", token), message("POST", f"{at}/pdp", token, '{"Request":{}}')]
    return [read(once(data)) for data in asks]


def moves(machine, checks):
    """Three moves under load: nobody is answered wrong or turned away, and the domain stays the same."""
    operator = machine.operator
    operator.clear()
    asks = many(machine, 8)
    moving = operator.makes("mover", "Deny")
    rows = ('{"Row":[{"AttributeId":"a","Category":"Action","DataType":"string","Entity":"e","Issuer":"i","Value":"v"},'
            '{"AttributeId":"a","Category":"Action","DataType":"string","Entity":"e","Value":"w"}]}')
    checks.expect("rows", status(once(message("PUT", "/domains/mover/pip", "mover-token-1", rows))), 200)
    before, took, lists = shown_of("mover"), [], []
    checks.expect("what it shows", [found[0] for found in before], [200] * 4)
    checks.expect("the issuer of a row", b'"Issuer":"i"' in before[2][2], True)
    lister = Load(lambda _number: lists.append(operator.names()), 1)
    with Deciders(asks, 6) as deciders, Deciders([(moving, "Deny")], 2) as movers, lister:
        for _ in range(3):
            one = int(shards("where", "mover"))
            said = shards("move", "mover", one, (one + 1) % 4)
            took.append(float(said.rpartition("for ")[2].split()[0]))
            checks.expect("where it is", int(shards("where", "mover")), (one + 1) % 4)
            checks.expect("what it shows behind it", shown_of("mover"), before)
    checks.expect("the others", deciders.wrong, [])
    checks.expect("the domain that moves", movers.wrong, [])
    names = sorted([*(f"d{number}" for number in range(8)), "mover"])
    checks.expect("each list has each domain once", [found for found in lists if found != names], [])
    checks.say(f"3 moves: the two shards were away for {max(took):.2f} s at the most; {deciders.answered} decisions "
               f"of others, the longest after {deciders.longest:.2f} s; {len(lists)} lists")
    cut_moves(machine, checks, before)


def cut_moves(machine, checks, before):
    """A move that was cut behind its copy is gone on with; two that differ under one name are left alone."""
    one = int(shards("where", "mover"))
    other = (one + 1) % 4
    for shard in (one, other):
        sh(f"sv down /etc/service/pdpd-{shard}")
    wait_until(lambda: not holder(one) and not holder(other), "the shards don't end")
    copied(*(f"/var/lib/pdpd/{shard}/pdpd.db" for shard in (one, other)))
    for shard in (one, other):
        sh(f"sv up /etc/service/pdpd-{shard}")
    shards("move", "mover", one, other)
    checks.expect("a move that was cut", shown_of("mover"), before)
    checks.expect("it is listed once", machine.operator.names().count("mover"), 1)
    # a domain of the same name, made at another shard by mistake
    there = place(one)
    checks.expect("a second one", status(once(machine.operator.creates("mover"), there)), 201)
    said = shards("move", "mover", other, one, status=1)
    behind = status(once(machine.operator.message("GET", ""), there))
    found = "both shards have" in said, behind
    checks.expect("it isn't moved, and its shards answer behind that", found, (True, 200))
    checks.expect("and shows what it did", shown_of("mover"), before)
    checks.expect("it is listed once", machine.operator.names().count("mover"), 1)
    warning = f"WRONG: shard {one} has mover, whose messages go to shard {other}"
    checks.expect("the second one is told", warning in shards("status", status=1), True)
    removes = machine.operator.message("DELETE", "/mover")
    checks.expect("the second one goes", status(once(removes, there)), 200)


def crossed(machine, checks):
    """A list that waits at shard 2 while a domain moves from the last shard to the first has that domain."""
    machine.operator.clear()
    machine.operator.makes("mover")
    while (one := int(shards("where", "mover"))) != 3:
        shards("move", "mover", one, one + 1)
    found, stopped = [], pid(2)
    lister = threading.Thread(target=lambda: found.append(status_and_names(machine)))
    os.kill(stopped, signal.SIGSTOP)
    try:
        lister.start()
        time.sleep(0.5)
        shards("move", "mover", 3, 0)
    finally:
        # (if that took over five seconds the watchdog has killed it)
        sh(f"kill -CONT {stopped} || true")
        lister.join()
    checks.expect("a list that a move crosses", found, [(200, b'{"Domain":["mover"]}')])


def status_and_names(machine):
    """The status and the body of the list."""
    reply = read(once(machine.operator.message("GET", "")))
    return reply and (reply[0], reply[2])


# decisions that are asked for while the deployment is changed
LIVE = 100_000


def live(machine, checks):
    """Restarts, moves, a put-back and an upgrade while a hundred clients ask, over connections that HAProxy keeps to
    the shards: of a hundred thousand decisions none fails, or is another's."""
    machine.operator.clear()
    asks = many(machine, 8)
    one = int(shards("where", "d0"))
    other, name = (one + 1) % 4, re.search(rf"/{one}/([^,]+), ", backs_up(one))[1]
    steps = (("restart",), ("move", "d0", one, other), ("move", "d0", other, one), ("put-back", one, name, "--yes"),
             ("upgrade",))
    rounds = 0
    with Deciders(asks, 2) as deciders, clients.Crowd(machine.folder, [ask for ask, _ in asks], 100) as crowd:
        while not rounds or crowd.count < LIVE:
            for words in steps:
                shards(*words)
            rounds += 1
    checks.expect("decisions that fail", crowd.failed, (0, []))
    checks.expect("others, which are compared", deciders.wrong, [])
    checks.say(f"{crowd.count + deciders.answered} decisions beside {rounds} times {len(steps)} changes: none failed")


# How a move is ended, at the entries of which system calls, and at each how manyth of them. It renames the map's
# file, its program that carries the rows has the disk keep the shards' files (fdatasync), and it connects to HAProxy.
ENDINGS = (("KILL", "rename", 1), ("CHILD", "fdatasync", 1), ("HUP", "rename", 1), ("HUP", "connect", 4))
STATUSES = {"KILL": -signal.SIGKILL, "CHILD": 1, "HUP": 128 + signal.SIGHUP}


def killed(machine, checks):
    """A move that is ended at some moment, by a kill or since the terminal is closed: given again it is made whole.
    Whatever the moment, the domain is listed once, and shows what it did or is away."""
    operator = machine.operator
    operator.clear()
    operator.makes("mover", "Deny")
    before, counts = shown_of("mover"), []
    sys.path.insert(0, str(LIBRARY))
    from operating import settings, talk
    talk.settle(settings.read())
    for how, call, step in ENDINGS:
        for number in itertools.count(step, step):
            one = int(shards("where", "mover"))
            other, what = (one + 1) % 4, f"behind {how} at {call} {number}"
            found, said = ended_shards(machine.folder, (how, call, number), "move", "mover", one, other)
            if found == 0:
                break
            checks.expect(f"{what}: {said}", found, STATUSES[how])
            stands(machine, checks, what, before, (how, one, other))
            shards("move", "mover", one, other)
            checks.expect(f"{what}, given again", (shown_of("mover"), operator.names()), (before, ["mover"]))
        counts.append(number // step - 1)
        checks.within(f"it is ended by {how} at {call}: how often", counts[-1], Between(1))
    checks.say(f"a move was ended at {sum(counts)} moments: {counts}")


def stands(machine, checks, what, before, ending):
    """How the domain stands behind a move that was ended, also once the machine has been started again."""
    how, one, other = ending
    if how != "KILL":
        wait_until(lambda: pid(one) and pid(other), f"{what}: a shard stays away", 10)
    else:
        sh(f"sv up /etc/service/pdpd-{one} /etc/service/pdpd-{other}")
        admin("del map /etc/haproxy/domains.map HELD")
    wait_until(machine.operator.is_answered, f"{what}: there is no list")
    checks.expect(f"{what}: the list", machine.operator.names(), ["mover"])
    found = shown_of("mover")
    is_right = found == before or [it and it[0] for it in found] == [503] * 4
    checks.expect(f"{what}: as before, or away: {found}", is_right, True)


def copied(source, target):
    """Copies the domain as a move that is cut behind its copy leaves it."""
    sys.path.insert(0, str(LIBRARY))
    from operating import carrying
    with carrying.open_store(source) as one, carrying.open_store(target) as other:
        carrying.put_rows(one, other, "mover")
        other.execute("COMMIT")
    for path in (source, target):
        owner = os.stat(os.path.dirname(path))
        for suffix in ("", "-wal", "-shm"):
            if os.path.exists(path + suffix):
                os.chown(path + suffix, owner.st_uid, owner.st_gid)


def growth(machine, checks):
    """From four shards to six under load: every domain stays, and none is made twice or lost."""
    operator = machine.operator
    operator.clear()
    asks = many(machine, 12)
    twice, stays = copied_by_mistake(machine)
    # (behind the reload HAProxy knows the operator's token no more before a success: of such messages REFUSALS leaves
    # one address a thousand in ten seconds, which these don't reach)
    crowd = clients.Crowd(machine.folder, [ask for ask, _ in asks], 50)
    with Deciders(asks, 6) as deciders, Makers(operator, "g", 2, also=(503,), pause=0.02) as makers, crowd:
        time.sleep(1)
        began = time.time()
        shards("grow", 6)
        took = time.time() - began
        time.sleep(1.5)
    checks.expect("decisions", deciders.wrong, [])
    checks.expect("of others", crowd.failed, (0, []))
    checks.within("how many those are", crowd.count, Between(1_000))
    checks.expect("domains that are made", makers.wrong + makers.unanswered, [])
    names = operator.names()
    checks.expect("a domain of which another shard has a copy", int(shards("where", twice)), stays)
    checks.expect("the copy goes", status(once(operator.message("DELETE", f"/{twice}"), place(3))), 200)
    checks.expect("each is there once", sorted(names), sorted(set(names)))
    wanted = {*makers.acknowledged, *(f"d{number}" for number in range(12))}
    checks.expect("each that was acknowledged, and no other", set(names), wanted)
    checks.expect("six programs", [bool(pid(shard)) for shard in range(6)], [True] * 6)
    made = [any(pathlib.Path(f"/var/lib/pdpd-backups/{shard}").glob("2*")) for shard in (4, 5)]
    checks.expect("backups of the new ones", made, [True, True])
    known = dict(line.split() for line in pathlib.Path("/etc/haproxy/domains.map").read_text().splitlines())
    made = {zlib.crc32(name.encode()) % 6 for name in makers.acknowledged if name not in known}
    checks.expect("new ones come to the new shards: those that got none", {4, 5} - made, set())
    checks.expect("a domain of before", decision(once(asks[0][0])), asks[0][1])
    checks.say(f"growth: {took:.0f} s, in which {len(makers.refused)} new domains were refused; "
               f"{len(makers.acknowledged)} were made, beside {deciders.answered + crowd.count} decisions")
    checks.expect("SHARDS can't be set back", "write SHARDS=6 again" in refused_configuration(), True)


def miscounted(machine, checks):
    """SHARDS is changed by hand: no tool writes or starts anything, and each says what heals. Where HAProxy has been
    given another number all the same, as an earlier version did, the advice leads each domain to where it is."""
    operator = machine.operator
    operator.clear()
    # (a domain that is in the map stays where it is, whatever the number)
    names = [f"counted{number}" for number in range(12)]
    asks = [operator.makes(name) for name in names]
    count = int(re.search(r"(?m)^SHARDS=(\d+)", SETTINGS.read_text())[1])
    before = pathlib.Path("/etc/haproxy/haproxy.cfg").read_text()
    for words in (("config", "--write"), ("upgrade",), ("services",), ("status",)):
        set_count(count + 2)
        said = shards(*words, status=1)
        wanted = f"write SHARDS={count} again"
        checks.expect(f"{words} with more: {said}", (wanted in said, f"grow {count + 2}" in said), (True, True))
    checks.expect("what is written", pathlib.Path("/etc/haproxy/haproxy.cfg").read_text() == before, True)
    checks.expect("what is started", os.path.exists(f"/etc/service/pdpd-{count}"), False)
    pathlib.Path("/etc/haproxy/haproxy.cfg").unlink()
    shards("config", "--write")
    shards("reload")
    set_count(count)
    checks.within("domains that are away", [decision(once(ask)) for ask in asks].count(401), Between(1))
    for words in (("config", "--write"), ("upgrade",), ("status",)):
        said = shards(*words, status=1)
        checks.expect(f"{words} with fewer: {said}", f"pdpd-shards grow {count + 2}" in said, True)
    said = shards("grow", count, status=1)
    checks.expect(f"fewer than there are: {said}", f"now they are {count + 2}" in said, True)
    shards("grow", count + 2)
    checks.expect("each domain is found again", [decision(once(ask)) for ask in asks], ["Permit"] * 12)
    checks.expect("and listed once", operator.names(), sorted(names))


def set_count(count):
    """Writes SHARDS into the settings by hand."""
    sh(f"sed -i 's/^SHARDS=.*/SHARDS={count}/' {SETTINGS}")


def copied_by_mistake(machine):
    """Makes one of d0 to d11 a second time, at the last shard; its name, and where its messages are led."""
    for name in map("d{}".format, range(12)):
        led = int(shards("where", name))
        if led != 3:
            break
    made = status(once(machine.operator.creates(name), place(3)))
    if made != 201:
        raise RuntimeError(f"{name} isn't made a second time: {made}")
    return name, led


def refused_configuration():
    """What is said where SHARDS is changed by hand."""
    set_count(4)
    said = shards("config", "--write", status=1)
    set_count(6)
    return said


# what became a shard's program in an earlier version, and the lines of its settings that meant something else
OLDER_RUN = """#!/bin/sh
. /etc/pdpd/shards.conf
export PDPD_IDLE=4
umask 077
exec /usr/local/lib/pdpd/pdpd serve "/var/lib/pdpd/$1/pdpd.db" "127.0.0.1:$((288 + $1))" \
    "$CREDENTIALS_DIRECTORY/token" 1000000
"""
OLDER = {"FIRST_PORT": 288, "MAXCONN": 1, "CONNECTIONS": 1_000_000, "IDLE": 4, "KEEP": 0, "RETRY": 0}


def as_older():
    """Has all of it run as an earlier version did: programs that take one connection after another, at ports."""
    text = "".join(line for line in SETTINGS.read_text().splitlines(True) if line.partition("=")[0] not in OLDER)
    SETTINGS.write_text(text + "".join(f"{name}={value}\n" for name, value in OLDER.items()))
    shards("config", "--write")
    configuration = pathlib.Path("/etc/haproxy/haproxy.cfg")
    # (as with newer versions of HAProxy each message has a connection of its own)
    configuration.write_text(configuration.read_text().replace("version_before(2.7)", "version_before(1.0)"))
    for shard in range(4):
        sh(f"sv down /etc/service/pdpd-{shard}")
    wait_until(lambda: not any(holder(shard) for shard in range(4)), "the shards don't end")
    (LIBRARY / "pdpd-run").write_text(OLDER_RUN)
    sh("cp /etc/pdpd/shards.conf /etc/pdpd/applied/0.conf; for n in 1 2 3; do cp /etc/pdpd/applied/0.conf "
       "/etc/pdpd/applied/$n.conf; done; sed -i '/--place/d' /usr/local/lib/pdpd/runit/pdpd; "
       "sv up /etc/service/pdpd-0 /etc/service/pdpd-1 /etc/service/pdpd-2 /etc/service/pdpd-3")
    shards("reload")


def older(machine, checks):
    """An installation of an earlier version is upgraded under load, and loses nothing: its shards stay at their ports,
    and what its settings mean now is told. Then they get sockets, as the page says."""
    machine.operator.clear()
    asks, held = many(machine, 8), SETTINGS.read_text()
    as_older()
    wait_until(machine.operator.is_answered, "the shards of the earlier version aren't there")
    words = pathlib.Path(f"/proc/{holder(2)}/cmdline").read_bytes().split(b"\0")
    checks.expect("what runs before", (words[1], words[3]), (b"serve", b"127.0.0.1:290"))
    with Deciders(asks, 6) as deciders, Makers(machine.operator, "o") as makers:
        sh(f"{next(machine.folder.glob('pdpd-*/deploy/install'))} /usr/local")
        said = shards("upgrade")
    checks.expect("no decision is lost, or another's", deciders.wrong, [])
    checks.expect("no change is lost, or made twice", makers.wrong + makers.unanswered, [])
    for what in ("CONNECTIONS, IDLE, KEEP, RETRY of /etc/pdpd/shards.conf set nothing any more",
                 "MAXCONN of /etc/pdpd/shards.conf is 1", "FIRST_PORT of /etc/pdpd/shards.conf is set"):
        checks.expect(f"it tells that {what}", what in said, True)
    words = pathlib.Path(f"/proc/{pid(2)}/cmdline").read_bytes().split(b"\0")
    checks.expect("what runs behind", (words[1], words[3]), (b"listen", b"127.0.0.1:290"))
    SETTINGS.write_text(held)
    with Deciders(asks, 6, also=(503,)) as deciders, Makers(machine.operator, "p", also=(503,)) as makers:
        shards("config", "--write")
        shards("restart")
    checks.expect("from ports to sockets: other answers", deciders.wrong + makers.wrong + makers.unanswered, [])
    checks.expect("behind it", [decision(once(ask)) for ask, _ in asks], [effect for _, effect in asks])
    checks.expect("where they are", [pathlib.Path(place(shard)).is_socket() for shard in range(4)], [True] * 4)
    shards("remap")  # (of domains that other parts have moved and removed)
    checks.expect("status", shards("status").count(" up "), 4)


# messages that HAProxy has at a shard at a time (MAXCONN)
MAXCONN = 8


def keeping(machine, checks):
    """HAProxy keeps as many connections to a shard as it may have messages there, and opens no others; each shard
    answers those that it is asked by at the same time."""
    machine.operator.clear()
    asks = many(machine, 8)
    shards("restart")
    before = [counted(f"shard{shard}", "pdpd", "connect") for shard in range(4)]
    script = clients.script_of(machine.folder / "asks.lua", [ask for ask, _ in asks])
    found = clients.wrk(script, 50, 3)
    checks.expect("all are answered with success", (found["bad"], found["errors"]), (0, ""))
    made = [counted(f"shard{shard}", "pdpd", "connect") - before[shard] for shard in range(4)]
    checks.within("connections to each shard", max(made), range(1, MAXCONN + 1))
    checks.say(f"{found['count']} asks by 50 clients over {sum(made)} connections to 4 shards: "
               f"{clients.in_a_line(found)}")
