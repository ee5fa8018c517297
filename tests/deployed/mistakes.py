"""What an operator does wrongly by hand: `pdpd-shards status` tells each with what heals it, a tool refuses it before
anything has changed, and what is told heals."""
import json
import os
import pathlib
import re
import shutil
import signal

from .clients import decision, once
from .clients import status as status_of
from .machine import LIBRARY, SETTINGS, backs_up, pid, sh, shards, wait_until
from .owners import entered, kept_aside, others_own, readable
from .states import CERTIFICATE, MAP, asked, is_well, tells

STORES, BACKUPS = pathlib.Path("/var/lib/pdpd"), pathlib.Path("/var/lib/pdpd-backups")
LOGS = pathlib.Path("/var/log/pdpd")
PROXY = pathlib.Path("/etc/haproxy/haproxy.cfg")
COUNT = 4


def mistaken(machine, checks):
    """Each of these ended with status 0 once, or with advice that didn't heal."""
    machine.operator.clear()
    ask = machine.operator.makes("ward")
    backs_up()
    shards("remap")
    is_well(checks, "the beginning")
    checks.expect("as cron runs it", "WRONG" in sh("PATH=/usr/bin:/bin /usr/local/bin/pdpd-shards status"), False)
    for mistake in (readable, entered, others_own, kept_aside, unstartable, unwatched, taken_down, unmapped, lost_map,
                    garbled, no_binds, refused_by_proxy, no_program, beyond, unread, services_go_on, not_begun):
        mistake(machine, checks, ask)
        is_well(checks, mistake.__name__)
    checks.expect("behind all of them", decision(once(ask)), "Permit")


def unstartable(machine, checks, ask):
    """HAProxy runs, and wouldn't start with the files as they are."""
    for path, word in ((CERTIFICATE, "pdpd.pem"), (MAP.with_name("domains.lua"), "domains.lua")):
        held, away = path.read_text(), path.with_name("away")
        path.rename(away)
        tells(checks, f"without {path}", "WRONG: HAProxy wouldn't start with its files: ")
        checks.expect(f"which file it is: {path}", word in asked("status")[1].partition("wouldn't start")[2], True)
        away.rename(path)
        if path == CERTIFICATE:
            path.write_text(re.sub("(?s)-----BEGIN PRIVATE.*?-----END PRIVATE KEY-----", "", held))
            tells(checks, "a certificate without its key", "No Private Key found")
        else:
            path.write_text(f"{held}-- changed by hand\n")
            tells(checks, "rules that were changed", f"WRONG: {path} isn't what is installed: pdpd-shards config")
            shards("config", "--write")
        path.write_text(held)
    PROXY.unlink()
    tells(checks, "without its configuration", f"WRONG: {PROXY} isn't there: pdpd-shards config --write")
    shards("config", "--write")


def unwatched(machine, checks, ask):
    """What looks after the shards doesn't run."""
    for name in ("pdpd-watchdog", "pdpd-backups"):
        sh(f"sv -w 30 stop /etc/service/{name}")
        tells(checks, f"without {name}", f"WRONG: {name} doesn't run: pdpd-shards services starts it")
    shards("services")


def taken_down(machine, checks, ask):
    """A shard and HAProxy were taken down: `services` has both run."""
    place = int(shards("where", "ward"))
    sh(f"sv -w 30 stop /etc/service/pdpd-{place}")
    tells(checks, "a shard that is down", f"pdpd-shards restart {place} starts it")
    sh("sv -w 60 force-stop /etc/service/haproxy")
    tells(checks, "without HAProxy", "it doesn't run, and pdpd-shards services starts it")
    shards("services")
    wait_until(machine.operator.is_answered, "HAProxy stays away")
    checks.expect("behind services", decision(once(ask)), "Permit")


def wrong_lines(said):
    """What a status tells to be wrong."""
    return [line for line in said.splitlines() if line.startswith("WRONG: ")]


def unmapped(machine, checks, ask):
    """The map is away, or leads to other shards: many domains are a line or two, and the remap that it names heals."""
    names = [f"many{number}" for number in range(9)]
    for name in names:
        machine.operator.makes(name)
    place = int(shards("where", "ward"))
    shards("move", "ward", place, (place + 1) % COUNT)
    held = MAP.read_text()
    MAP.unlink()
    _, said = asked("status")
    found = wrong_lines(said)
    checks.expect(f"without the map: {said}", (found[0].startswith(f"WRONG: {MAP} isn't there: pdpd-shards remap"),
                                               "whose messages go to" in said), (True, False))
    shards("remap")
    checks.expect("the map", MAP.read_text(), held)
    astray = [name for name in names if int(shards("where", name)) == 0]
    checks.expect("some are in shard 0", len(astray) > 0, True)
    MAP.write_text(held + "".join(f"{name} 1\n" for name in astray))
    shards("reload")
    _, said = asked("status")
    first = ", ".join(astray[:5]) + (" .." if astray[5:] else "")
    wanted = f"shard 0 has {first}, whose messages go to shard 1; it hasn't"
    checks.expect(f"led to another shard: {said}", (wanted in said, "remap leads them to shard 0" in said),
                  (True, True))
    shards("remap")
    checks.expect("the map, made anew", MAP.read_text(), held)
    machine.operator.clear()
    machine.operator.makes("ward")
    shards("remap")
    backs_up()


def lost_map(machine, checks, ask):
    """The map is away: no tool makes an empty one, by which a domain that was moved would be looked for elsewhere. What
    is told heals, also where HAProxy doesn't run and can't start without it."""
    place = int(shards("where", "ward"))
    shards("move", "ward", place, (place + 1) % COUNT)
    held = MAP.read_text()
    MAP.unlink()
    back = "move", "ward", (place + 1) % COUNT, place
    for words in (("config", "--write"), ("upgrade",), ("grow", COUNT + 1), back):
        found, said = asked(*words)
        checks.expect(f"{words} without the map: {said}",
                      (found, f"{MAP} isn't there: pdpd-shards remap" in said, MAP.exists()), (1, True, False))
    sh("sv -w 60 force-stop /etc/service/haproxy")
    _, said = asked("status")
    heals = re.search(r"While HAProxy doesn't run: (echo .*)", said)
    checks.expect(f"without HAProxy: {said}", heals is not None, True)
    sh(heals[1] if heals else f"echo NEW moving > {MAP}; pdpd-shards services; pdpd-shards remap")
    checks.expect("the map, and ward", (MAP.read_text(), decision(once(ask))), (held, "Permit"))
    shards(*back)
    shards("remap")


def garbled(machine, checks, ask):
    """A map of letters that steer a terminal: it isn't read, and a remap heals a HAProxy that has read it."""
    MAP.write_bytes(bytes(range(1, 256)))
    found, said = asked("reload")
    checks.expect(f"a reload of it: {said}", (found, f"{MAP} isn't UTF-8" in said), (1, True))
    # (as by hand, or at a start of the machine)
    sh("sv 2 /etc/service/haproxy; sleep 1")
    wait_until(machine.operator.is_answered, "HAProxy stays away")
    shards("remap")
    checks.expect("behind the remap", decision(once(ask)), "Permit")
    shards("reload")


def no_binds(machine, checks, ask):
    """Nobody could connect: neither is written, nor is all well."""
    held, before = SETTINGS.read_text(), PROXY.read_text()
    SETTINGS.write_text(re.sub(r"(?m)^(TLS|PLAIN)_BIND=.*", r"\1_BIND=", held))
    for words in (("config", "--write"), ("upgrade",)):
        found, said = asked(*words)
        checks.expect(f"{words} without a place: {said}", (found, "no client could connect" in said), (1, True))
    tells(checks, "no place", "WRONG: TLS_BIND and PLAIN_BIND are empty: no client can connect")
    checks.expect("what is written", PROXY.read_text() == before, True)
    SETTINGS.write_text(held)


def refused_by_proxy(machine, checks, ask):
    """A configuration that HAProxy refuses leaves its files as they were, and none of the trial's; and no map where it
    would have been the first one."""
    held, rules = SETTINGS.read_text(), PROXY.with_name("domains.lua")
    before = rules.read_text()
    rules.write_text(f"{before}-- changed by hand\n")
    files = {path.name: path.read_bytes() for path in PROXY.parent.iterdir() if path.is_file()}
    SETTINGS.write_text(f"{held}TLS_BIND=256.0.0.1:443\n")
    found, said = asked("config", "--write")
    checks.expect(f"a wrong address: {said}", (found, "HAProxy doesn't take" in said, "invalid address" in said),
                  (1, True, True))
    left = {path.name: path.read_bytes() for path in PROXY.parent.iterdir() if path.is_file()}
    checks.expect("files of HAProxy that are others", [name for name in {*files, *left}
                                                       if files.get(name) != left.get(name)], [])
    SETTINGS.write_text(held)
    rules.write_text(before)
    place = machine.folder / "first"
    place.mkdir()
    (place / "shards.conf").write_text(f"HAPROXY_ETC={place}\nTLS_BIND=256.0.0.1:443\n")
    sh(f"! PDPD_SETTINGS={place}/shards.conf pdpd-shards config --write")
    checks.expect("behind a first one", os.listdir(place), ["shards.conf"])


def no_program(machine, checks, ask):
    """The program that is set isn't there, or can't be run: no shard is stopped for it."""
    before, installed = [pid(shard) for shard in range(COUNT)], LIBRARY / "pdpd"
    held = SETTINGS.read_text()
    SETTINGS.write_text(f"{held}PROGRAM=/nowhere\n")
    tells(checks, "no program", "WRONG: /nowhere can't be run: ")
    for words in (("restart", 0), ("move", "ward", int(shards("where", "ward")), 3)):
        if words[-2:] != (3, 3):
            found, said = asked(*words)
            checks.expect(f"{words} without a program: {said}", (found, "/nowhere can't be run" in said), (1, True))
    SETTINGS.write_text(held)
    installed.chmod(0o644)
    tells(checks, "one that isn't executable", f"WRONG: {installed} can't be run: ")
    installed.chmod(0o755)
    checks.expect("what runs", [pid(shard) for shard in range(COUNT)], before)
    shards("remap")


def beyond(machine, checks, ask):
    """A store of a shard that there isn't, as where a machine was made anew with fewer."""
    place = STORES / str(COUNT)
    shutil.copytree(STORES / "0", place)
    tells(checks, "a store beyond", f"{place} has a store, and SHARDS is {COUNT}: nobody is led to it. pdpd-shards "
                                    f"grow {COUNT + 1}, then pdpd-shards remap")
    shutil.rmtree(place)


def unread(machine, checks, ask):
    """Settings that can't be read: a monitor is told so, in its own form as well; and another user that it can't
    tell."""
    held = SETTINGS.read_text()
    SETTINGS.chmod(0o600)
    for words in (("status",), ("status", "--json")):
        found, said = asked(*words, user="nobody")
        checks.expect(f"{words} by another: {said}", (found, "Permission denied" in said), (2, True))
    SETTINGS.chmod(0o644)
    SETTINGS.write_text(f"{held}SHARDS=none\n")
    found, said = asked("status", "--json")
    report = json.loads(said)
    checks.expect(f"as JSON: {said}", (found, report["status"], "SHARDS is 'none'" in report["wrong"][0]), (1, 1, True))
    found, said = asked("status", "--prometheus")
    checks.expect(f"for Prometheus: {said}", (found, re.search(r"(?m)^pdpd_wrong 1$", said) is not None), (1, True))
    SETTINGS.write_text(held)


def services_go_on(machine, checks, ask):
    """Settings that can't be read: the watchdog says so, goes on by those before, and kills a shard that is stuck."""
    held, log = SETTINGS.read_text(), LOGS / "pdpd-watchdog" / "current"
    before = len(log.read_text())
    SETTINGS.write_text(f'{held}LOG="stdout\n')
    try:
        os.kill(old := pid(2), signal.SIGSTOP)
        wait_until(lambda: pid(2) not in (0, old), "the watchdog doesn't kill a shard that is stuck")
        told = log.read_text()[before:]
        checks.expect(f"what it tells: {told}", ("a quote has no end: what was set before goes on" in told,
                                                 "Traceback" in told), (True, False))
    finally:
        SETTINGS.write_text(held)
    wait_until(machine.operator.is_answered, "the shard stays away")


def not_begun(machine, checks, ask):
    """Settings of a deployment that was never started, in a file of another name: each tool names what is missing, or
    that file."""
    place = machine.folder / "never"
    place.mkdir()
    file = place / "shards.conf"
    names = {"DATA": "data", "BACKUPS": "backups", "SERVICES": "services", "HAPROXY_RUN": "run", "SOCKETS": "sockets",
             "TOKEN": "token"}
    file.write_text("".join(f"{name}={place / word}\n" for name, word in names.items()))
    for words in ("backup", "backup 0", "restart 0", "services", "remap", "grow 5", "reserve 0", "put-back 0 none"):
        said = sh(f"PDPD_SETTINGS={file} pdpd-shards {words} 2>&1 && echo done || true")
        seen = said.startswith("pdpd-shards: "), "Errno" in said, "Traceback" in said, "done" in said
        checks.expect(f"{words} before a start: {said}", seen, (True, False, False, False))
    said = sh(f"PDPD_SETTINGS={file} pdpd-shards config").split("\n")[0]
    checks.expect(f"whose the configuration is: {said}", f"of {file}: " in said, True)


def unchanged(machine, checks):
    """A refusal leaves all as it was: a growth that can't be, a put-back of a damaged backup, and both without
    HAProxy."""
    machine.operator.clear()
    ask = machine.operator.makes("ward")
    place = int(shards("where", "ward"))
    name = re.search(rf"/{place}/([^,]+), ", backs_up(place))[1]
    shards("remap")
    backs_up()
    grown_wrongly(machine, checks)
    damaged(checks, place, name)
    without_proxy(machine, checks, place, name)
    is_well(checks, "them")
    checks.expect("ward", decision(once(ask)), "Permit")


def grown_wrongly(machine, checks):
    """A growth by another number than HAProxy's, and one while a shard is down: domains are made as before."""
    held, before = SETTINGS.read_text(), MAP.read_text()
    for count, wanted in ((COUNT + 1, COUNT + 1), (COUNT - 1, COUNT + 1)):
        SETTINGS.write_text(re.sub("(?m)^SHARDS=.*", f"SHARDS={count}", held))
        found, said = asked("grow", wanted)
        checks.expect(f"grow {wanted} with SHARDS={count}: {said}", (found, f"write SHARDS={COUNT} again" in said),
                      (1, True))
        found, said = asked("restart")
        checks.expect(f"a restart with SHARDS={count}: {said}", (found, f"write SHARDS={COUNT} again" in said),
                      (1, True))
        _, told = asked("status")
        first = wrong_lines(told)[0]
        checks.expect(f"what is told first: {told}", (f"write SHARDS={COUNT} again" in first, "messages go" in told),
                      (True, False))
        SETTINGS.write_text(held)
    sh("sv -w 30 stop /etc/service/pdpd-3")
    found, said = asked("grow", COUNT + 1)
    checks.expect(f"a growth while a shard is down: {said}", found, 1)
    sh("sv up /etc/service/pdpd-3")
    wait_until(machine.operator.is_answered, "shard 3 stays away")
    checks.expect("a domain is made", status_of(once(machine.operator.creates("later"))), 201)
    once(machine.operator.message("DELETE", "/later"))
    seen = MAP.read_text(), SETTINGS.read_text() == held, os.path.exists(f"/etc/service/pdpd-{COUNT}")
    checks.expect("the map, the settings, and the services", seen, (before, True, False))


def damaged(checks, place, name):
    """A backup whose log was changed or cut, of which the program would read the beginning alone, is told to be so."""
    kept = BACKUPS / str(place) / name
    sh(f"cd {kept} && sha256sum --quiet --check sums")
    log = kept / "pdpd.db-wal"
    held, before = log.read_bytes(), inside(place)
    for what, text in (("a byte", held[:-9] + bytes([held[-9] ^ 1]) + held[-8:]), ("cut", held[:len(held) // 2]),
                       ("empty", b"")):
        log.write_bytes(text)
        found, said = asked("put-back", place, name, "--yes")
        checks.expect(f"{what}: {said}", (found, "was damaged or changed since it was made" in said), (1, True))
    log.write_bytes(held)
    checks.expect("what is in the folder", inside(place), before)
    for answer in ("no", ""):
        said = sh(f"echo '{answer}' | script -qec 'pdpd-shards put-back {place} {name}' /dev/null || true")
        checks.expect(f"{answer!r} at a terminal: {said}", ("Is that wanted? " in said, "nothing was changed" in said),
                      (True, True))
    checks.expect("what is in the folder behind it", inside(place), before)
    (kept / "sums").unlink()
    found, said = asked("put-back", place, name)
    seen = found, f"shard {place} gets what {name} has" in said
    checks.expect(f"one of an earlier version: {said}", seen, (1, True))


def inside(shard):
    """The names in a shard's folder."""
    return sorted(path.name for path in (STORES / str(shard)).iterdir())


def without_proxy(machine, checks, place, name):
    """HAProxy is away: a growth and a put-back say so, and leave nothing."""
    before = inside(place), MAP.read_text(), SETTINGS.read_text(), pid(place)
    sh("sv -w 60 force-stop /etc/service/haproxy")
    for words in (("grow", COUNT + 1), ("put-back", place, name, "--yes")):
        found, said = asked(*words)
        seen = found, said.count("HAProxy doesn't answer at"), "Errno" in said
        checks.expect(f"{words} without HAProxy: {said}", seen, (1, 1, False))
    checks.expect("what there is", (inside(place), MAP.read_text(), SETTINGS.read_text(), pid(place)), before)
    sh("sv up /etc/service/haproxy")
    wait_until(machine.operator.is_answered, "HAProxy stays away")


MISTAKES = (mistaken, unchanged)
