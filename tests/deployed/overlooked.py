"""What an operator breaks at night and doesn't see: a disk that isn't mounted, a store that is moved or written over
under its program, rights given to everybody, half an installation, a certificate of another name, a port that another
program has. `pdpd-shards status` tells each with what heals it, and no tool makes it worse."""
import contextlib
import json
import os
import pathlib
import re
import shutil
import subprocess
import sys

from .clients import decision, once
from .clients import status as status_of
from .machine import LIBRARY, SETTINGS, admin, backs_up, pid, sh, shards, wait_until
from .states import CERTIFICATE, MAP, asked, is_well, tells
from .surroundings import BACKUPS, SERVICES, STORES

COUNT, LISTED = 4, LIBRARY / "INSTALLED"
APPLIED = SETTINGS.parent / "applied"


def overlooked(machine, checks):
    """Each of these ended with status 0 once, with a reason that wasn't told, or with what was acknowledged lost."""
    machine.operator.clear()
    ask = machine.operator.makes("ward")
    shards("remap")
    backs_up()
    is_well(checks, "the beginning")
    for one in (not_mounted, lost_disk, moved_store, renamed_store, spoiled_store, given_rights, cut_installation,
                without_upgrade, second_installation, other_name, taken_port, unstartable, by_another_user,
                slower_proxy, other_machines_backup):
        one(machine, checks)
        is_well(checks, one.__name__)
        checks.expect(f"behind {one.__name__}", decision(once(ask)), "Permit")


def place_of_ward():
    return int(shards("where", "ward"))


def waits(machine):
    """Waits until all shards answer again."""
    wait_until(machine.operator.is_answered, "a shard stays away", 60)


@contextlib.contextmanager
def emptied(machine, place):
    """The files of a shard aren't there meanwhile, as where their disk isn't mounted."""
    folder, aside = STORES / str(place), machine.folder / "on-the-disk"
    sh(f"sv -w 30 stop {SERVICES}/pdpd-{place}; mkdir {aside}; mv {folder}/* {aside}/; sv up {SERVICES}/pdpd-{place}")
    try:
        wait_until(lambda: "was there, and isn't" in asked("status")[1], lambda: asked("status")[1], 60)
        yield folder
    finally:
        if aside.exists():
            sh(f"mv {aside}/* {folder}/; rmdir {aside}")


def not_mounted(machine, checks):
    """A shard's disk isn't mounted at a start: no empty store is begun, by which all its tenants would get 401."""
    place = place_of_ward()
    with emptied(machine, place) as folder:
        tells(checks, "an empty folder", f"{folder}/pdpd.db was there, and isn't: mount its disk, or put a backup back")
        _, said = asked("status")
        checks.expect(f"a reserve that wouldn't be on it: {said}", "no reserve" in said, False)
        ask = machine.operator.message("GET", "")
        checks.expect("what was begun there", [path.name for path in folder.iterdir() if path.name != "reserve"], [])
        checks.expect("a list, meanwhile", status_of(once(ask)), 503)
    waits(machine)


def lost_disk(machine, checks):
    """The disk is lost, and a new one is there: the last backup is put back."""
    place = place_of_ward()
    name = re.search(rf"/{place}/([^,]+), ", backs_up(place))[1]
    with emptied(machine, place):
        said = shards("put-back", place, name, "--yes")
        checks.expect(f"a put-back: {said}", f"shard {place} is that of {name}" in said, True)
        shutil.rmtree(machine.folder / "on-the-disk")
    shards("reserve", place)
    sh(f"rm -rf {STORES}/{place}/before-*")


def told_elsewhere(machine, checks, place, file):
    """What the tools tell where a store's program has its file open elsewhere."""
    wanted = f"{STORES}/{place}/pdpd.db isn't what the program of shard {place} has open, which was moved to {file}"
    before = pid(place)
    tells(checks, "a store that was moved", f"WRONG: {wanted}: what is answered goes there. Don't restart it")
    for words in (("backup", place), ("restart", place), ("restart",), ("upgrade",)):
        found, said = asked(*words)
        told = "isn't what its program has open" in said or wanted in said
        checks.expect(f"{words} meanwhile: {said}", (found, told), (1, True))
    checks.expect("the program", pid(place), before)


def moved_store(machine, checks):
    """A folder is moved away under its program, and a copy of a backup put in its place: what is acknowledged from then
    on is where the program has its files, and neither backed up nor there after a start."""
    place = place_of_ward()
    folder, other = STORES / str(place), STORES / "old"
    kept = sorted((BACKUPS / str(place)).iterdir())[-1]
    name = next(name for name in map("moved{}".format, range(100)) if int(shards("where", name)) == place)
    folder.rename(other)
    sh(f"mkdir -m 700 {folder}; cp {kept}/pdpd.db* {folder}/; chown -R pdpd:pdpd {folder}; chmod 600 {folder}/*")
    checks.expect("a change", status_of(once(machine.operator.creates(name))), 201)
    told_elsewhere(machine, checks, place, other / "pdpd.db")
    shutil.rmtree(folder)
    other.rename(folder)
    is_well(checks, "a move back")
    shards("restart", place)
    checks.expect("what was acknowledged", name in machine.operator.names(), True)
    once(machine.operator.message("DELETE", f"/{name}"))


def renamed_store(machine, checks):
    """The same of a store's file alone, in its folder."""
    place = place_of_ward()
    file, other = STORES / str(place) / "pdpd.db", STORES / str(place) / "pdpd.db.old"
    kept = sorted((BACKUPS / str(place)).iterdir())[-1]
    file.rename(other)
    told_elsewhere(machine, checks, place, other)
    sh(f"cp {kept}/pdpd.db {file}; chown pdpd:pdpd {file}; chmod 600 {file}")
    told_elsewhere(machine, checks, place, other)
    other.rename(file)


def spoiled_store(machine, checks):
    """Another file's bytes come into a store under its program, which goes on with what it holds in memory: the next
    backup of the service fails, and that is told at once."""
    place = place_of_ward()
    name = re.search(rf"/{place}/([^,]+), ", backs_up(place))[1]
    shards("restart", place)
    file = STORES / str(place) / "pdpd.db"
    checks.expect("it is folded in", file.stat().st_size > 16_384, True)
    sh(f"dd if=/dev/zero of={file} bs=4096 seek=1 count=2 conv=notrunc 2> /dev/null")
    sh(f"sv restart {SERVICES}/pdpd-backups")
    wanted = f"WRONG: the last backup of shard {place}, at "
    wait_until(lambda: wanted in asked("status")[1], lambda: asked("status")[1])
    tells(checks, "a backup that failed", " UTC, failed: the copy isn't opened: pdpd listen: ")
    shards("put-back", place, name, "--yes")
    backs_up(place)
    sh(f"rm -rf {STORES}/{place}/before-*")


def given_rights(machine, checks):
    """Others than root may change what root runs or goes by."""
    ways = (("chmod o+w {0}", "everybody"), ("chgrp pdpd {0}; chmod g+w {0}", "the group "),
            ("chown pdpd {0}", "the user pdpd"))
    proxy = MAP.with_name("haproxy.cfg")
    for number, path in enumerate((
            SETTINGS, SETTINGS, SETTINGS, SETTINGS.parent, APPLIED, APPLIED / "1.conf", MAP.parent, MAP, proxy, LIBRARY,
            LIBRARY / "operating" / "talk.py", LIBRARY / "pdpd", STORES, BACKUPS, BACKUPS / "1", SERVICES,
            "/etc/sv/pdpd-1")):
        command, who = ways[number % len(ways)]
        held = os.stat(path)
        sh(command.format(path))
        found, said = asked("status")
        heals = re.search(rf"WRONG: {who}\d* can change {path}, by which root's tools go: .*?, then (.*)", said)
        checks.expect(f"{command.format(path)}: {said}", (found, heals is not None), (1, True))
        sh(heals[1] if heals else "true")
        os.chown(path, held.st_uid, held.st_gid)
        os.chmod(path, held.st_mode & 0o7777)


def cut_installation(machine, checks):
    """An installation was cut, or somebody has edited what is installed: neither is a traceback."""
    file = LIBRARY / "operating" / "room.py"
    held = file.read_bytes()
    for text in (held[:1500], held[:100], b"", held + b"# changed by hand\n"):
        file.write_bytes(text)
        found, said = asked("status")
        seen = found, "as it was installed" in said, "nstall the archive again" in said, "Traceback" in said
        checks.expect(f"{len(text)} of {len(held)} bytes: {said}", seen, (1, True, True, False))
    file.write_bytes(held)
    file.rename(file.with_name("away"))
    found, said = asked("status")
    checks.expect(f"without it: {said}", (found, "as it was installed" in said, "Traceback" in said), (1, True, False))
    file.with_name("away").rename(file)


def without_upgrade(machine, checks):
    """What is installed is new, and what runs isn't, though the program is the same."""
    file = LIBRARY / "operating" / "watchdog.py"
    held, listed = file.read_bytes(), LISTED.read_text()
    file.write_bytes(held + b"# of a later version\n")
    sh(f"cd {LIBRARY}; cut -c 67- {LISTED} | LC_ALL=C xargs sha256sum > new; mv new {LISTED}")
    tells(checks, "an installation alone", "WRONG: not all that runs is what is installed: pdpd-shards upgrade")
    shards("services")
    tells(checks, "services, which start nothing anew", "WRONG: not all that runs is what is installed")
    shards("upgrade")
    is_well(checks, "the upgrade")
    file.write_bytes(held)
    LISTED.write_text(listed)
    shards("upgrade")


def second_installation(machine, checks):
    """There are two installations, as of the archive and of Debian's package; and the tools of an archive that is only
    unpacked."""
    said = subprocess.run([machine.folder / "pdpd-0.1" / "deploy" / "pdpd-shards", "status"], capture_output=True,
                          text=True, check=False).stdout
    checks.expect(f"tools of an unpacked archive: {said}",
                  f"shard 0 runs what is installed in {LIBRARY}, and this is " in said, True)
    upper, work = machine.folder / "second", machine.folder / "second-work"
    (upper / "pdpd").mkdir(parents=True)
    work.mkdir()
    (upper / "pdpd" / "pdpd-shards").touch()
    sh(f"mount -t overlay overlay -o lowerdir=/usr/lib,upperdir={upper},workdir={work} /usr/lib")
    try:
        tells(checks, "two", f"WRONG: there is a second installation in /usr/lib/pdpd, beside {LIBRARY}")
    finally:
        sh("umount -l /usr/lib")


def new_certificate(machine, name):
    """A certificate for a name, with its key."""
    place = machine.folder / f"for-{name}"
    place.mkdir()
    sh(f"openssl req -x509 -newkey ec -pkeyopt ec_paramgen_curve:P-256 -nodes -days 30 -subj /CN={name} -addext "
       f"subjectAltName=DNS:{name},DNS:also.example -keyout {place}/key -out {place}/crt 2> /dev/null")
    return (place / "crt").read_text() + (place / "key").read_text()


def other_name(machine, checks):
    """A certificate of another name, which no client takes: a reload tells it, and status says for which names it
    is."""
    held = CERTIFICATE.read_text()
    CERTIFICATE.write_text(new_certificate(machine, "other.example"))
    found, said = asked("reload")
    wanted = ("WARNING: the certificate isn't valid for localhost any more, as the one before was, but for "
              "also.example, other.example")
    checks.expect(f"a reload: {said}", (found, wanted in said), (0, True))
    found, said = asked("status")
    line = re.search(r"(?m)^the certificate is valid for \d+ days more, for (.*)$", said)
    checks.expect(f"for which names it is: {said}", (found, line and line[1]), (0, "other.example, also.example"))
    report = json.loads(asked("status", "--json")[1])
    checks.expect("as JSON", report["certificate_names"], ["other.example", "also.example"])
    CERTIFICATE.write_text(held)
    shards("reload")


def taken_port(machine, checks):
    """Another program has HAProxy's port, as a web server that was installed: that is told as the reason, and no shard
    is blamed."""
    sh(f"sv -w 60 force-stop {SERVICES}/haproxy")
    script = ("import socket, time; made = socket.create_server(('0.0.0.0', 443)); print('taken', flush=True); "
              "time.sleep(600)")
    with subprocess.Popen([sys.executable, "-c", script], stdout=subprocess.PIPE) as other:
        try:
            other.stdout.readline()
            found, said = asked("services")
            seen = found, "HAProxy doesn't start. Its log says: " in said, "443" in said, "shard 0" in said
            checks.expect(f"services: {said}", seen, (1, True, True, False))
            _, said = asked("status")
            told = re.search(r"(?m)^WRONG: HAProxy doesn't run. Its log says: .*443.*$", said)
            checks.expect(f"status: {said}", told is not None, True)
        finally:
            other.kill()
    shards("services")
    waits(machine)


def unstartable(machine, checks):
    """With which files a shard couldn't start again, is told before it is stopped."""
    place = place_of_ward()
    folder, before = STORES / str(place), pid(place)
    journal = folder / "pdpd.db-journal"
    for command, heals, wanted in (
            (f"chown root:root {folder}", f"chown pdpd:pdpd {folder}", f"{folder} is the user root's"),
            (f"chown root {folder}/pdpd.db", f"chown pdpd {folder}/pdpd.db", f"{folder}/pdpd.db isn't the user's"),
            (f"chmod 400 {folder}/pdpd.db", f"chmod 600 {folder}/pdpd.db", f"its owner may not write {folder}/pdpd.db"),
            (f"touch {journal}", f"rm {journal}", f"{journal} isn't the user's who has its folder")):
        sh(command)
        tells(checks, command, f"WRONG: {wanted}")
        found, said = asked("restart", place)
        checks.expect(f"a restart behind {command}: {said}", (found, f"nothing was stopped: {wanted}" in said),
                      (1, True))
        sh(heals)
    checks.expect("the program", pid(place), before)


def by_another_user(machine, checks):
    """Whoever isn't root is told that, and not that HAProxy's files are wrong."""
    for words in (("reload",), ("restart", 1), ("config", "--write"), ("services",), ("backup",)):
        found, said = asked(*words, user="nobody")
        given = " ".join(map(str, words))
        checks.expect(f"{words} by another user", (found, said),
                      (1, f"pdpd-shards: only root can do that: run pdpd-shards {given} as root\n"))


def limit(shard):
    """How many messages HAProxy lets to a shard at a time."""
    head, row, *_ = admin(f"show stat shard{shard} 4 -1").splitlines()
    return dict(zip(head.lstrip("# ").split(","), row.split(",")))["slim"]


def slower_proxy(machine, checks):
    """HAProxy was told by hand to take fewer messages a second, to ask less at a time, or to leave what it asks. What
    it was told of a shard alone is gone at once, since it sets that anew all the time."""
    for command, wanted in (("set rate-limit sessions global 1", "or fewer a second than come"),
                            ("set rate-limit ssl-sessions global 1", "or fewer a second than come"),
                            ("set maxconn server lists/self 1", "HAProxy asks lists/self less than its file says"),
                            ("set server lists/self state maint", "HAProxy asks lists/self less"),
                            ("set weight shard1/again 0", "HAProxy asks shard1/again less")):
        admin(command)
        tells(checks, command, wanted)
        shards("reload")
        is_well(checks, command)
    held = limit(1)
    admin("set maxconn server shard1/pdpd 1")
    wait_until(lambda: limit(1) == held, lambda: f"a shard gets {limit(1)} messages at a time", 2)


def other_machines_backup(machine, checks):
    """A backup of another machine is told to be one, before it is put back."""
    kept = sorted((BACKUPS / "2").iterdir())[-1]
    held = (kept / "shard").read_text()
    checks.expect("what a backup says", held, f"2 of {COUNT}\n{os.uname().nodename}\n")
    (kept / "shard").write_text(f"2 of {COUNT}\nstaging\n")
    found, said = asked("put-back", 2, kept.name)
    checks.expect(f"one of staging: {said}", (found, "it was made on another machine, staging" in said), (1, True))
    (kept / "shard").write_text(f"2 of {COUNT}\n")
    found, said = asked("put-back", 2, kept.name)
    checks.expect(f"one of an earlier version: {said}", (found, "another machine" in said, "shard 2 gets" in said),
                  (1, False, True))
    (kept / "shard").write_text(held)
