"""Backups under load, and what they are for."""
import itertools
import pathlib
import re
import shutil
import signal
import sqlite3
import subprocess
import sys
import tempfile
import threading
import time
import zlib
from unittest import mock

from checks import Between

from .clients import Load, Makers, decision, many, message, once, policy, status
from .machine import LIBRARY, SETTINGS, admin, backs_up, ended_shards, sh, shards, wait_until

BACKUPS = 50
# so many of the texts that were uploaded last are kept, and the others are deleted
TEXTS = 20


class Uploads:
    """Uploads texts of 30 KB to a domain, and deletes each some later; it keeps those that have to be there."""

    def __init__(self, domain):
        self.at, self.token = f"/domains/{domain}/pap", f"{domain}-token-1"
        self.kept, self.lock, self.turn = {}, threading.Lock(), itertools.count()

    def upload(self, _number):
        number = next(self.turn)
        text = policy("Permit", f"urn:u{number}", description="y" * 30_000)
        if status(once(message("POST", f"{self.at}/policies", self.token, text))) == 201:
            with self.lock:
                self.kept[number] = text
        with self.lock:
            # its deletion is under way: it may be there, or not
            self.kept.pop(number - TEXTS, None)
        if number >= TEXTS:
            once(message("DELETE", f"{self.at}/policy/urn:u{number - TEXTS}/1.0", self.token))


def texts_in(folder):
    """The texts of the policies in a backup, by their ids, as Python's sqlite3 reads a copy of it."""
    with tempfile.TemporaryDirectory() as copy:
        for path in folder.glob("pdpd.db*"):
            shutil.copy(path, copy)
        base = sqlite3.connect(f"{copy}/pdpd.db")
        found = {name: bytes(body).decode() for name, body in base.execute("SELECT id, body FROM policies")}
        base.close()
    return found


def backups(machine, checks):
    """50 backups while changes are made: each is opened, and has all that was acknowledged before it began."""
    sys.path.insert(0, str(LIBRARY))
    from operating import backups as kit
    from operating.settings import alone, read
    machine.operator.clear()
    machine.operator.makes("acme")
    settings, shard = read(), int(shards("where", "acme"))
    names = [name for name in map("n{}".format, range(8_000)) if zlib.crc32(name.encode()) % 4 == shard]
    makers, uploads, longest = Makers(machine.operator, names=iter(names), count=1, pause=0.05), Uploads("acme"), 0.0
    with makers, Load(uploads.upload, 1):
        for number in range(BACKUPS):
            time.sleep(0.05)
            with makers.lock, uploads.lock:
                made, held = set(makers.acknowledged), dict(uploads.kept)
            with alone():
                path, domains, took = kit.backup(settings, shard)
            longest = max(longest, took)
            checks.expect(f"backup {number}: acknowledged domains that aren't there", made - set(domains), set())
            checks.expect(f"backup {number}: domains of nobody", set(domains) - set(names) - {"acme"}, set())
            with uploads.lock:
                still = dict(uploads.kept)
            texts = texts_in(path)
            lost = [key for key, text in held.items() if texts.get(f"urn:u{key}") != text and key in still]
            checks.expect(f"backup {number}: acknowledged texts that aren't there, or are others", lost, [])
    checks.expect("no change is made twice, or refused", makers.wrong + makers.unanswered, [])
    checks.say(f"{BACKUPS} backups, of {len(made)} domains at last; a shard stood still for "
               f"{longest * 1000:.0f} ms at the most")
    put_back(machine, checks, shard)


def checkpoints(machine, checks):
    """Between the copies of its two files a shard writes nothing, though it is asked for so much that its log would
    begin anew: what the log had before is in the backup."""
    sys.path.insert(0, str(LIBRARY))
    from operating import backups as kit, trial
    from operating.settings import alone, read
    machine.operator.clear()
    machine.operator.makes("acme")
    shard, uploads, copy = int(shards("where", "acme")), Uploads("acme"), trial.copy_file
    log = pathlib.Path(f"/var/lib/pdpd/{shard}/pdpd.db-wal")

    def copy_slowly(source, target, name, user=None):
        copy(source, target, name, user)
        if source.path == log.parent and name != log.name:
            wait_for_log(uploads, log)

    sh("sv down /etc/service/pdpd-watchdog")  # it would kill a program that stands still for so long
    with Load(uploads.upload, 1), mock.patch.object(trial, "copy_file", copy_slowly), alone():
        wait_until(lambda: len(uploads.kept) >= TEXTS, "nothing is uploaded")
        held = {name: policy("Permit", name, description="z" * 30_000) for name in map("urn:h{}".format, range(5))}
        for text in held.values():
            found = status(once(message("POST", "/domains/acme/pap/policies", "acme-token-1", text)))
            checks.expect("a text is taken", found, 201)
        path, _, _ = kit.backup(read(), shard)
    sh("sv up /etc/service/pdpd-watchdog")
    texts = texts_in(path)
    lost = [name for name, text in held.items() if texts.get(name) != text]
    checks.expect("acknowledged texts that aren't there, or are others", lost, [])


def wait_for_log(uploads, log):
    """Waits until a shard's log has begun anew, or no text was uploaded for two seconds."""
    before, last, end = log.read_bytes()[:32], None, time.time()
    while log.read_bytes()[:32] == before and time.time() < end + 2:
        if (now := max(uploads.kept, default=0)) != last:
            last, end = now, time.time()
        time.sleep(0.05)


def put_back(machine, checks, shard):
    """A domain is removed, and is there again once the backup is put back."""
    ask = message("POST", "/domains/acme/pdp", "acme-token-1", '{"Request":{}}')
    name = re.search(rf"/{shard}/([^,]+), ", backs_up(shard))[1]
    checks.expect("the domain is removed", status(once(machine.operator.message("DELETE", "/acme"))), 200)
    checks.expect("and away", status(once(ask)), 401)
    shards("put-back", shard, name, "--yes")
    checks.expect("and there again", decision(once(ask)), "Permit")
    said = shards("put-back", shard, "20000101T000000Z", "--yes", status=1)
    checks.expect("a backup that isn't there", "is no backup" in said, True)
    cut_put_backs(machine, checks, shard, name)


def cut_put_backs(machine, checks, shard, name):
    """A put-back is killed at each of its renames, and as it removes its mark.

    The shard has its old files, or the mark keeps it from starting. Given again the put-back is made whole,
    and the old files are kept.
    """
    ask = message("POST", "/domains/acme/pdp", "acme-token-1", '{"Request":{}}')
    marks = []
    for call, *paths in (("renameat",), ("unlinkat", "put-back-unfinished")):
        for number in itertools.count(1):
            once(machine.operator.message("DELETE", "/acme"))
            old, what = machine.operator.names(), f"a put-back that is killed at {call} {number}"
            found, said = ended_shards(machine.folder, ("KILL", call, number, *paths), "put-back", shard,
                                        name, "--yes")
            if found == 0:
                break
            checks.expect(f"{what}: {said}", found, -signal.SIGKILL)
            marks.append(stands_cut(machine, checks, what, shard, ask))
            aside = shards("put-back", shard, name, "--yes").strip().rpartition(" are in ")[2]
            checks.expect(f"{what}, given again", decision(once(ask)), "Permit")
            checks.expect(f"{what}: the old files", domains_in(shard, pathlib.Path(aside)), sorted(old))
    checks.within(f"moments with a mark: {marks}", marks.count(True), Between(3))
    checks.within("moments without one", marks.count(False), Between(1))
    checks.say(f"a put-back was killed at {len(marks)} moments; {marks.count(True)} of them left a mark")


def stands_cut(machine, checks, what, shard, ask):
    """How a shard stands behind a put-back that was killed, once it is started: whether a mark is there."""
    has_mark = (pathlib.Path(f"/var/lib/pdpd/{shard}") / "put-back-unfinished").exists()
    log = pathlib.Path(f"/var/log/pdpd/pdpd-{shard}/current")
    reason = "a backup was put back in part"
    count = log.read_text().count(reason)
    sh(f"sv up /etc/service/pdpd-{shard}")
    admin("del map /etc/haproxy/domains.map HELD")
    if not has_mark:
        wait_until(machine.operator.is_answered, f"{what}: the shard stays away")
        checks.expect(f"{what}: it has its old files", status(once(ask)), 401)
        return False
    wait_until(lambda: log.read_text().count(reason) > count, f"{what}: the log doesn't say why it is away")
    checks.expect(f"{what}: it isn't started", status(once(ask)), 503)
    for words in (("backup", shard), ("move", "acme", shard, (shard + 1) % 4)):
        checks.expect(f"{what}: no {words[0]} is made", reason in shards(*words, status=1), True)
    return True


def domains_in(shard, folder):
    """The domains in a folder with a shard's files, as pdpd lists them over a copy of it."""
    sys.path.insert(0, str(LIBRARY))
    from operating import trial
    from operating.settings import read
    return sorted(trial.domains_in_backup(read(), shard, folder))


def emptied(machine, checks):
    """A backup of a shard that has lost all its domains says so, and ends with 1, and so does the status until the next
    one. It counts all the same."""
    machine.operator.clear()
    shards("remap")
    backs_up()
    machine.operator.makes("acme")
    shard = int(shards("where", "acme"))
    told = f"WRONG: shard {shard} has no domain any more, and 1 in the backup before"
    checks.expect("with a domain", told in shards("backup", shard) + shards("status"), False)
    checks.expect("the domain is removed", status(once(machine.operator.message("DELETE", "/acme"))), 200)
    said = shards("backup", shard, status=1)
    checks.expect(f"without one: {said}", told in said, True)
    made = re.search(rf"/{shard}/([^,]+), 0 domains", said)
    checks.expect("it counts", made is not None and f"{shard} {made[1]}\n" in shards("backups"), True)
    said = shards("status", status=1)
    checks.expect(f"the status: {said}", told in said, True)
    shards("remap")
    checks.expect("the next one", told in shards("backup", shard) + shards("status"), False)
    machine.operator.makes("acme")
    shards("backup", shard)
    checks.expect("the domain is removed again", status(once(machine.operator.message("DELETE", "/acme"))), 200)
    log = pathlib.Path("/var/log/pdpd/pdpd-backups/current")
    count = log.read_text().count(told)
    sh("sv restart pdpd-backups")
    wait_until(lambda: log.read_text().count(told) > count, "the service that makes backups doesn't say so")
    unapplied(checks, log)
    ended(checks)


def unapplied(checks, log):
    """A number of shards and a place that are only written yet are told, and backups go on by what was applied."""
    held, before = SETTINGS.read_text(), len(log.read_text())
    SETTINGS.write_text(f"{held}SHARDS=5\nDATA=/var/elsewhere\n")
    try:
        sh("sv restart pdpd-backups")
        wait_until(lambda: "backup of shard 3: /" in log.read_text()[before:], "no backup is made by what was applied")
        time.sleep(1)
    finally:
        SETTINGS.write_text(held)
    said = log.read_text()[before:]
    found = f"SHARDS, DATA of {SETTINGS} isn't what was applied" in said, "NO BACKUP" in said, "shard 4" in said
    checks.expect(f"what isn't applied: {said}", found, (True, False, False))


# A signal to end comes to a tool at the very moment at which it has begun a thread: is a thread left behind it?
ENDED = """
import os, signal, sys, threading
sys.path.insert(0, sys.argv[1])
from operating import cli, holding, settings, supervisor, trial
held, start = settings.read(), threading.Thread.start
def start_and_end(thread):
    start(thread)
    os.kill(os.getpid(), signal.SIGTERM)
def holds():
    with holding.keep_lease(held):
        print("goes on")
cli.end_in_order()
threading.Thread.start = start_and_end
for call in (lambda: trial.domains_at(held.socket(0), supervisor.of(held).pid(0), held.operator()), holds):
    try:
        call()
    except SystemExit as end:
        for thread in threading.enumerate()[1:]:
            thread.join(5)
        print(end.code, threading.active_count(), flush=True)
"""


def ended(checks):
    """A tool that is told to end does so at once: no thread holds it."""
    ran = subprocess.run([sys.executable, "-Bc", ENDED, LIBRARY], capture_output=True, text=True, check=False,
                         stdin=subprocess.DEVNULL, timeout=120)
    code = 128 + signal.SIGTERM
    checks.expect(f"threads that are left: {ran.stderr}", ran.stdout, f"{code} 1\n" * 2)


def anew(machine, checks):
    """All files and the map are lost: with the backups, a machine that begins anew has each domain again."""
    machine.operator.clear()
    asks = many(machine, 8)
    shard = int(shards("where", "d0"))
    shards("move", "d0", shard, (shard + 1) % 4)
    backs_up()
    names = dict(line.split() for line in shards("backups").splitlines())
    sh("sv force-stop /etc/service/pdpd-[0-3] > /dev/null || true; rm -r /var/lib/pdpd/[0-3] "
       "/etc/haproxy/domains.map /etc/haproxy/haproxy.cfg /etc/pdpd/applied")
    sh("sv up /etc/service/pdpd-[0-3]")
    shards("config", "--write")
    shards("reload")
    shards("services")
    checks.expect("a machine that begins anew", machine.operator.names(), [])
    sh(f"cp /var/lib/pdpd-backups/0/{names['0']}/domains.map /etc/haproxy/domains.map")
    shards("reload")
    for shard, name in names.items():
        shards("put-back", shard, name, "--yes")
    checks.expect("each domain is there again", machine.operator.names(), [f"d{number}" for number in range(8)])
    checks.expect("and answers", [decision(once(ask)) for ask, _ in asks], [wanted for _, wanted in asks])
