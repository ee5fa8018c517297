"""What an operator was told too late, or otherwise than it is: a store that was written over, a shard that a tool
restarts, another program that can't open what shards have, a worker of HAProxy that stands still."""
import itertools
import os
import pathlib
import re
import shutil
import signal
import subprocess
import sys
import time
import zlib

from .clients import Makers, decision, once
from .clients import status as status_of
from .machine import LIBRARY, SETTINGS, backs_up, holder, instead_of, pid, sh, shards, wait_until
from .states import CERTIFICATE, MAP, PIDS, asked, is_well, tells
from .surroundings import BACKUPS, LOGS, SERVICES, STORES, with_settings


def misled(machine, checks):
    """Each of these was seen at the next backup alone, was told though nothing was wrong, or had status wait."""
    machine.operator.clear()
    ask = machine.operator.makes("ward")
    shards("remap")
    backs_up()
    is_well(checks, "the beginning")
    for one in (written_over, slow_start, busy_store, restarted_meanwhile, killed_meanwhile, other_program,
                stopped_worker, lost_program, missing_signer, linked_map, waited):
        one(machine, checks)
        is_well(checks, one.__name__)
        checks.expect(f"behind {one.__name__}", decision(once(ask)), "Permit")


def domains_in(place, kind, count):
    """Names of domains that are in that shard by their name."""
    names = (f"{kind}{number}" for number in range(1000))
    return [*itertools.islice((name for name in names if int(shards("where", name)) == place), count)]


def written_over(machine, checks):
    """A backup's files, or one of them, are copied over those of a shard that runs: that is told at once, nothing that
    ends the program is done, and no backup is made."""
    place = int(shards("where", "ward"))
    store = STORES / str(place)
    for files in ("pdpd.db pdpd.db-wal", "pdpd.db", "pdpd.db-wal"):
        kept = BACKUPS / str(place) / re.search(rf"/{place}/([^,]+), ", backs_up(place))[1]
        (name,) = domains_in(place, "over", 1)
        checks.expect(f"{name} is made", status_of(once(machine.operator.creates(name))), 201)
        is_well(checks, "a change")
        before = pid(place)
        sh(f"cd {kept}; cp {files} {store}/")
        wanted = f"another program wrote over {store}/pdpd.db, or its log (-wal)"
        tells(checks, f"{files}, written over", f"WRONG: {wanted}")
        for words in (("restart", place), ("move", "ward", place, (place + 1) % 4), ("backup", place)):
            found, said = asked(*words)
            seen = found, wanted in said or "the copy lacks" in said, pid(place)
            checks.expect(f"{words} behind it: {said}", seen, (1, True, before))
        log = LOGS / "pdpd-watchdog" / "current"
        wait_until(lambda: wanted in log.read_text(), log.read_text)
        shards("put-back", place, kept.name, "--yes")
        sh(f"rm -rf {store}/before-*; truncate -s 0 {log}")
        once(machine.operator.message("DELETE", f"/{name}"))


def slow_start(machine, checks):
    """What is seen of a store before its program has opened it says nothing of another program."""
    program, before, process = LIBRARY / "slow", SETTINGS.parent / "applied" / "1.conf", pid(1)
    held = before.read_text()
    program.write_text(f'#!/bin/sh\nsleep 10\nexec {LIBRARY}/pdpd "$@"\n')
    program.chmod(0o755)
    before.write_text(f"{held}PROGRAM={program}\n")
    sh(f"sv restart {SERVICES}/pdpd-1")
    wait_until(lambda: pid(1) not in (0, process), "it isn't begun")
    asked("status")
    wait_until(machine.operator.is_answered, "it isn't there")
    for _ in range(2):
        _, said = asked("status")
        checks.expect(f"a slow start: {said}", "another program wrote over" in said, False)
    before.write_text(held)
    shards("restart", 1)
    program.unlink()


def busy_store(machine, checks):
    """Changes that begin logs anew all the time look like no other program."""
    log, wanted = LOGS / "pdpd-watchdog" / "current", "another program wrote over"
    before = log.read_text().count(wanted)
    names = (name for name in map("busy{}".format, itertools.count()) if zlib.crc32(name.encode()) % 4 == 0)
    with Makers(machine.operator, names=names, count=4, pause=0.02) as makers:
        for _ in range(4):
            _, said = asked("status")
            checks.expect(f"status meanwhile: {said}", wanted in said, False)
    checks.say(f"{len(makers.acknowledged)} domains were made")
    checks.expect("what the watchdog tells", log.read_text().count(wanted), before)
    for name in makers.acknowledged:
        once(machine.operator.message("DELETE", f"/{name}"))


class Held:
    """A restart of a shard, held between its program's end and its start."""

    def __init__(self, folder, shard):
        self.mark, self.goes_on = folder / "held", folder / "goes-on"
        for path in (self.mark, self.goes_on):
            path.unlink(missing_ok=True)
        waits = f"touch {self.mark}; until [ -e {self.goes_on} ]; do sleep 0.1; done"
        script = f'case "$*" in "up {SERVICES}/pdpd-{shard}") {waits};; esac; exec $REAL "$@"'
        with instead_of(folder, "sv", script):
            how = {"stdout": subprocess.DEVNULL, "stderr": subprocess.DEVNULL}
            self.tool = subprocess.Popen(["pdpd-shards", "restart", str(shard)], **how)
        wait_until(self.mark.exists, "the shard isn't stopped")

    def end(self):
        """Has it go on, and gives how it ends."""
        self.goes_on.touch()
        return self.tool.wait(timeout=120)


def other_shard():
    """A shard that a client's question of `status` isn't led to: that would wait for the tool."""
    return (int(shards("where", "status")) + 1) % 4


def restarted_meanwhile(machine, checks):
    """A tool restarts a shard: that isn't wrong."""
    shard = other_shard()
    held = Held(machine.folder, shard)
    found, said = asked("status")
    wanted = f"shard {shard} is being restarted by pdpd-shards restart {shard} (process {held.tool.pid}, since "
    checks.expect(f"a restart meanwhile: {said}", (found, wanted in said, "WRONG" in said), (0, True, False))
    checks.expect("the restart", held.end(), 0)
    checks.expect("behind it", wanted in asked("status")[1], False)


def killed_meanwhile(machine, checks):
    """A tool that was killed restarts nothing, whatever it has noted."""
    shard = other_shard()
    held = Held(machine.folder, shard)
    held.tool.kill()
    held.tool.wait()
    tells(checks, "a tool that was killed", f"WRONG: shard {shard} takes no connections")
    held.goes_on.touch()
    shards("restart", shard)


def other_program(machine, checks):
    """PROGRAM names what can't open a store: no tool stops a shard for it. One that can has opened a copy before."""
    before, held = [pid(shard) for shard in PIDS], SETTINGS.read_bytes()
    place = int(shards("where", "ward"))
    for more, words in ((b"", ("restart",)), (b"", ("restart", 2)), (b"", ("move", "ward", place, (place + 1) % 4)),
                        (b"SOCKETS=/run/elsewhere\n", ("restart",))):
        with with_settings(held + b"PROGRAM=/bin/sleep\n" + more):
            found, said = asked(*words)
        wanted = "nothing was stopped: no backup of shard"
        checks.expect(f"{words} with {more}: {said}", (found, wanted in said), (1, True))
    checks.expect("what runs", [pid(shard) for shard in PIDS], before)
    later = pathlib.Path(LIBRARY) / "later"
    shutil.copy(LIBRARY / "pdpd", later)
    with open(later, "ab") as file:
        file.write(b"\0")
    with with_settings(held + f"PROGRAM={later}\n".encode()):
        found, said = asked("restart", 2)
        checks.expect(f"another that can: {said}", (found, "backup of shard 2: " in said), (0, True))
    found, said = asked("restart", 2)
    checks.expect(f"and back: {said}", (found, "backup of shard 2: " in said), (0, True))
    found, said = asked("restart", 2)
    checks.expect(f"once more: {said}", (found, "backup of shard 2: " in said), (0, False))
    later.unlink()


def stopped_worker(machine, checks):
    """HAProxy's worker stands still: that is told within seconds."""
    process = int((SERVICES / "haproxy" / "supervise" / "pid").read_text())
    worker = int(pathlib.Path(f"/proc/{process}/task/{process}/children").read_text().split()[0])
    os.kill(worker, signal.SIGSTOP)
    try:
        began = time.monotonic()
        found, said = asked("status")
        took = time.monotonic() - began
    finally:
        os.kill(worker, signal.SIGCONT)
    wanted = ("WRONG: HAProxy's worker doesn't answer within 5 s at /run/haproxy/admin.sock, and perhaps no client is "
              f"answered: it stands still, and kill -CONT {worker} has it go on, or pdpd-shards services starts it anew")
    checks.expect(f"a stopped worker, in {took:.0f} s: {said}", (found, wanted in said, took < 30), (1, True, True))


def lost_program(machine, checks):
    """What looks after a shard is killed, and the shard's program goes on: it reads as another one, and needs no more
    than its end."""
    process, holds = pid(1), holder(1)
    sh(f"kill -KILL $(ps -o ppid= -p {holds})")
    wait_until(lambda: holder(1) != holds, "no other one looks after it")
    tells(checks, "a program that was lost", f"(pdpd), process {process}. End it, and look who could start it. (It has "
          "the shard's file open. Where it is the shard's own one that its supervisor has lost, as where runsv was "
          f"killed, kill {process} is all)")
    os.kill(process, signal.SIGTERM)
    wait_until(lambda: pid(1) not in (0, process) and asked("status")[0] == 0, lambda: asked("status")[1])


# each is signed by the one before, and says where that is found
SIGNED = """cd {place}; exec 2> /dev/null
makes="openssl req -newkey ec -pkeyopt ec_paramgen_curve:P-256 -nodes"
$makes -x509 -days 30 -subj /CN=root -keyout root.key -out root.crt
signer=root
for name in between localhost; do
    $makes -subj /CN=$name -keyout $name.key -out $name.csr
    if [ $name = between ]; then echo basicConstraints=critical,CA:TRUE; else echo subjectAltName=DNS:localhost; fi > more
    if [ "{more}" ]; then echo "authorityInfoAccess=caIssuers;URI:http://signers/$signer" >> more; fi
    openssl x509 -req -days 30 -in $name.csr -CA $signer.crt -CAkey $signer.key -CAcreateserial -extfile more -out $name.crt
    signer=$name
done"""


def carries(place, *names):
    """HAProxy reads a file of these certificates, with the key of the first."""
    CERTIFICATE.write_bytes(b"".join((place / name).read_bytes() for name in (*names, "localhost.key")))
    shards("reload")


def missing_signer(machine, checks):
    """The certificate that signed the clients' doesn't stand behind it: that is told where it stood there before, and
    where the first one says where it is."""
    held, place = CERTIFICATE.read_bytes(), machine.folder / "signed"
    noted = SETTINGS.parent / "applied" / "between.pem"
    place.mkdir()
    for more, wanted in (("", f"it stood there before, and is in {noted}"),
                         ("more", "it is at http://signers/between; one that all clients have does no harm")):
        sh(SIGNED.format(place=place, more=more))
        if not more:
            carries(place, "localhost.crt", "between.crt")
            is_well(checks, "the one between is there")
        carries(place, "localhost.crt")
        tells(checks, f"without it {more}", f"hasn't the certificate of CN=between, who signed that of CN=localhost: "
              f"clients that haven't it either refuse it. Put it behind the others ({wanted}), then pdpd-shards reload")
        carries(place, "localhost.crt", "between.crt", "root.crt")
        is_well(checks, f"all of them {more}")
        noted.unlink()
    CERTIFICATE.write_bytes(held)
    shards("reload")


def linked_map(machine, checks):
    """The map is a link into a folder that git keeps: a tool that puts a file there says so."""
    kept, place = machine.folder / "domains.map", int(shards("where", "ward"))
    for words in (("move", "ward", place, (place + 1) % 4), ("move", "ward", (place + 1) % 4, place), ("remap",)):
        kept.write_text(MAP.read_text())
        MAP.unlink()
        MAP.symlink_to(kept)
        found, said = asked(*words)
        wanted = f"WARNING: {MAP} was a link to {kept}, and is a file now"
        checks.expect(f"{words}: {said}", (found, said.count(wanted), MAP.is_symlink()), (0, 1, False))


def waited(machine, checks):
    """A tool that has waited for another one goes by the settings as they are then, as behind a growth."""
    sys.path.insert(0, str(LIBRARY))
    from operating.settings import alone
    held, applied = SETTINGS.read_text(), SETTINGS.parent / "applied" / "2.conf"
    with alone():
        how = {"stdout": subprocess.PIPE, "stderr": subprocess.STDOUT, "text": True}
        waits = subprocess.Popen(["pdpd-shards", "restart", "2"], **how)
        waits.stdout.readline()
        SETTINGS.write_text(re.sub("(?m)^READING=.*", "READING=15000000", held))
    said, _ = waits.communicate(timeout=120)
    checks.expect(f"a restart that waits: {said}", (waits.returncode, "READING=15000000" in applied.read_text()),
                  (0, True))
    SETTINGS.write_text(held)
    shards("restart", 2)
