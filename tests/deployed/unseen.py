"""What an operator breaks who looks in other places: rights taken away, services told to run once, HAProxy told
otherwise by hand, logs that go nowhere, a replaced HAProxy, archives removed under their daemons. `pdpd-shards status`
tells each with what heals it."""
import json
import os
import pathlib
import shutil
import signal
import sys
import time

from . import audit
from .clients import decision, once
from .machine import LIBRARY, SETTINGS, admin, backs_up, holder, pid, sh, shards, wait_until
from .states import CERTIFICATE, asked, is_well, tells
from .surroundings import BACKUPS, COUNT, SERVICES, STORES


def unseen(machine, checks):
    """Each of these ended with status 0 once."""
    machine.operator.clear()
    ask = machine.operator.makes("ward")
    shards("remap")
    backs_up()
    is_well(checks, "the beginning")
    for one in (large_disks, unwritable, closed_settings, told_once, still_supervisors, still_holder,
                fewer_connections, log_nowhere, replaced_proxy, empty_backup, old_chain, linked_store):
        one(machine, checks)
        is_well(checks, one.__name__)
        checks.expect(f"behind {one.__name__}", decision(once(ask)), "Permit")


def large_disks(machine, checks):
    """A large disk with room for years isn't said to be full soon, and a small one is."""
    sys.path.insert(0, str(LIBRARY))
    from operating import room
    gib = 2 ** 30
    found = [room.Room(total * gib, free * gib).is_scarce() for total, free in ((252, 18), (252, 3), (20, 1), (20, 3))]
    checks.expect("disks of 252 and 20 GiB with 18, 3, 1 and 3 left", found, [False, True, True, False])


def unwritable(machine, checks):
    """A store, or its folder, that its owner may not write any more: the program that runs goes on, and no other one
    could begin."""
    for path, mode, right in ((STORES / "1" / "pdpd.db", 0o400, 0o600), (STORES / "1" / "pdpd.db-wal", 0, 0o600),
                              (STORES / "1", 0o500, 0o700)):
        path.chmod(mode)
        tells(checks, f"{path}", f"chmod {right:o} {path}")
        path.chmod(right)


def closed_settings(machine, checks):
    """Who closes the folder of the token closes that of the settings: no shard could start again."""
    folder = SETTINGS.parent
    for path, mode in ((folder, 0o700), (folder / "applied", 0o700), (folder / "applied" / "0.conf", 0o600)):
        before = path.stat().st_mode & 0o777
        path.chmod(mode)
        tells(checks, f"{path} with mode {mode:o}", f"the user pdpd can't read {folder / 'applied' / '0.conf'}")
        found, said = asked("restart", 0)
        checks.expect(f"a restart: {said}", (found, "can't read" in said, bool(pid(0))), (1, True, True))
        path.chmod(before)


def told_once(machine, checks):
    """A service that was told to run once isn't started again."""
    for name in ("pdpd-2", "haproxy"):
        sh(f"sv once {SERVICES / name}")
        tells(checks, f"once: {name}", f"{name} isn't started again once it ends: it was told so by sv once")
        shards("services")
    os.kill(before := pid(2), signal.SIGKILL)
    wait_until(lambda: pid(2) not in (0, before), "it isn't started again behind what was told")


def still_supervisors(machine, checks):
    """What looks after services stands still: nothing that ends is started again."""
    for name in ("runsv", "runsvdir"):
        # (the oldest runsvdir may be one that another part has killed, and that nobody waits for)
        process = int(sh(f"pgrep -n -x {name}"))
        if name == "runsv":
            process = int(pathlib.Path(f"/proc/{holder(1)}/stat").read_text().rpartition(")")[2].split()[1])
        os.kill(process, signal.SIGSTOP)
        tells(checks, f"{name} stands still", f"starts none again: kill -CONT {process}")
        os.kill(process, signal.SIGCONT)


def still_holder(machine, checks):
    """What holds the pipe of a program's input stands still."""
    process = holder(3)
    os.kill(process, signal.SIGSTOP)
    tells(checks, "what holds a program", f"what holds pdpd-3 stands still (process {process})")
    os.kill(process, signal.SIGCONT)


def fewer_connections(machine, checks):
    """HAProxy was told by hand to take fewer connections: a question is answered, and a crowd isn't."""
    for command in ("set maxconn frontend pdp 1", "set rate-limit connections global 1"):
        admin(command)
        tells(checks, command, "it was told so by hand, and pdpd-shards reload has it go by its file")
        shards("reload")
        is_well(checks, command)


def log_nowhere(machine, checks):
    """LOG names a socket at which nobody is."""
    machine.set(LOG="/dev/no-log local0")
    tells(checks, "a log at which nobody is", f"LOG of {SETTINGS} names /dev/no-log, where nobody takes lines")
    machine.set(LOG="stdout format raw local0")


def replaced_proxy(machine, checks):
    """HAProxy's program is replaced, as by an upgrade: the one that runs is the old one, until it is told."""
    own = pathlib.Path("/usr/local/sbin/haproxy")
    shutil.copy(sh("command -v haproxy").strip(), own)
    sh(f"sv restart {SERVICES / 'haproxy'}")
    wait_until(lambda: asked("status")[0] == 0, lambda: asked("status")[1])
    shutil.copy(own, f"{own}.new")
    os.rename(f"{own}.new", own)
    tells(checks, "another HAProxy is installed", "HAProxy's program was replaced since it began")
    shards("reload")
    is_well(checks, "a reload")
    own.unlink()
    sh(f"sv restart {SERVICES / 'haproxy'}")
    wait_until(lambda: asked("status")[0] == 0, lambda: asked("status")[1])


def empty_backup(machine, checks):
    """A folder of a backup's name in which there is nothing is no backup."""
    made = BACKUPS / "1" / time.strftime("%Y%m%dT%H%M%S.000Z", time.gmtime())
    made.mkdir()
    tells(checks, "an empty folder", f"{made} has the name of a backup of shard 1, and no store: take it away")
    made.rmdir()


def old_chain(machine, checks):
    """A certificate between the clients' and their authority's is over soon, and the first one isn't."""
    held = CERTIFICATE.read_bytes()
    folder = machine.folder / "chain"
    folder.mkdir()
    sh(f"openssl req -x509 -newkey ec -pkeyopt ec_paramgen_curve:P-256 -nodes -days 3 -subj /CN=between -keyout "
       f"{folder}/key -out {folder}/crt 2> /dev/null")
    CERTIFICATE.write_bytes(held + (folder / "crt").read_bytes())
    tells(checks, "a certificate behind the first", f"behind the first one in {CERTIFICATE} is valid for less than 7 "
          "days")
    CERTIFICATE.write_bytes(held)


def linked_store(machine, checks):
    """A shard's folder is a link to another disk: it is served, backed up and put back there."""
    other = pathlib.Path("/var/lib/other-disk")
    sh(f"sv stop {SERVICES / 'pdpd-3'}; mv {STORES / '3'} {other}; ln -s {other} {STORES / '3'}; "
       f"sv start {SERVICES / 'pdpd-3'}")
    wait_until(lambda: pid(3), "it isn't started")
    found, said = asked("status")
    checks.expect(f"a link: {said}", found, 0)
    backs_up(3)
    sh(f"sv stop {SERVICES / 'pdpd-3'}; rm {STORES / '3'}; mv {other} {STORES / '3'}; sv start {SERVICES / 'pdpd-3'}")
    wait_until(lambda: pid(3) and asked("status")[0] == 0, lambda: asked("status")[1])


def unseen_logged(machine, checks):
    """The same of what logs changes and decisions."""
    for line in audit.switch_on(machine):
        checks.say(line)
    operator = machine.operator.token
    wait_until(lambda: audit.make_ward(operator)[0] == 201, "no domain is made")
    shards("remap")
    backs_up()
    wait_until(lambda: asked("status")[0] == 0, lambda: asked("status")[1])
    for one in (unapplied_places, removed_archive, removed_decisions, other_decisions):
        one(machine, checks)
        wait_until(lambda: asked("status")[0] == 0, lambda: asked("status")[1])


def changed(operator):
    """The status of a change."""
    return audit.sent("PUT", "/domains/ward/pip", audit.TOKENS["admin"], '{"Row":[]}')[0]


def unapplied_places(machine, checks):
    """Another place of archives is only written: what logs goes on at the one that was applied, however it is started,
    and a reload has it go to the other."""
    held, other = SETTINGS.read_text(), machine.folder / "other-archives"
    shard = int(shards("where", "ward"))
    SETTINGS.write_text(held.replace("ROOM=64000000", "ROOM=63000000") + f"ARCHIVES={other}\nAUDIT_RUN=/run/other\n")
    tells(checks, "places that aren't applied", f"what is kept is in {audit.ARCHIVES}: write that again")
    sh(f"sv restart {SERVICES}/pdpd-replica-{shard}; sv restart {SERVICES}/pdpd-decisions")
    wait_until(lambda: changed(machine.operator.token) == 200, "no change is taken")
    checks.expect("what was begun elsewhere", (other.exists(), pathlib.Path("/run/other").exists()), (False, False))
    SETTINGS.write_text(held.replace("ROOM=64000000", "ROOM=63000000"))
    tells(checks, "a setting that isn't applied", f"ROOM of {SETTINGS} isn't what was applied: pdpd-shards config "
          "--write, reload")
    shards("reload")
    words = sh(f"tr '\\0' ' ' < /proc/$(cat {SERVICES}/pdpd-replica-{shard}/supervise/pid)/cmdline")
    checks.expect(f"once it is applied: {words}", "--room 63000000" in words, True)
    SETTINGS.write_text(held)
    shards("reload")


def removed_archive(machine, checks):
    """An archive is removed under its daemon, which takes no change that its open file alone would have: what is told
    brings it back."""
    shard = int(shards("where", "ward"))
    folder, aside = audit.ARCHIVES / str(shard), machine.folder / "aside"
    wait_until(lambda: changed(machine.operator.token) == 200, "no change is taken")
    path = sorted(folder.glob("*.log"))[-1]
    sh(f"cp -p {path} {aside}; rm {path}")
    checks.expect("a change meanwhile", changed(machine.operator.token), 503)
    process = int((SERVICES / f"pdpd-replica-{shard}" / "supervise" / "pid").read_text())
    place = next(f"/proc/{process}/fd/{name}" for name in os.listdir(f"/proc/{process}/fd")
                 if os.readlink(f"/proc/{process}/fd/{name}").startswith(str(path)))
    heals = f"runuser -u pdpd-replica -- sh -c 'umask 077; cat > {path}' < {place}"
    tells(checks, "an archive that was removed", f"is lost once that ends: {heals} saves it")
    sh(f"{heals}; cmp {path} {aside}; sv restart {SERVICES}/pdpd-replica-{shard}")
    wait_until(lambda: changed(machine.operator.token) == 200, "no change is taken")
    said = next(line for line in sh("pdpd-log check").splitlines() if line.startswith(f"{folder}: "))
    checks.expect(f"the chain: {said}", " 0 replies that replay gives otherwise" in said, True)


def is_writing(service, folder):
    """Whether a service has a file of that folder open."""
    process = (SERVICES / service / "supervise" / "pid").read_text().strip()
    opened = pathlib.Path(f"/proc/{process}/fd")
    return any(os.readlink(name).startswith(f"{folder}/") for name in opened.iterdir())


def removed_decisions(machine, checks):
    """The file of decisions is removed under what writes it."""
    audit.sent("POST", "/domains/ward/pdp", audit.TOKENS["ask"], (audit.WARD / "request-alice.json").read_text())
    wait_until(lambda: is_writing("pdpd-decisions", audit.DECISIONS), "no decision is logged")
    for path in audit.DECISIONS.glob("*.log"):
        path.unlink()
    tells(checks, "decisions that were removed", "was removed while pdpd-decisions writes into it")
    sh(f"sv restart {SERVICES}/pdpd-decisions")


def other_decisions(machine, checks):
    """What the nightly job has found is told, and that it hasn't run."""
    note = audit.DECISIONS / "verified"
    held = note.read_text() if note.exists() else None
    right = {"at": time.time(), "same": 5, "other": 0, "refused": 0, "unverified": 0}
    for more, wanted in (({"other": 2}, "2 decisions aren't those that are worked out again"),
                         ({"at": time.time() - 27 * 3600}, "weren't worked out again for over 26 hours")):
        note.write_text(json.dumps({**right, **more}))
        tells(checks, wanted, wanted)
    note.unlink()
    if held:
        note.write_text(held)
