"""What an operator breaks and doesn't see of what logs changes: archives of another user, away, or of a clock that was
ahead; a removed socket. `pdpd-shards status` tells each with what heals it."""
import pathlib
import re
import subprocess
import sys

from . import audit
from .machine import LIBRARY, admin, backs_up, sh, shards, wait_until
from .overlooked import APPLIED
from .states import asked, is_well, tells
from .surroundings import SERVICES


def overlooked_logged(machine, checks):
    """The same of what logs changes."""
    for line in audit.switch_on(machine):
        checks.say(line)
    operator = machine.operator.token
    wait_until(lambda: audit.make_ward(operator)[0] == 201, "no domain is made")
    shards("remap")
    backs_up()
    wait_until(lambda: asked("status")[0] == 0, lambda: asked("status")[1])
    for one in (others_archive, socket_gone, left_daemon, lost_archive, packed_archive, clock_ahead):
        one(machine, checks, int(shards("where", "ward")))
        wait_until(lambda: asked("status")[0] == 0, lambda: asked("status")[1])
        wait_until(lambda: changed() == 200, f"no change is taken behind {one.__name__}")


def changed():
    """The status of a change."""
    return audit.sent("PUT", "/domains/ward/pip", audit.TOKENS["admin"], '{"Row":[]}')[0]


def others_archive(machine, checks, place):
    """An archive is root's, as one that was copied here: the daemon's own reason is told."""
    folder, service = audit.ARCHIVES / str(place), SERVICES / f"pdpd-replica-{place}"
    sh(f"chown -R root:root {folder}; sv restart {service}")
    wanted = f"ends with: pdpd-replica: {folder}/lock: Permission denied"
    wait_until(lambda: wanted in asked("status")[1], lambda: asked("status")[1])
    tells(checks, "an archive of root's", wanted)
    sh(f"chown -R pdpd-replica {folder}")


def socket_gone(machine, checks, place):
    """The daemon's socket was removed: what is told makes it anew."""
    path = pathlib.Path(f"/run/pdpd-replica/{place}/socket")
    path.unlink()
    tells(checks, "without its socket", f"the socket {path} of pdpd-replica isn't there: restart pdpd-replica-{place}")
    sh(f"sv restart {SERVICES}/pdpd-replica-{place}")


def left_daemon(machine, checks, place):
    """HAProxy was told by hand to send no change to the daemon, which runs: all changes are answered with 503."""
    for command in (f"set server changes{place}/replica state maint", f"set maxconn server changes{place}/replica 1"):
        admin(command)
        tells(checks, command, f"HAProxy asks changes{place}/replica less than its file says")
        shards("reload")


def lost_archive(machine, checks, place):
    """An archive isn't there, as where its disk isn't mounted: no empty one is begun, in which no past would be."""
    folder, aside = audit.ARCHIVES / str(place), machine.folder / "archive-aside"
    service = SERVICES / f"pdpd-replica-{place}"
    shards("restart", place)  # (the note is made once there is a change)
    sh(f"sv -w 30 stop {service}; mv {folder} {aside}; sv up {service}")
    wanted = f"the archive in {folder} was there, and isn't: mount its disk"
    wait_until(lambda: wanted in asked("status")[1], lambda: asked("status")[1])
    checks.expect("a change, meanwhile", changed(), 503)
    checks.expect("what was begun", [*folder.glob("*.log")], [])
    ran = subprocess.run(["pdpd-log", "check"], capture_output=True, text=True, check=False)
    checks.expect(f"pdpd-log check: {ran.stdout}{ran.stderr}",
                  (ran.returncode > 0, f"{folder}: the archive that was there isn't" in ran.stdout), (True, True))
    sh(f"sv -w 30 stop {service}")
    # (sv sends no `up` so long as runsv, which starts a program again after a second, hasn't seen the `down`)
    wait_until(lambda: "want up" not in sh(f"sv status {service} || true"), "it isn't told to end")
    sh(f"rm -r {folder}; mv {aside} {folder}; sv up {service}")


def packed_archive(machine, checks, place):
    """A colleague packs the last file of an archive under its daemon: no change is taken that its open file alone would
    have, no tool ends the daemon, and what is told heals."""
    file = sorted((audit.ARCHIVES / str(place)).glob("*.log"))[-1]
    checks.expect("a change before", changed(), 200)
    sh(f"gzip {file}")
    checks.expect("a change, meanwhile", changed(), 503)
    found, said = asked("status")
    heals = re.search(rf"WRONG: no change of shard {place} is taken: {file} was removed while pdpd-replica-{place} "
                      r"writes into it, .*?: (runuser .*?) saves it", said)
    checks.expect(f"a packed archive: {said}", (found, heals is not None), (1, True))
    for words in (("restart", place), ("upgrade",)):
        found, said = asked(*words)
        checks.expect(f"{words}: {said}", (found, f"nothing was stopped: {file} was removed" in said), (1, True))
    sh(f"{heals[1] if heals else 'true'}; rm {file}.gz; sv restart {SERVICES}/pdpd-replica-{place}")
    wait_until(lambda: changed() == 200, "no change is taken")
    checks.expect("the log", "0 replies that replay gives otherwise" in sh("pdpd-log check"), True)


# writes a change of the domain `ward` into an archive, an hour and a half from now, as a clock that is ahead has it
AHEAD = """
import pathlib, sys, time
sys.path.insert(0, sys.argv[1])
from log.archive import Archive
from log.keeping import Keeping
archive = Archive(pathlib.Path(sys.argv[2]), lambda: time.time() + 5400)
kept = Keeping(archive, print)
more, data = kept.as_kept("ward", archive.position + 1, b"{}")
head = {"domain": "ward", "who": "admin", "method": "PUT", "path": "/domains/ward/pap/root", "fields": []}
reply = b"HTTP/1.1 401 Unauthorized\\r\\n\\r\\n"
kept.behind(archive.add_entry({**head, **more}, data), archive.add_reply(401, reply, False))
"""


def clock_ahead(machine, checks, place):
    """The clock was ahead when a change was logged: those that come behind it are of that moment, until it comes. What
    is told begins another archive."""
    folder, aside = audit.ARCHIVES / str(place), machine.folder / "archive-ahead"
    service = SERVICES / f"pdpd-replica-{place}"
    sh(f"sv -w 30 stop {service}; cp -a {folder} {aside}")
    sh(f"setpriv --reuid=pdpd-replica --regid=pdpd-replica --clear-groups {sys.executable} -Bc '{AHEAD}' {LIBRARY} "
       f"{folder}; sv up {service}")
    wanted = f"the archive of shard {place} is 1.5 hours beyond this clock, which was ahead, or is behind"
    wait_until(lambda: wanted in asked("status")[1], lambda: asked("status")[1])
    heals = f"stop pdpd-replica-{place}, move what is in {folder} elsewhere, remove {APPLIED}/{place}.archive"
    tells(checks, "a clock that was ahead", heals)
    sh(f"sv -w 30 stop {service}; rm -r {folder}/* {APPLIED}/{place}.archive; sv up {service}")
    wait_until(lambda: changed() == 200, "no change is taken by another archive")
    is_well(checks, "another archive")
    sh(f"sv -w 30 stop {service}")
    # (sv sends no `up` so long as runsv, which starts a program again after a second, hasn't seen the `down`)
    wait_until(lambda: "want up" not in sh(f"sv status {service} || true"), "it isn't told to end")
    sh(f"rm -r {folder}; mv {aside} {folder}; sv up {service}")
