"""What surrounds the deployment goes wrong: file systems, logs, runit's links, another HAProxy, a terminal, a copy by
another user. `pdpd-shards status` tells each with what heals it, a refusal changes nothing, and what is told heals."""
import contextlib
import os
import pathlib
import re

from .clients import decision, once
from .machine import SETTINGS, backs_up, pid, sh, shards, wait_until
from .states import CERTIFICATE, MAP, asked, is_well, tells

SERVICES, STORES, BACKUPS = (pathlib.Path(path) for path in ("/etc/service", "/var/lib/pdpd", "/var/lib/pdpd-backups"))
LOGS = pathlib.Path("/var/log/pdpd")
COUNT = 4


def surrounded(machine, checks):
    """Each of these ended with status 0 once, with advice that didn't heal, or with a refusal that had changed
    something."""
    machine.operator.clear()
    ask = machine.operator.makes("ward")
    shards("remap")
    backs_up()
    is_well(checks, "the beginning")
    for one in (sockets_taken, unlinked, marked_down, removed_logs, full_logs, read_only, few_files, lost_settings,
                wrong_places, key_with_words, removed_folder, without_its_program, cut_write, carried_back):
        one(machine, checks)
        is_well(checks, one.__name__)
    checks.expect("behind all of them", decision(once(ask)), "Permit")


@contextlib.contextmanager
def mounted(words, place):
    """Something is mounted there meanwhile."""
    sh(f"mount {words} {place}")
    try:
        yield
    finally:
        sh(f"umount -l {place}")


@contextlib.contextmanager
def with_settings(text):
    """The settings' file has another text meanwhile."""
    held = SETTINGS.read_bytes()
    SETTINGS.write_bytes(text)
    try:
        yield
    finally:
        SETTINGS.write_bytes(held)


def sockets_taken(machine, checks):
    """Another HAProxy, started by hand with the same file, can't listen and ends; by then it has taken the sockets of
    the one that runs."""
    sh("! timeout 20 haproxy -f /etc/haproxy/haproxy.cfg > /dev/null 2>&1")
    tells(checks, "without its sockets", "pdpd-shards services starts it, as one that lost its sockets to another one")
    shards("services")


def unlinked(machine, checks):
    """runit doesn't look after a shard any more."""
    process = pathlib.Path(f"/proc/{pid(1)}")
    (SERVICES / "pdpd-1").unlink()
    wait_until(lambda: not process.exists(), "runit goes on with a service that it has no link to")
    tells(checks, "without its link", "WRONG: pdpd-1 doesn't start with the machine: pdpd-shards services")
    found, said = asked("restart", 1)
    checks.expect(f"a restart without it: {said}", (found, "pdpd-shards services has runit" in said), (1, True))
    shards("services")


def marked_down(machine, checks):
    """All runs, and wouldn't after the next start of the machine."""
    for name in ("pdpd-2", "pdpd-watchdog", "haproxy"):
        (SERVICES / name / "down").touch()
        tells(checks, f"{name} with `down`", f"WRONG: {name} doesn't start with the machine: pdpd-shards services")
        shards("services")


def removed_logs(machine, checks):
    """Who made room removed a log's folder: its lines go nowhere."""
    sh(f"rm -r {LOGS}/changes {LOGS}/pdpd-0")
    for name in ("haproxy", "pdpd-0"):
        heals = f"sv restart {SERVICES}/{name}/log"
        tells(checks, f"without the log of {name}", f"the log of {name} was removed, and its lines are lost: {heals}")
        sh(heals)
    wait_until((LOGS / "changes" / "current").exists, "there is no log of changes")


def full_logs(machine, checks):
    """The disk of the logs is full."""
    with mounted("-t tmpfs -o size=1m none", LOGS):
        sh(f"! dd if=/dev/zero of={LOGS}/full bs=4k > /dev/null 2>&1")
        tells(checks, "a full disk", "WRONG: the disk of the logs has only 0.0 MiB of 1 left")


def read_only(machine, checks):
    """File systems that a fault has made read-only: a shard couldn't start again, and no tool can write."""
    for place in (STORES / "3", MAP.parent, SETTINGS.parent):
        with mounted(f"--bind {place}", place):
            sh(f"mount -o remount,ro,bind {place}")
            tells(checks, f"{place}, read-only", f"WRONG: the file system of {place} is read-only")


def few_files(machine, checks):
    """A disk with room, and none for files."""
    with mounted("-t tmpfs -o size=64m,nr_inodes=10,mode=711 none", BACKUPS):
        tells(checks, "few files", f"WRONG: the file system of {BACKUPS} has room for 9 files more alone (df -i)")


def lost_settings(machine, checks):
    """The settings' file is away, or begins with a mark that no editor shows."""
    away = SETTINGS.with_name("away")
    SETTINGS.rename(away)
    tells(checks, "no settings", f"WRONG: {SETTINGS} isn't there, and what was set in it counts no more: put it back")
    away.rename(SETTINGS)
    held = SETTINGS.read_text()
    SETTINGS.write_text(f"\ufeff{held}")
    _, said = asked("status")
    heals = re.search(rf"WRONG: {SETTINGS} begins with a byte order mark, .*?: (sed .*)", said)
    checks.expect(f"a byte order mark: {said}", heals is not None, True)
    sh(heals[1] if heals else "true")
    checks.expect("the settings without it", SETTINGS.read_text() == held, True)
    SETTINGS.write_text(held)


def wrong_places(machine, checks):
    """A place that each command would look for in its own folder, none, and one among the shards' files."""
    before = sorted(os.listdir(STORES)), sorted(os.listdir(STORES / "0")), (STORES / "0").stat().st_mode
    held = SETTINGS.read_bytes()
    for value, reason in (("backups", "no path that begins with /"), ("", "no path that begins with /"),
                          (STORES, "among the folders of shards"), (STORES / "0" / "kept", "among the folders of")):
        with with_settings(held + f"BACKUPS={value}\n".encode()):
            found, said = asked("backup", 0)
            checks.expect(f"BACKUPS={value}: {said}", (found, reason in said), (1, True))
    for name in ("DATA", "SOCKETS", "TOKEN", "HAPROXY_ETC", "SERVICES", "CERTIFICATE", "BACKUP_HOOK"):
        with with_settings(held + f"{name}=etc/it\n".encode()):
            tells(checks, f"{name}=etc/it", f"{name} is 'etc/it', and no path that begins with /")
    found = sorted(os.listdir(STORES)), sorted(os.listdir(STORES / "0")), (STORES / "0").stat().st_mode
    checks.expect("what is in the shards' folders", found, before)


def key_with_words(machine, checks):
    """HAProxy's key is encrypted: no tool waits at a terminal for its words."""
    held = CERTIFICATE.read_text()
    key = sh(f"openssl ec -aes256 -passout pass:words -in {CERTIFICATE} 2> /dev/null")
    CERTIFICATE.write_text(re.sub("(?s)-----BEGIN [A-Z ]*PRIVATE.*?PRIVATE KEY-----\n", key, held))
    for words in ("reload", "status"):
        said = sh(f"timeout -k 5 60 script -qec 'pdpd-shards {words}' /dev/null || [ $? = 1 ]")
        checks.expect(f"{words} at a terminal: {said}", ("No Private Key found" in said, "pass phrase" in said.lower()),
                      (True, False))
    CERTIFICATE.write_text(held)


def removed_folder(machine, checks):
    """A tool that is run in a folder which was removed."""
    sh('mkdir gone; cd gone; rmdir "$PWD"; pdpd-shards status; pdpd-shards config --write; pdpd-shards reload',
       cwd=machine.folder)


def without_its_program(machine, checks):
    """HAProxy's package is away: that is told, and a growth is refused before there is anything of it."""
    program = sh("PATH=$PATH:/usr/sbin command -v haproxy").strip()
    before, other = (MAP.read_text(), SETTINGS.read_text()), machine.folder / "no-program"
    other.touch(0o644)
    with mounted(f"--bind {other}", program):
        tells(checks, "without its program", "HAProxy's program can't be run (haproxy: Permission denied)")
        found, said = asked("grow", COUNT + 1)
        checks.expect(f"a growth without it: {said}", (found, "HAProxy's program can't be run" in said), (1, True))
    seen = MAP.read_text(), SETTINGS.read_text()
    checks.expect("the map and the settings", seen, before)
    left = [path for path in (STORES / str(COUNT), SERVICES / f"pdpd-{COUNT}") if path.exists()]
    checks.expect("what there is of another shard", left, [])


def cut_write(machine, checks):
    """A write that fails, as on a full disk, names its file and leaves none."""
    before = sorted(os.listdir(MAP.parent))
    said = sh("(ulimit -f 1; exec pdpd-shards config --write 2>&1) && echo done || true")
    checks.expect(f"a file that can't be written: {said}",
                  (said.startswith(f"pdpd-shards: {MAP.parent}/"), "File too large" in said), (True, True))
    checks.expect("what is in its folder", sorted(os.listdir(MAP.parent)), before)


def carried_back(machine, checks):
    """A backup that another user has copied back is refused, and what is told has it taken; and that its sums are
    missing is told before it is."""
    name = re.findall(r"(?m)^0 (2\S+)", shards("backups"))[-1]
    kept = BACKUPS / "0" / name
    sh(f"chown -R nobody {kept}; chmod -R 755 {kept}")
    found, said = asked("put-back", 0, name)
    checks.expect(f"one of another user's: {said}", (found, "take it away" in said, f"chown root: {kept}" in said),
                  (1, False, True))
    heals = re.search("(chown root: .*?); else", said)
    sh(heals[1] if heals else f"chown root: {kept}; chmod 700 {kept}")
    found, said = asked("put-back", 0, name)
    checks.expect(f"with its sums: {said}", (found, "shard 0 gets" in said, "no sums" in said), (1, True, False))
    (kept / "sums").rename(kept.parent / "sums")
    found, said = asked("put-back", 0, name)
    checks.expect(f"without: {said}", (found, "shard 0 gets" in said, "it has no sums" in said), (1, True, True))
    (kept.parent / "sums").rename(kept / "sums")


SURROUNDINGS = (surrounded,)
