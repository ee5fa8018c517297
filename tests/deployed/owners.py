"""Files and folders that others can read or change, or that are another user's: `pdpd-shards status` tells each with
what heals it, and no tool takes a store away."""
import pathlib
import re

from .machine import sh, shards
from .states import CERTIFICATE, TOKEN, asked, tells

STORES = pathlib.Path("/var/lib/pdpd")


def readable(machine, checks, ask):
    """What is secret can be read by others."""
    for path in (TOKEN, CERTIFICATE):
        path.chmod(0o644)
        tells(checks, f"{path} for all", f"WRONG: others than root can read or change {path}: chmod 600 {path}")
        sh(f"chmod 600 {path}; chown nobody {path}")
        tells(checks, f"{path} of another", f"WRONG: {path} isn't root's: chown root {path}")
        sh(f"chown root {path}")
    store = STORES / "1" / "pdpd.db"
    store.chmod(0o640)
    _, said = asked("status")
    heals = re.search(rf"others than its owner can read {store}: (runuser .*)", said)
    checks.expect(f"a store for others: {said}", heals is not None, True)
    if heals:
        sh(heals[1])


def entered(machine, checks, ask):
    """A shard's folder is open to others, or another's: that is told, and nobody is told to give its store away."""
    folder = STORES / "1"
    for command, wanted in ((f"chmod 777 {folder}", "others than the user pdpd may come into"),
                            (f"chmod 710 {folder}", "others than the user pdpd may come into"),
                            (f"chown root:root {folder}", "is the user root's, and the program of shard 1 can't")):
        sh(command)
        found, said = asked("status")
        heals = re.search(rf"WRONG: .*{wanted}.*: (ch\w+ \S+ {folder})\n", said)
        checks.expect(f"{command}: {said}", (found, heals is not None, "chown -h" in said), (1, True, False))
        sh(heals[1] if heals else f"chown pdpd:pdpd {folder}; chmod 700 {folder}")


def others_own(machine, checks, ask):
    """A shard's file is root's, as one that root has copied there is. Nobody is told to take a store away, nor to give
    a user what is another file as well."""
    store, other = STORES / "2" / "pdpd.db", STORES / "second-name"
    chown, away = f"look who put it there. If you did: chown -h pdpd:pdpd {store}", "and take it away"
    sh(f"chown root:root {store}")
    for words in (("status",), ("backup", 2)):
        found, said = asked(*words)
        checks.expect(f"{words} of a store of root's: {said}", (found, chown in said, away in said), (1, True, False))
    sh(f"ln {store} {other}")
    for words in (("status",), ("backup", 2)):
        found, said = asked(*words)
        checks.expect(f"{words} of one of two names: {said}", (found, chown in said, away in said), (1, False, True))
    sh(f"rm {other}")
    _, said = asked("status")
    heals = re.search(r"shard 2 can't start with it: look who put it there\. If you did: (chown .*)", said)
    checks.expect(f"what heals it: {said}", heals is not None, True)
    sh(heals[1] if heals else f"chown pdpd:pdpd {store}")


def kept_aside(machine, checks, ask):
    """A put-back keeps a store of root's aside, as any other, and what it tells undoes it. One that has a second name,
    which may be another's file, is left to that."""
    store, other = STORES / "2" / "pdpd.db", STORES / "second-name"
    name, before = re.findall(r"(?m)^2 (\S+)", shards("backups"))[-1], machine.operator.names()
    for command, is_kept in (("true", True), (f"ln {store} {other}", False)):
        sh(f"chown root:root {store}; {command}")
        held = store.read_bytes()
        said = shards("put-back", 2, name, "--yes")
        aside = store.parent / re.search(r"before-[0-9TZ.]+Z", said)[0]
        files = [path.read_bytes() == held for path in (aside / store.name, other) if path.exists()]
        checks.expect(f"{command}: what is kept of it: {said}", ((aside / store.name).exists(), files),
                      (is_kept, [True]))
        if is_kept:
            shards("put-back", 2, aside.name, "--yes")
            checks.expect("put back from there", (store.owner(), machine.operator.names()), ("pdpd", before))
    sh(f"rm {other}")
