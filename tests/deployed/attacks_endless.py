"""What seems to have no end: files and programs of the shards' user that a tool of root's would read for hours, while
all other tools wait."""
import pathlib
import re
import subprocess
import time

from checks import Between

from .attacks_posing import another_program
from .clients import decision, once
from .machine import as_user, backs_up, sh, shards, wait_until

# how long such a file is, in bytes, of which none takes room on a disk; and for how many seconds a tool may look at it
LONG, PATIENCE = 4 * 2 ** 40, 300


def said_soon(checks, *words):
    """The exit status of a tool, and what it says, or nothing where it goes on for too long."""
    began = time.time()
    try:
        ran = subprocess.run(["pdpd-shards", *map(str, words)], stdin=subprocess.DEVNULL, stdout=subprocess.PIPE,
                             stderr=subprocess.STDOUT, text=True, check=False, timeout=PATIENCE)
    except subprocess.TimeoutExpired:
        ran = None
    took = time.time() - began
    checks.say(f"{words}: {took:.0f} s, {ran and ran.returncode}: {ran and ran.stdout.strip()[-300:]}")
    checks.within(f"{words}: the seconds", took, Between(0, PATIENCE))
    return (ran.returncode, ran.stdout) if ran else (None, "")


def vast(machine, checks):
    """A log, and a program, that are longer than any disk: a backup and `status` say so soon, the shard goes on, and a
    backup that was made before is put back."""
    operator, place = machine.operator, pathlib.Path("/var/lib/pdpd/3")
    operator.clear()
    name = next(name for name in map("v{}".format, range(99)) if shards("where", name).strip() == "3")
    ask = operator.makes(name)
    made = re.search(r"/3/([^,]+), ", backs_up(3))[1]
    before = shards("backups")
    as_user("pdpd", f"truncate -s {LONG} {place}/pdpd.db-wal")
    status, said = said_soon(checks, "backup", 3)
    checks.expect(f"a backup of it: {said}", (status, shards("backups") == before), (1, True))
    checks.expect("the shard", decision(once(ask)), "Permit")
    shards("put-back", 3, made, "--yes")
    checks.expect("behind a put-back", decision(once(ask)), "Permit")
    sh(f"rm -r {place}/before-*")
    as_user("pdpd", f"cp /usr/local/lib/pdpd/pdpd {place}/long; truncate -s {LONG} {place}/long")
    with another_program(3, f'#!/bin/sh\nexec {place}/long "$@"\n'):
        status, said = said_soon(checks, "status")
        told = "isn't read to its end within" in said
        checks.expect(f"a program: {said}", (status, told, said.count(" up ")), (1, True, 4))
    sh(f"rm {place}/long")
    wait_until(operator.is_answered, "the shard isn't there again")


ATTACKS = (vast,)
