"""The page's commands that take a shard to another disk, and all of it to another machine: what was acknowledged is
there, and nothing is wrong."""
import os
import pathlib
import re

from . import removal
from .clients import decision, once
from .clients import status as status_of
from .machine import PAGE, backs_up, pid, sh, shards, wait_until
from .misled import domains_in
from .states import asked
from .surroundings import STORES

ARCHIVE = pathlib.Path("/var/moved.tar.gz")


def steps():
    """The commands of the section, as they stand, without a program's output."""
    section = re.search(r"(?ms)^### Another disk, another machine\n(.*?)^##", PAGE.read_text())[1]
    return [re.sub(r"\\\n *", "", line) for line in re.findall(r"(?m)^ +# ((?:.*\\\n)*.*)$", section)]


def given(checks, commands):
    """Gives the commands."""
    for command in commands:
        checks.say(f"# {command}")
        sh(command)


def elsewhere(machine, checks):
    """Both of them; the second one ends on a machine on which nothing is of the first."""
    machine.operator.clear()
    backs_up()
    shards("remap")
    asks = {name: machine.operator.makes(name) for name in (*domains_in(1, "disk", 1), *domains_in(2, "disk", 1))}
    shards("move", list(asks)[1], 2, 0)
    first = next(number for number, line in enumerate(steps()) if "force-stop" in line)
    to_disk(machine, checks, steps()[:first], asks)
    to_machine(machine, checks, steps()[first:], asks)


def is_whole(checks, what, asks):
    """Looks whether each domain answers as before, and nothing is wrong."""
    checks.expect(f"domains behind {what}", {name: decision(once(ask)) for name, ask in asks.items()},
                  dict.fromkeys(asks, "Permit"))
    found, said = asked("status")
    checks.expect(f"status behind {what}: {said}", found, 0)


def to_disk(machine, checks, commands, asks):
    """Shard 1 goes to another disk, in whose place a folder is mounted."""
    disk = machine.folder / "disk"
    disk.mkdir()
    (disk / "lost+found").mkdir()
    given(checks, [line.replace("DISK", f"--bind {disk}") for line in commands])
    checks.expect("where it is", (disk / "pdpd.db").exists() and os.path.ismount(STORES / "1"), True)
    is_whole(checks, "another disk", asks)
    # as where the disk isn't mounted at a start
    sh(f"sv stop /etc/service/pdpd-1; umount {STORES}/1; sv up /etc/service/pdpd-1")
    wait_until(lambda: "was there, and isn't" in asked("status")[1], lambda: asked("status")[1])
    sh(f"mount --bind {disk} {STORES}/1; sv up /etc/service/pdpd-1")
    wait_until(lambda: pid(1) and machine.operator.is_answered(), "it isn't there again")
    is_whole(checks, "a mount that was late", asks)
    sh(f"sv stop /etc/service/pdpd-1; umount {STORES}/1; rmdir {STORES}/1; cp -a {disk} {STORES}/1; "
       f"rmdir {STORES}/1/lost+found; rm -r {STORES}/1.old; sv start /etc/service/pdpd-1")
    wait_until(lambda: pid(1) and machine.operator.is_answered(), "it isn't there again")


def to_machine(machine, checks, commands, asks):
    """All of it goes to a machine on which nothing of it is yet but what the archive installs."""
    old = [line for line in commands if not line.startswith(("tar -C / -x", "pdpd-shards"))]
    made = once(machine.operator.creates("at-last"))
    checks.expect("a domain at the end", status_of(made), 201)
    given(checks, old)
    mode = ARCHIVE.stat().st_mode & 0o777
    checks.expect("who can read what goes", mode, 0o600)
    for command in removal.commands():
        sh(command)
    sh("rm -r /etc/pdpd /var/lib/pdpd* /var/log/pdpd* /etc/haproxy/pdpd* /run/pdpd*")
    sh("pdpd-0.1/deploy/install /usr/local", cwd=machine.folder)
    given(checks, [line for line in commands if line not in old])
    ARCHIVE.unlink()
    wait_until(machine.operator.is_answered, "it isn't answered")
    checks.expect("what is there", machine.operator.names(), sorted([*asks, "at-last"]))
    is_whole(checks, "another machine", asks)
    once(machine.operator.message("DELETE", "/at-last"))
