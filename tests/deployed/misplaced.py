"""What a person moves, tells HAProxy, or takes from under the deployment: `pdpd-shards status` tells each with what
heals it, and a tool that would begin empty, or lead where nobody is, refuses before anything has changed."""
import contextlib
import os
import pathlib
import random
import re
import signal
import subprocess
import sys
import time

from checks import Between

from .clients import decision, once
from .machine import LIBRARY, SETTINGS, admin, backs_up, pid, sh, shards, wait_until
from .states import MAP, asked, is_well, tells
from .surroundings import SERVICES, STORES, mounted, with_settings

SOCKETS, LOCKS, COUNT = pathlib.Path("/run/pdpd-shards"), pathlib.Path("/run/pdpd"), 4


def misplaced(machine, checks):
    """Each of these ended with status 0 once, with advice that didn't heal, or with all domains away."""
    machine.operator.clear()
    ask = machine.operator.makes("ward")
    shards("remap")
    backs_up()
    is_well(checks, "the beginning")
    read_alike(machine, checks)
    for one in (left_behind, sockets_elsewhere, left_by_proxy, socket_removed, sockets_open, full_run, closed_run,
                closed_library, no_user, orphaned, unattended, spoiled, untaken_lines, mounted_settings, still_proxy,
                last_words, waiting):
        one(machine, checks)
        is_well(checks, one.__name__)
        checks.expect(f"behind {one.__name__}", decision(once(ask)), "Permit")


# letters of which values are made, and how many values
LETTERS, VALUES = "ab0/=\"' #\t~!*?[]{}%^+-,.:@$`;&|<>()\\\r\u00a0\u00e9\x0b\x0c", 3000


def read_alike(machine, checks):
    """A shell, which starts the programs, reads each value as the tools do that take it."""
    sys.path.insert(0, str(LIBRARY))
    from operating import settings
    place, chosen, wanted = machine.folder / "values", random.Random(1), []
    place.mkdir()
    for _ in range(VALUES):
        text = "A=" + "".join(chosen.choice(LETTERS) for _ in range(chosen.randint(0, 6)))
        with contextlib.suppress(settings.Wrong):
            wanted += [value for _, value in settings.lines_of(text)]
            (place / str(len(wanted))).write_text(f"{text}\n")
    said = sh(f"cd {place}; for n in $(seq {len(wanted)}); do sh -c '. ./$0; printf \"%s\\n\" \"$A\"' $n; done 2>&1")
    checks.within("values that the tools take", len(wanted), Between(VALUES // 10))
    checks.expect("what a shell reads", said.split("\n")[:-1], wanted)


def left_behind(machine, checks):
    """DATA or HAPROXY_ETC is another folder in which there is nothing: no shard begins an empty store there."""
    before, other = [pid(shard) for shard in range(COUNT)], machine.folder / "other"
    held = SETTINGS.read_bytes()
    for name, place in (("DATA", STORES), ("HAPROXY_ETC", MAP.parent)):
        wanted = f"{name} of {SETTINGS} is {other}, and what is kept is in {place}: write that again"
        with with_settings(held + f"{name}={other}\n".encode()):
            _, said = asked("status")
            first = next(line for line in said.splitlines() if line.startswith("WRONG: "))
            checks.expect(f"{name} elsewhere: {said}", (wanted in first, "restart" in said), (True, False))
            for words in (("restart",), ("services",), ("upgrade",), ("backup", 0), ("remap",), ("grow", COUNT + 1),
                          ("config", "--write")):
                found, said = asked(*words)
                checks.expect(f"{words} with {name} elsewhere: {said}", (found, wanted in said), (1, True))
    checks.expect("what runs", [pid(shard) for shard in range(COUNT)], before)
    checks.expect("what was begun there", other.exists(), False)


def sockets_elsewhere(machine, checks):
    """Shards go to another folder of sockets, to ports, and back, by what is told; what would have HAProxy lead to
    where nobody is yet is refused."""
    held, ask = SETTINGS.read_text(), machine.operator.makes("goes")
    for line in ("SOCKETS=/run/other-sockets", "FIRST_PORT=388", "FIRST_PORT=488", ""):
        name = line.partition("=")[0]
        SETTINGS.write_text(f"{held}{line}\n")
        if line:
            tells(checks, line, f"{name} of {SETTINGS} isn't what shard 0 was started with: pdpd-shards config "
                  "--write, then restart")
            checks.expect(f"how the shards are, with {line}", re.findall(r"(?m)^\d +(\w+) ", asked("status")[1]),
                          ["up"] * COUNT)
        found, said = asked("services")
        seen = found, "was started with: write that again" in said
        checks.expect(f"services with {line}: {said}", seen, (1, True))
        said = shards("config", "--write")
        checks.expect(f"what is told of {line}: {said}", "pdpd-shards restart, and then reload" in said, True)
        found, said = asked("reload")
        checks.expect(f"a reload with {line}: {said}", (found, "leads where the shards aren't yet" in said), (1, True))
        place = int(shards("where", "goes"))
        found, said = asked("move", "goes", place, (place + 1) % COUNT)
        is_to_ports = line == "FIRST_PORT=488"  # (that HAProxy can be told while it runs)
        checks.expect(f"a move with {line}: {said}", (found, "give pdpd-shards restart before" in said),
                      (0, False) if is_to_ports else (1, True))
        checks.expect(f"meanwhile, with {line}", decision(once(ask)), "Permit")
        shards("restart")
        shards("reload")
        checks.expect(f"with {line}", decision(once(ask)), "Permit")
        backs_up()
        is_well(checks, line)
    SETTINGS.write_text(held)
    once(machine.operator.message("DELETE", "/goes"))
    shards("remap")
    backs_up()


def left_by_proxy(machine, checks):
    """HAProxy was told by hand to leave a shard: its program answers, and no client."""
    admin("set server shard1/pdpd state maint")
    tells(checks, "a shard that is left", "HAProxy answers 503 in the place of shard 1, whose program runs")
    shards("restart", 1)


def socket_removed(machine, checks):
    """A shard's socket was removed under its program."""
    path = SOCKETS / "1" / "socket"
    path.unlink()
    tells(checks, "without its socket", f"WRONG: shard 1 takes no connections: its socket {path} was removed: "
          "pdpd-shards restart 1 makes it anew")
    shards("restart", 1)


def sockets_open(machine, checks):
    """Others may come into a folder of sockets, or HAProxy may not."""
    for place, mode in ((SOCKETS, "777"), (SOCKETS / "2", "755"), (SOCKETS / "2", "2770")):
        sh(f"chmod {mode} {place}")
        tells(checks, f"{mode} of {place}", f"WRONG: others may come into {place}, or change what is in it: "
              "pdpd-shards restart closes it")
        shards("restart", 2)
    # (what HAProxy has kept open it goes on with)
    admin("set server shard2/pdpd state maint")
    admin("set server shard2/pdpd state ready")
    sh(f"chgrp root {SOCKETS}/2")
    tells(checks, "closed to HAProxy", "HAProxy answers 503 in the place of shard 2, whose program runs")
    shards("restart", 2)


def full_run(machine, checks):
    """The file system of the tools' lock and of the tokens' copies is full: no shard could start."""
    with mounted("-t tmpfs -o size=1m none", LOCKS):
        sh(f"! dd if=/dev/zero of={LOCKS}/full bs=4k > /dev/null 2>&1")
        tells(checks, "a full /run", f"WRONG: the disk of {LOCKS} has only 0.0 MiB of 1 left")


def closed_run(machine, checks):
    """That folder is closed to the shards' user, as a shell with another umask makes it: a backup is made all the same,
    by a program of that user."""
    LOCKS.chmod(0o700)
    backs_up(0)
    checks.expect("its mode", f"{LOCKS.stat().st_mode & 0o777:o}", "711")


def refused(checks, what, wanted):
    """Looks whether status tells that, and a restart as well, before a shard is stopped."""
    before = [pid(shard) for shard in range(COUNT)]
    tells(checks, what, wanted)
    found, said = asked("restart", 0)
    checks.expect(f"a restart, {what}: {said}", (found, wanted in said), (1, True))
    checks.expect(f"what runs, {what}", [pid(shard) for shard in range(COUNT)], before)


def closed_library(machine, checks):
    """What is installed is closed to other users, as where rights were taken away: no shard could start again."""
    LIBRARY.chmod(0o700)
    refused(checks, "closed to users", f"the user pdpd can't run {LIBRARY}/pdpd, and no shard could start again")
    LIBRARY.chmod(0o755)


def no_user(machine, checks):
    """The user of the shards was removed."""
    users = pathlib.Path("/etc/passwd")
    held = users.read_text()
    users.write_text(re.sub("(?m)^pdpd:.*\n", "", held))
    refused(checks, "without the user", "there is no user pdpd, as whom the shards run, and none could start again")
    users.write_text(held)


def orphaned(machine, checks):
    """What supervises a shard was killed, and its program goes on: another one can't start beside it, and what is told
    has it start."""
    process = pid(1)
    sh("kill -KILL $(pgrep -f -x 'runsv pdpd-1')")
    wait_until(lambda: pid(1) != process, "no other one begins")
    time.sleep(2)
    _, said = asked("status")
    # (it may have its socket still, or only its file)
    is_told = re.search(rf"WRONG: .*shard 1.*( process {process}\. End it|: kill {process}\b)", said) is not None
    checks.expect(f"without its supervisor: {said}", is_told, True)
    sh(f"kill {process}")
    wait_until(machine.operator.is_answered, "the shard stays away")


def is_looked_after(service):
    """Whether runsvdir has a service looked after."""
    from operating import processes
    try:
        above = processes.parent_of(processes.parent_of(int((service / "supervise" / "pid").read_text())))
        return processes.name_and_state(above)[0] == "runsvdir"
    except (OSError, ValueError):  # (none, or it begins just now)
        return False


def unattended(machine, checks):
    """What runs all services was ended, and left them running: nothing is started with a new shard, or once more."""
    sh("kill -KILL $(pgrep -x runsvdir)")
    _, said = asked("status")
    heals = re.search(r"WRONG: runsvdir doesn't run, which has all services run: (setsid .*)", said)
    checks.expect(f"without runsvdir: {said}", heals is not None, True)
    # (each service has to be one of the new one for what comes behind this, which may begin before sv would look)
    sh(f"{heals[1] if heals else ''}\nsv exit {SERVICES}/*")
    wait_until(lambda: all(map(is_looked_after, SERVICES.iterdir())), "a service goes on without runsvdir")
    wait_until(lambda: all(map(pid, range(COUNT))), "the services don't begin again")
    wait_until(machine.operator.is_answered, "the shards stay away")


def spoiled(machine, checks):
    """What a tool has applied was written over: what is told writes it anew."""
    for name, heals in (("1", "restart 1"), ("haproxy", "reload")):
        file = SETTINGS.parent / "applied" / f"{name}.conf"
        file.write_text('LOG="stdout\n')
        tells(checks, f"{file}, spoiled", f"{file}, line 1: a quote has no end; pdpd-shards {heals} writes it anew")
        shards(*heals.split())
        checks.expect(f"{file}", file.read_text(), SETTINGS.read_text())


def untaken_lines(machine, checks):
    """What takes a service's lines was taken down, or stands still: once their pipe is full a program would wait for
    it. So may what looks after the shards."""
    for name, command in (("pdpd-0", "sv -w 20 stop {0}/log"), ("haproxy", "touch {0}/log/down"),
                          ("pdpd-1", "kill -STOP $(cat {0}/log/supervise/pid)")):
        sh(command.format(SERVICES / name))
        tells(checks, f"{name} without its log", f"WRONG: nobody takes the lines of {name}, ")
        shards("services")
    for name in ("pdpd-watchdog", "pdpd-backups"):
        sh(f"kill -STOP $(cat {SERVICES}/{name}/supervise/pid)")
        tells(checks, f"{name} stands still", f"WRONG: {name} doesn't run: pdpd-shards services starts it")
        shards("services")


def mounted_settings(machine, checks):
    """A file is mounted over the settings, as in a container: a growth, which has to write them, is refused before
    there is anything of it."""
    before = MAP.read_text(), SETTINGS.read_text(), admin(f"show map {MAP}").count("NEW")
    with mounted(f"--bind {SETTINGS}", SETTINGS):
        found, said = asked("grow", COUNT + 1)
    told = f"{SETTINGS} can't be replaced" in said, "nothing was changed" in said
    checks.expect(f"a growth: {said}", (found, *told), (1, True, True))
    checks.expect("the map and the settings", (MAP.read_text(), SETTINGS.read_text(),
                                               admin(f"show map {MAP}").count("NEW")), before)
    checks.expect("what there is of another shard", (SERVICES / f"pdpd-{COUNT}").exists(), False)


def still_proxy(machine, checks):
    """HAProxy stands still: what is told has it run again, though it doesn't end by being told to."""
    first = (SERVICES / "haproxy" / "supervise" / "pid").read_text().strip()
    os.kill(int(sh(f"cat /proc/{first}/task/{first}/children").split()[0]), signal.SIGSTOP)
    began = time.time()
    tells(checks, "HAProxy stands still", "pdpd-shards services starts it")
    checks.say(f"status of a HAProxy that stands still: {time.time() - began:.0f} s")
    shards("services")
    wait_until(machine.operator.is_answered, "HAProxy stays away")


def last_words(machine, checks):
    """A shard doesn't start: status tells the reason that stands in its log, and where that is."""
    service, log = SERVICES / "pdpd-3", pathlib.Path("/var/log/pdpd/pdpd-3/current")
    sh(f"sv -w 30 stop {service}; cd {STORES}/3; for file in pdpd.db*; do mv $file away-$file; done; "
       "runuser -u pdpd -- sh -c 'umask 077; echo no store > pdpd.db'")
    time.sleep(1)  # (what the one before has written is in its log by then)
    before = len(log.read_text())
    sh(f"sv up {service}")
    wait_until(lambda: log.read_text()[before:].count("\n") > 1, "its log says nothing")
    reason = log.read_text().splitlines()[-1].partition(" ")[2]
    _, said = asked("status")
    checks.expect(f"its reason: {said}", (f"Its log ends with: {reason}" in said, f"({log})" in said), (True, True))
    checks.expect(f"it is one: {reason}", reason.startswith("pdpd listen: ") and "ends" not in reason, True)
    sh(f"sv -w 30 stop {service}; cd {STORES}/3; rm pdpd.db*; for file in away-*; do mv $file ${{file#away-}}; done")
    shards("restart", 3)


# a tool that is at work
HOLDS = """
import sys, time
sys.path.insert(0, sys.argv[1])
from operating import settings
with settings.alone():
    print("held", flush=True)
    time.sleep(600)
"""


def waiting(machine, checks):
    """A tool that waits for another one says for whom, and status that one is at work: what that holds isn't cut."""
    sys.path.insert(0, str(LIBRARY))
    from operating import settings
    held, whom = MAP.read_text(), rf"pdpd-shards.* \(process {os.getpid()}, since \d\d:\d\d:\d\d UTC\)\n"
    MAP.write_text(f"{held}NEW moving\n")
    admin(f"add map {MAP} NEW moving")
    with settings.alone():
        with subprocess.Popen(["pdpd-shards", "backup", "0"], stdout=subprocess.PIPE, stderr=subprocess.PIPE,
                              text=True) as tool:
            said = tool.stderr.readline()
            tool.kill()
        found, told = asked("status")
    checks.expect(f"for whom it waits: {said}", re.fullmatch(f"pdpd-shards: waits for {whom}", said) is not None, True)
    checks.expect(f"status meanwhile: {told}", (found, re.search(f"(?m)^at work: {whom}", told) is not None), (0, True))
    tells(checks, "behind it", "WRONG: no domain can be made: a growth was cut")
    checks.expect("and nothing at work", "at work" in asked("status")[1], False)
    MAP.write_text(held)
    admin(f"del map {MAP} NEW")
    with subprocess.Popen([sys.executable, "-Bc", HOLDS, LIBRARY], stdout=subprocess.PIPE, text=True) as tool:
        tool.stdout.readline()
        tool.send_signal(signal.SIGSTOP)
        tells(checks, "one that stands still", f"stands still, and all other tools wait for it: kill -CONT {tool.pid} "
              "has it go on")
        tool.kill()


MISPLACED = (misplaced,)
