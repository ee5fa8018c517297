"""The units, run by systemd itself: the commands of docs/guide/OPERATING.md, kills, backups, changes and a reboot."""
import os
import pathlib
import re
import shutil
import time

from checks import Between

from .booting import booted
from .clients import Makers, Operator, decision, once
from .logged_units import logs, units
from .machine import PAGE, PLAIN, commands_of_page, wait_until
from .replica_units import replicas

# by hand some parts alone, by their names
ONLY = os.environ.get("SYSTEMD_ONLY", "").split()
SHARDS = range(4)
SERVICES = (*(f"pdpd@{shard}" for shard in SHARDS), "pdpd-watchdog", "haproxy")
LIST = ('curl --silent --cacert /etc/haproxy/pdpd.crt -H "Authorization: Bearer $(cat /etc/pdpd/token)" '
        "https://localhost/operator/domains")
# the right CAP_NET_BIND_SERVICE alone (capability.h)
RIGHTS = f"{1 << 10:016x}"
# what a shard's program is, as the kernel tells it (proc(5)): its rights, no new ones, filters of system calls
CONFINED = {"CapEff": RIGHTS, "CapBnd": RIGHTS, "CapAmb": RIGHTS, "NoNewPrivs": "1", "Seccomp": "2"}
LIMITS = {"core file size": "0", "stack size": str(64 * 2 ** 20)}
EACH_SECOND = """mkdir -p /run/systemd/system/pdpd-backup@1.timer.d
printf '[Timer]\\nOnCalendar=\\nOnCalendar=*:*:*\\nRandomizedDelaySec=0\\nAccuracySec=1s\\n' \
    > /run/systemd/system/pdpd-backup@1.timer.d/test.conf
systemctl daemon-reload; systemctl restart pdpd-backup@1.timer"""
# the last backup by the timer is old, and the next one isn't spread over minutes
MISSED = """mkdir -p /etc/systemd/system/pdpd-backup@0.timer.d
printf '[Timer]\\nRandomizedDelaySec=0\\n' > /etc/systemd/system/pdpd-backup@0.timer.d/test.conf
touch -d '3 hours ago' /var/lib/systemd/timers/stamp-pdpd-backup@0.timer"""
AS_BEFORE = "rm -r /run/systemd/system/{}.d; systemctl daemon-reload"
# the number of that system call (arch/x86/entry/syscalls/syscall_64.tbl of Linux)
PROCESS_VM_READV = 310
# A script in place of a shard's program, in its unit: it tells what it can read and write. One line is as it should be,
# that of its own store.
PROBE = """cat > /usr/local/lib/probe << 'END'
can() {{ what=$1; shift; if "$@" > /dev/null 2>&1; then echo "$what"; fi; }}
writes() {{ (: > "$1"); }}
can "own store" head -c 1 /var/lib/pdpd/0/pdpd.db
can "another's store" head -c 1 /var/lib/pdpd/1/pdpd.db
can "another's store by its process" head -c 1 /proc/{0}/root/var/lib/pdpd/1/pdpd.db
can "another's socket" ls /run/pdpd-shards/1/socket
can "another's memory" head -c 0 /proc/{0}/mem
can "another's memory by a call" python3 -c "import ctypes; ctypes.CDLL(None).syscall({1}, {0}, 0, 0, 0, 0, 0)"
can "another's token" ls /run/credentials/pdpd@1.service
can "backups" ls /var/lib/pdpd-backups
can "HAProxy's folder" ls /etc/haproxy
can "HAProxy's sockets" ls /run/haproxy
can "the token" cat /etc/pdpd/token
can "homes" ls /root
for path in /var/lib/pdpd/new /etc/new /usr/local/new /run/new; do can "writes $path" writes $path; done
echo end
END
mkdir -p /run/systemd/system/pdpd@0.service.d
printf '[Service]\\nExecStart=\\nExecStart=/bin/sh /usr/local/lib/probe\\nRestart=no\\nSyslogIdentifier=probe\\n' \
    > /run/systemd/system/pdpd@0.service.d/test.conf
systemctl daemon-reload"""


def systemd(made, checks):
    """All of it, on one machine."""
    archive = made.packed()
    with booted(made.folder / "systemd") as machine:
        walk(machine, checks, archive)
        operator = Operator(machine.sh("cat /etc/pdpd/token"))
        parts = (confinement, kills, stuck, stops, tokens, backups, moves, logs, unfailed, restarts, replicas, removal)
        for part in (part for part in parts if not ONLY or part.__name__ in ONLY):
            began = time.time()
            part(machine, checks, operator)
            checks.say(f"{part.__name__}, in {time.time() - began:.0f} s")


def walk(machine, checks, archive):
    """The commands of the page, word for word but for those that fetch packages."""
    checks.expect("what has failed at the first boot", machine.failed(), [])
    for path in (archive, archive.with_name(f"{archive.name}.sha256")):
        shutil.copy(path, machine.root / "root")
    said = ""
    for command in commands_of_page():
        said = machine.sh(command)
        checks.say(f"$ {command}" + "".join(f"\n    {line}" for line in said.splitlines()[-3:]))
    checks.expect("the last command's answer", said.splitlines()[-1], "{}")
    checks.expect("the list over TLS", machine.sh(LIST), '{"Domain":["acme"]}')
    for unit in (*SERVICES, *(f"pdpd-backup@{shard}.timer" for shard in SHARDS)):
        checks.expect(unit, (machine.show(unit, "ActiveState"), machine.show(unit, "UnitFileState")),
                      ("active", "enabled"))
    machine.sh(f"sed -i 's/^PLAIN_BIND=.*/PLAIN_BIND=127.0.0.1:{PLAIN}/' /etc/pdpd/shards.conf; "
               "pdpd-shards config --write; pdpd-shards reload")


def main_pid(machine, unit):
    """The process of a unit, as the machine counts them; 0 where there is none."""
    return int(machine.show(unit, "MainPID"))


def pid(machine, unit):
    """The process of a unit's program: of a shard the one whose input's pipe the unit's holds."""
    process = main_pid(machine, unit)
    if not unit.startswith("pdpd@"):
        return process
    return int(machine.sh(f"cat /proc/{process}/task/{process}/children").split()[0])


def confinement(machine, checks, operator):
    """What a shard's program may do, and what it sees of other shards' files."""
    operator.makes("confined")
    process = pid(machine, "pdpd@0")
    lines = dict(line.split(":", 1) for line in machine.sh(f"cat /proc/{process}/status").splitlines())
    checks.expect("its rights", {name: lines[name].strip() for name in CONFINED}, CONFINED)
    limits = machine.sh(f"cat /proc/{process}/limits")
    checks.expect("its limits", {name: re.search(rf"(?m)^Max {name} +(\d+)", limits)[1] for name in LIMITS}, LIMITS)
    other = pid(machine, "pdpd@1")
    machine.sh(PROBE.format(other, PROCESS_VM_READV))
    machine.sh("systemctl restart pdpd@0")
    machine.wait_for("journalctl --no-pager -o cat -t probe | grep -qx end", "the probe doesn't end")
    seen = machine.sh("journalctl --no-pager -o cat -t probe").splitlines()
    checks.expect("what the unit lets a program in its place read and write", seen, ["own store", "end"])
    said = machine.run("pdpd-shards status").stdout
    checks.expect(f"what its log ends with: {said}", "(journalctl -u pdpd@0). Its log ends with: end\n" in said, True)
    machine.sh(AS_BEFORE.format("pdpd@0.service") + "; systemctl restart pdpd@0")
    wait_until(operator.is_answered, machine.tail)
    # (the same as the user, without the unit: the question would show it)
    outside = "setpriv --reuid=pdpd --regid=pdpd --clear-groups head -c 1 /var/lib/pdpd/1/pdpd.db"
    checks.expect("the store is there, and the user's", machine.holds(outside), True)


def kills(machine, checks, operator):
    """kill -9 of each part, while domains are made: each is back, and each acknowledged domain is there."""
    before = {unit: pid(machine, unit) for unit in SERVICES}
    with Makers(operator, "k", also=(503,), pause=0.05) as makers:
        for unit in SERVICES:
            main = main_pid(machine, unit)
            machine.sh(f"kill -KILL {before[unit]}")
            machine.wait_for(f'new=$(systemctl show --property=MainPID --value {unit}); '
                             f'[ "$new" != 0 ] && [ "$new" != {main} ]', f"{unit} isn't started again")
            wait_until(operator.is_answered, machine.tail)
    checks.expect("other answers", makers.wrong, [])
    checks.within("domains that were made meanwhile", len(makers.acknowledged), Between(1))
    checks.expect("acknowledged, and not there", set(makers.acknowledged) - set(operator.names()), set())
    checks.expect("restarts that systemd counts", [machine.show(f"pdpd@{shard}", "NRestarts") for shard in SHARDS],
                  ["1"] * len(SHARDS))


def stuck(machine, checks, operator):
    """A shard that is stopped (SIGSTOP) is killed by the watchdog, and started again."""
    before, main = pid(machine, "pdpd@2"), main_pid(machine, "pdpd@2")
    machine.sh(f"kill -STOP {before}")
    machine.wait_for("journalctl --no-pager -u pdpd-watchdog | grep -q 'shard 2 is stuck'", "no watchdog tells of it")
    machine.wait_for(f'new=$(systemctl show --property=MainPID --value pdpd@2); [ "$new" != 0 ] && '
                     f'[ "$new" != {main} ]', "it isn't started again")
    wait_until(operator.is_answered, machine.tail)


def stops(machine, checks, operator):
    """Units that are stopped haven't failed; a backup that is stopped lets its shard go on."""
    machine.sh("systemctl stop pdpd-watchdog pdpd@3")
    checks.expect("the watchdog", machine.state("pdpd-watchdog"), ("inactive", "success"))
    checks.expect("a shard", machine.state("pdpd@3"), ("inactive", "success"))
    # a backup that waits for another tool, and a shard that a killed one has left stopped
    process = pid(machine, "pdpd@1")
    machine.sh("""(exec 9< /run/pdpd/lock; flock 9; exec sleep infinity) > /dev/null 2>&1 < /dev/null &
        echo $! > /run/held; until ! flock --nonblock /run/pdpd/lock true; do sleep 0.1; done""")
    machine.sh("systemctl start --no-block pdpd-backup@1")
    machine.wait_for("journalctl --no-pager -u pdpd-backup@1 | grep -q 'waits for'", "no backup waits")
    machine.sh(f"kill -STOP {process}; systemctl stop pdpd-backup@1")
    checks.expect("a backup", machine.state("pdpd-backup@1"), ("inactive", "success"))
    machine.wait_for(f"! grep -q '^State:.T' /proc/{process}/status", "the shard stays stopped")
    checks.expect("and it is the same process", pid(machine, "pdpd@1"), process)
    machine.sh("kill $(cat /run/held); rm /run/held; systemctl start pdpd-watchdog pdpd@3")
    wait_until(operator.is_answered, machine.tail)


def tokens(machine, checks, operator):
    """Without the token's file, and with too short a token, a shard stays away, and isn't started again and again."""
    for what, spoil, status in (("no token", "rm /etc/pdpd/token", "243"), ("short", "echo x > /etc/pdpd/token", "2")):
        machine.sh(f"cp -p /etc/pdpd/token /etc/pdpd/kept; systemctl stop pdpd@0; {spoil}; systemctl reset-failed")
        machine.run("systemctl start pdpd@0")
        machine.wait_for("systemctl is-failed pdpd@0", "it hasn't failed")
        found = machine.show("pdpd@0", "ExecMainStatus"), machine.show("pdpd@0", "NRestarts")
        checks.expect(f"{what}: its status, and how often it was started again", found, (status, "0"))
        said = machine.sh("journalctl --no-pager -u pdpd@0 -n 20")
        checks.expect(f"{what}: the log tells of status={status}", f"status={status}/" in said, True)
        machine.sh("mv /etc/pdpd/kept /etc/pdpd/token; systemctl reset-failed pdpd@0; systemctl start pdpd@0")
    wait_until(operator.is_answered, machine.tail)


def backups(machine, checks, operator):
    """A backup by its unit and by its timer, of which each is opened; put-back brings a domain again."""
    asks = {name: operator.makes(name) for name in ("b1", "b2", "b3", "b4")}
    machine.sh("systemctl start pdpd-backup@0 pdpd-backup@2 pdpd-backup@3")
    count = "pdpd-shards backups | grep -c '^1 '"
    before = int(machine.run(count).stdout.strip() or 0)
    machine.sh(EACH_SECOND)
    machine.wait_for(f'[ "$({count})" -ge {before + 2} ]', "the timer makes no backups")
    machine.sh(AS_BEFORE.format("pdpd-backup@1.timer") + "; systemctl restart pdpd-backup@1.timer")
    machine.wait_for("! systemctl is-active -q pdpd-backup@1 && ! systemctl is-failed -q pdpd-backup@1", "it goes on")
    said = machine.sh("journalctl --no-pager -o cat -u 'pdpd-backup@*'")
    checks.expect("a backup that isn't one", "NO BACKUP" in said, False)
    for name in asks:
        once(operator.message("DELETE", f"/{name}"))
    names = dict(line.split() for line in machine.sh("pdpd-shards backups").splitlines())
    # (a tool that asks first knows the word that stands for the answer)
    wanted = "--yes" if "--yes" in machine.run("pdpd-shards").stdout else ""
    for shard in SHARDS:
        machine.sh(f"pdpd-shards put-back {shard} {names[str(shard)]} {wanted}")
    checks.expect("each domain answers again", {name: decision(once(ask)) for name, ask in asks.items()},
                  dict.fromkeys(asks, "Permit"))
    failing(machine, checks, operator)


def failing(machine, checks, operator):
    """A unit's backup fails: that is told at once, until there is a later backup."""
    machine.sh("systemctl stop pdpd@3")
    machine.run("systemctl start pdpd-backup@3")
    said = machine.run("pdpd-shards status").stdout
    told = re.search(r"WRONG: the last backup of shard 3, at \d\d:\d\d UTC, failed: shard 3 doesn't run", said)
    checks.expect(f"a backup that fails: {said}", told is not None, True)
    machine.sh("systemctl start pdpd@3")
    wait_until(operator.is_answered, machine.tail)
    machine.sh("pdpd-shards backup 3")
    said = machine.run("pdpd-shards status").stdout
    checks.expect(f"behind a later one: {said}", "the last backup of shard 3" in said, False)
    machine.sh("systemctl reset-failed pdpd-backup@3")


def moves(machine, checks, operator):
    """A domain moves, the shards become more, and the archive is installed again: all of it goes on."""
    ask = operator.makes("moving-1")
    shard = int(machine.sh("pdpd-shards where moving-1"))
    machine.sh(f"pdpd-shards move moving-1 {shard} {(shard + 1) % 4}")
    checks.expect("where it is", machine.sh("pdpd-shards where moving-1"), str((shard + 1) % 4))
    before = operator.names()
    machine.sh("pdpd-shards grow 5")
    for unit in ("pdpd@4", "pdpd-backup@4.timer"):
        checks.expect(unit, (machine.show(unit, "ActiveState"), machine.show(unit, "UnitFileState")),
                      ("active", "enabled"))
    processes = {unit: pid(machine, unit) for unit in (*SERVICES, "pdpd@4")}
    machine.sh("pdpd-*/deploy/install /usr/local; pdpd-shards upgrade")
    # (HAProxy's first process stays, and starts another one)
    stays = [unit for unit, process in processes.items() if pid(machine, unit) == process and unit != "haproxy"]
    checks.expect("what still runs as before the upgrade", stays, [])
    checks.expect("all domains are there", operator.names(), before)
    checks.expect("one that has moved answers", decision(once(ask)), "Permit")
    for unit in ("pdpd-watchdog", "pdpd-backup@0.timer"):
        machine.sh(f"systemctl stop {unit}")
        said = machine.run("pdpd-shards status").stdout
        is_told = f"WRONG: {unit} doesn't run: pdpd-shards services starts it" in said
        checks.expect(f"without {unit}: {said}", is_told, True)
    machine.sh("pdpd-shards services")
    machine.sh("pdpd-shards backup > /dev/null; pdpd-shards restart; pdpd-shards status")
    checks.expect("what has failed", machine.failed(), [])


def unfailed(machine, checks, operator):
    """The units of the logs haven't failed once they are stopped."""
    stopped = [*units(machine), "pdpd-verify"]
    machine.sh(f"systemctl stop {' '.join(stopped)}")
    checks.expect("they are stopped", [machine.state(unit) for unit in stopped],
                  [("inactive", "success")] * len(stopped))
    machine.sh(f"systemctl start {' '.join(units(machine))}")
    wait_until(operator.is_answered, machine.tail)


def restarts(machine, checks, operator):
    """After a reboot everything is there by itself, and a backup whose time has passed meanwhile is made."""
    before, count = operator.names(), "pdpd-shards backups | grep -c '^0 '"
    machine.sh(MISSED)
    backups_before = int(machine.sh(count))
    machine.reboot()
    wait_until(operator.is_answered, machine.tail)
    machine.wait_for(f'[ "$({count})" -gt {backups_before} ]', "the time that was missed isn't made up for")
    checks.expect("all domains are there", operator.names(), before)
    checks.expect("what has failed", machine.failed(), [])
    machine.wait_for("pdpd-shards status", "its status tells of something wrong")
    for unit in (*SERVICES, "pdpd-backup@0.timer", *units(machine)):
        checks.expect(unit, machine.show(unit, "ActiveState"), "active")
    token = machine.sh("cat /etc/pdpd/token")
    logged = machine.run(f"journalctl --no-pager | grep -c -- {token}").stdout.strip()
    checks.expect("lines of the journal with the token", logged, "0")
    checks.expect("where the units are", pathlib.Path(machine.show("pdpd@0", "FragmentPath")).name, "pdpd@.service")


def removal(machine, checks, _operator):
    """The page's commands that remove it: nothing of it runs or has failed, HAProxy has its own configuration, and what
    was kept stays."""
    section = re.search(r"(?ms)^### Removing it\n(.*?)^### ", PAGE.read_text())[1]
    # (there is one shard more than the page has, and nothing of runit)
    found = [command.replace("{0..3}", "{0..4}") for command in re.findall(r"(?m)^    # (.*)$", section)
             if "sv force-stop" not in command]
    for command in found:
        machine.sh(command)
    machine.sh("systemctl daemon-reload")
    checks.expect("what runs", machine.sh("pgrep -c -u pdpd,pdpd-replica,haproxy || true"), "0")
    for what in ("units --all", "unit-files"):  # (of no files it ends with 1)
        said = machine.run(f"systemctl list-{what} --plain --no-legend 'pdpd*'").stdout
        checks.expect(f"list-{what}", said.strip(), "")
    checks.expect("what has failed", machine.failed(), [])
    checks.expect("HAProxy's files that aren't as packed", machine.sh("dpkg --verify haproxy"), "")
    checks.expect("commands", machine.holds("ls /usr/local/bin/pdpd* /usr/local/lib/pdpd"), False)
    checks.expect("what was kept", machine.holds("ls /etc/pdpd/token /var/lib/pdpd/[0-4]/pdpd.db"), True)
