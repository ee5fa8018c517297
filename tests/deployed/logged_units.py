"""The units of what logs changes and decisions, run by systemd: the page's commands, kills, and a damaged archive."""
import json
import re

from . import audit
from .machine import wait_until

# what each has for its user, group and rights: nobody's but its own user's
LOGGING = {"pdpd-replica@0": ("pdpd-replica", "haproxy"), "pdpd-decisions": ("pdpd-replica", "pdpd-replica")}
CONFINED = {"CapEff": f"{0:016x}", "CapBnd": f"{0:016x}", "NoNewPrivs": "1", "Seccomp": "2"}
ARCHIVES = "/var/lib/pdpd-replica"
# A script in place of a daemon's program: it tells what it can read and write. Its archive is as it should be.
PROBE = f"""cat > /usr/local/lib/probe << 'END'
can() {{ what=$1; shift; if "$@" > /dev/null 2>&1; then echo "$what"; fi; }}
writes() {{ (: > "$1"); }}
can "own archive" ls {ARCHIVES}/0/lock
can "a store" ls /var/lib/pdpd/0
can "the token" cat /etc/pdpd/token
can "HAProxy's certificate" cat /etc/haproxy/pdpd.pem
can "HAProxy's sockets" sh -c '[ -w /run/haproxy/admin.sock ]'
can "backups" ls /var/lib/pdpd-backups/0
can "homes" ls /root
for path in /var/lib/new /etc/new /usr/local/new /run/new {ARCHIVES}/new; do can "writes $path" writes $path; done
echo end
END
mkdir -p /run/systemd/system/pdpd-replica@0.service.d
printf '[Service]\\nExecStart=\\nExecStart=/bin/sh /usr/local/lib/probe\\nRestart=no\\nSyslogIdentifier=probe-log\\n' \\
    > /run/systemd/system/pdpd-replica@0.service.d/test.conf
systemctl daemon-reload; systemctl restart pdpd-replica@0"""
AS_BEFORE = ("rm -r /run/systemd/system/pdpd-replica@0.service.d; systemctl daemon-reload; "
             "systemctl restart pdpd-replica@0")
FIGURES = "curl --silent --fail http://127.0.0.1:405"


def units(machine):
    """Those that the settings switch on."""
    count = int(machine.sh("grep -oP '^SHARDS=\\K.*' /etc/pdpd/shards.conf"))
    return (*(f"pdpd-replica@{shard}" for shard in range(count)), "pdpd-decisions", "pdpd-figures",
            "pdpd-verify.timer")


def logs(machine, checks, operator):
    """All of it."""
    for command in (*audit.commands("Audit")[:audit.SWITCH], *audit.commands("Metrics")):
        checks.say(f"$ {command}\n    " + "\n    ".join(machine.sh(command).splitlines()[-3:]))
    for unit in units(machine):
        checks.expect(unit, (machine.show(unit, "ActiveState"), machine.show(unit, "UnitFileState")),
                      ("active", "enabled"))
    wait_until(operator.is_answered, machine.tail)
    machine.sh("pdpd-shards backup > /dev/null")
    decisions = machine.root / "var" / "log" / "pdpd-decisions"
    decided = audit.decided_of_ward(operator.token, decisions, checks)
    for part in (confined, killed, nightly, figures, damaged):
        part(machine, checks, operator)
    said = audit.said_by_page(machine.sh, operator.token, checks)
    audit.compare(said, decided, machine.root / "root" / "ward-then", checks)
    well(machine)
    checks.expect("what has failed", machine.failed(), [])


def well(machine):
    """Waits until the status tells of nothing wrong."""
    wait_until(lambda: machine.holds("pdpd-shards status"), lambda: machine.run("pdpd-shards status").stdout)


def confined(machine, checks, operator):
    """Whose processes they are, what these may do, and what stands on the disk."""
    for unit, (user, group) in LOGGING.items():
        process = machine.show(unit, "MainPID")
        lines = dict(line.split(":", 1) for line in machine.sh(f"cat /proc/{process}/status").splitlines())
        numbers = machine.sh(f"id -u {user}; getent group {group} | cut -d: -f3").split()
        checks.expect(f"{unit}: whose it is", [lines[name].split()[1] for name in ("Uid", "Gid")], numbers)
        checks.expect(f"{unit}: its rights", {name: lines[name].strip() for name in CONFINED}, CONFINED)
    found = machine.sh(f"stat -c '%U %a' {ARCHIVES}/*/*.log | sort -u; "
                       "stat -c '%U %G %a' /var/log/pdpd-decisions/*.log | sort -u; "
                       "stat -c '%U %G %a' /run/pdpd-replica/0/socket /run/pdpd-replica/decisions/socket")
    checks.expect("files and sockets", found.splitlines(), [
        "pdpd-replica 600", "pdpd-replica pdpd-replica 640", "pdpd-replica haproxy 660", "pdpd-replica haproxy 660"])
    machine.sh(PROBE)
    machine.wait_for("journalctl --no-pager -o cat -t probe-log | grep -qx end", "the probe doesn't end")
    checks.expect("what the unit lets a program in its place read and write",
                  machine.sh("journalctl --no-pager -o cat -t probe-log").splitlines(), ["own archive", "end"])
    machine.sh(AS_BEFORE)


def killed(machine, checks, operator):
    """kill -9 of each: it is back, and changes are made."""
    for number, unit in enumerate(unit for unit in units(machine) if not unit.endswith("timer")):
        before = machine.show(unit, "MainPID")
        machine.sh(f"kill -KILL {before}")
        machine.wait_for(f'new=$(systemctl show --property=MainPID --value {unit}); [ "$new" != 0 ] && '
                         f'[ "$new" != {before} ]', f"{unit} isn't started again")
        name = f"/operator/domains/killed-{number}"
        wait_until(lambda name=name: audit.sent("PUT", name, operator.token)[0] in (201, 409), machine.tail)
    well(machine)


def nightly(machine, checks, operator):
    """The nightly job finds all decisions the same; a forged one fails it."""
    machine.sh("systemctl start pdpd-verify")
    held = json.loads(machine.sh("cat /var/log/pdpd-decisions/verified"))
    checks.expect("what it has found", (held["same"] > 0, held["other"]), (True, 0))
    checks.expect("when it comes", machine.show("pdpd-verify.timer", "NextElapseUSecRealtime") != "", True)
    (path,) = machine.sh("ls /var/log/pdpd-decisions/*.log").splitlines()[-1:]
    machine.sh(f"""cp -p {path} {path}.kept; tail -n 1 {path} | sed 's/"reply":"[^"]*"/"reply":"{"0" * 64}"/' >> {path}""")
    checks.expect("with a forged line", machine.run("systemctl start pdpd-verify").returncode, 1)
    checks.expect("what has failed", machine.failed(), ["pdpd-verify.service"])
    machine.sh(f"cat {path}.kept > {path}; rm {path}.kept; systemctl start pdpd-verify")


def figures(machine, checks, operator):
    """The figures, and whether changes are taken."""
    machine.wait_for(f"{FIGURES}/ready", "it isn't ready")
    machine.wait_for(f"{FIGURES}/shards | grep -q '^pdpd_shard_up{{shard=\"0\"}} 1'", "the figures don't come")
    text = machine.sh(f"{FIGURES}/shards")
    checks.expect("daemons that answer", set(re.findall(r"(?m)^pdpd_replica_up\S+ (\d)", text)), {"1"})
    checks.expect("decisions that were verified", re.search(r'(?m)^pdpd_decisions_verified\{kind="other"\} 0', text)
                  is not None, True)
    checks.expect("restarts are counted", re.search(r"(?m)^pdpd_shard_restarts_total", text) is not None, True)


def damaged(machine, checks, operator):
    """A damaged archive keeps its daemon away, which isn't started again and again, and the status tells why."""
    shard = int(machine.sh("pdpd-shards where ward"))
    unit = f"pdpd-replica@{shard}"
    path = machine.sh(f"ls {ARCHIVES}/{shard}/*.log").splitlines()[-1]
    machine.sh(f"systemctl stop {unit}")
    checks.expect("one that is stopped hasn't failed", machine.state(unit), ("inactive", "success"))
    machine.sh(f"cp -p {path} /root/kept; printf x | dd of={path} bs=1 seek=40 conv=notrunc status=none; "
               f"systemctl reset-failed {unit} || true")
    machine.run(f"systemctl start {unit}")
    machine.wait_for(f"systemctl is-failed {unit}", "it hasn't failed")
    checks.expect("its status, and how often it was started again",
                  (machine.show(unit, "ExecMainStatus"), machine.show(unit, "NRestarts")), ("3", "0"))
    said = machine.run("pdpd-shards status")
    told = f"WRONG: no change of shard {shard} is taken: {path} is damaged at byte 0"
    checks.expect("the status", (said.returncode, told in said.stdout), (1, True))
    checks.expect("a change", audit.sent("PUT", "/domains/ward/pip", audit.TOKENS["admin"], '{"Row":[]}')[0], 503)
    machine.sh(f"cat /root/kept > {path}; rm /root/kept; systemctl reset-failed {unit}; systemctl start {unit}")
    well(machine)
