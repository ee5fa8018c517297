"""The units of a machine that is one of several, run by systemd itself: the daemons over etcd, the comparison of rows,
the map of all groups. The machine is alone in its group, since what others do is tried elsewhere."""
import json

from . import audit
from .logged_units import CONFINED, well
from .machine import sh, wait_until

HOST = "10.99.0.1"
SETTINGS = (f's/^SELF=.*/SELF=a/; s/^REPLICAS=.*/REPLICAS="a={HOST}"/',
            f's/^GROUP=.*/GROUP=one/; s/^ALL_GROUPS=.*/ALL_GROUPS="one={HOST}"/')
CHANGE = "sed -i '{}' /etc/pdpd/shards.conf"
BEGIN = (f"pdpd-replicas certificates made a={HOST} && cp -r made/a /etc/pdpd/etcd", CHANGE.format(SETTINGS[0]),
         "pdpd-replicas etcd --write", "systemctl enable etcd && systemctl restart etcd",
         "pdpd-shards config --write && pdpd-shards services", "pdpd-replicas init", "pdpd-shards reload")
GROUPED = (CHANGE.format(SETTINGS[1]), "pdpd-replicas fill",
           "pdpd-shards config --write && pdpd-shards services && pdpd-shards reload")
# what a unit's program can read and write, in its place
PROBE = """cat > /usr/local/lib/probe << 'END'
can() {{ what=$1; shift; if "$@" > /dev/null 2>&1; then echo "$what"; fi; }}
writes() {{ (: > "$1"); }}
can "own folder" ls {own}
can "key of clients" cat /etc/pdpd/etcd/client.key
can "key of etcd" cat /etc/pdpd/etcd/member.key
can "etcd's data" ls /var/lib/etcd/pdpd
can "a store" ls /var/lib/pdpd/0
can "the token" cat /etc/pdpd/token
can "HAProxy's certificate" cat /etc/haproxy/pdpd.pem
can "all of HAProxy" sh -c '[ -w /run/haproxy/admin.sock ]'
can "HAProxy's leases" sh -c '[ -w /run/haproxy/leases.sock ]'
for path in /var/lib/new /etc/new /usr/local/new /run/new; do can "writes $path" writes $path; done
echo end
END
mkdir -p /run/systemd/system/{unit}.service.d
printf '[Service]\\nExecStart=\\nExecStart=/bin/sh /usr/local/lib/probe\\nRestart=no\\nSyslogIdentifier=%s\\n' \\
    probe-{name} > /run/systemd/system/{unit}.service.d/test.conf
systemctl daemon-reload; systemctl restart {unit}"""
AS_BEFORE = "rm -r /run/systemd/system/{0}.service.d; systemctl daemon-reload; systemctl restart {0}"
# what each may do beside its own folder
MAY = {"pdpd-replica@0": ("/var/lib/pdpd-replica/0", ["key of clients", "HAProxy's leases"]),
       "pdpd-map": ("/var/lib/pdpd-replica/map", ["key of clients", "HAProxy's leases"])}


def replicas(machine, checks, operator):
    """All of it."""
    sh(f"ip address add {HOST}/32 dev lo")
    for command in BEGIN:
        checks.say(f"$ {command}\n    {machine.sh(command)[-200:]}")
    machine.wait_for("pdpd-replicas status", "its status tells of something wrong")
    units = [f"pdpd-replica@{shard}" for shard in shards_of(machine)]
    for unit in (*units, "etcd", "pdpd-rows.timer"):
        checks.expect(unit, (machine.show(unit, "ActiveState"), machine.show(unit, "UnitFileState")),
                      ("active", "enabled"))
    wait_until(lambda: audit.make_ward(operator.token)[0] == 201, machine.tail)
    decides(checks, "a decision")
    machine.run("systemctl start pdpd-rows")
    said = machine.sh("journalctl --no-pager -o cat -u pdpd-rows")
    checks.expect(f"rows of the only machine: {said}", "nobody to compare its rows with" in said, True)
    for command in GROUPED:
        checks.say(f"$ {command}\n    {machine.sh(command)[-200:]}")
    wait_until(lambda: asked()[0] == 200, machine.tail)
    for unit in (*units[:1], "pdpd-map", "etcd"):
        confined(machine, checks, unit)
        killed(machine, checks, unit)
    shard = int(machine.sh("pdpd-shards where ward"))
    place = (shard + 1) % len(units)
    said = machine.sh(f"pdpd-replicas carry ward {shard} one.{place}")
    checks.expect(said, f"ward is at one.{place}" in said, True)
    wait_until(lambda: machine.sh("pdpd-shards where ward") == str(place), machine.tail)
    decides(checks, "a decision behind the carry")
    machine.sh("pdpd-shards backup > /dev/null")
    well(machine)
    checks.expect("what has failed", machine.failed(), [])


def shards_of(machine):
    return range(int(machine.sh("grep -oP '^SHARDS=\\K.*' /etc/pdpd/shards.conf")))


def asked():
    """The status and the body of a decision."""
    request = (audit.WARD / "request-bob.json").read_text()  # (who may read at any hour)
    return audit.sent("POST", "/domains/ward/pdp", audit.TOKENS["ask"], request)


def decides(checks, what):
    status, text = asked()
    checks.expect(what, (status, json.loads(text)["Response"][0]["Decision"] if status == 200 else text),
                  (200, "Permit"))


def confined(machine, checks, unit):
    """What a unit's process may do; and, of ours, what it lets a program in its place read and write."""
    lines = dict(line.split(":", 1) for line in
                 machine.sh(f"cat /proc/{machine.show(unit, 'MainPID')}/status").splitlines())
    checks.expect(f"{unit}: its rights", {name: lines[name].strip() for name in CONFINED}, CONFINED)
    if unit not in MAY:
        return
    own, more = MAY[unit]
    name = unit.partition("@")[0]
    machine.sh(PROBE.format(unit=unit, own=own, name=name))
    machine.wait_for(f"journalctl --no-pager -o cat -t probe-{name} | grep -qx end", "the probe doesn't end")
    said = machine.sh(f"journalctl --no-pager -o cat -t probe-{name}").splitlines()
    checks.expect(f"{unit}: what it lets a program in its place read and write", said, ["own folder", *more, "end"])
    machine.sh(AS_BEFORE.format(unit))


def killed(machine, checks, unit):
    """kill -9: it is back, and changes are made."""
    before = machine.show(unit, "MainPID")
    machine.sh(f"kill -KILL {before}")
    machine.wait_for(f'new=$(systemctl show --property=MainPID --value {unit}); [ "$new" != 0 ] && '
                     f'[ "$new" != {before} ]', f"{unit} isn't started again")
    rows = (audit.WARD / "rows.json").read_text()
    wait_until(lambda: audit.sent("PUT", "/domains/ward/pip", audit.TOKENS["admin"], rows)[0] == 200, machine.tail)
