"""What a user of the machine tries to hold the tools up, and to be the program over the copy of a backup. And what the
unit of backups leaves."""
import os
import pathlib
import re
import shlex
import signal
import subprocess
import sys

from checks import Between

from .attacks_local import NOBODY, PYTHON, THIEF, owner_and_mode
from .clients import decision, many, once
from .machine import LIBRARY, SETTINGS, as_user, backs_up, instead_of, sh, shards, wait_until

# ---- the tools' lock, and tools that hang

def locks(machine, checks):
    """Nobody else can hold the tools' lock. Who waits for it is told for whom, and ends by a signal."""
    sys.path.insert(0, str(LIBRARY))
    from operating.settings import alone
    shards("restart", 3)
    opens = "exec 9< /run/pdpd/lock && flock --nonblock 9"
    for user in (NOBODY, "pdpd"):
        said = as_user(user, f"({opens}) 2>&1 || true; ls -d /var/lib/pdpd/.lock 2>&1 || true")
        checks.expect(f"{user}: {said}", ("Permission denied" in said, "No such file" in said), (True, True))
    waits = {"stdout": subprocess.PIPE, "stderr": subprocess.STDOUT, "text": True}
    with alone():
        with subprocess.Popen(["pdpd-shards", "restart", "3"], **waits) as waiting:
            told = waiting.stdout.readline()
            waiting.send_signal(signal.SIGTERM)
            checks.expect("who waits ends by SIGTERM", waiting.wait(20), 128 + signal.SIGTERM)
        waiting = subprocess.Popen(["pdpd-shards", "restart", "3"], **waits)
        waiting.stdout.readline()
        checks.expect("and else waits", waiting.poll(), None)
    said, _ = waiting.communicate()
    checks.expect(f"and comes: {said}", waiting.returncode, 0)
    holder = f"(process {os.getpid()}, since "
    checks.expect(f"for whom: {told}", ("waits for pdpd-shards " in told, holder in told), (True, True))


def hanging(machine, checks):
    """A copy that hangs: a signal ends the tool, the shard goes on, and the next tool isn't held up."""
    machine.operator.clear()
    asks = many(machine, 8)
    before = shards("backups")
    with instead_of(machine.folder, "cp", f"echo begun > {machine.folder}/begun; exec sleep 1000"):
        with subprocess.Popen(["pdpd-shards", "backup", "1"], stdout=subprocess.PIPE, stderr=subprocess.STDOUT) as tool:
            wait_until((machine.folder / "begun").exists, "no copy is begun")
            tool.send_signal(signal.SIGTERM)
            checks.expect("a copy that hangs", tool.wait(30), 128 + signal.SIGTERM)
    wait_until(machine.operator.is_answered, "the shard isn't there again")
    checks.expect("behind it", [decision(once(ask)) for ask, _ in asks], [wanted for _, wanted in asks])
    checks.expect("no backup counts", shards("backups"), before)
    backs_up(1)


# ---- the trial of a backup

# the folder of its socket
TRIED = "/run/pdpd/tried"
# It tells who runs it, with which rights and words, what its file of the token has, and whose its folder is; then it is
# the program.
TELLING = """#!/bin/sh
{ id -un; grep CapEff /proc/self/status; echo "$@"; cat "$4"; stat -c '%U %G %a %F' /run/pdpd/tried; } >> /tmp/told
exec /usr/local/lib/pdpd/pdpd "$@"
"""


def trials(machine, checks):
    """The program over a copy of a backup runs as pdpd, with a token of its own and no right, at a socket that no other
    user can reach. One of pdpd's own that takes its place has no backup made, and is sent nothing."""
    program = LIBRARY / "telling"
    program.write_text(TELLING)
    program.chmod(0o755)
    sh("install -m 666 /dev/null /tmp/told")
    sh(f"echo PROGRAM={program} >> {SETTINGS}")
    try:
        backs_up(0)
    finally:
        sh(f"sed -i '/^PROGRAM=/d' {SETTINGS}")
    user, rights, words, token, mode = pathlib.Path("/tmp/told").read_text().split("\n")[:5]
    checks.expect("who runs it", (user, rights.split()[1]), ("pdpd", f"{0:016x}"))
    checks.expect(f"its socket: {words}", f" unix:{TRIED}/socket " in words, True)
    checks.expect("its folder", mode, "pdpd pdpd 700 directory")
    operator = pathlib.Path("/etc/pdpd/token").read_text().strip()
    is_other = token != operator and operator not in words and len(token) >= 32
    checks.expect("its token is none that opens anything else", is_other, True)
    checks.expect("what is left of it", pathlib.Path(TRIED).exists(), False)
    taken_over(machine, checks)


def taken_over(machine, checks):
    """A program of pdpd's that takes the socket of the trial."""
    program = LIBRARY / "away"
    program.write_text(f"""#!/bin/sh
rm -f {TRIED}/socket
{PYTHON} -Ic "$(cat /tmp/thief)" {TRIED}/socket > /tmp/stolen 2>&1 &
echo $! > /tmp/stolen.process
until grep -q taken /tmp/stolen; do sleep 0.1; done
echo listening unix:{TRIED}/socket
exec sleep 60
""")
    program.chmod(0o755)
    pathlib.Path("/tmp/thief").write_text(THIEF)
    sh("chmod 644 /tmp/thief; install -o pdpd -m 600 /dev/null /tmp/stolen; "
       "install -o pdpd -m 600 /dev/null /tmp/stolen.process")
    sh(f"echo PROGRAM={program} >> {SETTINGS}")
    try:
        said = shards("backup", 0, status=1)
    finally:
        sh(f"sed -i '/^PROGRAM=/d' {SETTINGS}; kill -KILL $(cat /tmp/stolen.process)")
    checks.expect(f"another's socket: {said}", "another program has the socket" in said, True)
    # (it is connected to, and sees nothing)
    checks.expect("what it is sent", pathlib.Path("/tmp/stolen").read_text(), "waits\ntaken\nb''\n")
    backs_up(0)


# ---- the unit of backups

def values_of(unit, name):
    """The words of all lines of that name in a unit."""
    return [word for line in re.findall(rf"(?m)^{name}=(.*)", unit) for word in line.split()]


def confined(machine, checks):
    """What the unit of backups leaves to them is enough: one is made with its rights alone, on file systems that can
    only be read but for its folders, and by system calls that it allows."""
    from .units import allowed_by
    unit = pathlib.Path("/etc/systemd/system/pdpd-backup@.service").read_text()
    rights = ",".join(f"+{word.removeprefix('CAP_').lower()}" for word in values_of(unit, "CapabilityBoundingSet"))
    folders = [f"/var/lib/{name}" for name in values_of(unit, "StateDirectory")]
    folders += [f"/run/{name}" for name in values_of(unit, "RuntimeDirectory")]
    checks.expect("what it may write to", folders, ["/var/lib/pdpd-backups", "/run/pdpd"])
    script = "".join(f"mount --bind {folder} {folder}; " for folder in folders)
    script += "for path in / /etc /usr/local /var /run /tmp; do mount -o remount,bind,ro $path; done; "
    trace = machine.folder / "backup-calls"
    backup = f"{sys.executable} {LIBRARY}/pdpd-shards backup 2"
    script += f"mount -t tmpfs tmpfs /tmp; exec setpriv --no-new-privs --bounding-set=-all,{rights} {backup}"
    # (what is kept has a number that may be reached: new names count)
    backs_up(2)
    kept = pathlib.Path("/var/lib/pdpd-backups/2")
    before = set(kept.iterdir())
    sh(f"unshare --mount bash -ec {shlex.quote(script)}")
    sh(f"strace -f -qq -o {trace} {backup}")
    checks.within("backups more", len(set(kept.iterdir()) - before), range(1, 3))
    made = set(re.findall(r"(?m)^\d+ +(\w+)\(", trace.read_text()))
    checks.expect("system calls that the unit forbids", sorted(made - allowed_by(unit)), [])
    checks.expect("system calls of it: those that it doesn't make", {"setresuid", "kill", "fchown"} - made, set())
    said = sh("cd /etc/systemd/system && systemd-analyze security --offline=true --no-pager ./pdpd-backup@0.service")
    exposure = float(re.search(r"exposure level for \S+: ([\d.]+)", said)[1])
    checks.within("how exposed it is, of 10", exposure, Between(0, 3.5))
    elsewhere(machine, checks)


def elsewhere(machine, checks):
    """With systemd and BACKUPS at another place the unit is allowed to write there."""
    folder = machine.folder / "with blanks"
    settings = machine.folder / "elsewhere.conf"
    settings.write_text(f'SUPERVISOR=systemd\nBACKUPS="{folder}"\n')
    with instead_of(machine.folder, "systemctl", f'echo "$@" >> {machine.folder}/asked'):
        sh(f"PDPD_SETTINGS={settings} python3 -Bc 'import sys; sys.path.insert(0, \"{LIBRARY}\")\n"
           "from operating import settings, supervisor\nsupervisor.of(settings.read()).set_up(range(1))'")
    said = sh("cat '/etc/systemd/system/pdpd-backup@.service.d/backups.conf'")
    checks.expect("where it may write then", said, f'[Service]\nReadWritePaths="-{folder}"\n')
    checks.expect("the folder", owner_and_mode(f"'{folder}'"), "root root 711 directory")
    taken = "ExecStartPre=/usr/bin/install -d -o root -g root -m 755"
    said = sh("cat /etc/systemd/system/haproxy.service.d/pdpd.conf")
    wanted = f'[Service]\n{taken} "/run/haproxy"\nLogRateLimitIntervalSec=0\n'
    checks.expect("what is done before HAProxy starts, and with its lines", said, wanted)
    said = sh("cd /etc/systemd/system && cp /lib/systemd/system/haproxy.service . && "
              "systemd-analyze verify ./pdpd-backup@0.service ./haproxy.service 2>&1 || true")
    checks.expect("the units", said, "")
    sh("cd /etc/systemd/system && rm -r 'pdpd-backup@.service.d' haproxy.service*")


ATTACKS = (locks, hanging, trials, confined)
