"""A machine of the test's own: namespaces for mounts, processes and the network, with the paths of a real one."""
import contextlib
import os
import pathlib
import pwd
import re
import shlex
import shutil
import signal
import socket
import subprocess
import sys
import time
from typing import NamedTuple

import programs

TOP = pathlib.Path(__file__).resolve().parent.parent.parent
PAGE = TOP / "docs" / "guide" / "OPERATING.md"
SETTINGS = pathlib.Path("/etc/pdpd/shards.conf")
LIBRARY = pathlib.Path("/usr/local/lib/pdpd")
# Folders that the machine has for itself: what is written or removed there is so for it alone, and gone at the
# end. /tmp is among them, so that nothing that runs here can touch what others have in it.
OWN = ("/etc", "/usr/local", "/var", "/tmp")
# each command that is wanted, with Debian's package of it
WANTED = {
    "haproxy": "haproxy", "runsvdir": "runit", "sv": "runit", "chpst": "runit", "svlogd": "runit",
    "curl": "curl", "wrk": "wrk", "openssl": "openssl", "unshare": "util-linux", "setpriv": "util-linux",
    "ip": "iproute2",
    "prometheus": "prometheus",
    "systemd-analyze": "systemd", "useradd": "passwd", "strace": "strace", "cc": "gcc",
    "sqlite3": "sqlite3",
}
INSIDE = "DEPLOY_TEST_FOLDER"
PLAIN = 80
# how long a command may take on a machine that others use as well, in seconds
PATIENCE = 600
# What stands on a machine that has deploy/ already, or something else of those names: a path and its text. The test
# puts it there, and then removes whatever it finds at the default places, so that it sees nothing of its host.
DECOYS = {
    "/etc/pdpd/shards.conf": "SHARDS=9\nFIRST_PORT=7100\n", "/etc/pdpd/token": "token-of-the-host\n",
    "/etc/haproxy/domains.map": "acme 7\n", "/etc/haproxy/haproxy.cfg": "global\n    setenv PDPD_SHARDS 9\n",
    "/etc/haproxy/pdpd.pem": "", "/etc/sv/pdpd-0/run": "exit 1\n",
    "/etc/sv/haproxy/run": "exit 1\n", "/etc/systemd/system/pdpd@.service": "", "/usr/local/lib/pdpd/pdpd": "",
    "/usr/local/bin/pdpd-shards": "exit 1\n", "/var/lib/pdpd/0/pdpd.db": "no store",
    "/var/lib/pdpd-backups/0/20260101T000000.000Z/pdpd.db": "no store",
    "/var/log/pdpd/pdpd-0/current": "d1-token-1\n",
}
PLACES = ("/etc/pdpd", "/etc/haproxy/domains.*", "/etc/haproxy/pdpd.*", "/etc/haproxy/haproxy.cfg*", "/etc/sv/pdpd-*",
          "/etc/sv/haproxy", "/etc/service/*", "/etc/systemd/system/pdpd*", "/usr/local/lib/pdpd",
          "/usr/local/bin/pdpd*", "/usr/local/share/doc/pdpd", "/var/lib/pdpd", "/var/lib/pdpd-backups",
          "/var/lib/pdpd-replica", "/var/log/pdpd", "/var/log/pdpd-decisions")


def is_proved():
    """Whether there is a program that is proved and built of these very sources."""
    try:
        return programs.proved_program("pdpd") is not None
    except programs.NotBuilt:  # there is no toolchain to compare with
        return False


def missing(program, wanted=(WANTED,)):
    """What this machine lacks for the test, in words: of commands with their packages, and the program, which is that
    of a path, or else the proved one."""
    path = f"{os.environ['PATH']}:/usr/sbin:/sbin"
    lacks = {package for commands in wanted for command, package in commands.items()
             if shutil.which(command, path=path) is None}
    if lacks:
        yield f"apt-get install {' '.join(sorted(lacks))}"
    if os.geteuid() != 0:
        yield "the rights of root, for namespaces and users of its own"
    if program is None and not is_proved():
        yield ("a program that is proved of these sources: `make prove` or `make pdpd` builds it. Another one is "
               "named: `make deploy-test PROGRAM=PATH`, or `tests/deploy.py PATH [PART..]`")
    elif program is not None and not os.path.isfile(program):
        yield f"{program}, which isn't there"


def log_of(folder):
    """The file beside the test's folder in which it keeps what it finds wrong."""
    return pathlib.Path(f"{folder}.log")


def name_of_test():
    """A name that no other test has that runs now."""
    return f"deploy-test-{os.getpid()}"


def end_when_told():
    """Who is told to end from now on ends all that it runs, and leaves nothing (`run` kills what it waits for)."""
    for number in (signal.SIGTERM, signal.SIGHUP):
        if signal.getsignal(number) is not signal.SIG_IGN:
            signal.signal(number, lambda number, _: sys.exit(128 + number))


def enter(words):
    """Runs the test once more in namespaces of its own, and answers with its status."""
    folder = TOP / "build" / name_of_test()
    if any(pathlib.Path(own) in folder.parents for own in OWN):
        print(f"tests/deploy.py: missing: a clone that is in none of {', '.join(OWN)}")
        return 2
    folder.mkdir(mode=0o755, parents=True)
    end_when_told()
    kinds = ["--mount", "--net", "--pid", "--uts", "--ipc"]
    unshare = ["unshare", *kinds, "--fork", "--kill-child", "--mount-proc"]
    try:
        surroundings = {**os.environ, INSIDE: str(folder), "PATH": f"{os.environ['PATH']}:/usr/sbin:/sbin"}
        return subprocess.run([*unshare, sys.executable, *words], env=surroundings, check=False).returncode
    finally:
        end = time.time() + 10
        # (what was killed in there may write until it has gone)
        while folder.exists() and time.time() < end:
            shutil.rmtree(folder, ignore_errors=True)
        if log_of(folder).exists() and not log_of(folder).stat().st_size:
            log_of(folder).unlink()


def sh(command, **how):
    """Runs a command of the shell, and gives what it wrote; an error where it fails."""
    ran = subprocess.run(["bash", "-ec", command], stdin=subprocess.DEVNULL, stdout=subprocess.PIPE,
                         stderr=subprocess.STDOUT, text=True, check=False, timeout=PATIENCE, **how)
    if ran.returncode != 0:
        raise RuntimeError(f"{command}\nends with {ran.returncode}:\n{ran.stdout[-3000:]}")
    return ran.stdout


def user_words(user):
    """The words before a command that have that user run it."""
    found = pwd.getpwnam(user)
    return ["setpriv", f"--reuid={found.pw_uid}", f"--regid={found.pw_gid}", "--clear-groups"]


def as_user(user, command, **how):
    """Runs a command of the shell as that user, and gives what it wrote; an error where it fails."""
    return sh(shlex.join(["exec", *user_words(user), "bash", "-ec", command]), **how)


def pack(folder, program, script="dist.py", **surroundings):
    """Packs the program, or the one that is proved: the archive, as `make dist` does, or what another script of deploy/
    makes."""
    words = [TOP / "deploy" / script, "--to", folder, *(["--program", program] if program else [])]
    subprocess.run(words, check=True, stdout=subprocess.DEVNULL, env={**os.environ, **surroundings})


class Alone(NamedTuple):
    """What a part begins with that has a machine of its own: a folder, and the program."""
    folder: pathlib.Path
    program: str | None

    def packed(self):
        """The archive."""
        if not list(self.folder.glob("pdpd-*.tar.gz")):
            pack(self.folder, self.program)
        (archive,) = self.folder.glob("pdpd-*.tar.gz")
        return archive


class Machine:
    """The machine: what deploy/ installs on it, its shards and its proxy."""

    def __init__(self, folder):
        self.folder, self.operator, self.is_audited = pathlib.Path(folder), None, False
        # as root has it, and not as tests/serving.py
        os.umask(0o022)
        sh("mount --make-rprivate / && mount -o remount,ro,bind /sys && ip link set lo up")
        for own in OWN:
            self.own(own)
        sh("mount -t tmpfs -o mode=755 run /run && mkdir -p /run/lock")
        sh(f"rm -rf {' '.join(PLACES)}; for user in pdpd pdpd-replica; do ! id $user > /dev/null 2>&1 || "
           "userdel $user; done")

    def own(self, path):
        """Has what is written below that path go into the test's folder."""
        upper, work, decoys = (self.folder / f"{kind}{path}" for kind in ("upper", "work", "decoys"))
        for folder in (upper, work, decoys):
            folder.mkdir(parents=True)
        for decoy, text in DECOYS.items():
            if decoy.startswith(f"{path}/"):
                file = self.folder / f"decoys{decoy}"
                file.parent.mkdir(parents=True, exist_ok=True)
                file.write_text(text)
        sh(f"mount -t overlay overlay -o lowerdir={decoys}:{path},upperdir={upper},workdir={work} {path}")

    def pack(self, program):
        """Makes the archive."""
        pack(self.folder, program)

    def walk(self):
        """Gives the page's commands, word for word but for those that fetch packages; runit is started first."""
        sh("(runsvdir -P /etc/service > /dev/null 2>&1 < /dev/null &)")
        for command in commands_of_page():
            yield command, sh(command, cwd=self.folder)

    def set(self, **changes):
        """Changes settings, and has all that read them do so."""
        text = SETTINGS.read_text()
        for name, value in changes.items():
            text, count = re.subn(rf"(?m)^{name}=.*$", f'{name}="{value}"', text)
            if count != 1:
                raise RuntimeError(f"no setting {name}")
        SETTINGS.write_text(text)
        shards("config", "--write")
        shards("reload")

    def change_token(self, token):
        """Changes the operator's token, as the page says."""
        pathlib.Path("/etc/pdpd/token").write_text(f"{token}\n")
        shards("restart")
        self.operator.token = token

    def end(self):
        """Ends all services."""
        sh("sv force-stop /etc/service/* > /dev/null 2>&1 || true")


def commands_of_page():
    """The commands of the page's first block, but for that of packages."""
    block = re.search(r"(?ms)^## From nothing.*?^```sh\n(.*?)^```", PAGE.read_text())
    if not block:
        raise RuntimeError(f"{PAGE} has no block of commands under `From nothing`")
    joined = block[1].replace("\\\n", " ")
    return [line for line in joined.splitlines() if line.strip() and not line.startswith("apt-get ")]


def shards(*words, status=0):
    """Runs pdpd-shards, and gives what it says."""
    how = {"stdin": subprocess.DEVNULL, "stdout": subprocess.PIPE, "stderr": subprocess.STDOUT, "text": True}
    ran = subprocess.run(["pdpd-shards", *map(str, words)], check=False, timeout=PATIENCE, **how)
    if ran.returncode != status:
        given = " ".join(map(str, words))
        raise RuntimeError(f"pdpd-shards {given} ends with {ran.returncode}:\n{ran.stdout}")
    return ran.stdout


def backs_up(*words):
    """Makes backups, and gives what is said. Where the test has removed all domains of a shard, which is told once,
    they are made again."""
    ran = subprocess.run(["pdpd-shards", "backup", *map(str, words)], stdin=subprocess.DEVNULL, capture_output=True,
                         text=True, check=False, timeout=PATIENCE)
    is_told = ran.returncode == 1 and "has no domain any more" in ran.stdout
    if ran.returncode and not is_told:
        raise RuntimeError(f"a backup ends with {ran.returncode}:\n{ran.stdout}{ran.stderr}")
    return shards("backup", *words) if is_told else ran.stdout


def ended_shards(folder, ending, *words):
    """The status of a pdpd-shards that is ended, and what it says; 0 if it is over before.

    `ending` is a signal, a system call, and at how manyth entry of that the signal comes; of those alone that name
    the path, if there is one. CHILD is a kill of the program that makes the call, which the tool runs.
    """
    how, call, number, *paths = ending
    inject = f"inject={call}:signal={'KILL' if how == 'CHILD' else how}:when={number}"
    more = [*(["-f"] if how == "CHILD" else []), *(word for path in paths for word in ("-P", path))]
    # (whoever runs the test may ignore SIGHUP)
    traced = ["env", "--default-signal=HUP", "strace", "-qq", "-o", folder / "ended", "-e", f"trace={call}",
              "-e", inject, *more, "pdpd-shards", *map(str, words)]
    ran = subprocess.run(traced, capture_output=True, text=True, check=False, timeout=PATIENCE)
    return ran.returncode, ran.stdout + ran.stderr


@contextlib.contextmanager
def instead_of(folder, command, script):
    """Meanwhile a script of the shell runs in place of a command, which it has as $REAL."""
    place = folder / f"instead-of-{command}"
    place.mkdir(exist_ok=True)
    (place / command).write_text(f"#!/bin/sh\nREAL={shutil.which(command)}\n{script}\n")
    (place / command).chmod(0o755)
    before = os.environ["PATH"]
    os.environ["PATH"] = f"{place}:{before}"
    try:
        yield
    finally:
        os.environ["PATH"] = before


def refuse_starts(folder, shard):
    """Meanwhile the command sv starts no program of that shard."""
    refused = f'case "$*" in "up /etc/service/pdpd-{shard}") echo "refused for the test"; exit 1;; esac'
    return instead_of(folder, "sv", f'{refused}\nexec $REAL "$@"')


def port(shard):
    """The port of a shard, by the settings."""
    return int(re.search(r'(?m)^FIRST_PORT="?(\d+)', SETTINGS.read_text())[1]) + shard


def place(shard):
    """Where a shard listens, by the settings: the path of its socket, or its port."""
    found = re.search(r'(?m)^FIRST_PORT="?(\d+)', SETTINGS.read_text())
    return int(found[1]) + shard if found else f"/run/pdpd-shards/{shard}/socket"


def listens_at(where):
    """A socket that takes connections at such a place, also those of HAProxy's user."""
    if isinstance(where, str):
        pathlib.Path(where).unlink(missing_ok=True)
        made = socket.socket(socket.AF_UNIX)
        made.bind(where)
        os.chmod(where, 0o660)
    else:
        made = socket.socket()
        made.setsockopt(socket.SOL_SOCKET, socket.SO_REUSEADDR, 1)
        made.bind(("127.0.0.1", where))
    made.listen(128)
    return made


def holder(shard):
    """The process that is supervised for a shard: it holds the pipe of the program's input. 0 where there is none."""
    return int(pathlib.Path(f"/etc/service/pdpd-{shard}/supervise/pid").read_text().strip() or 0)


def pid(shard):
    """The process of a shard's program, 0 where there is none."""
    process = holder(shard)
    try:
        words = pathlib.Path(f"/proc/{process}/cmdline").read_bytes().split(b"\0")
        children = pathlib.Path(f"/proc/{process}/task/{process}/children").read_text().split()
        # (behind its end `rm` is one for a moment)
        names = {child: pathlib.Path(f"/proc/{child}/comm").read_text().strip() for child in children}
    except (FileNotFoundError, ProcessLookupError):
        return 0
    found = [child for child in children if names[child] not in ("rm", "pdpd-hold")]
    return int(found[0]) if found and words[1:2] == [b"/usr/local/lib/pdpd/pdpd-hold"] else 0


def wait_until(holds, what, seconds=120.0):
    end = time.time() + seconds
    while not holds():
        if time.time() > end:
            raise RuntimeError(f"after {seconds:.0f} s: {what() if callable(what) else what}")
        time.sleep(0.02)


def admin(command):
    """What HAProxy says to a command."""
    with socket.socket(socket.AF_UNIX) as asked:
        asked.connect("/run/haproxy/admin.sock")
        asked.sendall(command.encode() + b"\n")
        return b"".join(iter(lambda: asked.recv(65_536), b"")).decode()


def logs(lines=15):
    """What HAProxy has under way, and the ends of all logs."""
    try:
        sessions = admin("show sess")
    except OSError as fault:
        sessions = f"HAProxy isn't there: {fault}\n"
    return sessions + sh(f"tail -n {lines} /var/log/pdpd/*/current 2>&1 || true")


def clock():
    """The time as runit's logs have it."""
    return time.strftime("%Y-%m-%d_%H:%M:%S", time.gmtime()) + f".{time.time() % 1:.3f}"[2:]


def where(name):
    """Which shard a domain is in, by the command."""
    ran = subprocess.run(["pdpd-shards", "where", name], capture_output=True, text=True, check=False)
    return (ran.stdout + ran.stderr).strip()
