"""What a user of the machine tries: to be a shard, and to hold the tools up. And what the unit of backups leaves."""
import os
import pathlib
import pwd
import re
import shlex
import signal
import socket
import subprocess
import sys

from checks import Between

from .clients import Deciders, decision, many, once
from .machine import (
    LIBRARY, SETTINGS, admin, as_user, backs_up, instead_of, pid, port, sh, shards, user_words, wait_until)

NOBODY = "nobody"
# (the test's own may be in a folder that is root's alone)
PYTHON = "/usr/bin/python3"
# It waits until it may take connections at a port, or at a path, says so, and then whatever it is sent; it answers as a
# shard would that permits all.
THIEF = """
import os, re, socket, sys, time
is_path = sys.argv[1].startswith("/")
address = sys.argv[1] if is_path else ("127.0.0.1", int(sys.argv[1]))
print("waits", flush=True)
while True:
    listener = socket.socket(socket.AF_UNIX if is_path else socket.AF_INET)
    listener.setsockopt(socket.SOL_SOCKET, socket.SO_REUSEADDR, 1)
    try:
        if is_path and os.path.exists(address):
            os.unlink(address)
        listener.bind(address)
        break
    except OSError:
        listener.close()
        time.sleep(0.001)
if is_path:
    os.chmod(address, 0o666)
listener.listen(100)
print("taken", flush=True)
while True:
    connection = listener.accept()[0]
    connection.settimeout(2)
    try:
        data = connection.recv(65536)
        print(repr(data), flush=True)
        body = b'{"Domain":[]}' if b"GET /operator" in data else b'{"Response":[{"Decision":"Permit"}]}'
        first = b"HTTP/1.1 401 Unauthorized" if b"Bearer -\\r" in data else b"HTTP/1.1 200 OK"
        head = b"\\r\\nContent-Type: application/json\\r\\nContent-Length: %d\\r\\n\\r\\n" % len(body)
        connection.sendall(first + head + body)
    except OSError:
        pass
    connection.close()
"""


class Local:
    """A program of a user of the machine, which runs until the end of the `with` statement."""

    def __init__(self, user, program, *words):
        self.words = [*user_words(user), sys.executable, "-Ic", program, *map(str, words)]
        self.log = pathlib.Path(f"/tmp/said-{id(self)}")

    def __enter__(self):
        with open(self.log, "w") as log:
            self.process = subprocess.Popen(self.words, stdin=subprocess.DEVNULL, stdout=log, stderr=log)
        return self

    def __exit__(self, *what):
        self.process.kill()
        self.process.wait()

    def said(self):
        """What it has said; an error where it has ended."""
        if self.process.poll() is not None:
            raise RuntimeError(f"{self.words} ends with {self.process.returncode}: {self.log.read_text()}")
        return self.log.read_text()


def owner_and_mode(path):
    """The owner and the mode of a file, as `ls` has them."""
    return sh(f"stat -c '%U %G %a %F' {path}").strip()


# ---- a shard's socket

FOLDERS = "/run/pdpd-shards"
# tries to enter a shard's folder, to connect to its socket, and to make one beside it
ENTERS = """
import os, socket, sys
for what, tries in (("lists", lambda: os.listdir(sys.argv[1])),
                    ("connects", lambda: socket.socket(socket.AF_UNIX).connect(sys.argv[1] + "/socket")),
                    ("makes", lambda: socket.socket(socket.AF_UNIX).bind(sys.argv[1] + "/other")),
                    ("removes", lambda: os.unlink(sys.argv[1] + "/socket")),
                    ("moves", lambda: os.rename(sys.argv[1], sys.argv[1] + ".away"))):
    try:
        tries()
        print(what, end=" ")
    except PermissionError:
        pass
"""


def sockets(machine, checks):
    """A shard's socket is where its user alone can make one, and HAProxy's user alone can reach it beside that. What
    stands there in its place is told, shown no token, and leads HAProxy nowhere that matters."""
    operator = machine.operator
    operator.clear()
    asks = many(machine, 8)
    found = [owner_and_mode(f"{FOLDERS}{path}") for path in ("", "/1", "/1/socket")]
    checks.expect("the folders and the socket", found, [
        "root root 711 directory", "pdpd haproxy 2710 directory", "pdpd haproxy 660 socket"])
    checks.expect("what is left of the pipe", "end" in os.listdir(f"{FOLDERS}/1"), False)
    for user, wanted in ((NOBODY, ""), ("pdpd-replica", ""), ("haproxy", "connects ")):
        is_new = sh(f"id {user} > /dev/null 2>&1 || {{ useradd --system {user}; echo new; }}").strip() == "new"
        said = as_user(user, shlex.join([PYTHON, "-Ic", ENTERS, f"{FOLDERS}/1"]))
        checks.expect(f"what {user} can do", said, wanted)
        if is_new:
            sh(f"userdel {user}")  # (the page's own command makes it later)
    with Local(NOBODY, THIEF, f"{FOLDERS}/1/socket") as thief, Deciders(asks, 4) as deciders:
        wait_until(lambda: "waits" in thief.said(), "the thief doesn't begin")
        shards("restart", 1)
        checks.expect("what a thief gets", thief.said(), "waits\n")
    checks.expect("no decision is lost, or another's", deciders.wrong, [])
    planted(checks, [decision(once(ask)) for ask, _ in asks], asks)


def led():
    """What HAProxy has in its map, but for that a shard is away."""
    return [line for line in admin("show map /etc/haproxy/domains.map").splitlines() if " AWAY " not in line]


def planted(checks, right, asks):
    """What the user of the shards may put in a socket's place: each kind is told by `status`, is asked for nothing by
    HAProxy but what the shard's own clients ask, and keeps the shard away until it is gone."""
    path = f"{FOLDERS}/1/socket"
    places = [int(shards("where", f"d{number}")) for number in range(8)]
    away = [503 if place == 1 else effect for place, effect in zip(places, right)]
    sh("sv down /etc/service/pdpd-1")
    wait_until(lambda: not pid(1), "a shard isn't ended")
    before = led()
    for what, command, told in (
            ("a link to HAProxy's own socket", f"ln -s /run/haproxy/admin.sock {path}", "the socket of shard 1"),
            ("a pipe", f"mkfifo {path}", "shard 1 takes no connections"),
            ("a file", f"echo > {path}", "shard 1 takes no connections")):
        as_user("pdpd", f"rm -f {path}; {command}")
        said = asked_status()
        checks.expect(f"{what}, as status tells it: {said}", told in said, True)
        checks.expect(f"{what}: what clients are answered", [decision(once(ask)) for ask, _ in asks], away)
    checks.expect("what HAProxy was told", led(), before)
    as_user("pdpd", f"rm -f {path}")
    with Local("pdpd", THIEF, path) as thief:
        wait_until(lambda: "taken" in thief.said(), "the thief doesn't begin")
        said = asked_status()
        uid = pwd.getpwnam("pdpd").pw_uid
        whose = f"another program has the socket of shard 1, {path}: user {uid} (pdpd), "
        checks.expect(f"another program of the user: {said}", f"{whose}process {thief.process.pid}." in said, True)
        row = re.search(r"(?m)^1 +(\w+) ", said)
        checks.expect("its state", row and row[1], "taken")
        for words in (("restart", 1), ("backup", 1), ("move", "d0", 0, 1), ("remap",)):
            said = shards(*words, status=1)
            checks.expect(f"{words}: {said}", whose in said, True)
        operator = pathlib.Path("/etc/pdpd/token").read_text().strip()
        checks.expect("it is shown the operator's token", operator in thief.said(), False)
    sh("sv up /etc/service/pdpd-1")
    wait_until(lambda: [decision(once(ask)) for ask, _ in asks] == right, "the shard isn't there again", 60)


# ---- a shard's port

def to_places(first_port):
    """Changes where shards listen, as the page says."""
    sh(f"sed -i 's/^FIRST_PORT=.*/FIRST_PORT={first_port}/' {SETTINGS}")
    shards("config", "--write")
    return shards("restart")


def thieves(machine, checks):
    """A user that waits for a shard's port below 1024 never gets it, neither during a restart nor behind a kill, and no
    decision is another one's."""
    machine.operator.clear()
    asks = many(machine, 8)
    said = to_places(LOW)
    checks.expect(f"from sockets to ports: {said}", "all shards are restarted" in said, True)
    with Local(NOBODY, THIEF, port(1)) as thief, Deciders(asks, 4, also=(None, 502, 503)) as deciders:
        wait_until(lambda: "waits" in thief.said(), "the thief doesn't begin")
        for _ in range(3):
            shards("restart", 1)
            wait_until(lambda: pid(1), "shard 1 doesn't run")
            os.kill(old := pid(1), signal.SIGKILL)
            wait_until(lambda: pid(1) not in (0, old) and machine.operator.is_answered(), "shard 1 stays away")
        said = thief.said()
    checks.expect("what the thief gets", said, "waits\n")
    checks.expect("no decision is another's", deciders.wrong, [])
    checks.within("decisions meanwhile", deciders.answered, Between(20))
    rights = sh(f"grep -E 'Cap(Prm|Eff|Amb)|NoNewPrivs' /proc/{pid(1)}/status").split()
    wanted = [f"{1 << 10:016x}"] * 3 + ["1"]  # CAP_NET_BIND_SERVICE (capabilities(7))
    checks.expect("the rights of a shard", rights[1::2], wanted)
    with Deciders(asks, 4, also=(503,)) as deciders:
        to_places("")
    checks.expect("from ports to sockets: no decision is another's", deciders.wrong, [])
    checks.expect("behind it", [decision(once(ask)) for ask, _ in asks], [effect for _, effect in asks])


def impostors(machine, checks):
    """Where FIRST_PORT is a port of everybody's, a user can take one: each tool that meets that says so, ends with 1,
    and shows it no token, and no client's message comes to it. Then the ports are changed under load."""
    machine.operator.clear()
    asks = many(machine, 8)
    places = [int(shards("where", f"d{number}")) for number in range(8)]
    try:
        to_places(7100)
        takes_port(machine, checks, asks, places)
        kept_from(checks, asks, places)
        changes_ports(machine, checks, asks)
    finally:
        to_places("")


def takes_port(machine, checks, asks, places):
    """A user takes the port of a shard that restarts."""
    backs_up()
    said = shards("status", status=1)
    checks.expect(f"ports of everybody: {said}", "WRONG: every user of this machine can take" in said, True)
    late = 'case "$*" in "up /etc/service/pdpd-1") sleep 1;; esac\nexec $REAL "$@"'
    with Local(NOBODY, THIEF, port(1)) as thief, instead_of(machine.folder, "sv", late):
        wait_until(lambda: "waits" in thief.said(), "the thief doesn't begin")
        with Deciders(asks, 4, also=(503,)) as deciders:
            said = shards("restart", 1, status=1)
        checks.expect(f"a restart: {said}", impostor_of(thief) in said, True)
        checks.expect("no decision is another's", deciders.wrong, [])
        wanted = [503 if place == 1 else effect for place, (_, effect) in zip(places, asks)]
        meets(machine, checks, thief)
        found = [decision(once(ask)) for ask, _ in asks]
        checks.expect("what clients are answered", (found, 503 in found), (wanted, True))
        seen = thief.said()
    checks.expect("it has the port", "taken" in seen, True)
    checks.expect("it is shown a token", re.findall(r"Bearer (?!-\\r)\S+", seen), [])
    wait_until(lambda: not thief_is_at(port(1)), "the port isn't free again")
    shards("restart", 1)
    checks.expect("behind it", [decision(once(ask)) for ask, _ in asks], [effect for _, effect in asks])


def kept_from(checks, asks, places):
    """While no tool runs the watchdog has HAProxy send such a program nothing, and ask the shard again behind it."""
    right = [effect for _, effect in asks]
    away = [503 if place == 1 else effect for place, effect in zip(places, right)]
    decisions = lambda: [decision(once(ask)) for ask, _ in asks]
    sh("sv down /etc/service/pdpd-1")
    with Local(NOBODY, THIEF, port(1)) as thief:
        wait_until(lambda: "taken" in thief.said(), "the thief doesn't get the port")
        wait_until(lambda: server_state(1) == "1", "it is asked", 60)
        checks.expect("while another program has the port", decisions(), away)
    sh("sv up /etc/service/pdpd-1")
    wait_until(lambda: server_state(1) == "0", "the shard is asked no more", 60)
    wait_until(lambda: decisions() == right, "its domains stay away", 60)
    checks.expect("behind it, without a tool", decisions(), right)


def server_state(shard):
    """How the HAProxy that runs is told to treat a shard: 0 asks it, 1 doesn't (srv_admin_state, maintenance)."""
    rows = [line.split() for line in admin(f"show servers state shard{shard}").splitlines()]
    heads = next(row[1:] for row in rows if row[:1] == ["#"])
    return next(row[heads.index("srv_admin_state")] for row in rows if row[1:2] == [f"shard{shard}"])


def thief_is_at(number):
    """Whether another user's program has the port."""
    sys.path.insert(0, str(LIBRARY))
    from operating import listener
    found = listener.at_port(number)
    return found is not None and found.uid == 65534


def impostor_of(thief):
    """What is told of it."""
    return (f"another program has the port of shard 1, 127.0.0.1:{port(1)}: user 65534 (nobody), "
            f"process {thief.process.pid}.")


def asked_status():
    """What `pdpd-shards status` says, whatever its exit status."""
    return subprocess.run(["pdpd-shards", "status"], capture_output=True, text=True, check=False).stdout


def meets(machine, checks, thief):
    """Each tool, while a shard's port is another program's."""
    name = re.findall(r"(?m)^1 (\S+)", shards("backups"))[-1]
    tools = (("status",), ("restart", 1), ("backup", 1), ("move", "d0", 0, 1), ("grow", 4), ("remap",),
             ("put-back", 1, name, "--yes"), ("upgrade",))
    for words in tools:
        said = shards(*words, status=1)
        checks.expect(f"{words}: {said}", impostor_of(thief) in said, True)
    row = re.search(r"(?m)^1 +(\w+) ", asked_status())
    checks.expect("its state", row and row[1], "taken")
    left = re.findall(r"(?m)^\S+ ((?:HELD|NEW|SHARD\d+|\S+ moving).*)", admin("show map /etc/haproxy/domains.map"))
    checks.expect("what they leave held back", left, [])


# the first of ports that take a right
LOW = 288


def changes_ports(machine, checks, asks):
    """From ports of everybody to ports below 1024, under load."""
    with Deciders(asks, 4) as deciders:
        to_places(LOW)
    checks.expect("no decision is lost while ports change", deciders.wrong, [])
    checks.expect("the ports", [bool(listens(LOW + shard)) for shard in range(4)], [True] * 4)
    shards("reload")
    shards("remap")
    backs_up()  # (the service of backups may have met the thief)
    checks.expect("status behind it", shards("status").count(" up "), 4)


def listens(number):
    """Whether there is a program at a port."""
    with socket.socket() as probe:
        return probe.connect_ex(("127.0.0.1", number)) == 0


ATTACKS = (sockets, thieves, impostors)
