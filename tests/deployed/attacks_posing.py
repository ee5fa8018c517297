"""What poses as a shard's own, so that tools wait for it or tell it something; and what root's shell leaves to others:
its environment, its files and its umask."""
import contextlib
import io
import itertools
import json
import os
import pathlib
import pwd
import re
import signal
import subprocess
import sys
import time
from unittest import mock

from checks import Between

from . import audit
from .attacking import InPlace
from .attacks_local import Local, owner_and_mode, to_places
from .attacks_pdpd import THINGS, make_secret
from .clients import Client, once, status
from .machine import LIBRARY, PLAIN, SETTINGS, as_user, pid, port, sh, shards, user_words, wait_until

SOCKET = "/run/pdpd-shards/1/socket"
# things in place of a file (one that has no end would fill the disk, where it is followed)
PLANTED = {what: command for what, command in THINGS.items() if "endless" not in what}


# ---- sockets of the same name

# It makes a socket of that name where it is, and so many connections to it whose other ends have gone; half of them
# nobody has taken.
NAMESAKE = """
import os, socket, sys, time
os.makedirs(os.path.dirname(sys.argv[1]))
listener = socket.socket(socket.AF_UNIX)
listener.bind(sys.argv[1])
listener.listen(1000)
held = []
for number in range(int(sys.argv[2])):
    with socket.socket(socket.AF_UNIX) as connection:
        connection.connect(sys.argv[1])
    if number < int(sys.argv[2]) // 2:
        held.append(listener.accept())
print("made", flush=True)
time.sleep(1000)
"""
MADE = 100
# how long a shard may stand still before it is killed, and a change may wait then, in seconds
SOON = 40


class Elsewhere(Local):
    """A user's program that has a folder /run of its own, as any user can in a user namespace."""

    def __init__(self, user, program, *words):
        super().__init__(user, program, *words)
        self.words = ["unshare", "--mount", "sh", "-c", 'mount -t tmpfs -o mode=1777 own /run; exec "$@"', "sh",
                      *user_words(user), sys.executable, "-Ic", program, *map(str, words)]


def stands_still(shard):
    """Has a shard stand still until the watchdog kills it; for how many seconds that was."""
    old, began = pid(shard), time.time()
    os.kill(old, signal.SIGSTOP)
    wait_until(lambda: pid(shard) not in (0, old), "a shard that stands still isn't killed", 200)
    return time.time() - began


def namesakes(machine, checks):
    """A user who makes sockets of a shard's name in a mount namespace of his own holds up neither the watchdog nor the
    daemon that logs changes: a shard that stands still is killed, and a change is made that may have come to it."""
    audit.switch_on(machine)
    name = domain_of(1)
    makes = lambda: audit.sent("PUT", f"/operator/domains/{name}", machine.operator.token)[0]
    wait_until(lambda: makes() in (201, 409), "no change is taken")
    with Elsewhere("nobody", NAMESAKE, SOCKET, MADE) as namesake:
        wait_until(lambda: "made" in namesake.said(), "there are no such sockets")
        checks.within("sockets of that name", sh("cat /proc/net/unix").count(f" {SOCKET}\n"), Between(MADE))
        checks.within("for how many seconds a shard stands still", stands_still(1), Between(0, SOON))
        wait_until(lambda: makes() == 409, "no change is taken", 200)
        # a change that waits, as its shard can write nothing; behind a start the daemon doesn't know whether it is made
        process = pid(1)
        as_user("pdpd", f"prlimit --pid {process} --fsize=1:")
        checks.expect("a change that can't be kept", audit.sent(
            "DELETE", f"/operator/domains/{name}", machine.operator.token)[0], 504)
        sh("sv restart /etc/service/pdpd-replica-1")
        as_user("pdpd", f"prlimit --pid {process} --fsize=unlimited:")
        began = time.time()
        wait_until(lambda: makes() == 201, "the change isn't made", 200)
        checks.within("for how many seconds it waits", time.time() - began, Between(0, SOON))


# ---- a port, for a moment

# It takes a port, one connection, and is at the port no more; it answers that as a shard whose token was another one.
SNATCHER = """
import socket, sys, time
while True:
    listener = socket.socket()
    listener.setsockopt(socket.SOL_SOCKET, socket.SO_REUSEADDR, 1)
    try:
        listener.bind(("127.0.0.1", int(sys.argv[1])))
    except OSError:
        listener.close()
        time.sleep(0.001)
        continue
    listener.listen(1)
    print("taken", flush=True)
    connection = listener.accept()[0]
    listener.close()
    connection.settimeout(1)
    try:
        while data := connection.recv(65536):
            print(repr(data), flush=True)
            connection.sendall(b"HTTP/1.1 401 Unauthorized\\r\\nContent-Length: 0\\r\\n\\r\\n")
    except OSError:
        pass
    connection.close()
"""


def snatched(machine, checks):
    """Where ports are everybody's, a program that takes a shard's for the moment of one connection is shown no token,
    neither by the daemon that logs changes nor by a tool that has looked just before."""
    audit.switch_on(machine)
    name = domain_of(1)
    makes = lambda: audit.sent("PUT", f"/operator/domains/{name}", machine.operator.token)[0]
    to_places(7100)
    wait_until(lambda: makes() in (201, 409), "no change is taken")
    sh("sv down /etc/service/pdpd-1")
    wait_until(lambda: not pid(1), "a shard isn't ended")
    with Local("nobody", SNATCHER, port(1)) as thief:
        wait_until(lambda: "taken" in thief.said(), "the thief doesn't get the port")
        # (503: the daemon sent it nowhere; 504: it is in the log, and waits)
        checks.within("changes meanwhile", {makes() for _ in range(3)}, [{503}, {504}, {503, 504}])
        looked_before(checks)
        said = thief.said()
    checks.within("how often it had the port", said.count("taken"), Between(4))
    checks.expect("tokens that it is shown", re.findall(r"(?i)Bearer (?!-\\r)\S+", said), [])
    sh("sv up /etc/service/pdpd-1")
    wait_until(lambda: makes() in (201, 409), "no change is taken again")
    to_places("")
    wait_until(lambda: makes() in (201, 409), "no change is taken at a socket")


def looked_before(checks):
    """A tool that has found nobody else at the port, and is connected to him then."""
    sys.path.insert(0, str(LIBRARY))
    from operating import listener, settings, talk
    now = settings.read()
    with mock.patch.object(listener, "refuse_another"):
        for _ in range(3):
            try:
                found = talk.own_reply(now, 1, "GET", "/operator/domains", now.operator(), 5.0)
            except OSError as fault:
                found = type(fault)
            checks.within("what the tool gets", found, [ConnectionResetError, ConnectionRefusedError])


# ---- a program that drips

# It answers each message at once as a shard to no token, and the operator's list a byte a second.
DRIPS = """#!/usr/bin/python3 -I
import os, re, socket, sys, threading, time
made = socket.socket(socket.AF_UNIX)
os.umask(0o117)
made.bind(sys.argv[3].removeprefix("unix:"))
made.listen(99)
print("listening", sys.argv[3], flush=True)
def serve(taken):
    data = b""
    while more := taken.recv(65536):
        data += more
        head, end, rest = data.partition(b"\\r\\n\\r\\n")
        length = re.search(rb"(?i)\\r\\ncontent-length: *(\\d+)", head)
        if not end or len(rest) < int(length[1] if length else 0):
            continue
        data = b""
        while b"/operator/domains" in head and b"Bearer -" not in head:
            taken.sendall(b"HTTP/1.1 200 OK\\r\\nContent-Length: 99999\\r\\n\\r\\n" if not data else data)
            data = b" "
            time.sleep(1)
        taken.sendall(b"HTTP/1.1 401 Unauthorized\\r\\nContent-Length: 0\\r\\n\\r\\n")
while True:
    threading.Thread(target=serve, args=made.accept()[:1], daemon=True).start()
"""


@contextlib.contextmanager
def another_program(shard, text):
    """A shard runs another program meanwhile, which no tool would start: it opens no copy of what the shard has."""
    program, before = LIBRARY / "another", pid(shard)
    program.write_text(text)
    program.chmod(0o755)
    sh(f"echo PROGRAM={program} >> {SETTINGS.parent}/applied/{shard}.conf; sv restart /etc/service/pdpd-{shard}")
    wait_until(lambda: pid(shard) not in (0, before) and pathlib.Path(f"/run/pdpd-shards/{shard}/socket").exists(),
               "it doesn't begin")
    try:
        yield
    finally:
        shards("restart", shard)


def dripped(machine, checks):
    """A shard's program that gives a byte now and then of what a tool asks holds no tool up, nor what that keeps from
    others meanwhile."""
    machine.operator.clear()
    makes = lambda: status(once(machine.operator.creates(domain_of(0))))
    with another_program(1, DRIPS):
        for word in ("status", "remap"):
            began = time.time()
            ran = subprocess.run(["pdpd-shards", word], capture_output=True, text=True, check=False, timeout=150)
            told = "shard 1 gives no reply" in ran.stdout + ran.stderr
            checks.expect(f"{word}: {ran.stdout}{ran.stderr}", (ran.returncode, told), (1, True))
            checks.within(f"{word}: the seconds", time.time() - began, Between(0, 60))
            checks.within("a new domain behind it", makes(), [201, 409])


# ---- root's umask and files

OWN = pathlib.Path("/etc/haproxy/pdpd-own.cfg")


def masked(machine, checks):
    """With a umask of nothing no tool makes a thing that others can change. What the operator keeps to himself in
    sections of his own, nobody else reads in HAProxy's file."""
    sh("sv force-stop /etc/service/pdpd-backups; rm /etc/service/pdpd-backups; sleep 8; rm -r /etc/sv/pdpd-backups")
    sh("umask 000; pdpd-shards config --write; pdpd-shards services; pdpd-shards reload; pdpd-shards restart 0")
    places = "/etc/sv /etc/pdpd /etc/haproxy /usr/local/lib/pdpd /run/pdpd /run/pdpd-shards /var/lib/pdpd*"
    found = sh(f"find {places} '(' -perm -002 -o -perm -020 ')' '!' -type l '!' -type s")
    checks.expect("what others can change", found, "")
    checks.expect("the service that was made anew", sh("stat -c '%U %a' /etc/sv/pdpd-backups"), "root 755\n")
    before = OWN.read_text() if OWN.exists() else None
    sh(f"umask 077; rm -f {OWN}; printf 'userlist own\\n    user one insecure-password word-of-one\\n' > {OWN}")
    shards("config", "--write")
    shards("reload")
    for path in (OWN, "/etc/haproxy/haproxy.cfg"):
        checks.expect(f"{path}: it is in there", "word-of-one" in pathlib.Path(path).read_text(), True)
    said = as_user("nobody", "grep -r word-of-one /etc/haproxy /etc/pdpd 2> /dev/null || true")
    checks.expect("what another user finds", said, "")
    said = as_user("nobody", "pdpd-shards status 2>&1 || true")
    told = "CAN'T TELL: the map: /etc/haproxy/haproxy.cfg: Permission denied" in said
    checks.expect(f"what he is told: {said}", (told, "Traceback" in said), (True, False))
    OWN.unlink()
    if before is not None:
        OWN.write_text(before)
    shards("config", "--write")
    shards("reload")
    checks.expect("HAProxy's file without them", sh("stat -c %a /etc/haproxy/haproxy.cfg"), "644\n")


# what a service's user may have in its environment (docs/guide/RUNNING.md, and what a shell sets by itself)
VARIABLES = {"PATH", "CREDENTIALS_DIRECTORY", "PWD", "SHLVL", "OLDPWD", "_", "LC_CTYPE", "HAPROXY_MWORKER", "PDPD",
             "HAPROXY_CFGFILES", "HAPROXY_LOCALPEER", "HAPROXY_STARTUP_VERSION", "HAPROXY_BRANCH",
             *(f"PDPD_{word}" for word in ("WORK", "READING", "IDLE", "END", "SHARDS", "MAXCONN", "RUN", "SOCKETS",
                                           "MAP", "AUDIT", "DIGEST", "ARCHIVES", "SETTINGS"))}


def others_of(session):
    """The processes of a session that aren't root's."""
    found = []
    for folder in pathlib.Path("/proc").glob("[0-9]*"):
        with contextlib.suppress(FileNotFoundError, ProcessLookupError):
            of = int((folder / "stat").read_text().rpartition(")")[2].split()[3])
            if of == session and re.search(r"(?m)^Uid:\t[1-9]", (folder / "status").read_text()):
                found.append(folder)
    return found


def inherited(machine, checks):
    """The services of runit leave to their users nothing of the shell that has started it: no variable, and none of its
    files, as a terminal at which root types."""
    audit.switch_on(machine)
    sh("umask 077; echo secret > /var/only-root")
    for name, of in (("pdpd-3", "pdpd"), ("pdpd-replica-3", "pdpd-replica"), ("pdpd-decisions", "pdpd-replica"),
                     ("haproxy", "haproxy")):
        sh(f"sv stop /etc/service/{name}")
        how = {"stdout": subprocess.DEVNULL, "stderr": subprocess.DEVNULL, "start_new_session": True}
        with open("/var/only-root") as secret, subprocess.Popen(
                ["./run"], cwd=f"/etc/sv/{name}", env={**os.environ, "WORD_OF_ROOT": "secret"}, stdin=secret,
                **how) as process:
            wait_until(lambda held=process: others_of(held.pid), f"{name} doesn't begin")
            time.sleep(2)
            seen = others_of(process.pid)
            users = {pwd.getpwuid((folder / "fd").stat().st_uid or folder.stat().st_uid).pw_name for folder in seen}
            checks.within(f"{name}: whose it is", users, [{of}, {"root"}])
            lines = b"".join((folder / "environ").read_bytes() for folder in seen).decode(errors="replace").split("\0")
            names = {line.partition("=")[0] for line in lines if line}
            checks.expect(f"{name}: variables", names - VARIABLES, set())
            files = {os.readlink(path) for folder in seen for path in (folder / "fd").iterdir()}
            checks.expect(f"{name}: a file of root's", "/var/only-root" in files, False)
            os.killpg(process.pid, signal.SIGTERM)
            wait_until(lambda held=process: held.poll() is not None and not others_of(held.pid), f"{name} doesn't end")
        sh(f"sv start /etc/service/{name}")
    sh("rm /var/only-root")
    wait_until(machine.operator.is_answered, "not all is there again")


# ---- lines of decisions

# What is no domain's name, and would end the text that it stands in
UNNAMED = b'n%d","domain":"ward'


def misnamed(machine, checks):
    """A program in a shard's place that answers for what is no domain's name has no line of a decision written."""
    audit.switch_on(machine)
    kept = lambda: [line for path in audit.DECISIONS.glob("*.log") for line in path.read_text().splitlines()]
    before, body = len(kept()), b'{"Decision":"Permit"}'
    with InPlace(1, b"HTTP/1.1 200 OK\r\nContent-Length: %d\r\n\r\n%b" % (len(body), body)), Client(PLAIN) as client:
        asks = [b"POST /domains/%b/pdp HTTP/1.1\r\nHost: h\r\nAuthorization: Bearer some-token-1\r\n"
                b"Content-Length: 2\r\n\r\n{}" % (UNNAMED % number) for number in range(12)]
        found = {status(client.ask(ask)) for ask in asks}
        checks.within("what is answered", 200 in found, [True])
    time.sleep(2)
    names = [json.loads(line)["domain"] for line in kept()[before:]]
    checks.expect("domains of the lines", [name for name in names if not re.fullmatch("[a-z0-9-]+", name)], [])
    checks.expect("lines about another domain", names.count("ward"), 0)
    wait_until(machine.operator.is_answered, "the shard isn't there again")


# ---- copies for other machines

@contextlib.contextmanager
def in_place_of(path, user, command):
    """Meanwhile something else is in place of a file, which that user put there."""
    as_user(user, f"mv {path} {path}.kept; {command.format(path)}")
    try:
        yield
    finally:
        sh(f"rm -rf {path}; mv {path}.kept {path}")


def copied(makes):
    """What a copy has, or why there is none."""
    sys.path.insert(0, str(LIBRARY))
    from operating import settings
    out = io.BytesIO()
    try:
        makes(settings.read(), out)
    except settings.Wrong as fault:
        return str(fault)
    return out.getvalue()


def carried(machine, checks):
    """What root copies for other machines, and to compare with them, follows nothing that is put into a store's folder,
    or into an archive's: nothing of root's is in a copy, and none is waited for."""
    audit.switch_on(machine)
    sys.path.insert(0, str(LIBRARY))
    from replica import copying
    secret = make_secret()
    wait_until(lambda: audit.sent("PUT", f"/operator/domains/{domain_of(3)}", machine.operator.token)[0] in (201, 409),
               "no change is taken")
    held = mock.patch.object(copying, "held", lambda *_: contextlib.nullcontext(1))
    # (what is compared is what the folder of the comparison has by then)
    compares = mock.patch.multiple(copying.rows, Meeting=mock.DEFAULT,
                                   compare=lambda _meeting, copy, folder: (copy(), out_of(folder))[1])
    writes = {"a copy": lambda now, out: copying.write(now, 3, out),
              "rows": lambda now, out: out.write(copying.compared(now, 3, None))}
    (segment,) = pathlib.Path("/var/lib/pdpd-replica/3").glob("*.log")
    with held, compares:
        for what, makes in writes.items():
            checks.within(f"{what}: its bytes", len(copied(makes)), Between(4096))
            plants = [("pdpd", f"/var/lib/pdpd/3/{name}") for name in ("pdpd.db", "pdpd.db-wal")]
            plants += [("pdpd-replica", segment)] if what == "a copy" else []
            for (user, path), (thing, command) in itertools.product(plants, PLANTED.items()):
                if path == segment and thing == "a folder":
                    continue  # (an archive has folders)
                with in_place_of(path, user, command):
                    found = copied(makes)
                checks.expect(f"{what}, {thing} in place of {path}", "look who put it there" in str(found), True)
    checks.expect("the file of root's", owner_and_mode("/var/only-root"), secret)
    sh("rm /var/only-root; sv restart /etc/service/pdpd-replica-3")
    wait_until(machine.operator.is_answered, "the shard isn't there")


def domain_of(shard):
    """A domain whose place is that shard."""
    return next(f"n{number}" for number in range(99) if shards("where", f"n{number}").strip() == str(shard))


def out_of(folder):
    """All bytes of a folder's files."""
    return b"".join(path.read_bytes() for path in sorted(folder.iterdir()))


ATTACKS = (dripped, masked)
# those that have the log of changes on
AUDITED = (namesakes, snatched, inherited, misnamed, carried)
