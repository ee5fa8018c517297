"""What reaches who looks after the deployment: lines of logs that somebody pushes out or forges, and the folders of the
user that keeps them."""
import collections
import contextlib
import hashlib
import json
import os
import pathlib
import re
import signal
import socket
import struct
import sys
import time

from checks import Between

from . import audit, http2
from .attacking import Outsider, is_there, outside, sends_sealed
from .attacks_local import THIEF, Local, asked_status, owner_and_mode, to_places
from .attacks_posing import in_place_of
from .clients import Load, decision, message, once, policy, status
from .http2 import ENDS_HEADERS, ENDS_STREAM, HEADERS, RESET, Http2, block, frame
from .machine import LIBRARY, PLAIN, SETTINGS, as_user, pid, port, sh, shards, wait_until
from .observed import LOGS, lines_in

TLS = 443
# how often each is sent
TIMES = 20
LONG = b"x" * 4000
# What an outsider sends before he goes, and to which port: a change, a decision, a reading, and what is no message.
GONE = {
    "a change": (b"PUT /domains/acme/pip?%b HTTP/1.1\r\nHost: h\r\nContent-Length: 2\r\n\r\n{}" % LONG, PLAIN),
    "a change of nothing": (b"PUT /domains/%b HTTP/1.1\r\nHost: h\r\nContent-Length: 0\r\n\r\n" % LONG, PLAIN),
    "a decision": (b"POST /domains/acme/pdp HTTP/1.1\r\nHost: h\r\nContent-Length: 2\r\n\r\n{}", PLAIN),
    "a reading": (b"GET /%b HTTP/1.1\r\nHost: h\r\n\r\n" % LONG, PLAIN),
    "a part of a change": (b"PUT /domains/acme/pip HTTP/1.1\r\nHost: h\r\nContent-Length: 9\r\n\r\n{", PLAIN),
    "no message": (b"\0\1\2\r\n\r\n", PLAIN),
    "a bad head": (b"GET / HTTP/1.1\r\nno field\r\n\r\n", PLAIN),
    "no handshake": (b"GET / HTTP/1.1\r\n\r\n", TLS),
    "half a handshake": (b"\x16\x03\x01\x02\0\1", TLS),
}
# What he sends over TLS, and by which protocol. (The line of each has `pdp~`.)
BAD_STREAM = b"".join((http2.PREFACE, frame(http2.SETTINGS, 0, 0),
                       frame(HEADERS, ENDS_HEADERS | ENDS_STREAM, 1, block(b"GET", b"no path"))))
SEALED = [("http/1.1", b"\0\1\2\r\n\r\n"), ("http/1.1", b"GET / HTTP/1.1\r\nno field\r\n\r\n"), ("h2", BAD_STREAM)]
# what HAProxy itself answers with 5xx
OTHER_VERSION = b"PUT /domains/acme/pip HTTP/1.2\r\nHost: h\r\nContent-Length: 2\r\n\r\n{}"


# what earlier versions have written into the folders of logs
EARLIER = [{
    "haproxy": ("s1000000", "t86400", "n100", "-change *", "-decision *", "-reading *", "-refused *",
                "--:- [*] <HTTPCLIENT> *"),
    "decisions": ("s10000000", "n20", "-*", "+decision *", "+reading *", "+refused *", "+-:- [*] <HTTPCLIENT> *"),
}, {
    "haproxy": ("s1000000", "t86400", "n100", "-change *", "-decision *", "-reading *", "-refused *", "-lost *",
                "-- * pdp *", "-*:* [*] pdp/*: *", "--:- [*] <HTTPCLIENT> *"),
    "refused": ("s10000000", "n20", "-*", "+refused *", "+lost *", "+- * pdp *", "+*:* [*] pdp/*: *",
                "+-:- [*] <HTTPCLIENT> *"),
}]


def how_kept(names):
    """How those folders are kept; nothing of one for which that is written at this moment."""
    found = dict.fromkeys(names, "")
    for name in names:
        with contextlib.suppress(FileNotFoundError):
            found[name] = (LOGS / name / "config").read_text()
    return found


def renews(checks):
    """Folders of logs that an earlier version has made are kept as this one has them."""
    for earlier in EARLIER:
        wanted = how_kept(earlier)
        for name, lines in earlier.items():
            (LOGS / name / "config").write_text("\n".join((*lines, "")))
        sh("sv restart /etc/service/haproxy/log")
        wait_until(lambda: how_kept(earlier) == wanted, lambda: f"they are kept so: {how_kept(earlier)}", 30)
        checks.expect("both are other than before",
                      [wanted[name].splitlines() == [*lines] for name, lines in earlier.items()], [False, False])


def goes(client):
    """Ends a connection by a reset."""
    client.socket.setsockopt(socket.SOL_SOCKET, socket.SO_LINGER, struct.pack("ii", 1, 0))
    client.close()


def floods():
    """Sends each as often as is said, and goes before there is a reply."""
    for data, to in GONE.values():
        for _ in range(TIMES):
            with contextlib.suppress(OSError):
                client = Outsider(0, to)
                client.send(data)
                goes(client)
    for protocol, data in SEALED * TIMES:
        sends_sealed(0, TLS, protocol, data)
    for _ in range(TIMES):
        with Outsider(0) as client:
            client.ask(OTHER_VERSION)


def outsiders_lines(folder):
    """How many lines of a folder are about the outsider."""
    return sum(f"{outside(0)}:" in line for line in lines_in(folder))


def pushed(machine, checks):
    """An outsider who sends and goes has no line in the logs of changes, of decisions, and of what failed, so he pushes
    none out. Without LOG_DECISIONS he has none at all; a change of a token that is known has one."""
    machine.operator.clear()
    ask, folders = machine.operator.makes("acme"), ("changes", "haproxy", "decisions")
    checks.expect("a tenant", decision(once(ask)), "Permit")
    renews(checks)
    before = [outsiders_lines(name) for name in (*folders, "refused")]
    floods()
    wait_until(lambda: outsiders_lines("refused") - before[3] > TIMES * len(GONE) // 2, "what was sent isn't logged")
    checks.expect("a tenant beside it", decision(once(ask)), "Permit")
    once(machine.operator.creates("behind"))
    wait_until(lambda: any("/behind" in line for line in lines_in("changes")), "a change isn't logged")
    found = [outsiders_lines(name) - count for name, count in zip(folders, before)]
    checks.expect(f"lines of the outsider in {folders}", found, [0, 0, 0])
    config = (LOGS / "refused" / "config").read_text()
    checks.expect("what was refused has a limit", re.findall(r"(?m)^[sn]\d+$", config), ["s10000000", "n20"])
    machine.set(LOG_DECISIONS=0)
    checks.expect("a tenant", decision(once(ask)), "Permit")
    before = [outsiders_lines(name) for name in (*folders, "refused")]
    floods()
    left_by_tenant(checks)
    found = [outsiders_lines(name) for name in (*folders, "refused")]
    checks.expect("his lines without LOG_DECISIONS", found, before)
    machine.set(LOG_DECISIONS="")


def left_by_tenant(checks):
    """A tenant whose token is known makes a change and goes: it is logged as lost."""
    # (HAProxy 3.0 says 400)
    lost = r'lost .* PUT "/domains/acme/pip" (-1|400) '
    end = sum(bool(re.match(lost, line)) for line in lines_in("refused"))
    # (the program itself: the supervisor would stop what holds its input)
    program = pid(int(shards("where", "acme")))
    os.kill(program, signal.SIGSTOP)
    client = Outsider(1)
    client.send(message("PUT", "/domains/acme/pip", "acme-token-1", '{"Row":[]}'))
    checks.expect("its change waits", client.is_silent(1), True)
    goes(client)
    os.kill(program, signal.SIGCONT)
    wait_until(lambda: sum(bool(re.match(lost, line)) for line in lines_in("refused")) > end, "it isn't logged")


# the code of a stream that is ended by its client (RFC 9113, section 7), and how many there are at a time
CANCEL, STREAMS = 8, 9


def ends_streams(_number):
    """Sends changes over HTTP/2 and ends each at once, as many as a connection's numbers of streams are for."""
    fields, cancel = block(b"PUT", b"/domains/acme/pip"), struct.pack(">I", CANCEL)
    with contextlib.suppress(OSError), Http2(PLAIN, source=outside(0)) as client:
        for first in range(1, 20_000, 2 * STREAMS):
            client.socket.sendall(b"".join(
                frame(HEADERS, ENDS_HEADERS | ENDS_STREAM, stream, fields) + frame(RESET, 0, stream, cancel)
                for stream in range(first, first + 2 * STREAMS, 2)))


def drowned(machine, checks):
    """Of somebody who ends what he sends as fast as he can no more is logged than an address may send; a tenant's
    changes beside it are in the log."""
    machine.operator.clear()
    machine.operator.makes("acme")
    before, began = outsiders_lines("refused"), time.time()
    with Load(ends_streams, 3):
        time.sleep(2)
        for number in range(30):
            checks.expect("a change beside it", status(once(machine.operator.creates(f"kept{number}"))), 201)
        time.sleep(1)
    lasted = time.time() - began
    wait_until(lambda: any("/kept29" in line for line in lines_in("changes")), "no change is logged")
    changes = "\n".join(lines_in("changes"))
    missing = [number for number in range(30) if f'/kept{number}"' not in changes]
    checks.expect("changes that aren't logged", missing, [])
    found = outsiders_lines("refused") - before
    checks.say(f"in {lasted:.1f} s {found} lines of his")
    # (ten times REFUSALS in ten seconds, and what was sent within the ten before)
    checks.within("his lines", found, Between(100, 1000 * (2 + lasted / 10)))


# ---- the user that keeps the logs

ARCHIVES = pathlib.Path("/var/lib/pdpd-replica")


def archives(machine, checks):
    """The user pdpd-replica puts nothing in the place of a shard's archive. Where an earlier version left it the folder
    of all, the next start of its daemon takes that back, and gives away nothing that a link leads to."""
    audit.switch_on(machine)
    wait_until(lambda: (ARCHIVES / "3").is_dir(), "there is no archive")
    secret, link = pathlib.Path("/var/only-root"), ARCHIVES / "3"
    sh(f"umask 077; rm -rf {secret}; mkdir {secret}; echo secret > {secret}/file")
    tries = f"mv {link} {ARCHIVES}/moved", f"ln -s {secret} {ARCHIVES}/64", f"touch {ARCHIVES}/more"
    said = as_user("pdpd-replica", "; ".join(f"{command} 2>&1 || true" for command in tries))
    checks.expect(f"what it puts there: {said}", said.count("Permission denied"), 3)
    sh(f"chown pdpd-replica {ARCHIVES}; sv down /etc/service/pdpd-replica-3; sleep 1")
    as_user("pdpd-replica", f"cd {ARCHIVES}; mv 3 moved; ln -s {secret} 3")
    sh("sv up /etc/service/pdpd-replica-3")
    refusal = f"{link} is a link: look who put it there"
    wait_until(lambda: any(refusal in line for line in lines_in("pdpd-replica-3")), "the link isn't told")
    found = owner_and_mode(ARCHIVES), owner_and_mode(secret), sh(f"ls {secret}")
    wanted = "root pdpd-replica 751 directory", "root root 700 directory", "file\n"
    checks.expect("whose the folders are", found, wanted)
    sys.path.insert(0, str(LIBRARY))
    from operating import closing, settings
    try:
        said = closing.close_archives_folder(settings.read())
    except settings.Wrong as fault:
        said = str(fault)
    checks.expect("what the tools say", refusal in str(said), True)
    sh(f"rm {link}; mv {ARCHIVES}/moved {link}; rm -r {secret}")
    wait_until(lambda: all(audit.sent("PUT", f"/operator/domains/a{number}", machine.operator.token)[0] in (201, 409)
                           for number in range(8)), "no change is taken")


def handed(machine, checks):
    """Where ports are everybody's, a program that takes a shard's is shown no token by the daemon that logs changes,
    and answers none; nor is another user's where the shard takes changes, which root alone could put there."""
    audit.switch_on(machine)
    name = next(f"h{number}" for number in range(99) if shards("where", f"h{number}").strip() == "1")
    to_places(7100)
    wait_until(lambda: audit.sent("PUT", f"/operator/domains/{name}", machine.operator.token)[0] in (201, 409),
               "no change is taken")
    sh("sv down /etc/service/pdpd-1")
    wait_until(lambda: not pid(1), "a shard isn't ended")
    changes = "/run/pdpd-shards/1/changes"
    for user, place in (("nobody", port(1)), ("root", changes)):
        with Local(user, THIEF, place) as thief:
            wait_until(lambda: "taken" in thief.said(), "the thief doesn't get the place")  # noqa: B023
            found = [audit.sent("PUT", f"/operator/domains/{name}", machine.operator.token)[0],
                     audit.sent("PUT", f"/domains/{name}/pip", "some-token-1", '{"Row":[]}')[0]]
            checks.expect(f"{place}: changes meanwhile", found, [503, 503])
            shown = re.findall(r"(?i)Bearer (?!-\\r)\S+", thief.said())
            checks.expect(f"{place}: tokens that it is shown", shown, [])
    told = [line for line in lines_in("pdpd-replica-1") if f"a program of user 0 has unix:{changes}" in line]
    checks.expect("what the daemon tells", len(told) > 0, True)
    to_places("")
    wait_until(lambda: audit.sent("PUT", f"/operator/domains/{name}", machine.operator.token)[0] in (201, 409),
               "no change is taken again")


# changes by that many connections of each of so many addresses
EACH, ADDRESSES = 15, 12


def times_of_changes():
    """For how many seconds HAProxy had each change of the tenant's, by its log. (The test's own threads wait for each
    other on a busy machine.)"""
    found = [re.match(r'change 127\.0\.0\.1:\d+ \S+ \S+ PUT "/domains/ward/pip" \d+ \S+/(\d+) ', line)
             for line in lines_in("changes")]
    return [int(match[1]) / 1000 for match in found if match]


def awaited(machine, checks):
    """Changes with a wrong token, by many connections of several addresses: the daemon has each of them looked at, and
    a tenant's own are made meanwhile; his requests for decisions don't go there."""
    audit.switch_on(machine)
    wait_until(lambda: audit.make_ward(machine.operator.token) == [201, 200, 200, 201, 200, 200, 200],
               "no change is taken")
    rows, found = (audit.WARD / "rows.json").read_text(), collections.Counter()
    wrong = message("PUT", "/domains/ward/pip", "wrong-token-1", '{"Row":[]}')

    def sends(number):
        with contextlib.suppress(OSError), Outsider(number % ADDRESSES) as client:
            found[status(client.ask(wrong))] += 1
    kinds = {"a change": lambda: audit.sent("PUT", "/domains/ward/pip", audit.TOKENS["admin"], rows)[0],
             "a decision": lambda: audit.ask_ward(audit.TOKENS["ask"])}
    took, answers = {what: [] for what in kinds}, {what: [] for what in kinds}
    with Load(sends, EACH * ADDRESSES):
        wait_until(lambda: sum(found.values()) > EACH * ADDRESSES, "none is answered")
        for _ in range(8):
            for what, makes in kinds.items():
                began = time.time()
                answers[what].append(makes())
                took[what].append(time.time() - began)
    checks.say(f"{EACH * ADDRESSES} connections of {ADDRESSES} addresses with changes and a wrong token: {dict(found)}")
    for what, times in took.items():
        checks.say(f"{what} of the tenant's: half within {sorted(times)[len(times) // 2]:.2f} s, the longest "
                   f"{max(times):.2f} s")
    checks.expect("his decisions", set(answers["a decision"]), {200})
    # (one that has no turn within ten seconds isn't made)
    checks.within("his changes", set(answers["a change"]), [{200}, {200, 503}])
    # (the one behind which the load began is logged as well)
    wait_until(lambda: len(times_of_changes()) > len(took["a change"]), "not all of them are logged")
    checks.say(f"by HAProxy's log the longest change took {max(times_of_changes()):.2f} s")
    checks.within("the seconds of his longest change, by HAProxy's log", max(times_of_changes()), Between(0, 15))
    checks.within("the seconds of his longest decision", max(took["a decision"]), Between(0, 3))


# ---- who reads the log of changes

# It would clear a terminal's screen, set its title, begin a line of another change, and turn and hide letters.
HOSTILE = "\x1b[2J\x1b]0;owned\x07\n9  2026-01-01T00:00:00.000Z  operator  removes the domain  200\u202e\u200b\x9b"


def forged(machine, checks):
    """What a tenant writes, taken or refused, begins no line of `pdpd-log`, and steers no terminal of who reads it."""
    audit.switch_on(machine)
    operator, token = machine.operator.token, audit.TOKENS["admin"]
    wait_until(lambda: audit.make_ward(operator) == [201, 200, 200, 201, 200, 200, 200], "no change is taken")
    found = [audit.sent("PUT", "/domains/ward/pap/root", token, HOSTILE)[0]]
    text = policy("Permit").replace('"urn:p"', json.dumps(f"urn:{HOSTILE}"))
    found.append(audit.sent("POST", "/domains/ward/pap/policies", token, text)[0])
    found.append(audit.sent("DELETE", "/domains/ward/pap/policy/urn%1b%5b2J%0a9%20%20operator/1.0", token)[0])
    checks.expect("a root that is none, a policy of such a name, and one that isn't there", found, [400, 201, 404])
    for words in ("changes --domain ward", "diff --domain ward --from 2026-01-01T00:00:00Z --to 2036-01-01T00:00:00Z"):
        said = sh(f"pdpd-log {words}")
        bad = sorted({letter for letter in said if not letter.isprintable() and letter != "\n"})
        checks.expect(f"{words}: letters that steer", bad, [])
        checks.expect(f"{words}: what is told of it", "\\x1b[2J" in said, True)
    lines = sh("pdpd-log changes --domain ward").splitlines()
    count = len(sh("pdpd-log changes --domain ward --json").splitlines())
    line = re.compile(r"\d+  \S+Z  (operator|admin \w{8})  \S")
    checks.expect("lines", (len(lines), [one for one in lines if not line.match(one)]), (count, []))


def piped(machine, checks):
    """`pdpd-log`, which root runs, waits for no pipe that the user of the archives puts in the place of what it
    reads."""
    audit.switch_on(machine)
    wait_until(lambda: audit.make_ward(machine.operator.token) == [201, 200, 200, 201, 200, 200, 200],
               "no change is taken")
    home = ARCHIVES / shards("where", "ward").strip()
    of_domain = home / "domains" / hashlib.sha256(b"ward").hexdigest()[:32]
    reads = "timeout 120 pdpd-log changes --domain ward 2>&1 || echo ends with $?"
    before, key, segment = sh(reads), max(of_domain.glob("*.key")), max(home.glob("*.log"))
    checks.within("lines", before.count("\n"), Between(7))
    for path, wanted in ((of_domain / "places", None), (key, "ends with 2"), (segment, "ends with 2")):
        with in_place_of(path, "pdpd-replica", "mkfifo {}"):
            said = sh(reads)
        found = said == before if wanted is None else said.strip().endswith(wanted)
        checks.expect(f"a pipe in place of {path}: {said}", found, True)
    pipe = audit.DECISIONS / "decisions.20000101T000000.000000Z.log"
    as_user("pdpd-replica", f"mkfifo {pipe}")
    said = sh(f"timeout 120 pdpd-log verify {audit.DECISIONS} 2>&1 || echo ends with $?; rm {pipe}")
    checks.expect(f"a pipe among the lines of decisions: {said}", " 0 other" in said, True)


# ---- HAProxy's own ports

# It waits until it may take connections at a port, and keeps it.
KEEPER = """
import socket, sys, time
while True:
    taken = socket.socket()
    taken.setsockopt(socket.SOL_SOCKET, socket.SO_REUSEADDR, 1)
    try:
        taken.bind(("127.0.0.1", int(sys.argv[1])))
        break
    except OSError as fault:
        taken.close()
        print(fault.errno, flush=True)
        time.sleep(0.001)
taken.listen(9)
print("taken", flush=True)
time.sleep(1000)
"""


def squatters(machine, checks):
    """With METRICS as the page has it no user gets the port while HAProxy restarts. `status` tells of one that is
    everybody's, by which anybody could keep HAProxy away."""
    sh(next(command for command in audit.commands("Metrics") if command.startswith("sed ")))
    machine.set()
    shards("services")
    address = re.search(r"(?m)^METRICS=127\.0\.0\.1:(\d+)$", SETTINGS.read_text())
    with Local("nobody", KEEPER, address[1]) as keeper:
        for _ in range(3):
            sh("sv restart haproxy")
            wait_until(is_there, "HAProxy stays away", 30)
        checks.within("what the user gets", "taken" in keeper.said(), [False])
    checks.expect("ports of everybody", "every user of this machine" in asked_status(), False)
    for name, bind in (("METRICS", "127.0.0.1:8405"), ("PLAIN_BIND", "[::1]:8080")):
        before = re.search(rf"(?m)^{name}=(.*)$", SETTINGS.read_text())[1].strip('"')
        machine.set(**{name: bind})
        said = shards("status", status=1)
        told = f"WRONG: every user of this machine can take the port of {name} ({bind}) while HAProxy restarts"
        checks.expect(f"{name}={bind}: {said}", told in said, True)
        machine.set(**{name: before})


ATTACKS = (pushed, drowned)
# those that have the log of changes on
AUDITED = (archives, forged, piped, handed, awaited, squatters)
