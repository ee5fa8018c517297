"""What is asked of HAProxy while it runs, by its admin socket; and of a shard, through the frontend `inner`, or, where
a token is shown, on a connection to its own program."""
import contextlib
import http.client
import os
import re
import socket
import subprocess
import time
import zlib

from . import applied, grouped, listener, supervisor
from .owned import owner_of
from .settings import DOMAIN, FILE, Wrong, domains_in, text_of, words_of, write_whole

# how long a message may wait for its turn, and then for its reply (`timeout queue`, `timeout server`)
QUEUE, SERVER = 10, 12
LONGEST = QUEUE + SERVER
# after how long a process of HAProxy has gone once another has begun (`hard-stop-after`)
HARD_STOP = 15
# how many bytes of a reply are read: HAProxy's user may write without an end
MOST = 2 ** 26
# what is raised if there is no reply, or a part of one alone
NO_REPLY = OSError, http.client.HTTPException


class OtherToken(Wrong):
    """A shard answers, and knows another operator's token than the file has."""


class NoProxy(Wrong, ConnectionError):
    """HAProxy isn't there, or says nothing."""


class SilentProxy(NoProxy):
    """HAProxy takes a question, and doesn't answer in time."""


def no_proxy(settings, socket_name, fault):
    """What is told then."""
    kind = SilentProxy if isinstance(fault, (TimeoutError, BlockingIOError)) else NoProxy
    return kind(f"HAProxy doesn't answer at {settings.haproxy_run}/{socket_name} ({words_of(fault)}): it doesn't "
                   "run, and pdpd-shards services starts it, as one that lost its sockets to another one; or its log "
                   "says why")


def admin_reply(settings, command, seconds=10.0):
    """What HAProxy says to a command."""
    reply, path = bytearray(), f"{settings.haproxy_run}/admin.sock"
    try:
        with socket.socket(socket.AF_UNIX) as admin:
            admin.settimeout(seconds)
            admin.connect(path)
            admin.sendall(command.encode() + b"\n")
            while data := admin.recv(65_536):
                reply += data
                if len(reply) > MOST:
                    raise Wrong(f"HAProxy answers more than {MOST} bytes to {command}: look who has its user")
    except PermissionError as fault:
        raise PermissionError(fault.errno, fault.strerror, path) from None
    except OSError as fault:
        raise no_proxy(settings, "admin.sock", fault) from None
    return reply.decode(errors="replace")


class Inner(http.client.HTTPConnection):
    """A connection to the inner frontend."""

    def __init__(self, settings, timeout):
        super().__init__("pdpd", timeout=timeout)
        self.path = f"{settings.haproxy_run}/inner.sock"

    def connect(self):
        self.sock = socket.socket(socket.AF_UNIX)
        self.sock.settimeout(self.timeout)
        self.sock.connect(self.path)


def reply_over(connection, method, path, body, fields):
    """The status and the body of a reply, all of which has the time that a connection has for each of its bytes."""
    with contextlib.closing(connection):
        connection.connect()
        with listener.ended_after(connection.timeout, connection.sock):
            connection.request(method, path, body, fields)
            reply = connection.getresponse()
            found = reply.read(MOST)
    if reply.length:
        raise http.client.IncompleteRead(found, reply.length)
    return reply.status, found


def shard_reply(settings, shard, method, path, token, *, in_turn=False, timeout=30.0, body=None):
    """The status and the body of a shard's reply; in turn behind all that waits, else before it."""
    fields = {"X-Shard": str(shard), "Authorization": f"Bearer {token}", "Content-Type": "application/json"}
    if in_turn:
        fields["X-Turn"] = "1"
    return reply_over(Inner(settings, timeout), method, path, body, fields)


class Own(http.client.HTTPConnection):
    """A connection to a shard's own program, and to nobody else."""

    def __init__(self, settings, shard, timeout):
        super().__init__("pdpd", timeout=timeout)
        self.settings, self.shard = settings, shard

    def connect(self):
        self.sock = listener.connect(self.settings, self.shard, self.timeout)


def own_reply(settings, shard, method, path, token, timeout=30.0):
    """The status and the body of a shard's reply on such a connection."""
    return reply_over(Own(settings, shard, timeout), method, path, None, {"Authorization": f"Bearer {token}"})


def is_up(settings, shard, timeout=5.0):
    """Whether the shard answers through HAProxy, by its own program."""
    try:
        # without a token: 401
        status, _ = shard_reply(settings, shard, "GET", "/operator/domains", "-", timeout=timeout)
        return status == 401 and listener.is_own(settings, shard)
    except NO_REPLY:
        return False


def refuse_another(settings, shard):
    """An error where another program takes a shard's connections. HAProxy sends another user's nothing from here on:
    it would answer in the shard's place."""
    try:
        listener.refuse_another(settings, shard)
    except listener.Impostor as fault:
        if fault.found.uid == owner_of(settings.folder(shard)).uid:
            raise
        with contextlib.suppress(OSError):  # (a HAProxy that isn't there sends nothing)
            admin_reply(settings, f"set server shard{shard}/pdpd state maint")
        why = f"{fault}. Messages to the shard are answered with 503 until pdpd-shards restart {shard} succeeds"
        raise listener.Impostor(why, fault.found) from None


def wait_until_up(settings, shard, seconds=30.0):
    """Waits until the shard answers, by its own program, which reads its whole file before."""
    end = time.monotonic() + seconds
    while not is_up(settings, shard):
        refuse_another(settings, shard)
        listener.refuse_unlinked(settings, shard)
        if time.monotonic() > end:
            by = supervisor.of(settings)
            raise Wrong(f"shard {shard} doesn't answer after {seconds:.0f} s: its log says why, or it still starts, "
                        f"as pdpd-shards status tells ({by.log_of(by.SHARD.format(shard))})")
        time.sleep(0.05)


def domains_of(settings, shard):
    """The names of the domains that a shard has. Its own program alone is shown the operator's token."""
    token = settings.operator()
    listener.wait_for_own(settings, shard)
    try:
        status, body = own_reply(settings, shard, "GET", "/operator/domains", token)
    except PermissionError:
        raise
    except NO_REPLY as fault:
        raise Wrong(f"shard {shard} gives no reply ({words_of(fault)}): its log says why") from None
    if status == 401:
        raise OtherToken(f"shard {shard} was started with another operator's token: pdpd-shards restart {shard}")
    if status != 200:
        raise Wrong(f"shard {shard} answers {status} to the operator's list of domains")
    return domains_in(body, f"shard {shard}'s program")


# ---- the map

def entry_of_line(settings, number, line):
    """The name and the place in a line of the map's file."""
    words = line.split()
    if len(words) != 2 or not (DOMAIN.fullmatch(words[0]) or words[0] == "NEW") or \
            not (words[1] == "moving" or re.fullmatch(r"[0-9]{1,4}", words[1])):
        raise Wrong(f"{settings.map}, line {number}: {line[:80]!r} isn't DOMAIN SHARD, as `acme 2`: mend it, or have "
                    "the map made anew by pdpd-shards remap")
    return words


def map_in_file(settings):
    """What the map's file says: the shard of each domain in it. Of two lines HAProxy goes by the first."""
    refuse_lost_map(settings)
    known = {}
    try:
        lines = text_of(settings.map).split("\n") if settings.map.exists() else []
    except Wrong as fault:
        raise Wrong(f"{fault}, or have it made anew by pdpd-shards remap") from None
    for number, line in enumerate(lines, 1):
        if line.strip() and not line.lstrip().startswith("#"):
            known.setdefault(*entry_of_line(settings, number, line))
    return known


def refuse_lost_map(settings):
    """An error where the map was lost: without it domains that were moved would be looked for in other shards. (Before
    there is a configuration there is no map.)"""
    if not settings.map.exists() and shards_in_configuration(settings) is not None:
        raise Wrong(f"{settings.map} isn't there: pdpd-shards remap makes it anew, of where the domains are. While "
                    f"HAProxy doesn't run: echo NEW moving > {settings.map}; pdpd-shards services; pdpd-shards remap")


def map_while_it_runs(settings):
    """What the HAProxy that runs has in its map."""
    known = {}
    # (what HAProxy has read of a damaged file may have any letter but this one)
    for line in admin_reply(settings, f"show map {settings.map}").split("\n"):
        entry, name, *values = *line.split(), "", ""
        if entry and not entry.startswith("0x"):
            raise Wrong(f"HAProxy doesn't go by {settings.map} ({line.strip()}): pdpd-shards config --write, reload")
        if entry:
            known.setdefault(name, " ".join(values).strip())
    return known


def running(known):
    """The places of domains in such a map, without what a tool has held back."""
    return {name: value for name, value in known.items() if name == "NEW" or DOMAIN.fullmatch(name)}


def place(settings, known, domain):
    """The shard to which a domain's messages are led, where the map says that; `moving` for one that moves, and
    GROUP.SHARD for one of another group."""
    if settings.groups and (found := grouped.place(settings, domain)) is not None:
        return found
    value = known.get(domain)
    if value is None:
        return zlib.crc32(domain.encode()) % settings.shards
    return int(value) if value.isdecimal() else value


def set_in_map(settings, changes):
    """Says where domains are, in the file first, for the next start of HAProxy; None takes a name out."""
    entries = {**map_in_file(settings), **changes}
    lines = "".join(f"{name} {value}\n" for name, value in sorted(entries.items()) if value is not None)
    write_whole(settings.map, lines)
    set_while_it_runs(settings, changes)


def set_while_it_runs(settings, changes):
    """Says where domains are to the HAProxy that runs alone."""
    names = map_while_it_runs(settings)
    for name, value in changes.items():
        if value is None and name not in names:
            continue
        # in one step: between a `del` and an `add` the domain would be where its name leads
        word = "del" if value is None else "set" if name in names else "add"
        fault = admin_reply(settings, f"{word} map {settings.map} {name} {'' if value is None else value}").strip()
        if fault:
            raise Wrong(f"HAProxy: {fault}")


def asked_port(settings, shard):
    """The port at which the HAProxy that runs asks a shard; 0 where it does so at a socket."""
    rows = [line.split() for line in admin_reply(settings, f"show servers state shard{shard}").splitlines()]
    heads = next((row[1:] for row in rows if row[:1] == ["#"]), [])
    return next((int(row[heads.index("srv_port")]) for row in rows if row[1:2] == [f"shard{shard}"]), None)


def asks_elsewhere(settings):
    """Whether the HAProxy that runs asks the shards at ports and the settings have sockets, or the other way, or has
    their sockets in another folder: it can't be told so while it runs."""
    asked = asked_port(settings, 0)
    if asked == 0 and settings.first_port is None:
        return f"PDPD_SOCKETS={settings.sockets}" not in admin_reply(settings, "show env PDPD_SOCKETS").splitlines()
    return asked is not None and bool(asked) != (settings.first_port is not None)


def lead(settings, shard):
    """Has the HAProxy that runs ask a shard, which was just started, and at the port of the settings."""
    if settings.first_port is not None and asked_port(settings, shard):
        said = admin_reply(settings, f"set server shard{shard}/pdpd addr 127.0.0.1 port {settings.port(shard)}").strip()
        # (HAProxy 3.0 says `nothing changed`)
        if not re.search("port changed|no need to change the port|nothing changed", said):
            raise Wrong(f"HAProxy: {said}")
    admin_reply(settings, f"set server shard{shard}/pdpd state ready")


# ---- its files and its processes

def check(path):
    """That HAProxy takes the configuration."""
    # (with -q it wouldn't say why; and cron's PATH hasn't the folder where HAProxy is)
    words = ["haproxy", "-c", "-f", str(path)]
    surroundings = {**os.environ, "PATH": f"{os.environ.get('PATH', os.defpath)}:/usr/sbin:/sbin"}
    # (it asks the terminal for the words of a key that has some, and takes no folder that was removed)
    how = {"stdin": subprocess.DEVNULL, "start_new_session": True, "cwd": "/"}
    try:
        result = subprocess.run(words, capture_output=True, text=True, check=False, env=surroundings, **how)
    except OSError as fault:
        raise Wrong(f"HAProxy's program can't be run ({words_of(fault)}), and HAProxy couldn't start again: install "
                    "its package") from None
    if result.returncode != 0:
        reasons = [line for line in result.stderr.splitlines() if line.startswith("[ALERT]")]
        raise Wrong("\n".join([f"HAProxy doesn't take {path}:", *(reasons or [result.stderr.strip()])]))


def other_count(settings):
    """What is wrong where SHARDS isn't what HAProxy's file has: a domain that the map hasn't is led by that number,
    and would be looked for in another shard. Nothing where it is the same."""
    count = shards_in_configuration(settings)
    if count in (None, settings.shards):
        return None
    heals = f"write SHARDS={count} again into {FILE}"
    if settings.shards > count:
        heals += f"; pdpd-shards grow {settings.shards} makes more"
    else:
        heals += f", or give pdpd-shards grow {count}, which looks where each domain is"
    return f"SHARDS is {settings.shards}, and HAProxy's file has {count}: {heals}"


def refuse_other_count(settings):
    """An error there."""
    if found := other_count(settings):
        raise Wrong(found)


def shards_in_configuration(settings):
    """How many shards HAProxy's file has; None where there is none of ours."""
    path = settings.map.with_name("haproxy.cfg")
    line = re.search(r"setenv PDPD_SHARDS (\d+)", text_of(path)) if path.exists() else None
    return int(line[1]) if line else None


def is_there(settings, seconds=10.0):
    """Whether HAProxy answers within that time."""
    end = time.monotonic() + seconds
    while time.monotonic() < end:
        with contextlib.suppress(NoProxy):
            return info(settings, "Pid") > 0
        time.sleep(0.1)
    return False


def why_away(settings):
    """Why HAProxy doesn't run, as the last alert of its log says; nothing where there is none."""
    by = supervisor.of(settings)
    lines = [line for line in by.last_lines("haproxy") if "[ALERT]" in line and "exiting" not in line.lower()]
    return re.sub(r"^.*?\[ALERT\] +\(\d+\) : ", "", lines[-1])[:300] if lines else ""


def info(settings, name):
    """A number that HAProxy tells of itself."""
    for line in admin_reply(settings, "show info").splitlines():
        if line.startswith(f"{name}: "):
            return int(line.split()[1])
    raise Wrong(f"HAProxy doesn't tell its {name}")


def resume(settings):
    """Has HAProxy take connections wherever its file says. Where it takes a place that the process before had in part,
    it has that one stop taking any, and 2.6 doesn't go on itself at those that both have."""
    for name in re.findall(r"(?m)^([\w-]+),FRONTEND,", admin_reply(settings, "show stat -1 1 -1")):
        admin_reply(settings, f"enable frontend {name}")


def settle(settings):
    """Waits until a process before this one has gone: it has a map and a queue of its own."""
    time.sleep(max(0, HARD_STOP + 1 - info(settings, "Uptime_sec")))


def reload(settings, by):
    """Has the supervisor have HAProxy read its files, and waits until the process before has gone."""
    old = info(settings, "Pid")
    by.reload_proxy()
    end = time.monotonic() + 2 * LONGEST
    while time.monotonic() < end:
        time.sleep(0.1)
        with contextlib.suppress(OSError):
            if info(settings, "Pid") != old and not os.path.exists(f"/proc/{old}"):
                break
    else:
        raise Wrong(f"HAProxy isn't reloaded after {2 * LONGEST} s; its log says why")
    resume(settings)
    applied.apply(settings, applied.PROXY)
    # the new process asks all shards, also one that the process before was kept from
    for shard in range(settings.shards):
        refuse_another(settings, shard)
