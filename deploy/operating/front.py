"""What HAProxy runs and shows, against its files: its map, its configuration, its certificate, and a question as
clients ask it."""
from __future__ import annotations

import contextlib
import csv
import http.client
import io
import os
import pathlib
import re
import socket
import ssl
import subprocess
import time
from collections.abc import Iterator
from typing import NamedTuple

from . import applied, chains, supervisor, talk
from .chains import CERTIFICATE
from .findings import Findings
from .processes import children_of, is_stopped
from .proxy import OWN_HEAD, configuration
from .settings import FILE, LIBRARY, Wrong, text_of, words_of
from .services import was_removed

# how long a certificate has to be valid from now on, in days
DAYS = 7
# after how long two things are compared again that a tool may be changing, in seconds
AGAIN = 0.5
# how long a question may take: the time in a queue, for a reply, and a second
PATIENCE = talk.LONGEST + 1.0
# and one of a tool's own, which goes before all others in its queue
SOON = 5.0
# of so many names is told
MOST = 5
# the question of a domain that isn't there, without a token, and what any shard answers
PATH, ANSWER = "/domains/status/pdp", 401
# how HAProxy calls a server that it was told to leave
LEFT = "MAINT", "DRAIN"
# how OpenSSL calls a certificate whose time is over, or hasn't come (X509_V_ERR)
EXPIRED, NOT_YET = 10, 9


# ---- its map and its configuration

def differing_names(settings) -> list[str]:
    """The domains that HAProxy leads otherwise than the map's file says."""
    found, wanted = talk.running(talk.map_while_it_runs(settings)), talk.map_in_file(settings)
    return sorted(name for name in {*found, *wanted} if found.get(name) != wanted.get(name))


def look_at_map(settings, findings: Findings) -> None:
    """Whether HAProxy goes by the map's file, and whether that names shards that are there."""
    names = differing_names(settings)
    if names:
        time.sleep(AGAIN)
        names = [name for name in differing_names(settings) if name in names]
    if names:
        findings.add(f"HAProxy leads {len(names)} domains otherwise than {settings.map} says ({first_of(names)}): if "
                     "no tool is at work, pdpd-shards remap makes both anew, of where the domains are")
    if found := led_beyond(settings):
        findings.add(found)


def led_beyond(settings) -> str:
    """What is told where the map's file leads to shards that there aren't; empty where it doesn't."""
    beyond = [name for name, place in talk.map_in_file(settings).items() if place.isdecimal()
              and int(place) >= max(settings.shards, talk.shards_in_configuration(settings) or 0)]
    return (f"{settings.map} leads to shards that there aren't: {first_of(sorted(beyond))}: pdpd-shards remap"
            if beyond else "")


def first_of(names: list[str]) -> str:
    """The first ones of many names."""
    return ", ".join(names[:MOST]) + (" .." if len(names) > MOST else "")


def digest_in(text: str) -> str | None:
    """The digest that a configuration has of itself."""
    line = re.search(r"PDPD_DIGEST[ =](\w+)", text)
    return line[1] if line else None


def look_at_configuration(settings, findings: Findings) -> None:
    """Whether HAProxy runs its file, and whether that is what the settings say."""
    path = settings.map.with_name("haproxy.cfg")
    if not path.exists():
        findings.add(f"{path} isn't there: pdpd-shards config --write")
        return
    text = text_of(path)
    if text != configuration(settings) and not talk.other_count(settings):  # (else no tool writes it)
        findings.add(f"{path} isn't what the settings and the installed version make: pdpd-shards config --write, then "
                     "pdpd-shards reload; behind a new archive pdpd-shards upgrade")
    if digest_in(talk.admin_reply(settings, "show env PDPD_DIGEST")) != digest_in(text):
        findings.add(f"HAProxy runs another configuration than {path} has: pdpd-shards reload")
    rules = path.with_name("domains.lua")
    if not rules.exists() or rules.read_bytes() != (LIBRARY / "domains.lua").read_bytes():
        findings.add(f"{rules} isn't what is installed: pdpd-shards config --write, then pdpd-shards reload")
    if os.geteuid() == 0:  # (others can't read the certificate's key)
        look_whether_it_starts(path, findings)


def rows_of(settings, which: str) -> Iterator[dict[str, str]]:
    """What HAProxy tells of some of its parts (`show stat`)."""
    return csv.DictReader(io.StringIO(talk.admin_reply(settings, f"show stat {which}").lstrip("# ")))


def look_at_limits(settings, findings: Findings) -> None:
    """Whether HAProxy was told by hand to take fewer connections than its file says, or was replaced under its
    process."""
    row = next(rows_of(settings, "pdp 1 -1"), {})
    rates = [talk.info(settings, f"{kind}RateLimit") for kind in ("Conn", "Sess", "Ssl")]
    found = int(row.get("slim") or 0), int(row.get("rate_lim") or 0), *rates
    if found != (settings.clients, 0, 0, 0, 0):
        findings.add(f"HAProxy takes {found[0]} connections of clients, and CLIENTS is {settings.clients}, or fewer a "
                     "second than come: it was told so by hand, and pdpd-shards reload has it go by its file")
    if was_removed(f"/proc/{talk.info(settings, 'Pid')}/exe"):
        findings.add("HAProxy's program was replaced since it began, as by an upgrade of its package: pdpd-shards "
                     "reload has the new one run")


def servers_in(text: str) -> dict[tuple[str, str], str]:
    """The servers of a configuration but for the operator's own, by their part and name: how many messages each gets at
    a time, and nothing where that has no limit."""
    found, part = {}, ""
    for line in text.partition(OWN_HEAD)[0].splitlines():
        words = line.split()
        if words and not line[0].isspace():
            part = words[1] if words[0] == "backend" else ""
        elif words[:1] == ["server"] and part:
            found[part, words[1]] = words[words.index("maxconn") + 1] if "maxconn" in words else ""
    return found


def look_at_servers(settings, findings: Findings) -> None:
    """Whether HAProxy was told by hand to leave what it asks, or to ask it less at a time. (It sets the limits of
    shards anew all the time; and whether it asks them is looked at with each.)"""
    wanted = servers_in(text_of(settings.map.with_name("haproxy.cfg")))
    for row in rows_of(settings, "-1 4 -1"):
        name = row["pxname"], row["svname"]
        if name not in wanted or name[1] == "pdpd":
            continue
        if row["slim"] != wanted[name] or row["weight"] == "0" or row["status"].startswith(LEFT):
            findings.add(f"HAProxy asks {'/'.join(name)} less than its file says: it was told so by hand, and "
                         "pdpd-shards reload has it go by its file")


def look_at_log(settings, findings: Findings) -> None:
    """Whether anybody takes HAProxy's lines where LOG names a socket."""
    place = settings.log.split()[0].removeprefix("unix@") if settings.log.split() else ""
    if place.startswith("/") and not pathlib.Path(place).is_socket():
        findings.add(f"LOG of {FILE} names {place}, where nobody takes lines: changes aren't logged. Start what does, "
                     "or name another place")


def look_whether_it_starts(path: pathlib.Path, findings: Findings) -> None:
    """Whether HAProxy would start with the files as they are now, and not only with what it has read."""
    try:
        talk.check(path)
    except Wrong as fault:
        _, *reasons = str(fault).splitlines()
        first = re.sub(r"^\[ALERT\] +\(\d+\) : (config : )?", "", reasons[0]) if reasons else str(fault)
        findings.add(f"HAProxy wouldn't start with its files: {first[:300]}")


# ---- what it reaches

def look_whether_reached(settings, shard: int, findings: Findings) -> None:
    """Whether HAProxy asks a shard that answers the tools: it has its own way there, and may be told to leave it."""
    with findings.looking(f"whether HAProxy reaches shard {shard}"):
        for _ in range(2):
            try:
                status, _ = talk.shard_reply(settings, shard, "GET", "/operator/domains", "-", timeout=SOON)
            except PermissionError:
                raise
            except talk.NO_REPLY:
                return  # (all else tells that it isn't there)
            if status == ANSWER:
                return
            time.sleep(AGAIN)
        findings.add(f"HAProxy answers {status} in the place of shard {shard}, whose program runs: it can't reach "
                     f"that, or was told to leave it. pdpd-shards restart {shard} has it asked again")


# ---- a client's question

def address_of(bind: str) -> tuple[str, int] | None:
    """Where a client of this machine reaches the first address of a line `bind`; nothing where that isn't known."""
    first = bind.split()[0].partition(",")[0]
    host, colon, port = first.rpartition(":")
    number = re.fullmatch(r"(\d{1,5})(-\d+)?", port)
    if not colon or not number:
        return None
    host = host.strip("[]")
    if host in ("", "*", "0.0.0.0"):
        host = "127.0.0.1"
    elif host == "::":
        host = "127.0.0.1" if "v4v6" in bind.split() else "::1"
    return host, int(number[1])


def any_certificate() -> ssl.SSLContext:
    """TLS that takes any certificate: it is looked at for itself, since it names the clients' name."""
    context = ssl.create_default_context()
    context.check_hostname = False
    context.verify_mode = ssl.CERT_NONE
    return context


def ask(address: tuple[str, int], is_tls: bool) -> tuple[int, bytes | None]:
    """The status of the reply to a client's question, and the certificate that was shown."""
    if is_tls:
        connection = http.client.HTTPSConnection(*address, timeout=PATIENCE, context=any_certificate())
    else:
        connection = http.client.HTTPConnection(*address, timeout=PATIENCE)
    with contextlib.closing(connection):
        connection.connect()
        shown = connection.sock.getpeercert(True) if is_tls else None
        connection.request("POST", PATH, b"{}", {"Content-Type": "application/json", "Connection": "close"})
        return connection.getresponse().status, shown


class Certificate(NamedTuple):
    """Until when a certificate is valid, in seconds since 1970, and the names for which it is."""
    last: float
    names: list[str]


def valid(address: tuple[str, int], shown: bytes) -> Certificate | None:
    """What a certificate says that is shown there; nothing where it isn't valid now. (It is verified as its own
    authority, since Python tells nothing of others.)"""
    context = ssl.SSLContext(ssl.PROTOCOL_TLS_CLIENT)
    context.check_hostname = False
    context.load_verify_locations(cadata=shown)
    context.verify_flags |= ssl.VERIFY_X509_PARTIAL_CHAIN
    try:
        with socket.create_connection(address, timeout=PATIENCE) as plain, context.wrap_socket(plain) as wrapped:
            held = wrapped.getpeercert()
    except ssl.SSLCertVerificationError as fault:
        if fault.verify_code in (EXPIRED, NOT_YET):
            return None
        raise
    names = [value for _, value in held.get("subjectAltName", ())]
    return Certificate(ssl.cert_time_to_seconds(held["notAfter"]), names or [
        value for part in held.get("subject", ()) for kind, value in part if kind == "commonName"])


def names_shown(settings) -> set[str]:
    """For which names the certificate is valid that clients are shown; none where that can't be found out."""
    with contextlib.suppress(*talk.NO_REPLY, ValueError, Wrong):
        address = address_of(settings.tls_bind) if settings.tls_bind.strip() else None
        if address and (found := valid(address, ask(address, True)[1])):
            return {*found.names}
    return set()


def certificates_shown(settings) -> int:
    """How many certificates clients are shown, with those between; 0 where that can't be found out."""
    with contextlib.suppress(OSError, ValueError, subprocess.SubprocessError):
        if address := address_of(settings.tls_bind) if settings.tls_bind.strip() else None:
            host, port = f"[{address[0]}]" if ":" in address[0] else address[0], address[1]
            words = ["openssl", "s_client", "-showcerts", "-connect", f"{host}:{port}"]
            ran = subprocess.run(words, input="", capture_output=True, text=True, check=False, timeout=PATIENCE)
            return len(CERTIFICATE.findall(ran.stdout))
    return 0


def ends_soon(text: str) -> bool:
    """Whether a certificate's time is over in so many days."""
    words = ["openssl", "x509", "-noout", "-checkend", str(DAYS * 86_400)]
    return subprocess.run(words, input=text, capture_output=True, text=True, check=False).returncode == 1


def look_at_certificate(settings, address: tuple[str, int], shown: bytes, findings: Findings) -> Certificate | None:
    """Whether clients are shown the file's certificate, and what it says if it is valid."""
    said = valid(address, shown)
    days = (said.last - time.time()) / 86_400 if said else 0.0
    if days < DAYS:
        state = f"is valid for {days:.1f} days more" if said else "has expired, or isn't valid yet"
        findings.add(f"the certificate {state}: put a new one into {settings.certificate}, then pdpd-shards reload")
    path = pathlib.Path(settings.certificate)
    with findings.looking("the certificate"):
        in_file = CERTIFICATE.search(text_of(path)) if path.is_file() else None
        if path.is_file() and (not in_file or ssl.PEM_cert_to_DER_cert(in_file[0]) != shown):
            findings.add(f"clients are shown another certificate than {path} has: pdpd-shards reload")
        for text in CERTIFICATE.findall(text_of(path))[1:] if path.is_file() else ():
            if ends_soon(text):
                findings.add(f"a certificate that stands behind the first one in {path} is valid for less than {DAYS} "
                             "days: put a newer one there, then pdpd-shards reload")
        chains.look(settings, findings)
    return said


def look_as_client(settings, findings: Findings) -> Certificate | None:
    """Asks as clients do. Gives what the certificate says, if one is shown."""
    said = None
    for name, bind in (("TLS_BIND", settings.tls_bind), ("PLAIN_BIND", settings.plain_bind)):
        if not bind.strip():
            continue
        address, is_tls = address_of(bind), name == "TLS_BIND"
        if not address:
            findings.cannot_tell(f"{name} is {bind!r}, and it isn't known how to ask there")
            continue
        try:
            status, shown = ask(address, is_tls)
            if status != ANSWER:
                findings.add(f"a client's question at {name} ({bind}) is answered with {status}, in place of {ANSWER}")
            if shown:
                said = look_at_certificate(settings, address, shown, findings)
        except (*talk.NO_REPLY, ValueError) as fault:
            more = ", or a firewall or the network (ip link show lo) keeps clients away" \
                if isinstance(fault, TimeoutError) else ""
            findings.add(f"a client's question at {name} ({bind}) isn't answered ({words_of(fault)}): HAProxy doesn't "
                         f"run with these settings, or its log says why{more}")
    if not settings.tls_bind.strip() and not settings.plain_bind.strip():
        findings.add("TLS_BIND and PLAIN_BIND are empty: no client can connect")
    return said


def look_whether_it_starts_again(settings, findings: Findings) -> None:
    """Why HAProxy isn't there, as its log says."""
    if not talk.is_there(settings, AGAIN) and (why := talk.why_away(settings)):
        findings.add(f"HAProxy doesn't run. Its log says: {why}")


def why_silent(settings) -> str:
    """What is told where HAProxy takes a question and doesn't answer it: all else would wait for it, too. Empty where
    it answers, or isn't there."""
    try:
        talk.admin_reply(settings, "show info", SOON)
    except talk.SilentProxy:
        workers = children_of(supervisor.of(settings).supervised(applied.PROXY))
        still = " ".join(str(each) for each in workers if is_stopped(each))
        heals = f"it stands still, and kill -CONT {still} has it go on, or " if still else ""
        return (f"HAProxy's worker doesn't answer within {SOON:.0f} s at {settings.haproxy_run}/admin.sock, and "
                f"perhaps no client is answered: {heals}pdpd-shards services starts it anew. Nothing else of HAProxy was "
                "looked at")
    except (OSError, Wrong):  # (all else tells it)
        pass
    return ""


def look(settings, findings: Findings) -> Certificate | None:
    """All of it."""
    with findings.looking("HAProxy's map"):
        look_at_map(settings, findings)
    with findings.looking("HAProxy's configuration"):
        look_at_configuration(settings, findings)
    with findings.looking("HAProxy's log"):
        look_at_log(settings, findings)
    with findings.looking("HAProxy's limits"), contextlib.suppress(talk.NoProxy):  # (all else tells that)
        look_at_limits(settings, findings)
        look_at_servers(settings, findings)
    with findings.looking("HAProxy's end"):
        look_whether_it_starts_again(settings, findings)
    try:
        return look_as_client(settings, findings)
    except Wrong as fault:
        findings.add(str(fault))
        return None
