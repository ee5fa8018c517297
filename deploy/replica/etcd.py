"""etcd's v3 API by its JSON gateway: readings by the quorum, transactions, leases, and events of keys.

A call goes to the first member that answers. `Down` is raised where nothing was changed for sure, or where it was a
reading; `Open` where a write may have been made, or may be made later; `Refused` where etcd says no, and changed
nothing.
"""
from __future__ import annotations

import base64
import contextlib
import http.client
import json
import pathlib
import ssl
import threading
import time
from collections.abc import Iterator, Sequence
from dataclasses import dataclass

# of a refusal by these nothing was written; any other error of a write leaves it open (a time-out, a lost leader)
SURELY_NOT = ("request is too large", "no space", "database space exceeded", "lease not found", "too many operations",
              "duplicate key", "user name is empty", "permission denied", "requested lease", "has been compacted")
# how long a call and an event are waited for, and how long a member comes last that gave no answer, in seconds
PATIENCE, SILENCE, SUSPECT = 2.0, 15.0, 5.0
# how long a member may take nothing while it gives space back
DEFRAGMENTING = 60.0
# the longest reply that is read: sixteen entries
LONGEST = 64 << 20
Pair = tuple[bytes, "bytes | None"]


class Down(Exception):
    """No member has answered: nothing was changed."""


class Open(Exception):
    """No answer to a write: it was made, will be made, or won't be."""


class Refused(Exception):
    """etcd has refused a call, in its words."""


def text_of(data: bytes) -> str:
    return base64.b64encode(data).decode()


def bytes_of(text: str) -> bytes:
    return base64.b64decode(text)


def after(prefix: bytes) -> bytes:
    """The end of the range of all keys with a prefix."""
    return prefix[:-1] + bytes([prefix[-1] + 1])


@dataclass(frozen=True)
class Member:
    """A member's address, and how it is spoken to: in the clear (only on this machine), or by client certificates."""
    host: str
    port: int
    tls: ssl.SSLContext | None = None

    def connection(self, seconds: float) -> http.client.HTTPConnection:
        if self.tls:
            return http.client.HTTPSConnection(self.host, self.port, timeout=seconds, context=self.tls)
        return http.client.HTTPConnection(self.host, self.port, timeout=seconds)


def context_in(folder: pathlib.Path) -> ssl.SSLContext:
    """How members are known, and this client to them: ca.crt, client.crt and client.key of a folder."""
    for name in ("ca.crt", "client.crt", "client.key"):
        if not (folder / name).is_file():
            raise ValueError(f"{folder / name} isn't there: pdpd-replicas certificates makes it")
    found = ssl.create_default_context(cafile=str(folder / "ca.crt"))
    found.load_cert_chain(folder / "client.crt", folder / "client.key")
    return found


class Etcd:
    """A client. Each thread keeps one connection to each member. `last_answer` is when the last one was given."""

    def __init__(self, members: Sequence[Member], seconds: float = PATIENCE):
        self.members, self.seconds, self.kept = list(members), seconds, threading.local()
        self.suspect: dict[Member, float] = {}
        self.last_answer = float("-inf")
        self.past: list[tuple[float, int]] = []  # when revisions were there

    def order(self) -> list[Member]:
        """The members in the order in which they are asked: last those that gave no answer lately."""
        now = time.monotonic()
        return sorted(self.members, key=lambda member: self.suspect.get(member, 0.0) > now)

    def connection_to(self, member: Member, seconds: float) -> http.client.HTTPConnection:
        held = self.kept.__dict__.setdefault("held", {})
        found = held.setdefault(member, member.connection(seconds))
        found.timeout = seconds
        if found.sock:
            found.sock.settimeout(seconds)
        return found

    def forget(self, member: Member) -> None:
        self.suspect[member] = time.monotonic() + SUSPECT
        found = self.kept.__dict__.get("held", {}).pop(member, None)
        if found:
            found.close()

    def once(self, member: Member, path: str, body: bytes, seconds: float) -> dict:
        """The reply of one member."""
        connection = self.connection_to(member, seconds)
        try:
            if connection.sock is None:
                connection.connect()
        except (OSError, ValueError) as fault:
            self.forget(member)
            raise Down(f"{member.host}: {fault}") from None
        try:
            connection.request("POST", path, body, {"Content-Type": "application/json"})
            reply = connection.getresponse()
            text = reply.read(LONGEST)
            status, found = reply.status, json.loads(text) if reply.status == 200 else {}
        except (OSError, http.client.HTTPException, ValueError) as fault:
            self.forget(member)
            raise Open(f"{member.host}: {fault!r}") from None
        if status != 200:
            self.forget(member)
            said = text.decode(errors="replace")[:300]
            if any(words in said for words in SURELY_NOT):
                raise Refused(said)
            raise Open(f"{member.host}: {status} {said}")
        self.last_answer = time.monotonic()
        return found

    def call(self, path: str, what: dict, is_write: bool = False) -> dict:
        """The reply of the first member that gives one. A write goes to no other member once one may have it."""
        body, first = json.dumps(what).encode(), None
        for member in self.order():
            try:
                return self.once(member, path, body, self.seconds)
            except Down as fault:
                first = first or fault
            except Open as fault:
                if is_write:
                    raise
                first = first or Down(str(fault))
        raise first or Down("there is no member")

    # ---- readings: of what a majority holds

    def range(self, key: bytes, end: bytes | None = None, limit: int = 0) -> list[Pair]:
        return self.range_at(0, key, end, limit)[1]

    def range_at(self, revision: int, key: bytes, end: bytes | None = None, limit: int = 0) -> tuple[int, list[Pair]]:
        """The same as it was at a revision; with 0 as it is now, and at which revision that is."""
        what = {**reading(key, end, limit)["request_range"], "revision": str(revision)}
        reply = self.call("/v3/kv/range", what)
        return revision or int(reply["header"]["revision"]), pairs_in(reply)

    def kept_at(self, revision: int, key: bytes) -> tuple[int, dict]:
        """A key as etcd keeps it, with how many times it was put (`version`); an empty one where there is none."""
        what = {**reading(key)["request_range"], "revision": str(revision)}
        reply = self.call("/v3/kv/range", what)
        return revision or int(reply["header"]["revision"]), next(iter(reply.get("kvs", ())), {})

    def get(self, key: bytes) -> bytes | None:
        found = self.range(key)
        return found[0][1] if found else None

    # ---- writes

    def put(self, key: bytes, value: bytes, lease: int = 0) -> None:
        self.call("/v3/kv/put", {"key": text_of(key), "value": text_of(value), "lease": str(lease)}, True)

    def delete(self, key: bytes, end: bytes | None = None) -> None:
        self.call("/v3/kv/deleterange", {"key": text_of(key), **({"range_end": text_of(end)} if end else {})}, True)

    def transaction(self, holds: list[dict], then: list[dict], otherwise: Sequence[dict] = ()
                    ) -> tuple[bool, list[list[Pair]]]:
        """Whether all comparisons held, and what the readings of the branch found that was taken."""
        is_write = any("request_range" not in one for one in (*then, *otherwise))
        what = {"compare": holds, "success": then, "failure": list(otherwise)}
        reply = self.call("/v3/kv/txn", what, is_write)
        found = [pairs_in(one["response_range"]) for one in reply.get("responses", ()) if "response_range" in one]
        return bool(reply.get("succeeded")), found

    def grant(self, seconds: int) -> int:
        """A new lease: keys with it go once it wasn't renewed for so long."""
        return int(self.call("/v3/lease/grant", {"TTL": str(seconds)}, True)["ID"])

    def renew(self, lease: int) -> bool:
        """Whether a lease is there still; it begins anew then."""
        return int(self.call("/v3/lease/keepalive", {"ID": str(lease)}).get("result", {}).get("TTL", 0)) > 0

    def revoke(self, lease: int) -> None:
        self.call("/v3/lease/revoke", {"ID": str(lease)}, True)

    def drop_history(self, seconds: float = 0.0) -> None:
        """Has etcd forget what keys had before, but for so long: who reads much of what was at one revision, or goes on
        with events, needs it."""
        now = time.monotonic()
        self.past.append((now, int(self.call("/v3/kv/range", {"key": text_of(b"/")})["header"]["revision"])))
        known = [revision for at, revision in self.past if at <= now - seconds]
        if known:
            self.past = self.past[len(known):]
            with contextlib.suppress(Refused):  # (it has forgotten more)
                self.call("/v3/kv/compaction", {"revision": str(known[-1])}, True)

    # ---- its space

    def bytes_in_use(self) -> int:
        """How many bytes it holds, without what is free in its files."""
        return int(self.call("/v3/maintenance/status", {}).get("dbSizeInUse", 0))

    def give_space_back(self) -> None:
        """Has each member that answers give back what is free in its file, one after another, and ends the alarm by
        which they take nothing any more."""
        for member in self.members:
            with contextlib.suppress(Down, Open):
                self.once(member, "/v3/maintenance/defragment", b"{}", DEFRAGMENTING)
        for one in self.call("/v3/maintenance/alarm", {"action": "GET"}).get("alarms", ()):
            self.call("/v3/maintenance/alarm", {**one, "action": "DEACTIVATE"}, True)

    # ---- events

    def events(self, key: bytes, end: bytes) -> Iterator[list[Pair]]:
        """The changes of keys, a value or None for each, until nothing has come for some seconds."""
        for _, events in self.events_since(0, key, end):
            yield [pair_of(event) for event in events]

    def events_since(self, revision: int, key: bytes, end: bytes) -> Iterator[tuple[int, list[dict]]]:
        """The same of all revisions from that one on (0: from now on), as etcd tells it, and up to which one. A Refused
        where etcd has dropped that one."""
        known = max(0, revision - 1)
        for member in self.order():
            # (a member that is silent is left for the next one, which tells what hasn't come yet)
            start = known + 1 if revision or known else 0
            asked = {"key": text_of(key), "range_end": text_of(end), "start_revision": str(start)}
            what, connection = json.dumps({"create_request": asked}), member.connection(SILENCE)
            with contextlib.suppress(OSError, http.client.HTTPException, ValueError), contextlib.closing(connection):
                connection.request("POST", "/v3/watch", what, {"Content-Type": "application/json"})
                reply = connection.getresponse()
                while line := reply.readline(LONGEST):
                    result = json.loads(line).get("result")
                    if result is None or result.get("canceled"):
                        if revision and "compact_revision" in (result or {}):
                            raise Refused(f"revision {start} is gone")
                        return
                    events = result.get("events", ())
                    # (the reply's own revision may be beyond events that come later)
                    known = max((int(event["kv"]["mod_revision"]) for event in events), default=known)
                    yield known, list(events)
                return


def pairs_in(reply: dict) -> list[Pair]:
    return [(bytes_of(one["key"]), bytes_of(one.get("value", ""))) for one in reply.get("kvs", ())]


def pair_of(event: dict) -> Pair:
    is_gone = event.get("type") == "DELETE"
    return bytes_of(event["kv"]["key"]), None if is_gone else bytes_of(event["kv"].get("value", ""))


# ---- parts of transactions

def is_value(key: bytes, value: bytes) -> dict:
    return {"key": text_of(key), "target": "VALUE", "result": "EQUAL", "value": text_of(value)}


def is_put(key: bytes, times: int) -> dict:
    """That a key was put so many times since it is there."""
    return {"key": text_of(key), "target": "VERSION", "result": "EQUAL", "version": str(times)}


def is_absent(key: bytes) -> dict:
    return is_put(key, 0)


def is_there(key: bytes) -> dict:
    return {**is_absent(key), "result": "GREATER"}


def putting(key: bytes, value: bytes, lease: int = 0) -> dict:
    return {"request_put": {"key": text_of(key), "value": text_of(value), "lease": str(lease)}}


def putting_again(key: bytes) -> dict:
    """A key is put once more, with what it has."""
    return {"request_put": {"key": text_of(key), "ignore_value": True}}


def reading(key: bytes, end: bytes | None = None, limit: int = 0) -> dict:
    return {"request_range": {"key": text_of(key), "limit": str(limit), **({"range_end": text_of(end)} if end else {})}}


def deleting(key: bytes, end: bytes | None = None) -> dict:
    return {"request_delete_range": {"key": text_of(key), **({"range_end": text_of(end)} if end else {})}}
