"""What a domain has at a moment, by the changes of an archive: from the last checkpoint before it on."""
from __future__ import annotations

import json
import pathlib
from collections.abc import Iterable, Iterator
from dataclasses import dataclass, field
from urllib.parse import quote, unquote

from .archive import Segment, segments_in
from .domains import Forgotten, key_at
from .messages import bytes_of
from .record import Damaged, Record, first_prev
from .replaying import ASKER, OPERATOR
from .sealing import inflated, opened

# a domain has no more tokens
MOST_TOKENS = 32
Key = tuple[str, str, str]


class Unknown(Exception):
    """The archive doesn't have what is asked for, and why."""


@dataclass(frozen=True)
class Change:
    """An entry with its reply, if it has one."""
    entry: Record
    reply: Record | None
    home: pathlib.Path

    def body(self) -> bytes:
        """The body of the message."""
        if not self.entry.body:
            return b""
        data = opened(key_at(self.home, self.domain(), self.entry.head["key"]), self.entry.body)
        if self.entry.head.get("coding") != "deflate":
            return data
        try:
            return inflated(data)
        except ValueError as fault:
            raise self.unreadable(fault) from None

    def unreadable(self, fault: ValueError) -> Damaged:
        """The error that its body isn't what was logged, though its record is."""
        return Damaged(f"the body of entry {self.number()} can't be read ({fault}): its domain's key is another one "
                       "than it was sealed with")

    def is_forgotten(self) -> bool:
        """Whether the domain that it changed was removed and forgotten."""
        try:
            key_at(self.home, self.domain(), self.entry.head["key"])
        except Forgotten:
            return True
        return False

    def removes(self) -> bool:
        """Whether the domain is gone behind it. (A second reply may be that it is gone already.)"""
        if not is_of_whole(self) or self.entry.head["method"] != "DELETE":
            return False
        return self.status() == 200 or self.is_again() and self.status() == 404

    def sets_rows(self) -> bool:
        """Whether it has replaced the table of attributes."""
        return self.entry.head["who"] == "admin" and self.entry.head["path"].endswith("/pip") and \
            self.status() in (200, 201)

    def number(self) -> int:
        return self.entry.head["n"]

    def began(self) -> float:
        return self.entry.head["at"]

    def ended(self) -> float:
        """By when it was applied; never, as far as is known, where it has no reply."""
        return self.reply.head["at"] if self.reply else float("inf")

    def status(self) -> int:
        return self.reply.head["status"] if self.reply else 0

    def is_skipped(self) -> bool:
        """Whether it was skipped: no pdpd has it. (pdpd's own 503 is no reply to an entry.)"""
        return self.status() == 503

    def is_again(self) -> bool:
        return bool(self.reply and self.reply.head["again"])

    def domain(self) -> str:
        return self.entry.head["domain"]


def by_archive(folders: Iterable[pathlib.Path]) -> list[list[Segment]]:
    """The files of each archive that these folders have; those of one may be in several folders."""
    found: dict[str, list[pathlib.Path]] = {}
    for folder in folders:
        if not folder.is_dir():
            raise Unknown(f"{folder} is no folder")
        for name in {segment.name for segment in segments_in([folder])}:
            found.setdefault(name, []).append(folder)
    if not found:
        raise Unknown(f"no change is in {', '.join(map(str, folders))} yet")
    return [segments_in(held) for held in found.values()]


def chained(segments: list[Segment]) -> Iterator[Record]:
    """All records of an archive in order, of which each names the one before; else an error."""
    prev = first_prev(segments[0].name) if segments[0].first == 1 else None
    for segment in segments:
        end, data = 0, segment.data()
        for record in segment.records():
            if prev is not None and record.head["prev"] != prev:
                raise Damaged(f"entry {record.head['n']} of {segment.path} doesn't follow the record before it: a file "
                              "before it is missing, or another one than was written")
            prev, end = record.digest, record.end
            yield record
        if end < len(data) and segment is not segments[-1]:
            raise Damaged(f"{segment.path} ends within a record, and isn't the last file")


def changes_in(segments: list[Segment]) -> Iterator[Change]:
    """All changes of an archive, in order; the last one may have no reply yet."""
    entry = None
    for record in chained(segments):
        if record.head["kind"] == "entry":
            entry = record
        elif entry is None or entry.head["n"] != record.head["n"]:
            raise Damaged(f"the reply to entry {record.head['n']} stands without its entry")
        else:
            yield Change(entry, record, segments[0].home)
            entry = None
    if entry is not None:
        yield Change(entry, None, segments[0].home)


def look_at_end(folder: pathlib.Path) -> None:
    """Reads what a start reads of an archive, and changes nothing; an error where it is damaged."""
    for segment in reversed(segments_in([folder])):
        segment.refuse_packed()
        if sum(1 for _ in changes_in([segment])):
            return


def version_of(text: str) -> str:
    """A version without leading zeros."""
    return ".".join(str(int(part)) for part in text.split("."))


def key_of_text(body: bytes) -> Key:
    """The kind, the id and the version of a document that pdpd has taken."""
    ((member, held),) = json.loads(body).items()
    kind = "policy" if member == "Policy" else "policyset"
    return kind, held["PolicyId" if kind == "policy" else "PolicySetId"], version_of(held["Version"])


def key_of_path(path: str) -> Key:
    """The same of a path /domains/D/pap/KIND/ID/VERSION, which pdpd has found."""
    kind, name, version = path.split("/")[4:7]
    return unquote(kind), unquote(name), version_of(unquote(version))


def is_of_whole(change: Change) -> bool:
    """Whether a change creates or removes a domain."""
    return change.entry.head["who"] == "operator" and change.entry.head["path"].count("/") == 3


def is_older(change: Change, is_there: bool) -> bool:
    """Whether a change was answered as it would not have been if the domain weren't there."""
    if is_there or change.is_again():
        return False
    creates = is_of_whole(change) and change.entry.head["method"] == "PUT"
    return change.status() == 409 if creates else change.status() in (200, 201)


@dataclass
class State:
    """What a domain has. A decision depends on nothing else, but its request and its moment. Of a domain that was there
    before the archive began that isn't known, until it is removed."""
    is_there: bool = False
    is_known: bool = True
    tokens: dict[str, str] = field(default_factory=dict)
    documents: dict[Key, bytes] = field(default_factory=dict)
    active: set[Key] = field(default_factory=set)
    root: bytes = b"{}"
    rows: bytes = b'{"Row":[]}'

    def refuse_unknown(self, domain: str) -> None:
        if not self.is_known:
            raise Unknown(f"the domain {domain!r} was there before its archive began: what it had isn't known")

    def take(self, change: Change) -> None:
        """Makes a change as pdpd has made it."""
        head, status = change.entry.head, change.status()
        # The second reply to a change that was sent twice may be that it is made already: the first one made it.
        made = status in (200, 201)
        if change.is_again():
            made = made or status == 404 and head["method"] == "DELETE"
            made = made or status == 409 and head["method"] == "PUT" and not self.is_there
        if is_older(change, self.is_there):
            self.is_known = False
        if made:
            parts, body = head["path"].split("/"), change.body()
            try:
                (self.take_operators if parts[1] == "operator" else self.take_admins)(head, parts, body)
            except ValueError as fault:
                raise change.unreadable(fault) from None

    def take_all(self, changes: Iterable[Change]) -> None:
        """Makes changes in order. Of a table that a later one replaces the body isn't read."""
        rows = None
        for change in changes:
            if is_of_whole(change) and rows:
                self.take(rows)
                rows = None
            if change.sets_rows():
                self.is_known = self.is_known and not is_older(change, self.is_there)
                rows = change
            else:
                self.take(change)
        if rows:
            self.take(rows)

    def take_operators(self, head: dict, parts: list[str], body: bytes) -> None:
        if len(parts) == 4:
            self.__dict__.update(State(is_there=head["method"] == "PUT").__dict__)
            return
        held = json.loads(body)
        self.tokens.pop(held["Token"], None)
        if head["method"] == "POST":
            self.tokens[held["Token"]] = held["Role"]

    def take_admins(self, head: dict, parts: list[str], body: bytes) -> None:
        what = parts[-1]
        if parts[3] == "pip":
            self.rows = body
        elif len(parts) == 5 and what == "policies":
            self.documents.setdefault(key_of_text(body), body)
        elif len(parts) == 5:
            self.root = body
        elif len(parts) == 7:
            self.documents.pop(key_of_path(head["path"]), None)
        elif head["method"] == "PUT":
            self.active.add(key_of_path(head["path"]))
        else:
            self.active.discard(key_of_path(head["path"]))

    def messages(self, domain: str) -> list[bytes]:
        """A checkpoint: messages that leave a new server with what decides here, and with the token ASKER."""
        self.refuse_unknown(domain)
        if not self.is_there:
            return []
        at, path = f"/operator/domains/{domain}", f"/domains/{domain}/pap"
        held = [by_operator("PUT", at), put_token(domain, ASKER, "admin")]
        held += [by_asker("POST", f"{path}/policies", text) for text in self.documents.values()]
        held += [by_asker("PUT", f"{path}/{kind}/{quote(name, safe='')}/{version}/active")
                 for kind, name, version in sorted(self.active)]
        held += [by_asker("PUT", f"{path}/root", self.root), by_asker("PUT", f"/domains/{domain}/pip", self.rows)]
        return held

    def asks(self, domain: str, bodies: list[bytes]) -> tuple[list[bytes], range]:
        """Messages that ask behind all of a domain's own, and which of them do: by a token of the replay's own, where
        the domain has room for it. A removed domain knows no token."""
        if len(self.tokens) >= MOST_TOKENS:
            token = next(iter(self.tokens))
            return [ask(domain, token, body) for body in bodies], range(len(bodies))
        asks = [ask(domain, ASKER, body) for body in bodies]
        return [put_token(domain, ASKER, "ask"), *asks, drop_token(domain, ASKER)], range(1, len(asks) + 1)


def shown(token: str) -> list[str]:
    return ["authorization", f"Bearer {token}"]


def by_operator(method: str, path: str, body: bytes = b"") -> bytes:
    return bytes_of(method, path, [shown(OPERATOR)], body)


def by_asker(method: str, path: str, body: bytes = b"") -> bytes:
    return bytes_of(method, path, [shown(ASKER)], body)


def put_token(domain: str, token: str, role: str) -> bytes:
    body = json.dumps({"Role": role, "Token": token}).encode()
    return by_operator("POST", f"/operator/domains/{domain}/tokens", body)


def drop_token(domain: str, token: str) -> bytes:
    return by_operator("DELETE", f"/operator/domains/{domain}/tokens", json.dumps({"Token": token}).encode())


def ask(domain: str, token: str, body: bytes) -> bytes:
    return bytes_of("POST", f"/domains/{domain}/pdp", [shown(token)], body)


def messages_again(change: Change) -> list[bytes]:
    """The messages that make a change behind a checkpoint: by the token ASKER, and none for other tokens, on which no
    decision depends. After an error nothing had changed, but an error of a change that was sent twice may be that it is
    made already."""
    head = change.entry.head
    if change.reply and change.status() not in (200, 201) and not change.is_again():
        return []
    if head["who"] == "admin":
        kinds = [pair for pair in head["fields"] if pair[0] == "content-type"]
        return [bytes_of(head["method"], head["path"], [shown(ASKER), *kinds], change.body())]
    if head["path"].endswith("/tokens"):
        return []
    return [by_operator(head["method"], head["path"]), put_token(head["domain"], ASKER, "admin")]
