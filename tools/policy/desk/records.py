"""Records of deployments, which the domain itself keeps: policies of a reserved id that are never active, so
that no decision uses them.

Version N of that id is the head of deployment N, with what it brings, packed; N.1, N.2 and so on hold the
rest of that where it is long; N.0 says that the deployment is finished. No route shows a domain's root, and
rows are gone once others are set: so both stand in the record. The upload of a head is also what tells two
deployments at once: other bytes under a version that is there are refused, so one of the two has number N,
and the other is told.
"""
from __future__ import annotations

import base64
import binascii
import getpass
import hashlib
import json
import secrets
import socket
import time
import zlib
from dataclasses import dataclass, field

from . import setting
from .check import Checked
from .domain import root_body
from .live import RECORD_ID, Key, Live, path_of, version_shown
from .model import documents as documents_of_model
from .model import route_bodies, versions
from .wire import ServerFault, json_held

ALGORITHM = "urn:oasis:names:tc:xacml:3.0:rule-combining-algorithm:deny-overrides"
# letters in a piece: a document has at most 65,536 bytes
PIECE = 50_000
# bytes of what a deployment brings: the rows of a body in their long form, and 1,024 documents' keys and digests
MOST_CONTENT = 8 << 20
# seconds after which a deployment that isn't finished counts as cut
LONG_AGO = 3600


@dataclass
class Head:
    """What the head of a deployment's record says; `was` is what the root may have been, if that is known."""
    number: int
    before: int
    begun: str
    by: str
    nonce: str
    target: str
    root: versions.Reference | None
    was: list[versions.Reference | None]
    pieces: int
    first: str


@dataclass
class Content:
    """What a deployment brings: its root, its active documents with the digests of their texts, and its
    rows, where it sets them."""
    root: versions.Reference | None
    documents: dict[Key, str]
    rows: list[str] | None

    def text(self) -> str:
        """The content as a record has it."""
        found = [{"Kind": key.kind, "Id": key.id, "Version": version_shown(key.version), "Digest": digest}
                 for key, digest in sorted(self.documents.items())]
        return json.dumps({"Root": json.loads(root_body(self.root)), "Document": found, "Row": self.rows},
                          ensure_ascii=False)

    def digest(self) -> str:
        """The digest of all that."""
        return hashlib.sha256(self.text().encode()).hexdigest()

    def packed(self) -> list[str]:
        """The content in pieces."""
        text = base64.b64encode(zlib.compress(self.text().encode(), 9)).decode()
        return [text[start:start + PIECE] for start in range(0, len(text), PIECE)]


def content_of(packed: str) -> Content:
    """The content that pieces hold."""
    unpacking = zlib.decompressobj()
    text = unpacking.decompress(base64.b64decode(packed), MOST_CONTENT)
    if not unpacking.eof:
        raise ValueError("longer than any record")
    held = json_held(text)
    documents = {Key(one["Kind"], one["Id"], tuple(versions.numbers(one["Version"]))): one["Digest"]
                 for one in held["Document"]}
    return Content(root_in(held["Root"]), documents, held["Row"])


def digest_of(held: bytes) -> str:
    """The digest of a document's text."""
    return hashlib.sha256(held).hexdigest()


def digests(documents: dict[Key, Checked]) -> dict[Key, str]:
    """The digests of documents' texts."""
    return {key: digest_of(one.source.held) for key, one in documents.items()}


def record_key(*version: int) -> Key:
    """The key of a part of a record."""
    return Key("policy", RECORD_ID, version)


def path_of_number(number: int) -> str:
    """The path of a record's head."""
    return path_of(record_key(number))


def document(version: tuple[int, ...], described: str) -> bytes:
    """The policy that holds a part of a record."""
    return json.dumps({"Policy": {"PolicyId": RECORD_ID, "Version": version_shown(version),
                                  "Description": described,
                                  "RuleCombiningAlgId": ALGORITHM}}, ensure_ascii=False).encode()


def described(held: bytes) -> str:
    """What a part of a record says."""
    return json_held(held)["Policy"]["Description"]


def by_whom() -> str:
    """Who deploys, as far as the machine tells."""
    try:
        return f"{getpass.getuser()}@{socket.gethostname()}"
    except (KeyError, OSError):
        return socket.gethostname()


def why_cut(head: Head) -> str:
    """Why a deployment that isn't finished may be taken as cut by whoever goes back; the empty text where it may
    not."""
    if head.by == by_whom():
        return f"it is of {head.by}, as this one is"
    try:
        is_old = setting.moment_of(head.begun) + LONG_AGO < time.time()
    except (setting.Usage, TypeError):
        is_old = False
    return "it was begun more than an hour ago" if is_old else ""


@dataclass
class Draft:
    """The record of a deployment that is about to begin: its parts by their keys, the head first, without
    the last that says that it is finished."""
    head: Head
    parts: dict[Key, bytes]

    def finished(self) -> tuple[Key, bytes]:
        """The part that says that it is finished."""
        key = record_key(self.head.number, 0)
        return key, document(key.version, json.dumps({"Finished": now()}))


def now() -> str:
    return setting.moment_shown(int(time.time()))


def draft(number: int, before: int, content: Content, was: list[versions.Reference | None]) -> Draft:
    """The record of deployment NUMBER. The root was one of those; where there is none, it isn't known."""
    first, *pieces = content.packed()
    head = Head(number, before, now(), by_whom(), secrets.token_hex(8), content.digest(), content.root, was,
                len(pieces), first)
    held = {"Deployment": number, "Before": before, "Begun": head.begun, "By": head.by, "Nonce": head.nonce,
            "Target": head.target, "Root": json.loads(root_body(head.root)),
            "Was": [json.loads(root_body(root)) for root in was], "Pieces": head.pieces, "Content": first}
    parts = {record_key(number): document((number,), json.dumps(held, ensure_ascii=False))}
    for place, piece in enumerate(pieces, 1):
        parts[record_key(number, place)] = document((number, place), piece)
    return Draft(head, parts)


def root_in(held: object) -> versions.Reference | None:
    """The root that a part of a record says."""
    return route_bodies.root_of(json.dumps(held).encode())


@dataclass
class Records:
    """The records that a domain keeps."""
    live: Live
    heads: dict[int, Head] = field(default_factory=dict)

    def numbers(self) -> list[int]:
        """The numbers of deployments of which the head is there, in order."""
        return sorted(key.version[0] for key in self.live.records() if len(key.version) == 1)

    def next_number(self) -> int:
        """A number under which nothing is kept."""
        return max((key.version[0] for key in self.live.records()), default=0) + 1

    def is_finished(self, number: int) -> bool:
        """Whether the deployment is finished."""
        return record_key(number, 0) in self.live.documents

    def last(self) -> int | None:
        """The last deployment that is finished; None without one."""
        return max((number for number in self.numbers() if self.is_finished(number)), default=None)

    def begun(self) -> list[int]:
        """The deployments that were begun after it and aren't finished."""
        return [number for number in self.numbers() if number > (self.last() or 0)]

    def head(self, number: int) -> Head:
        """What the head of a deployment says."""
        if number not in self.heads:
            self.heads[number] = self.read(number)
        return self.heads[number]

    def read(self, number: int) -> Head:
        """Reads a head."""
        try:
            held = json_held(described(self.live.text(record_key(number))).encode())
            return Head(number, held["Before"], held["Begun"], held["By"], held["Nonce"], held["Target"],
                        root_in(held["Root"]), [root_in(one) for one in held["Was"]], held["Pieces"],
                        held["Content"])
        except (AttributeError, KeyError, TypeError, ValueError, RecursionError, documents_of_model.DocumentFault):
            raise ServerFault(f"policy {RECORD_ID} {number} of the server is no record of a "
                              f"deployment") from None

    def content(self, number: int) -> Content:
        """What a deployment brought."""
        try:
            head = self.head(number)
            pieces = [described(self.live.text(record_key(number, place)))
                      for place in range(1, head.pieces + 1)]
            return content_of("".join([head.first, *pieces]))
        except (KeyError, TypeError, ValueError, RecursionError, zlib.error, binascii.Error, versions.NoVersion,
                documents_of_model.DocumentFault):
            raise ServerFault(f"the record of deployment {number} is damaged") from None

    def stale(self, number: int, keep: int) -> list[Key]:
        """The parts of old records that are given up for deployment NUMBER, so that so many are kept: the head of a
        record last."""
        finished = [one for one in self.numbers() if self.is_finished(one) and one < number]
        kept = {*finished[-(keep - 1):], number}
        return sorted((key for key in self.live.records() if key.version[0] not in kept),
                      key=lambda key: (key.version[0], len(key.version) == 1, key.version))


def recorded_roots(records: Records) -> tuple[list[versions.Reference | None], str]:
    """What the root may be now by the records, the likely one first, none where they don't say; and which say it."""
    last, begun = records.last(), records.begun()
    was: list[versions.Reference | None] = []
    whence = "no route shows it, and no deployment is recorded"
    if last is not None:
        was, whence = [records.head(last).root], f"by the record of deployment {last}"
    elif begun:
        was, whence = records.head(begun[0]).was, f"by the record of deployment {begun[0]}"
    if not was:
        return [], whence
    roots = [*was, *(records.head(number).root for number in begun)]
    more = f", or by that of {begun[-1]}, which isn't finished" if begun else ""
    return [root for place, root in enumerate(roots) if root not in roots[:place]], whence + more
