"""Records, of which an archive is made.

    NAME HEAD-BYTES BODY-BYTES SHA-256
    HEAD BODY

NAME is the archive's own, 32 random hexadecimal digits: no client knows it, so none can send what looks like a record.
HEAD is a JSON object, in which `prev` is the SHA-256 of the record before (of the first one: NAME twice). The SHA-256
is of the first three words, HEAD and BODY.
"""
from __future__ import annotations

import hashlib
import json
import re
from collections.abc import Iterator
from dataclasses import dataclass

# a frame's line: a name, two numbers of at most eight digits, a digest, three spaces and a line feed
LONGEST_LINE = 32 + 8 + 8 + 64 + 4
LINE = re.compile(rb"([0-9a-f]{32}) (\d{1,8}) (\d{1,8}) ([0-9a-f]{64})\n")


class Damaged(Exception):
    """An archive isn't what the daemon wrote, in words."""


@dataclass(frozen=True)
class Record:
    """A whole record: its head and body, its digest, and where it ends and begins in its file."""
    head: dict
    body: bytes
    digest: str
    end: int
    start: int = 0


def digest_of(name: str, head: bytes, body: bytes) -> str:
    return hashlib.sha256(b"%s %d %d\n" % (name.encode(), len(head), len(body)) + head + body).hexdigest()


def first_prev(name: str) -> str:
    """What stands in the first record of an archive for the digest of the record before."""
    return name + name


def encoded(name: str, head: dict, body: bytes) -> tuple[bytes, str]:
    """The bytes of a record, and its digest."""
    text = json.dumps(head, separators=(",", ":"), sort_keys=True).encode()
    digest = digest_of(name, text, body)
    line = b"%s %d %d %s\n" % (name.encode(), len(text), len(body), digest.encode())
    return line + text + body + b"\n", digest


def record_at(data: bytes, at: int, name: str) -> Record | None:
    """The whole record that begins there; None where none does."""
    found = LINE.match(data, at, at + LONGEST_LINE)
    if not found or found[1] != name.encode():
        return None
    middle = found.end() + int(found[2])
    end = middle + int(found[3])
    head, body = data[found.end():middle], data[middle:end]
    if data[end:end + 1] != b"\n" or digest_of(name, head, body) != found[4].decode():
        return None
    return Record(json.loads(head), body, found[4].decode(), end + 1, at)


def is_any_behind(data: bytes, at: int, name: str) -> bool:
    """Whether a whole record begins behind a place."""
    mark = name.encode() + b" "
    while (at := data.find(mark, at + 1)) >= 0:
        if record_at(data, at, name):
            return True
    return False


def records_in(data: bytes, name: str, where: str) -> Iterator[Record]:
    """The whole records from the beginning on. What a kill or a crash left unfinished at the end is none; a record that
    is damaged and has whole ones behind it was whole once, so that is an error."""
    at = 0
    while at < len(data):
        record = record_at(data, at, name)
        if record is None:
            if is_any_behind(data, at, name):
                raise Damaged(f"{where} is damaged at byte {at}, and whole records stand behind that: put this file "
                              "back from a copy; nothing is taken until then, since the changes behind it would be lost")
            return
        yield record
        at = record.end
