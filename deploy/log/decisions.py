"""The decision log: a line of HAProxy for each request for a decision, and each worked out again.

A line is a JSON object: `begin` and `end` in microseconds since 1970, `domain`, `who` (of the digest of the token),
`status`, `reply` (the SHA-256 of the reply's body), and `request` in base64, or `request_digest`, its SHA-256.
"""
from __future__ import annotations

import base64
import bisect
import hashlib
import itertools
import json
import os
import pathlib
import re
from collections.abc import Iterable, Iterator
from dataclasses import dataclass

from .archive import Segment
from .domains import Forgotten
from .history import Change, State, Unknown, ask, messages_again
from .past import Past, micros, pasts_of
from .receiving import files_in
from .replaying import ASKER, replay

# `same` as was logged; `other`; `refused`: no decision was given; `unverified`: the request isn't whole in the line
KINDS = ("same", "other", "refused", "unverified")


def lines_of(path: pathlib.Path, since: float) -> Iterator[str]:
    """The lines of a file, or of all files of a folder, but for decisions that began before a moment."""
    for file in files_in(path) if path.is_dir() else [path]:
        if file.stat().st_mtime < since:
            continue
        # (the open of a pipe would wait for whoever writes into it)
        opened = os.open(file, os.O_RDONLY | os.O_NONBLOCK | os.O_CLOEXEC)
        with open(opened, encoding="utf-8", errors="replace") as lines:
            for line in lines:
                found = re.match(r'\{"begin":(\d{1,17}),', line)
                if not found or int(found[1]) >= since * 1e6:
                    yield line


@dataclass
class Decision:
    """A line whose decision can be worked out again."""
    line: str
    domain: str
    begin: float
    end: float
    digest: str
    request: bytes
    is_same: bool = False
    is_known: bool = True


def decision_in(line: str) -> Decision | str:
    """What a line says; if that can't be worked out again, its kind."""
    try:
        held = json.loads(line)
        status, domain = int(held["status"]), str(held["domain"])
        begin, end, digest = held["begin"] / 1e6, held["end"] / 1e6, str(held["reply"]).lower()
    except (ValueError, KeyError, TypeError):
        # (HAProxy cuts a line that is too long, in its last member)
        return "unverified"
    if status != 200:
        return "refused"
    try:
        return Decision(line, domain, begin, end, digest, base64.b64decode(held["request"], validate=True))
    except (ValueError, KeyError, TypeError):
        return "unverified"


def asked_behind(changes: list[Change], asked: list[Decision]) -> dict[int, dict[int, list[Decision]]]:
    """For each number of changes and each second the decisions that may have been given then."""
    ends, begins = [change.ended() for change in changes], [change.began() for change in changes]
    found: dict[int, dict[int, list[Decision]]] = {}
    for one in asked:
        for place in range(bisect.bisect_right(ends, one.begin), bisect.bisect_right(begins, one.end) + 1):
            for moment in range(int(one.begin), int(one.end) + 1):
                found.setdefault(place, {}).setdefault(moment, []).append(one)
    return found


def by_life(past: Past, asked: list[Decision]) -> list[list[Decision]]:
    """Decisions by how often the domain had been removed before: what it had then may be forgotten, and what it had
    later not."""
    ends = [place.ended for place in (past.places[index] for index in range(len(past.places))) if place.removes]
    found: dict[int, list[Decision]] = {}
    for one in asked:
        found.setdefault(bisect.bisect_right(ends, micros(one.begin)), []).append(one)
    return list(found.values())


def work_out(past: Past, asked: list[Decision]) -> None:
    """Notes which decisions are as they were logged: from a checkpoint before the first one on. The changes since are
    held in memory, as the archive has them."""
    state, rest = past.since(min(one.begin for one in asked))
    last = max(one.end for one in asked)
    changes = list(itertools.takewhile(lambda change: change.began() <= last, rest))
    wanted: dict[int, Decision] = {}
    for place, reply in enumerate(replay(messages_of(past, state, changes, asked, wanted))):
        one = wanted.pop(place, None)
        if one and reply.status == 200 and hashlib.sha256(reply.body()).hexdigest() == one.digest:
            one.is_same = True


def messages_of(past: Past, state: State, changes: list[Change], asked: list[Decision],
                wanted: dict[int, Decision]) -> Iterator[tuple[int, bytes]]:
    """A state, the changes behind it, and between them the requests for decisions that may have been answered there.
    `wanted` gets the places of these, each with its decision."""
    behind, count = asked_behind(changes, asked), 0
    for place in range(max(behind, default=-1) + 1):
        made = messages_again(changes[place - 1]) if place else state.messages(past.domain)
        count += len(made)
        yield from ((0, message) for message in made)
        for moment, ones in sorted(behind.get(place, {}).items()):
            for one in ones:
                # (a dear one that waited long among changes would be worked out for hours)
                if not one.is_same:
                    wanted[count] = one
                    count += 1
                    yield moment, ask(past.domain, ASKER, one.request)


def verify(archives: list[list[Segment]], lines: Iterable[str]) -> Iterator[tuple[str, str]]:
    """The kind of each line that isn't empty, and the line."""
    by_domain: dict[str, list[Decision]] = {}
    for line in lines:
        if not line.strip():
            continue
        found = decision_in(line)
        if isinstance(found, str):
            yield found, line.strip()
        else:
            by_domain.setdefault(found.domain, []).append(found)
    for domain, asked in by_domain.items():
        for past in pasts_of(archives, domain):
            for held in by_life(past, asked):
                try:
                    work_out(past, held)
                except (Unknown, Forgotten):
                    for one in held:
                        one.is_known = False
        for one in asked:
            yield "same" if one.is_same else "other" if one.is_known else "unverified", one.line.strip()
