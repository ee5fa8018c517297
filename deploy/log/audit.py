"""What an archive is asked for: changes, decisions, states and differences."""
from __future__ import annotations

import collections
import contextlib
import hashlib
import itertools
import json
import pathlib
import re
from collections.abc import Iterator
from datetime import datetime, timezone

from .domains import Forgotten
from .history import (
    Change, Key, State, Unknown, ask, key_of_path, key_of_text, messages_again)
from .messages import bytes_of_entry, token_in
from .past import Past, state_before
from .pdpd import Reply
from .replaying import ASKER, OPERATOR, replay


def time_shown(at: float) -> str:
    return datetime.fromtimestamp(at, timezone.utc).isoformat(timespec="milliseconds").replace("+00:00", "Z")


def time_in(text: str) -> float:
    """The seconds since 1970 of a word: a number, or a time as 2026-11-29T15:00:00Z."""
    try:
        return float(text)
    except ValueError:
        pass
    try:
        found = datetime.fromisoformat(text.replace("Z", "+00:00"))
    except ValueError:
        raise Unknown(f"{text!r} is no time: write it as 2026-11-29T15:00:00Z") from None
    return found.replace(tzinfo=found.tzinfo or timezone.utc).timestamp()


def shown_digest(token: str) -> str:
    """How a token is named: by the first digits of the digest that pdpd keeps of it."""
    return hashlib.sha256(token.encode()).hexdigest()[:8]


# ---- changes

def rows_of(body: bytes) -> collections.Counter[str]:
    """The rows of a body that sets them, each as a text."""
    return collections.Counter(json.dumps(row, sort_keys=True) for row in json.loads(body)["Row"])


def rows_changed(before: bytes, after: bytes) -> tuple[int, int]:
    """How many rows went, and how many came."""
    old, new = rows_of(before), rows_of(after)
    return (old - new).total(), (new - old).total()


def key_shown(key: Key) -> str:
    return f"{'policy' if key[0] == 'policy' else 'policy set'} {key[1]} {key[2]}"


def what_of_operator(head: dict, body: bytes) -> str:
    if not head["path"].endswith("/tokens"):
        return "creates the domain" if head["method"] == "PUT" else "removes the domain"
    held = json.loads(body) if body[:1] == b"{" and body != b"{" else {}
    token = held.get("Token")
    name = shown_digest(token) if isinstance(token, str) else "a token that is malformed"
    return f"gives the token {name}, {held.get('Role')}" if head["method"] == "POST" else f"takes the token {name}"


def what_of(change: Change, before: State) -> str:
    """What a change does, in words."""
    head = change.entry.head
    try:
        body = change.body()
    except Forgotten:
        return f"{head['method']} {head['path']} (forgotten)"
    is_made = change.status() in (200, 201)
    if head["who"] == "operator":
        return what_of_operator(head, body)
    parts = head["path"].split("/")
    if parts[-1] == "pip":
        return "sets the rows" + (": {} went, {} came".format(*rows_changed(before.rows, body)) if is_made else "")
    if parts[-1] == "policies" and len(parts) == 5:
        return f"uploads {key_shown(key_of_text(body)) if is_made else 'a document'}"
    if len(parts) == 5:
        return f"sets the root {body.decode(errors='replace')[:200]}"
    try:
        name = key_shown(key_of_path(head["path"]))
    except ValueError:
        name = head["path"]
    return f"{'deletes' if len(parts) == 7 else 'activates' if head['method'] == 'PUT' else 'withdraws'} {name}"


def who_of(change: Change) -> str:
    """Who made a change: the operator, or which administrator's token."""
    if change.entry.head["who"] == "operator":
        return "operator"
    token = token_in([value for name, value in change.entry.head["fields"] if name == "authorization"])
    return f"admin {shown_digest(token)}" if token else "admin"


def reply_shown(change: Change) -> str:
    if not change.reply:
        return "no reply yet"
    if change.is_skipped():
        return "skipped"
    found = re.search(rb'\{"Error":"(\w+)"\}$', change.reply.body)
    return f"{change.status()}{f' {found[1].decode()}' if found else ''}{' (sent again)' if change.is_again() else ''}"


def changes_shown(past: Past, since: float, until: float) -> Iterator[dict]:
    """The changes of a domain, each as when, who, what and the reply."""
    state, changes = past.since(since)
    for change in changes:
        if change.began() > until:
            return
        if change.began() >= since:
            yield {"entry": change.number(), "at": time_shown(change.began()), "who": who_of(change),
                   "what": what_of(change, state), "reply": reply_shown(change)}
        with contextlib.suppress(Forgotten):
            state.take(change)


# ---- decisions

def decide(past: Past, at: float, request: bytes) -> list[tuple[int, Reply]]:
    """The decision at a moment behind each state that the domain may have had then, with the entry after which it had
    it where a change was under way: of the state, made anew, and of the change."""
    domain, (state, under_way) = past.domain, state_before(past, at)
    asked = [ask(domain, ASKER, request)]
    parts = [*state.messages(domain), *asked]
    places = [(0, len(parts) - 1)]
    if under_way:
        parts += [*messages_again(under_way), *asked]
        places.append((under_way.number(), len(parts) - 1))
    replies = list(replay((int(at // 1), part) for part in parts))
    return [(number, replies[place]) for number, place in places]


def decide_by_all(past: Past, at: float, request: bytes) -> list[tuple[int, Reply]]:
    """The same by all messages of the domain up to then, as they were sent. None is held in memory."""
    state_before(past, at)  # (that the archive has it)
    asked: dict[int, int] = {}
    found = [(asked[place], reply) for place, reply in enumerate(replay(all_messages(past, at, request, asked)))
             if place in asked]
    return [(number if place else 0, reply) for place, (number, reply) in enumerate(found)]


def all_messages(past: Past, at: float, request: bytes, asked: dict[int, int]) -> Iterator[tuple[int, bytes]]:
    """All messages of a domain up to a moment, and the asks: behind all of them, and before the change that was under
    way then. `asked` gets their places, each with the entry before it."""
    state, count, last = State(), 0, 0
    until = itertools.takewhile(lambda change: change.began() <= at, past.scanned(0))
    for change in itertools.chain((change for change in until if not change.is_skipped()), [None]):
        parts = []
        if change is None or change.ended() > at:
            parts, which = state.asks(past.domain, [request])
            asked[count + which[0]] = last
        if change:
            parts.append(bytes_of_entry(change.entry.head, change.body(), OPERATOR))
            last = change.number()
            if change.reply:
                state.take(change)
        count += len(parts)
        yield from ((int(at // 1), part) for part in parts)


# ---- states

def file_name(key: Key, taken: set[str]) -> str:
    """A name for the file of a document, which no other has."""
    plain = re.sub(r"[^A-Za-z0-9._-]+", ".", re.sub(r"^(urn:|https?://)", "", key[1])).strip(".-")[:80] or key[0]
    number, found = 1, f"{plain}-{key[2]}.json"
    while found.lower() in taken:
        number += 1
        found = f"{plain}-{key[2]}-{number}.json"
    taken.add(found.lower())
    return found


def files_of(state: State, domain: str) -> dict[str, bytes]:
    """A state as a folder of the desk: active documents, those that aren't in `withdrawn`, rows and domain.json. The
    server that it names isn't there, so that nobody deploys an old state by mistake."""
    taken = {"domain.json", "rows.json"}
    names = {key: file_name(key, taken) for key in sorted(state.documents)}
    found = {name if key in state.active else f"withdrawn/{name}": state.documents[key] for key, name in names.items()}
    held = {"Server": "https://archive.invalid", "Domain": domain, "Root": json.loads(state.root),
            "Documents": [name for key, name in names.items() if key in state.active], "Rows": "rows.json"}
    return {**found, "rows.json": state.rows, "domain.json": (json.dumps(held, indent=1) + "\n").encode()}


def write_state(state: State, domain: str, folder: pathlib.Path) -> list[str]:
    """Writes a state into a folder, which must be empty or not there."""
    if folder.exists() and any(folder.iterdir()):
        raise Unknown(f"{folder} isn't empty: name another folder")
    found = files_of(state, domain)
    for name, data in found.items():
        path = folder / name
        path.parent.mkdir(parents=True, exist_ok=True)
        path.write_bytes(data)
    return sorted(found)


def kept_differences(old: State, new: State) -> Iterator[str]:
    """What differs beside active documents, root and rows, a line each: whether the domain is there, documents that
    aren't active, and tokens."""
    if old.is_there != new.is_there:
        yield "the domain was created" if new.is_there else "the domain was removed"
    for key in sorted(old.documents.keys() | new.documents.keys()):
        was_kept, is_kept = (key in one.documents and key not in one.active for one in (old, new))
        if is_kept and not was_kept:
            yield f"kept       {key_shown(key)}, not active"
        elif was_kept and key not in new.documents:
            yield f"deleted    {key_shown(key)}, which wasn't active"
    for token in sorted(old.tokens.keys() | new.tokens.keys()):
        if old.tokens.get(token) != new.tokens.get(token):
            yield f"token      {shown_digest(token)}: {old.tokens.get(token, 'none')}, then {new.tokens.get(token, 'none')}"
