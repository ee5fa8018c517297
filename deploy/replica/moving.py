"""A domain is carried to another shard while no change is taken. Entries of that shard's log make what it has; then it
is in both, and each machine leads its messages to the other one; then an entry removes it where it was.

Machines that lead domains otherwise than the log's have no lease once changes are taken again (running.py).
"""
from __future__ import annotations

import pathlib
import secrets
import time
from urllib.parse import quote

from log.archive import segments_in
from log.history import State
from log.messages import kept_token
from log.past import Past
from operating import talk
from operating.settings import Settings, Wrong, alone

from . import core, older
from .etcd import is_value, putting
from .shared_log import SharedLog

JSON = ["content-type", "application/json"]
# how long all machines may take to apply what was appended, and how long an append is tried, in seconds
APPLYING, APPENDING, PAUSE = 120.0, 30.0, 0.1
Message = tuple[dict, bytes]


class Frozen(SharedLog):
    """A log that takes entries though it is frozen, and only while it is, for that reason."""

    def __init__(self, log: SharedLog, shard: int):
        super().__init__(log.etcd, shard, log.name, log.program)
        self.why = self.look().frozen
        if not self.why:
            raise Wrong("changes are taken: pdpd-replicas freeze first")
        if behind := self.behind():
            raise Wrong(f"{', '.join(behind)} hasn't applied all entries yet: pdpd-replicas status")

    def is_open(self) -> dict:
        return is_value(self.frozen, self.why.encode())

    def take_program(self) -> None:
        """Has the log go by what this machine has."""
        if not self.etcd.transaction([self.is_open()], [putting(self.of_program, self.program.encode())])[0]:
            raise Wrong("the log was thawed meanwhile")

    def add(self, messages: list[Message]) -> list[int]:
        """Appends entries, and waits until all machines that are there have applied them; their numbers."""
        appending, left = core.Appending(self, core.CLOCK, lambda look: "", lambda what: None), list(messages)
        numbers: list[int] = []
        while left:
            batch, size = [], 0
            while left and len(batch) < core.MOST_CHANGES:
                change = core.Change(*left[0], core.CLOCK.monotonic() + APPENDING)
                size += change.size()
                if batch and size > core.MOST_BYTES:
                    break
                batch.append(change)
                left.pop(0)
            appending.append(batch)
            if lacking := [one for one in batch if not one.number]:
                raise Wrong(f"{len(lacking) + len(left)} entries weren't appended, or nobody knows: pdpd-replicas "
                            "status")
            numbers += [one.number for one in batch]
        end = time.monotonic() + APPLYING
        while (behind := self.behind()) and time.monotonic() < end:
            time.sleep(PAUSE)
        if behind:
            raise Wrong(f"{', '.join(behind)} hasn't applied what was appended: wait, and go on by the next command")
        return numbers


def operators(domain: str, method: str, what: str = "", body: bytes = b"") -> Message:
    path = f"/operator/domains/{domain}{what}"
    return {"domain": domain, "who": "operator", "method": method, "path": path, "fields": [JSON] * bool(body)}, body


def token(domain: str, method: str, held: str, more: str = "") -> Message:
    """A token's digest is put, with a role behind it, or taken away."""
    return operators(domain, method, "/tokens", f'{{{more}"Token":"{held}"}}'.encode())


def messages_of(state: State, domain: str) -> list[Message]:
    """The entries that make what a domain has. Its documents come by a token of an administrator: one of its own, or
    one that is taken away at the end."""
    own = next((held for held, role in state.tokens.items() if role == "admin"), None)
    admin = own or kept_token(secrets.token_hex(16))
    found = [operators(domain, "PUT")]
    found += [token(domain, "POST", held, f'"Role":"{role}",')
              for held, role in {**state.tokens, admin: "admin"}.items()]
    shown = ["authorization", f"Bearer {admin}"]

    def by_admin(method: str, what: str, body: bytes = b"") -> Message:
        head = {"domain": domain, "who": "admin", "method": method, "path": f"/domains/{domain}/{what}"}
        return {**head, "fields": [shown, *([JSON] if body else [])]}, body
    found += [by_admin("POST", "pap/policies", text) for text in state.documents.values()]
    found += [by_admin("PUT", f"pap/{kind}/{quote(name, safe='')}/{version}/active")
              for kind, name, version in sorted(state.active)]
    found += [by_admin("PUT", "pap/root", state.root), by_admin("PUT", "pip", state.rows)]
    return found if own else [*found, token(domain, "DELETE", admin)]


def state_in(settings: Settings, shard: int, domain: str) -> State:
    """What a domain has that is there, by this machine's archive; of one that is older than the log, by that of before
    it, too."""
    segments = segments_in([pathlib.Path(settings.archives) / str(shard)])
    past = Past(segments, domain) if segments else None
    state = past.since(time.time())[0] if past else State()
    if state.is_there and state.is_known:
        return state
    state = older.state_of(settings, shard, domain, past)
    older.refuse_other(settings, shard, domain, messages_of(state, domain))
    return state


def move(settings: Settings, logs: list[SharedLog], domain: str, one: int, other: int) -> None:
    """Makes in a shard what a domain has in another one; it is in both then."""
    if one == other:
        raise Wrong("name two shards")
    source, target = Frozen(logs[one], one), Frozen(logs[other], other)
    if domain not in talk.domains_of(settings, one):
        raise Wrong(f"shard {one} has no domain {domain!r}")
    if domain in talk.domains_of(settings, other):
        raise Wrong(f"shard {other} has a domain {domain!r} already: pdpd-replicas unmake {domain} {other}")
    state = state_in(settings, one, domain)
    target.add(messages_of(state, domain))
    if domain not in talk.domains_of(settings, other) or state_in(settings, other, domain) != state:
        raise Wrong(f"shard {other} hasn't taken all of it: pdpd-replicas unmake {domain} {other}")
    if source.look().frozen != source.why:
        raise Wrong(f"shard {one} was thawed meanwhile: pdpd-replicas unmake {domain} {other}")


def lead(settings: Settings, logs: list[SharedLog], domain: str, shard: int) -> None:
    """Has this machine lead a domain's messages to a shard, which has it."""
    Frozen(logs[shard], shard)
    if domain not in talk.domains_of(settings, shard):
        raise Wrong(f"shard {shard} has no domain {domain!r} here")
    with alone():
        is_own = talk.place(settings, {}, domain) == shard
        talk.set_in_map(settings, {domain: None if is_own else shard})


def unmake(settings: Settings, logs: list[SharedLog], domain: str, shard: int) -> None:
    """Removes a domain in a shard to which no machine leads its messages any more."""
    if talk.place(settings, talk.map_in_file(settings), domain) == shard:
        raise Wrong(f"this machine leads {domain} there: pdpd-replicas lead first")
    log = Frozen(logs[shard], shard)
    others = log.others()
    if missing := sorted(settings.machines.keys() - others.keys()):
        raise Wrong(f"{', '.join(missing)} isn't there, and may lead {domain} there still")
    if wrong := sorted(name for name, told in others.items() if told["program"] != log.program):
        raise Wrong(f"{', '.join(wrong)} leads domains otherwise than this machine: pdpd-replicas lead there")
    log.take_program()
    log.add([operators(domain, "DELETE")])
