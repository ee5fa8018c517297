"""Takes an entry out that no pdpd ever answers: it stays in the log and in the archives, is applied by no replica, and
its reply is 503. First no replica may send it any more, and all of them have to say so; only then it is skipped."""
from __future__ import annotations

import secrets
import time
from collections.abc import Set

from .etcd import deleting, is_absent, is_value, putting
from .shared_log import SKIPPED, SharedLog, Wrong

# how long all replicas are waited for: a message to a pdpd may take a minute until it is given up
PATIENCE, PAUSE = 90.0, 0.1


def refuse(log: SharedLog, number: int, machines: Set[str]) -> None:
    """An error where an entry can't be skipped, since the log isn't frozen, or a replica isn't just before it."""
    look, others = log.look(), log.others()
    if not look.frozen:
        raise Wrong("changes are taken: pdpd-replicas freeze first")
    if not 0 < number <= look.head.number:
        raise Wrong(f"the log has the entries 1 to {look.head.number}")
    if missing := sorted(machines - others.keys()):
        raise Wrong(f"{', '.join(missing)} isn't there: nobody knows whether it has applied the entry")
    for name, told in others.items():
        if told["position"] >= number:
            raise Wrong(f"{name} has applied entry {number}: it stays")
        if told["position"] < number - 1:
            raise Wrong(f"{name} is at entry {told['position']} yet")


def stand(log: SharedLog, number: int, question: str, machines: Set[str]) -> list[str]:
    """Waits until all replicas have said that they don't send an entry; those that haven't. One that isn't there may
    have sent it before it went."""
    end, lacking = time.monotonic() + PATIENCE, ["?"]
    while lacking and time.monotonic() < end:
        others = log.others()
        if has := [name for name, told in others.items() if told["position"] >= number]:
            raise Wrong(f"{', '.join(has)} has applied entry {number} now: it stays")
        if lacking := sorted(name for name in machines | others.keys()
                             if others.get(name, {}).get("stands") != question):
            time.sleep(PAUSE)
    return lacking


def skip(log: SharedLog, number: int, machines: Set[str]) -> None:
    """Skips an entry; an error where some replica has applied it, or may send it still."""
    refuse(log, number, machines)
    question, key = secrets.token_hex(8), log.skip_key(number)
    asked = f"asked {question}".encode()
    lease = log.etcd.grant(int(PATIENCE) + 30)
    if not log.etcd.transaction([is_absent(key)], [putting(key, asked, lease)])[0]:
        raise Wrong(f"entry {number} is skipped already, or somebody else asks for it")
    is_done = False
    try:
        if lacking := stand(log, number, question, machines):
            raise Wrong(f"{', '.join(lacking)} may send entry {number} still")
        refuse(log, number, machines)
        is_done = log.etcd.transaction([is_value(key, asked)], [putting(key, SKIPPED.encode())])[0]
        if not is_done:
            raise Wrong(f"somebody else has decided on entry {number}: pdpd-replicas status")
    finally:
        if not is_done:
            log.etcd.transaction([is_value(key, asked)], [deleting(key)])
