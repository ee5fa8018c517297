"""The members of etcd, one for each machine: which they are, and how one comes or goes.

A machine that has lost its disk comes as a new member: what it had voted for is lost with it. It has to be taken out
first, while a majority of the others is there.
"""
from __future__ import annotations

import contextlib
import time

from operating.settings import Wrong

from .etcd import Down, Etcd, Open, Refused
from .machines import Machines

# etcd's port for other members is the next one to that for clients
PEER = 1
# for how long etcd is asked again that has a change under way, in seconds
PATIENCE, PAUSE = 30.0, 0.5


def url(machines: Machines, name: str, more: int = 0) -> str:
    """Where the member of a machine takes clients, or other members."""
    host, port = machines[name]
    return f"https://{f'[{host}]' if ':' in host else host}:{port + more}"


def listed(etcd: Etcd) -> list[dict]:
    """The members as etcd has them."""
    return etcd.call("/v3/cluster/member/list", {})["members"]


def is_of(member: dict, machines: Machines, name: str) -> bool:
    """Whether a member is that machine's, by its name, or, if it hasn't begun yet, by its address."""
    return member.get("name") == name or name in machines and url(machines, name, PEER) in member.get("peerURLs", ())


def changed(etcd: Etcd, path: str, what: dict) -> None:
    """Changes the members; an error where etcd takes no change for a while, as without a majority."""
    end = time.monotonic() + PATIENCE
    while True:
        try:
            etcd.call(path, what, True)
            return
        except (Open, Refused) as fault:
            # (it was made, if the one that is asked for isn't found any more)
            if "member not found" in str(fault) or "already exist" in str(fault):
                return
            if time.monotonic() > end:
                raise Wrong(f"etcd doesn't change its members: {fault}") from None
        time.sleep(PAUSE)


def remove(etcd: Etcd, machines: Machines, name: str) -> bool:
    """Takes a machine's member out; whether there was one."""
    found = [member for member in listed(etcd) if is_of(member, machines, name)]
    for member in found:
        changed(etcd, "/v3/cluster/member/remove", {"ID": member["ID"]})
    return bool(found)


def refuse_running(etcd: Etcd, machines: Machines, name: str) -> None:
    """An error where a machine's member answers: it would be taken out, and has what it had voted for."""
    host, port = machines[name]
    for member in etcd.members:
        if (member.host, member.port) == (host, port):
            with contextlib.suppress(Down, Open, Refused):
                etcd.once(member, "/v3/cluster/member/list", b"{}", etcd.seconds)
                raise Wrong(f"etcd of {name} answers: it has lost nothing, or end it first")


def add(etcd: Etcd, machines: Machines, name: str) -> None:
    """Adds a machine's member, which then begins with nothing."""
    changed(etcd, "/v3/cluster/member/add", {"peerURLs": [url(machines, name, PEER)]})
