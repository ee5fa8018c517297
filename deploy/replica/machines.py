"""The machines of an installation, as the setting REPLICAS names them: NAME=ADDRESS, with blanks between."""
from __future__ import annotations

import re
import socket

# etcd's port for clients
PORT = 2379
Machines = dict[str, tuple[str, int]]


def machines_in(text: str) -> Machines:
    """The machines that NAME=HOST[:PORT] names, with commas or blanks between; an error where it names none."""
    found: Machines = {}
    for word in re.split(r"[, ]+", text.strip()):
        match = re.fullmatch(r"([a-z0-9][a-z0-9-]{0,31})=([0-9A-Za-z.-]+|\[[0-9a-f:.]+\])(?::(\d{1,5}))?", word)
        if not match or match[1] in found:
            raise ValueError(f"{word!r} names no machine as NAME=ADDRESS does, or one twice")
        found[match[1]] = match[2].strip("[]"), int(match[3] or PORT)
    return found


def refuse_elsewhere(name: str, host: str) -> None:
    """An error where an address isn't one of this machine: it would go by the name of another one."""
    try:
        family, *_, place = socket.getaddrinfo(host, 0, type=socket.SOCK_STREAM)[0]
        with socket.socket(family) as tried:
            tried.bind(place)
    except OSError as fault:
        raise ValueError(f"SELF is {name}, whose address {host} isn't one of this machine ({fault.strerror})") from None


def is_here(host: str) -> bool:
    """Whether an address is of the machine itself."""
    return host in ("localhost", "::1") or re.fullmatch(r"127(\.\d{1,3}){3}", host) is not None
