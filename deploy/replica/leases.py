"""Tells HAProxy until when this machine's replica of a shard may answer, which it compares with its clock for each
message."""
from __future__ import annotations

import pathlib
import re
import socket

# for ever, in milliseconds, and never
FOR_EVER, NEVER = 1 << 52, 0
PATIENCE = 1.0


class Leases:
    """The place of one shard in HAProxy's map: the moment in milliseconds since 1970."""

    def __init__(self, admin: pathlib.Path | None, file: str, shard: int):
        """Where HAProxy takes commands (nowhere: it isn't told), and its map."""
        self.admin, self.file, self.shard = admin, file, shard

    def tell(self, moment: float, is_for_ever: bool = False) -> bool:
        """Lets it answer until that moment, in seconds since 1970; whether HAProxy knows."""
        until = FOR_EVER if is_for_ever else int(moment * 1000) if moment > 0 else NEVER
        return self.admin is None or any(self.said(f"{word} map {self.file} LEASE{self.shard} {until}") == ""
                                         for word in ("set", "add"))

    def are_over(self, seconds: float) -> bool:
        """Whether no HAProxy of before this one answers by what it was told that lasts for so long: a reload leaves it
        what is under way."""
        if self.admin is None:
            return True
        found = re.search(r"(?m)^Uptime_sec: (\d+)$", self.said("show info") or "")
        return bool(found) and int(found[1]) > seconds + 1

    def said(self, command: str) -> str | None:
        """What HAProxy says to a command; None where it isn't there."""
        try:
            return self.asked(command)
        except OSError:
            return None

    def asked(self, command: str, seconds: float = PATIENCE) -> str:
        """The same; an error where it isn't there, or says nothing for so long."""
        with socket.socket(socket.AF_UNIX) as asked:
            asked.settimeout(seconds)
            asked.connect(str(self.admin))
            asked.sendall(f"{command}\n".encode())
            return b"".join(iter(lambda: asked.recv(65_536), b"")).decode(errors="replace").strip()
