"""Connections to pdpd's address for changes whose other end has gone: a message may still be under way on one, though
nobody waits for its reply.

pdpd takes connections there one by one, as they come, so what is sent later is made behind it. Who says that a message
is never made looks here before.
"""
from __future__ import annotations

from operating.unix_sockets import LISTENS, NOBODY, of_program


def is_any_left(address: str, user: int | None = None) -> bool:
    """Whether there is one at the address unix:PATH of whatever takes connections there as that user, or as any; or one
    that waits to be taken, of which the kernel doesn't tell whether its other end is there."""
    return any(one.waiting if one.state == LISTENS else one.other_end == NOBODY
               for one in of_program(address.removeprefix("unix:"), user))
