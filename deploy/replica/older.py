"""What a domain has that is older than the log: by the archive that its machine had while it was alone, and by the
log's changes since.

That archive needn't have all that was done to the store: a backup is put back, and a domain moved, past it. So a pdpd
over an empty file is sent what makes a domain as the archives say, and has to keep the same rows of it as the shard.
"""
from __future__ import annotations

import os
import pathlib
import secrets
import sqlite3
import tempfile
import time
from collections.abc import Iterable

from log.archive import segments_in
from log.history import State, Unknown
from log.messages import bytes_of_entry
from log.past import Past
from log.pdpd import Lost, NotSent, replies
from operating import carrying, trial
from operating.owned import Folder, owner_of
from operating.settings import Settings, Wrong, alone

from . import copying
from .beginning import aside_of

# how long the program may take for one message, in seconds
LONGEST = 60.0


def state_of(settings: Settings, shard: int, domain: str, since: Past | None) -> State:
    """What the archives say, of which `since` is the log's."""
    aside = aside_of(pathlib.Path(settings.archives) / str(shard))
    segments = segments_in([aside]) if aside.is_dir() else []
    if not segments:
        raise Unknown(f"the domain {domain!r} is older than the log: give this on the machine that had it then, which "
                      f"has {aside}")
    state, _ = Past(segments, domain).since(time.time())
    state.take_all(since.changes() if since else ())
    state.refuse_unknown(domain)
    return state


def refuse_other(settings: Settings, shard: int, domain: str, messages: Iterable[tuple[dict, bytes]]) -> None:
    """An error where a shard's store has something else of a domain than these messages make."""
    with tempfile.TemporaryDirectory(dir=settings.data, prefix="rows-") as made:
        copying.copy_store(settings, shard, pathlib.Path(made))
        kept = rows_of(pathlib.Path(made), domain)
    with tempfile.TemporaryDirectory(dir=settings.data, prefix="rows-") as made:
        os.chmod(made, 0o711)  # (the shards' user comes through)
        if made_rows(settings, shard, domain, messages, pathlib.Path(made)) != kept:
            raise Unknown(f"the domain {domain!r} is older than the log, and something was done to it that isn't in "
                          f"{aside_of(pathlib.Path(settings.archives) / str(shard))}")


def made_rows(settings: Settings, shard: int, domain: str, messages: Iterable[tuple[dict, bytes]],
              above: pathlib.Path) -> dict:
    """What a program keeps of a domain that is sent these messages over an empty file."""
    user, token = owner_of(settings.folder(shard)), secrets.token_hex(16)
    with Folder(above) as outer:
        with outer.new_folder("made") as made:
            made.write("token", f"{token}\n", user)
            os.fchown(made.fd, *user)
        with alone(), trial.socket_folder(user) as path, trial.serve(settings, above / "made", path, user):
            try:
                for head, body in messages:
                    replies(f"unix:{path}", bytes_of_entry(head, body, token, is_last=True), 1, LONGEST, user.uid)
            except (NotSent, Lost) as fault:
                raise Wrong(f"a pdpd over an empty file doesn't answer: {fault}") from None
        with Folder("made", outer) as made, outer.new_folder("copied") as copied:
            trial.copy_files(made, copied)
    return rows_of(above / "copied", domain)


def rows_of(folder: pathlib.Path, domain: str) -> dict:
    """What a copy of a store has of a domain, whatever its number and its epoch are."""
    base = sqlite3.connect(folder / "pdpd.db")
    try:
        if carrying.domain_number(base, domain) is None:
            return {}
        return {table: sorted(map(repr, rows)) for table, rows in carrying.rows_of(base, domain)[1].items()}
    finally:
        base.close()
