"""Sums on the pages of a store's file: what they tell of damage between two runs, and what other programs do to
them."""
import collections
import contextlib
import os
import shutil
import sqlite3

from flips import Flips
from kept import Model, opened
from said import CORRUPT, NO_LOG, line
from serving import OPERATOR, making, message, policy

from .refused import expect_lines
from .shared import (
    LIST, PROGRAM, creates, expect, expect_replies, expect_rows, folder, serving, to_acme)

RESERVED_AT, OF_SUMS = 20, 8  # where a file's head says how many bytes a page keeps free (SQLite's file format, 1.3)
FLIPS = 40


def has_sums(path):
    return path.read_bytes()[RESERVED_AT] == OF_SUMS


def closed_store(path, model, messages, sums=None):
    """Makes a store of what these messages keep, and closes it; with that setting, or none."""
    env = {**os.environ, **({} if sums is None else {"PDPD_SUMS": sums})}
    with serving(path, 1, env=env) as served:
        expect_replies(f"{path.name}: made", served, model, messages)
        expect(f"{path.name}: it ends", served.ended(), (b"", b"", 0))


@contextlib.contextmanager
def leaving_log(path):
    """A connection of sqlite3 that leaves in the log all that it writes: a second one that only reads is closed last,
    and can't write it back."""
    db = opened(path)
    db.execute("PRAGMA wal_autocheckpoint = 0")
    with contextlib.closing(sqlite3.connect(f"file:{path}?mode=ro", uri=True)) as reader:
        reader.execute("SELECT * FROM meta").fetchall()
        with contextlib.closing(db):
            yield db


def flipped():
    """One flipped bit of a stopped store's file, wherever it is: the file is refused. Without sums some are served."""
    for sums, fewest in (("1", FLIPS), ("0", 1)):
        beside = folder / f"flips-{sums}"
        beside.mkdir()
        os.environ["PDPD_SUMS"] = sums
        try:
            flips = Flips(PROGRAM, beside)
            found = collections.Counter(flips.flipped(bit)[0] for bit in flips.some_bits(FLIPS))
        finally:
            del os.environ["PDPD_SUMS"]
        expect(f"flipped bits, sums {sums}: how many are refused", found["refused"] >= fewest, True)
        expect(f"flipped bits, sums {sums}: none is served", found["refused"] == FLIPS, sums == "1")


def as_asked():
    """A new file has sums unless PDPD_SUMS is 0, and keeps what it has, whatever is set when it is opened again."""
    for sums, has in ((None, True), ("1", True), ("0", False)):
        path, model = folder / f"sums-{sums}.db", Model(OPERATOR)
        closed_store(path, model, [creates("acme"), LIST], sums)
        expect(f"PDPD_SUMS {sums}: whether it has sums", has_sums(path), has)
        closed_store(path, model, [creates("beta"), LIST], "0" if has else "1")
        expect(f"PDPD_SUMS {sums}: whether it has them still", has_sums(path), has)
        expect_rows(f"PDPD_SUMS {sums}", path, model)


def spoiled():
    """A program that knows nothing of sums writes the file, and writes its log back: the file is refused, as it is,
    until the copy from before is put back. If its log is left, all is well."""
    path, model = folder / "spoiled.db", Model(OPERATOR)
    closed_store(path, model, [held for held, _ in making("acme", "acme-token-1")])
    held = folder / "held.db"
    shutil.copyfile(path, held)
    write = "UPDATE domains SET epoch = epoch + 1"
    db = opened(path)
    db.execute(write)
    db.close()
    # sqlite3 has closed the file, which takes its log away
    expect_lines("spoiled sums", path, line(path, NO_LOG) + line(path, CORRUPT))
    for ending in ("-wal", "-shm"):
        path.with_name(path.name + ending).unlink(missing_ok=True)
    shutil.copyfile(held, path)
    with leaving_log(path) as db:
        db.execute(write)
    number, epoch = model.numbers["acme"]
    model.numbers["acme"] = number, epoch + 1
    closed_store(path, model, [LIST, to_acme("GET", "/pap/policies"), creates("beta")])
    expect("a log that was left: it has sums", has_sums(path), True)
    expect_rows("a log that was left", path, model)


def vacuumed():
    """What was removed stays in the file until it is written over. sqlite3's VACUUM of a closed store, which leaves
    its log, drops it once the program has closed the store again; its sums are right."""
    path, model, secret = folder / "vacuum.db", Model(OPERATOR), "a description that nobody else has"
    closed_store(path, model, [
        *(held for held, _ in making("acme", "acme-token-1")),
        *(held for held, _ in making("gone", "gone-token-1", policy(description=secret * 300))),
        message("DELETE", "/operator/domains/gone", OPERATOR)])
    expect("vacuum: what was removed is there", secret.encode() in path.read_bytes(), True)
    with leaving_log(path) as db:
        db.execute("VACUUM")
    closed_store(path, model, [LIST, to_acme("GET", "/pap/policies"), creates("third")])
    expect("vacuum: it is there no more", secret.encode() in path.read_bytes(), False)
    expect("vacuum: it has sums", has_sums(path), True)
    closed_store(path, model, [LIST])
    expect_rows("vacuum", path, model)
