"""What the tools of several machines do as root, without any daemon: whose a shard is that is put in place, what they
write, what they take of a store, and which words are theirs."""
import contextlib
import io
import os
import sqlite3
from types import SimpleNamespace
from unittest import mock

from audit_parts.shared import expect, folder
from operating.settings import Wrong
from replica import cli, copying, member, rows, shared_log

OWNER = SimpleNamespace(pw_uid=7, pw_gid=8)


class Supervisor:
    """What it was told."""

    def __init__(self):
        self.told = []

    def __getattr__(self, word):
        return lambda *given: self.told.append((word, *given))


def shard_at(place):
    """The folders of a shard, and those that come in their places, with a file each."""
    folders = {kind: place / kind for kind in copying.OWNERS}
    coming = {kind: place / f"{kind}.coming" for kind in folders}
    for kind in folders:
        folders[kind].mkdir(parents=True)
        (folders[kind] / "old").touch()
        (coming[kind] / "domains").mkdir(parents=True)
        (coming[kind] / "domains" / "new").touch()
    return folders, coming


def put(place, forget):
    """What the supervisor was told, whose things became in which order, and what is in place then."""
    by, given = Supervisor(), []
    folders, coming = shard_at(place)
    log = SimpleNamespace(take_back=lambda: by.told.append(("take_back",)))
    with mock.patch.object(copying.supervisor, "of", lambda settings: by), \
            mock.patch.object(copying, "forget_lease", forget), \
            mock.patch.object(copying.pwd, "getpwnam", lambda name: OWNER), \
            mock.patch.object(copying.os, "chown", lambda path, *_, **how: given.append((path, how))), \
            mock.patch.object(copying.listener, "wait_for_own", lambda *_: None), contextlib.suppress(Wrong):
        copying.put(None, 3, folders, coming, log)
    return by.told, given, sorted(path.name for kind in folders for path in folders[kind].iterdir())


def put_in_place():
    """A folder that is given to a user is given last, behind all that is in it, and no link is followed. Where nothing
    was replaced yet the shard is started again."""
    stops, starts = [("stop_replica", 3), ("stop", 3)], ("start", 3)
    told, given, there = put(folder / "in-place", lambda *_: None)
    expect("what is done", (told, there), ([*stops, ("take_back",), starts], ["domains"] * 2))
    paths = [path for path, _ in given]
    expect("all of it is given", sorted(path.name for path in paths), sorted(
        [f"{kind}.coming" for kind in copying.OWNERS] + ["domains", "new"] * 2))
    above = [path for at, path in enumerate(paths) if path.name.endswith(".coming")
             and any(path in later.parents for later in paths[at:])]
    expect("what is given before what is in it", above, [])
    expect("links", {how["follow_symlinks"] for _, how in given}, {False})

    def refuse(*_):
        raise Wrong("shard 3 doesn't answer")
    expect("where it isn't begun", put(folder / "not-begun", refuse), ([*stops, starts], [], ["old"] * 2))


def environment():
    """The file of etcd's settings, which root's shell reads, is nobody else's to change, however root's umask is."""
    path, settings = folder / "etcd-environment", SimpleNamespace(etcd_certificates=folder)
    before = os.umask(0)
    try:
        with mock.patch.object(member, "ENVIRONMENT", path), \
                mock.patch.object(member, "lines", lambda *_: 'ETCD_NAME="a"\n'), \
                mock.patch.object(member.certificates, "close", lambda _: None), \
                mock.patch.object(member.supervisor, "of", lambda _: Supervisor()):
            member.write(settings, "new")
        with contextlib.redirect_stdout(io.StringIO()):
            cli.main(["--help"])
        masked = os.umask(0)
    finally:
        os.umask(before)
    expect("its mode", (f"{path.stat().st_mode & 0o777:o}", path.read_text()), ("644", 'ETCD_NAME="a"\n'))
    expect("what others may not do with what else is made", masked & 0o022, 0o022)


def words():
    """Words that are none are told so, and nothing is done."""
    for given in (["etcd", "--joins"], ["status", "json"], ["thaw", "it"], ["skip", "1"], ["freeze"], ["rest"]):
        said = io.StringIO()
        with contextlib.redirect_stdout(said), mock.patch.object(cli, "read", lambda: 1 / 0):
            expect(" ".join(given), (cli.main(given), said.getvalue() == cli.__doc__), (2, True))


def odd_names():
    """What a store's user has named so that it would be more than a name stands in no text of SQL."""
    for number, (what, refused) in enumerate((("roots (number, kind)", False), ('"roots, roots" (number)', True),
                                              ('roots (number, "kind, count(*)")', True))):
        place = folder / f"odd-names-{number}"
        place.mkdir()
        with contextlib.closing(sqlite3.connect(place / "pdpd.db")) as base:
            base.executescript("CREATE TABLE meta (schema_no); CREATE TABLE domains (number, name);"
                               f"CREATE TABLE {what}; INSERT INTO domains VALUES (1, 'acme')")
        try:
            found = len(rows.digest_of(place))
        except shared_log.Wrong as fault:
            found = str(fault)
        expect(what, "look who has written it" in found if refused else found, refused or 64)


PARTS = (put_in_place, environment, words, odd_names)
