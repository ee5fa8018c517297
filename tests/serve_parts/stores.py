"""Files of stores: those that are none, halves of one, and who may read them."""
import shutil
import sqlite3

from growths import FAILING, compiled
from said import (
    BUSY, FILE_ALONE, LOG_ALONE, NO_DATABASE, NO_FOLDER, NO_LOG, NO_MEMORY, NO_MEMORY_TO_SERVE, OPEN_FILE, SCHEMA,
    UNOPENED, line)
from serving import CREATED

from .shared import (
    ASK, LIST, PERMIT, chance, creates, ends_well, environment, expect, expect_refusal, folder, listing, make_domain,
    names, serving, within, words_to_serve)

PAGE = 4_096  # bytes of a new store's file, which has nothing in it yet
CLOSED_LOG = 41  # bytes: the header of a log, and none of a commit
LOOKED = 40  # allocations of a start, before whose last it has looked at both halves


def no_databases():
    """Files that are no database: status 4, and they are left as they are."""
    # none has the size of a page in its head (SQLite's file format, 1.3.2)
    files = {"text": b"no store\n", "begins": b"SQLite format 3\0" + b"x" * 5_000, "random": chance.randbytes(8_192),
             "short": b"Sx"}
    for name, data in files.items():
        path = folder / f"{name}.db"
        path.write_bytes(data)
        expect_refusal(f"a store: {name}", words_to_serve(path), 4, line(path, NO_DATABASE))
        expect(f"a store is left as it is: {name}", path.read_bytes(), data)
    expect_refusal("a store that is a folder", words_to_serve(folder), 4, line(folder, UNOPENED))
    path = folder / "none/store.db"
    expect_refusal("a store in a folder that isn't there", words_to_serve(path), 4, line(path, NO_FOLDER))


def no_stores():
    """Databases with other tables, and a store that is in use: status 4, and they are left as they are."""
    for name, sql in {"x": "CREATE TABLE meta (x INTEGER) STRICT", "other": "CREATE TABLE roots (x)",
                      "view": "CREATE VIEW meta AS SELECT 1 AS id"}.items():
        path = folder / f"schema-{name}.db"
        with sqlite3.connect(path) as written:
            written.execute(sql)
        written.close()
        expect_refusal(f"a store with other tables: {name}", words_to_serve(path), 4, line(path, SCHEMA))
        again = sqlite3.connect(path)
        expect(f"tables are left as they are: {name}",
               [row[0] for row in again.execute("SELECT sql FROM sqlite_master")], [sql])
        again.close()
    with serving("held.db") as served:
        make_domain(served)
        path = folder / "held.db"
        expect_refusal("a store that another has open", words_to_serve(path), 4, line(path, BUSY))
        expect("the other goes on", served.once(ASK), [PERMIT])


# ---- halves of a store

def sizes(path, log):
    """The bytes of a store's file, and whether its log has a commit."""
    return path.stat().st_size, log.stat().st_size > PAGE


def log_alone(path, log, aside):
    """A log beside no file or an empty one is refused, and left."""
    for what, begin, there in (("isn't there", lambda: None, [log]), ("is empty", path.touch, [path, log])):
        path.rename(aside)
        begin()
        held = log.read_bytes()
        for _ in range(2):
            expect_refusal(f"a log whose file {what}", words_to_serve(path), 4, line(path, LOG_ALONE))
        expect(f"a log whose file {what} is left", log.read_bytes(), held)
        expect(f"a log whose file {what}: the files", sorted(folder.glob("half.db*")), there)
        aside.rename(path)


def file_alone(path, log, aside):
    """A file without tables and without its log is refused, and left."""
    log.rename(aside)
    held = path.read_bytes()
    for _ in range(2):
        expect_refusal("a file without tables whose log isn't there", words_to_serve(path), 4, line(path, FILE_ALONE))
    expect("it is left", path.read_bytes(), held)
    expect("it is left alone", sorted(folder.glob("half.db*")), [path])
    link = folder / "half-link.db"
    link.symlink_to(path)
    expect_refusal("the same by a link", words_to_serve(link), 4, line(link, FILE_ALONE))
    aside.rename(log)


def whole_by_link(path):
    """By a link to a store whose file has nothing yet and whose log has all, the log is found beside the file."""
    link = folder / "whole-link.db"
    link.symlink_to(path)
    with serving("whole-link.db") as served:
        expect("a whole store by a link", (served.listened(), served.listens and served.once(LIST, ASK)),
               (None, [listing(["acme"]), PERMIT]))
    expect("a whole store by a link: no line", served.said, b"")


def without_memory(path, log):
    """With one of the first allocations refused a start takes no half of a store for a whole one, nor a whole one for
    a half: it says so, or does as it does otherwise."""
    library = compiled(FAILING, str(folder / "failing.so"))
    alone, link = folder / "alone.db", folder / "both-link.db"
    link.symlink_to(folder / "both.db")
    for started, wanted in ((link, (0, b"")), (alone, (4, line(alone, FILE_ALONE)))):
        for place in range(1, LOOKED):
            shutil.copy(path, alone)
            shutil.copy(path, folder / "both.db")
            shutil.copy(log, folder / "both.db-wal")
            with serving(started.name, 1, env=environment(LD_PRELOAD=library, REFUSED_ALLOCATION=str(place))) as served:
                if served.listens:
                    served.client().close()
                _, said, status = served.ended()
            within(f"{started.name}, and allocation {place} is refused", (status, said),
                   [wanted, (6, NO_MEMORY), (6, NO_MEMORY_TO_SERVE)])
            alone.with_name("alone.db-wal").unlink(missing_ok=True)
    expect("a file alone is refused by fewer allocations", (status, said), wanted)


def half_stores():
    """A log without its file, and a file without its log: neither is written over, a line says what lies there, and
    with the other half all is there."""
    path, log, aside = folder / "half.db", folder / "half.db-wal", folder / "aside"
    with serving("half.db") as served:
        make_domain(served)
    expect("a new store that was killed has all in its log", sizes(path, log), (PAGE, True))
    log_alone(path, log, aside)
    file_alone(path, log, aside)
    whole_by_link(path)
    without_memory(path, log)
    with serving("half.db", 1) as served:
        expect("with both all is there", served.once(LIST, ASK), [listing(["acme"]), PERMIT])
        ends_well("both halves", served)
    expect("a store that was closed is one file", (path.stat().st_size > PAGE, log.stat().st_size), (True, CLOSED_LOG))


def lost_logs():
    """Files with tables whose log isn't there: closed ones are whole, others are old; a line tells of both,
    since they look alike."""
    path, log, aside = folder / "lost.db", folder / "lost.db-wal", folder / "aside"
    with serving("lost.db", 1) as served:
        make_domain(served)
        ends_well("a store that is closed", served)
    log.unlink()
    with serving("lost.db") as served:
        expect("a closed file alone is whole", served.once(LIST, ASK, creates("late")),
               [listing(["acme"]), PERMIT, CREATED])
    expect("a closed file alone: its line", served.said, line(path, NO_LOG))
    log.rename(aside)
    with serving("lost.db", 1) as served:
        expect("a file alone that wasn't closed is old", names(served), ["acme"])
        expect("a file alone that wasn't closed: its line", served.ended(), (b"", line(path, NO_LOG), 0))
    path.rename(folder / "old.db")
    log.rename(folder / "old.db-wal")
    with serving("lost.db", 1) as served:
        expect("neither is there: a new store", names(served), [])
        ends_well("a new store", served)
    path.unlink()
    with serving("lost.db", 1) as served:
        expect("beside a log without commits: a new store", names(served), [])
        ends_well("beside a log without commits", served)


def mode_of(path):
    return oct(path.stat().st_mode & 0o777)


def modes():
    """Whatever the umask, the files are their owner's alone; of one that was there and others can read a line tells."""
    with serving("modes.db", 1, umask=0o022) as served:
        expect("modes: it serves", names(served), [])
        ends_well("modes", served)
    for path in (folder / "modes.db", folder / "modes.db-wal"):
        expect(f"the mode of {path.name}", mode_of(path), oct(0o600))
    path = folder / "modes.db"
    for open_to, said in ((0o644, line(path, OPEN_FILE)), (0o640, line(path, OPEN_FILE)), (0o620, b""), (0o600, b"")):
        path.chmod(open_to)
        with serving("modes.db", 1, umask=0o022) as served:
            expect(f"a file of mode {open_to:o}", names(served), [])
            expect(f"a file of mode {open_to:o}: its line", served.ended(), (b"", said, 0))
    for name in (":memory:", "file:x.db"):
        expect_refusal(f"a store {name}", words_to_serve(name), 4, line(name, UNOPENED), cwd=folder)
        expect(f"no file {name} is made", (folder / name).exists(), False)
