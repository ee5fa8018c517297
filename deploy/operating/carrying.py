"""Carries a domain's rows from one store's file to another, which no program has open.

usage: carrying.py DOMAIN FROM TO   the files; `pdpd-shards move` runs this as the user whose files they are

The API can't do it: tokens are kept as digests, and no route shows a domain's root. Where it was cut it is gone on
with. Exit status: 0 the domain is in the second file alone, 3 neither has it, 4 both have it, and not the same of it,
5 nothing was changed, for a reason that is written; with any other one the rows may have been copied.
"""
import contextlib
import os
import pathlib
import sqlite3
import stat
import sys

NEITHER, BOTH, NOT_BEGUN = 3, 4, 5
SCHEMA = 2
# The tables of a domain's rows, beside `number`, which each file gives itself (crates/xa_store/README.md).
# `attributes` isn't among them: it is empty in schema 2.
TABLES = {
    "tokens": "digest, role",
    "policies": "kind, id, version, body, active",
    "roots": "kind, id, pattern, earliest, latest",
    "sources": "place, category, entity, attribute, value_type, value, issuer",
}


class NotBegun(Exception):
    """Why nothing was changed, and the exit status that says so."""

    def __init__(self, why, status=NOT_BEGUN):
        super().__init__(why)
        self.status = status


@contextlib.contextmanager
def as_not_begun(what):
    """Where SQLite refuses something here, or a file isn't as a store is, nothing was changed."""
    try:
        yield
    except (sqlite3.Error, TypeError, ValueError) as fault:
        raise NotBegun(f"{what}: {fault}") from None


def refuse_other(path):
    """An error where a store's file, or one beside it, is something else: SQLite would wait for who writes into a pipe,
    while both shards are away."""
    for file in (path, f"{path}-wal", f"{path}-shm"):
        with contextlib.suppress(FileNotFoundError):
            if not stat.S_ISREG(os.lstat(file).st_mode):
                raise NotBegun(f"{file} can't be opened, since it is no file: look who put it there")


@contextlib.contextmanager
def open_store(path):
    """A store's file. All that is written stays in its log, where pdpd gives each page the sum that SQLite doesn't
    know: a second connection, which only reads, is closed last, and can't write the log back."""
    refuse_other(path)
    uri = pathlib.Path(path).as_uri()
    with as_not_begun(f"{path} can't be opened"):
        reader = sqlite3.connect(f"{uri}?mode=ro", uri=True)
        base = sqlite3.connect(f"{uri}?mode=rw", uri=True, isolation_level=None)
    with contextlib.closing(reader), contextlib.closing(base):
        with as_not_begun(f"{path} can't be read"):
            base.execute("PRAGMA foreign_keys = ON")
            base.execute("PRAGMA synchronous = FULL")
            base.execute("PRAGMA wal_autocheckpoint = 0")
            # Debian's SQLite would write zeros over all that goes, for which a full disk has no room
            base.execute("PRAGMA secure_delete = FAST")
            schema = base.execute("SELECT schema_no FROM meta").fetchone()
            reader.execute("SELECT schema_no FROM meta").fetchone()
        if schema != (SCHEMA,):
            raise NotBegun(f"the schema of {path} isn't number {SCHEMA}: this tool isn't of the pdpd that had it "
                           "open last")
        yield base


def domain_number(base, domain):
    """The number under which a file keeps a domain, or None."""
    row = base.execute("SELECT number FROM domains WHERE name = ?", (domain,)).fetchone()
    return row and row[0]


def rows_of(base, domain):
    """All that a file keeps of a domain, but for its number."""
    number = domain_number(base, domain)
    epoch = base.execute("SELECT epoch FROM domains WHERE number = ?", (number,)).fetchone()[0]
    of_table = "SELECT {} FROM {} WHERE number = ?"
    rows = lambda table, columns: base.execute(of_table.format(columns, table), (number,)).fetchall()
    return epoch, {table: rows(table, columns) for table, columns in TABLES.items()}


def put_rows(one, other, domain):
    """Puts all rows of the domain into the other file, under a number that it has never had: the COMMIT is
    still to come."""
    epoch, rows = rows_of(one, domain)
    other.execute("BEGIN IMMEDIATE")
    (new,) = other.execute("SELECT next_number FROM meta").fetchone()
    other.execute("UPDATE meta SET next_number = ?", (new + 1,))
    other.execute("INSERT INTO domains (number, name, epoch) VALUES (?, ?, ?)", (new, domain, epoch))
    for table, columns in TABLES.items():
        marks = ", ".join("?" * (columns.count(",") + 2))
        insert = f"INSERT INTO {table} (number, {columns}) VALUES ({marks})"
        other.executemany(insert, ((new, *row) for row in rows[table]))


def is_same(one, other, domain):
    """Whether both files keep the same of a domain."""
    (epoch, rows), (other_epoch, other_rows) = rows_of(one, domain), rows_of(other, domain)
    in_order = lambda found: {table: sorted(map(repr, held)) for table, held in found.items()}
    return epoch == other_epoch and in_order(rows) == in_order(other_rows)


def carry(source, target, domain):
    """Carries the domain over between the two open files."""
    with as_not_begun(f"{domain} can't be copied"):
        has_source, has_target = (domain_number(base, domain) is not None for base in (source, target))
        if not has_source and not has_target:
            raise NotBegun("neither has it", NEITHER)
        if has_source and has_target and not is_same(source, target, domain):
            raise NotBegun("both have it", BOTH)
        if has_source and not has_target:
            put_rows(source, target, domain)
    if target.in_transaction:
        target.execute("COMMIT")
    # before the map is changed: no shard that it names is beside another one with the domain
    source.execute("DELETE FROM domains WHERE name = ?", (domain,))


def main(domain, one, other):
    try:
        with open_store(one) as source, open_store(other) as target:
            carry(source, target, domain)
    except NotBegun as fault:
        print(fault)
        return fault.status
    except sqlite3.Error as fault:
        print(fault)
        return 1
    return 0


if __name__ == "__main__":
    sys.exit(main(*sys.argv[1:]))
