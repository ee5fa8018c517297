"""Files of schema 1, which are brought over into schema 2."""
import pathlib

from changing import all_rows, issued_rows, random_message
from kept import (
    FIRST_MAKING, FIRST_TABLES, Model, as_first, as_second, opened, rows_in, schema_numbered, schema_of, write)
from serving import OPERATOR

from .shared import (
    LIST, creates, expect, expect_replies, expect_rows, filled_model, folder, puts_rows, readings,
    said_of, serving)

KEPT = pathlib.Path(__file__).resolve().parent.parent / "schema-1.sql"


def bytes_of(path):
    """What is in the file, and in its log."""
    return [each.read_bytes() if each.exists() else None for each in (path, path.with_name(path.name + "-wal"))]


def opens_as_second(what, path, model, changes, said=b""):
    """That the file of schema 1, which holds what the model does, is served, and holds it as schema 2 does; that it
    is served again, and then not a byte of it changes."""
    db = opened(path)
    before = rows_in(db, FIRST_TABLES)
    expect(f"{what}: schema 1", schema_of(db), schema_numbered(1))
    expect(f"{what}: the rows before", before, as_first(model.rows()))
    db.close()
    with serving(path) as served:
        expect(f"{what}: the store opens", served.listened(), None)
        expect_replies(what, served, model, readings())
    expect(f"{what}: what is said", served.said, said)
    held = bytes_of(path)
    with serving(path) as served:
        expect_replies(f"{what}: once more", served, model, readings())
    expect(f"{what}: the bytes of the two files after a second opening", bytes_of(path), held)
    expect_rows(f"{what}: after opening", path, model)
    expect(f"{what}: the rows that are moved", model.rows(), as_second(before))
    with serving(path) as served:
        expect_replies(f"{what}: and changed", served, model,
                       [*changes, *(random_message() for _ in range(60)), *readings()])
    expect_rows(f"{what}: after changes", path, model)


def first_schema():
    """Files of schema 1: those that sqlite3 wrote, in some ways, and one that is kept as SQL."""
    issued = puts_rows(issued_rows())
    for journal in ("DELETE", "WAL"):
        path, model = folder / f"first-{journal}.db", filled_model(all_rows)
        write(path, as_first(model.rows()), FIRST_MAKING, journal)
        opens_as_second(f"schema 1, {journal}", path, model, [issued], said_of(path, journal))
    path, model = folder / "first-kept.db", filled_model(all_rows)
    db = opened(path)
    db.executescript(KEPT.read_text())
    db.close()
    opens_as_second("schema 1, as it is kept", path, model, [issued])


def first_without_domains():
    """Schema 1 without a domain."""
    path, model = folder / "first-empty.db", Model(OPERATOR)
    write(path, as_first(model.rows()), FIRST_MAKING)
    with serving(path) as served:
        expect_replies("schema 1, no domains", served, model, [LIST, creates("acme")])
    expect_rows("schema 1, no domains", path, model)


def first_in_another_order():
    """Schema 1 with rows whose rowids have gaps and stand in another order than their places: all rows go over."""
    path, model = folder / "first-order.db", filled_model(all_rows)
    write(path, as_first(model.rows()), FIRST_MAKING)
    db = opened(path)
    db.execute("UPDATE attributes SET rowid = 100000 - 7 * rowid")
    db.close()
    with serving(path) as served:
        expect_replies("schema 1 in another order", served, model, [*readings(), creates("third")])
    expect_rows("schema 1 in another order", path, model)
