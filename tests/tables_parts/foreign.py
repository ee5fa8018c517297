"""Stores of schema 2 that sqlite3 wrote, in some ways: they open here, answer, and are changed."""
from changing import all_rows, issued_rows, random_message
from kept import MAKING, opened, schema_numbered, schema_of, write

from .shared import (
    creates, expect, expect_replies, expect_rows, filled_model, folder, puts_rows, readings, said_of, serving, to_acme)


def journals():
    """Files whose log sqlite3 kept in either way."""
    for journal in ("DELETE", "WAL"):
        path, model = folder / f"foreign-{journal}.db", filled_model()
        write(path, model.rows(), journal=journal)
        with serving(path) as served:
            expect(f"{journal}: the store opens", served.listened(), None)
            expect_replies(f"{journal}: as written", served, model, readings())
            expect_replies(f"{journal}: and changed", served, model,
                           [*(random_message() for _ in range(60)), *readings()])
        expect(f"{journal}: what is said", served.said, said_of(path, journal))
        expect_rows(f"{journal}: after changes", path, model)


def sparse():
    """Rowids with gaps and negative ones, a store over quota, and the greatest numbers."""
    path, model = folder / "sparse.db", filled_model()
    write(path, model.rows())
    db = opened(path)
    db.execute("UPDATE sources SET rowid = rowid * 1000 - 20000")
    db.execute("UPDATE tokens SET rowid = rowid + 9000000000000000000")
    db.execute("UPDATE meta SET next_number = 9223372036854775807")
    db.execute("UPDATE domains SET epoch = 9223372036854775807")
    db.executemany("INSERT INTO tokens VALUES (1, ?, 0)", [(bytes([place]) * 32,) for place in range(40)])
    db.close()
    with serving(path) as served:
        expect("sparse: the store opens", served.listened(), None)
        expect_replies("sparse", served, model, readings())
        no_more = served.once(creates("third"), to_acme("PUT", "/pap/root", "{}"))
        expect("the greatest numbers aren't raised", [held[:12] for held in no_more], [b"HTTP/1.1 503"] * 2)
        expect_replies("sparse, after 503", served, model, readings())


def short():
    """Rows of sources that lack their last column, as another program leaves them that adds it to the table: they read
    as rows without an issuer."""
    path, model = folder / "short.db", filled_model(all_rows)
    rows, making = model.rows(), [statement.replace("issuer TEXT, ", "") for statement in MAKING]
    write(path, {**rows, "sources": [row[:-1] for row in rows["sources"]]}, making)
    db = opened(path)
    db.execute("ALTER TABLE sources ADD COLUMN issuer TEXT")
    expect("short rows: schema 2", schema_of(db), schema_numbered(2))
    db.close()
    with serving(path) as served:
        expect_replies("short rows", served, model, readings())
    expect("short rows: nothing is said", served.said, b"")
    expect_rows("short rows: after opening", path, model)
    with serving(path) as served:
        expect_replies("short rows: and changed", served, model,
                       [puts_rows(issued_rows()), *(random_message() for _ in range(60)), *readings()])
    expect_rows("short rows: after changes", path, model)
