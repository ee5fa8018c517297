"""Files that are refused: status 4, and they are left as they are."""
import subprocess

from changing import all_rows
from damages import (
    DAMAGED_BESIDE, DAMAGES, FIRST_DAMAGES, FIRST_FOREIGN, FIRST_SCHEMAS, FOREIGN, FURTHER, SCHEMAS)
from kept import FIRST_MAKING, MAKING, as_first, opened, write
from said import MADE_OTHERWISE, NO_DATABASE, ROW, SCHEMA, foreign_lines, line

from .shared import PROGRAM, TOKEN_FILE, expect, filled_model, folder, serving


def dump(path):
    db = opened(path)
    db.text_factory = bytes
    found = list(db.execute("SELECT * FROM sqlite_master ORDER BY rowid"))
    quoted = lambda name: '"' + name.decode().replace('"', '""') + '"'
    rows = {name: list(db.execute(f"SELECT rowid, * FROM {quoted(name)} ORDER BY rowid"))
            for kind, name, *_ in found if kind == b"table" and name != b"odd"}
    db.close()
    return found, rows


def expect_lines(what, path, lines):
    """That the program ends with status 4 and those lines, and leaves the tables as they are."""
    before = dump(path)
    ran = subprocess.run([PROGRAM, "serve", str(path), "192.0.2.1:1", TOKEN_FILE, "1"], stdin=subprocess.DEVNULL,
                         capture_output=True, timeout=20)
    expect(what, (ran.stdout, ran.stderr, ran.returncode), (b"", lines, 4))
    expect(f"{what}: the tables are as they were", dump(path), before)


def expect_refusal(what, path, said):
    """That the program ends with status 4 and that line alone, and leaves the tables as they are."""
    expect_lines(what, path, line(path, said))


def written(rows, making, sql):
    """A file with a store of these rows, over which that SQL was run."""
    path = folder / "damaged.db"
    for ending in ("", "-wal", "-shm"):
        (folder / f"damaged.db{ending}").unlink(missing_ok=True)
    write(path, rows, making)
    run(path, sql)
    return path


def run(path, sql):
    db = opened(path)
    db.executescript(sql)
    db.close()


def each_refused(rows, making, damages, said):
    """That a store of these rows is refused with each of the damages, and left as it is."""
    for what, sql in damages.items():
        expect_refusal(what, written(rows, making, sql), said)


def damaged():
    """A store in which one row is damaged, or whose tables are of another schema. Without the damage it opens."""
    rows = filled_model().rows()
    each_refused(rows, MAKING, DAMAGES, ROW)
    each_refused(rows, MAKING, SCHEMAS, SCHEMA)
    first = as_first(filled_model(all_rows).rows())
    each_refused(first, FIRST_MAKING, FIRST_DAMAGES, ROW)
    each_refused(first, FIRST_MAKING, FIRST_SCHEMAS, SCHEMA)


def foreign():
    """A store beside whose tables stands something else: it is named by the statements that drop it, damage or not,
    and the store is left as it is. Without it the store opens."""
    model = filled_model()
    for making, rows, all_of_them in ((MAKING, model.rows(), FOREIGN),
                                      (FIRST_MAKING, as_first(filled_model(all_rows).rows()), FIRST_FOREIGN)):
        for what, (sql, drops) in all_of_them.items():
            path = written(rows, making, sql)
            expect_lines(what, path, foreign_lines(path, drops))
            run(path, drops)
            with serving(path) as served:
                expect(f"{what}: without it the store opens", served.listened(), None)
    for what, sql in DAMAGED_BESIDE.items():
        path = written(model.rows(), MAKING, f"{FURTHER}; {sql}")
        expect_lines(f"{what} beside a further table", path, foreign_lines(path, 'DROP TABLE "other";'))


def of_another():
    """A file that has another table and none of the program's: it is refused, and nothing is made in it."""
    path = folder / "beside.db"
    run(path, FURTHER)
    expect_refusal("another table alone", path, SCHEMA)


def made_otherwise():
    """Tables that were made in another order, which no statement mends."""
    path, model = folder / "order.db", filled_model()
    write(path, model.rows(), making=[MAKING[1], MAKING[0], *reversed(MAKING[2:])])
    expect_refusal("tables made in another order", path, MADE_OTHERWISE)


def orphans():
    """Rows of a domain that isn't there: the file doesn't hold what its own schema says."""
    path = folder / "orphans.db"
    write(path, filled_model().rows())
    db = opened(path)
    db.execute("PRAGMA foreign_keys = OFF")
    db.execute("DELETE FROM domains WHERE name = 'beta'")
    db.close()
    expect_refusal("rows of no domain", path, NO_DATABASE)


def another_meta():
    """A table `meta` of another program."""
    path = folder / "x.db"
    db = opened(path)
    db.execute("CREATE TABLE meta (x INTEGER) STRICT")
    db.execute("INSERT INTO meta VALUES (1)")
    db.close()
    expect_refusal("a table meta of the one column x", path, SCHEMA)
