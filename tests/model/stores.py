"""What opening a store as a repository's answers, and what it leaves, over Python's own sqlite3; and what a server
answers whose repository was opened so.

A store without one of a keeper's tables gets all of them. Another is read and judged, row by row, and nothing of it is
altered unless all of it is sound: then the rows of sources of schema 1 are brought over into the second schema.
"""
import sqlite3

from counting import CountingServer
from documents import DocumentFault, document_of
from routes import is_domain_name
from rows import text_of
from servers import OPERATOR_TOKEN, answered_by
from tables import (
    KINDS, MAKING, OF_SCHEMA, ROLES, SOURCES_MADE, TABLES, TYPES, opened, schema_numbered, schema_of, state_at,
    text_of_version)
from values import Fault, read, to_text
from versions import PATTERN, VERSION, NoVersion, numbers, parts

NEW_ROW = "INSERT INTO meta (id, schema_no, next_number) VALUES (1, 2, 1)"
MOVED = ["INSERT INTO sources (number, place, category, entity, attribute, value_type, value, issuer) "
         "SELECT number, place, category, entity, attribute, value_type, value, NULL FROM attributes ORDER BY rowid",
         "DELETE FROM attributes", "UPDATE meta SET schema_no = 2 WHERE id = 1"]


class NotOpened(Exception):
    """Why the store isn't opened."""


def refuse_if(is_refused, why):
    if is_refused:
        raise NotOpened(why)


# ---- which tables there are

def names_taken(db):
    """The names of tables, indexes and views, in small letters."""
    return {name.lower()
            for (name,) in db.execute("SELECT name FROM sqlite_schema WHERE type IN ('table', 'index', 'view')")}


def is_schema(db, number):
    """Whether there are the tables of that schema and no others, in the order in which they are
    made, and nothing else."""
    made = [name for (name,) in db.execute("SELECT name FROM sqlite_schema WHERE type = 'table' ORDER BY rowid")]
    others = db.execute("SELECT count(*) FROM sqlite_schema "
                        "WHERE type <> 'table' AND name NOT LIKE 'sqlite_autoindex_%'").fetchone()
    return made == list(OF_SCHEMA[number]) and others == (0,) and schema_of(db) == schema_numbered(number)


def select(db, columns, table):
    """The rows of these columns, texts as bytes; a table or a column that isn't there is of another schema."""
    db.text_factory = bytes
    try:
        return db.execute(f"SELECT {columns} FROM {table}").fetchall()
    except sqlite3.OperationalError:
        raise NotOpened("NotThisSchema") from None
    finally:
        db.text_factory = str


# ---- what columns hold

def is_text(held):
    try:
        held.decode()
        return True
    except UnicodeDecodeError:
        return False


def reads_as(shape, held):
    """Whether the bytes are a version, or a pattern of versions."""
    try:
        parts(shape, held.decode())
        return True
    except (NoVersion, UnicodeDecodeError):
        return False


def is_printed(number, held):
    """Whether the bytes are the printed text of a value of the type of that number."""
    try:
        return to_text(read(TYPES[number], held.decode())).encode() == held
    except (Fault, UnicodeDecodeError):
        return False


def is_document(kind, name, version, body):
    """Whether the body is a document of that key, whose version stands in its printed form."""
    try:
        found = document_of(body)
    except DocumentFault:
        return False
    version_of_it = text_of_version(numbers(".".join(found.version))).encode()
    return (KINDS.index("policy" if found.form == "Policy" else "set"), found.id.encode(),
            version_of_it) == (kind, name, version)


def is_source_row(category, entity, attribute, value_type, value, issuer=None):
    texts = [category, entity, attribute] + ([] if issuer is None else [issuer])
    return all(map(is_text, texts)) and 0 <= value_type < len(TYPES) and is_printed(value_type, value)


def are_places(found):
    """Whether the places in the source of each domain count from 0."""
    places = {}
    for number, place in found:
        places.setdefault(number, []).append(place)
    return all(sorted(held) == list(range(len(held))) for held in places.values())


# ---- the rows of each table

OF_ROW = "number, place, category, entity, attribute, value_type, value"
JUDGED = {
    "domains": ("number, name, epoch", lambda name, epoch: is_domain_name(name) and epoch >= 0),
    "tokens": ("number, digest, role", lambda digest, role: len(digest) == 32 and 0 <= role < len(ROLES)),
    "policies": ("number, kind, id, version, body, active",
                 lambda kind, name, version, body, active: active in (0, 1) and is_document(kind, name, version, body)),
    "roots": ("number, kind, id, pattern, earliest, latest",
              lambda kind, name, pattern, *bounds: 0 <= kind < len(KINDS) and is_text(name)
              and (pattern is None or reads_as(PATTERN, pattern))
              and all(held is None or reads_as(VERSION, held) for held in bounds)),
    "attributes": (OF_ROW, lambda place, *held: is_source_row(*held)),
    "sources": (OF_ROW + ", issuer", lambda place, *held: is_source_row(*held)),
}


def judge(db, schema, following):
    """That all rows are sound, where the next domain has that number."""
    refuse_if(following < 0, "Damaged")
    found = {}
    for table in OF_SCHEMA[schema]:
        if table in JUDGED:
            columns, is_sound = JUDGED[table]
            found[table] = select(db, columns, table)
            refuse_if(not all(0 <= row[0] < following and is_sound(*row[1:]) for row in found[table]), "Damaged")
    refuse_if(schema == 2 and found["attributes"], "Damaged")
    refuse_if(not are_places(row[:2] for row in found["sources" if schema == 2 else "attributes"]), "Damaged")


def schema_and_next(db):
    """The number of the schema, and that of the next domain."""
    found = select(db, "id, schema_no, next_number", "meta")
    refuse_if(len(found) != 1 or found[0][:2] not in ((1, 1), (1, 2)), "NotThisSchema")
    _, schema, following = found[0]
    # the tables of one schema with the number of the other are of none
    refuse_if((schema == 2) != ("sources" in names_taken(db)), "NotThisSchema")
    return schema, following


def run(db, statements):
    """All of them in one transaction."""
    db.execute("BEGIN")
    for statement in statements:
        db.execute(statement)
    db.execute("COMMIT")


def open_store(db):
    """Opens the store: whether it has a keeper's tables and no others; NotOpened where it has
    others, or a damaged row."""
    if not names_taken(db) & set(TABLES):
        run(db, [*MAKING, NEW_ROW])
        return is_schema(db, 2)
    schema, following = schema_and_next(db)
    judge(db, schema, following)
    is_ours = is_schema(db, schema)
    if schema == 1:
        run(db, [SOURCES_MADE, *MOVED])
    return is_ours


# ---- rows

def new_store(word):
    """A store in memory that begins so; None for no such word."""
    db = opened(":memory:")
    if word == "keeper":
        open_store(db)
    return db if word in ("empty", "keeper") else None


def with_statements(db, fields):
    """The store, in which the statements were run; None where one of them fails."""
    try:
        for field in fields:
            db.executescript(text_of(field))
        return db
    except (sqlite3.Error, sqlite3.Warning, AttributeError):
        return None


def opening(word, *fields):
    """The answer to a row of a store that is opened."""
    db = with_statements(new_store(word), fields)
    if db is None:
        return ["!Malformed"]
    # the store is opened after a crash, which undoes what no transaction has committed
    db.rollback()
    try:
        return ["opened"] + (["ours"] if open_store(db) else [])
    except NotOpened as why:
        return [f"!{why}"]


class StoredServer(CountingServer):
    """A server over the domains that a store holds."""

    def __init__(self, operator, db):
        super().__init__(operator)
        for number, name, epoch in db.execute("SELECT number, name, epoch FROM domains"):
            self.states[name], self.gates[name] = state_at(db, number), (number, epoch)
        (self.number,) = db.execute("SELECT next_number FROM meta").fetchone()


def stored(*fields):
    """The answer to a row of a server whose keeper is opened over what statements make of an empty store."""
    count = next((place for place, field in enumerate(fields) if not field.startswith("sql:")), len(fields))
    db = with_statements(opened(":memory:"), [field[4:] for field in fields[:count]])
    if db is None:
        return ["!Malformed"]
    try:
        open_store(db)
    except NotOpened as why:
        return [f"!{why}"]
    return answered_by(StoredServer(OPERATOR_TOKEN, db), fields[count:])
