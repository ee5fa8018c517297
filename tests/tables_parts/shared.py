"""What the parts of tests/tables.py share: the program, a folder of their own, and what a file has to hold."""
import json
import pathlib
import sys
import tempfile

from changing import issued_rows, policy_set
from checks import Checks, program_named
from kept import TABLES, Model, faults_of, opened, rows_in, schema_numbered, schema_of
from said import NO_LOG, line
from serving import OPERATOR, Served, making, message, policy

PROGRAM = program_named(sys.argv[1:])
checks = Checks("tests/tables.py")
expect = checks.expect
folder = pathlib.Path(tempfile.mkdtemp(prefix="pdpd-"))
TOKEN_FILE = str(folder / "token")


# ---- messages

LIST = message("GET", "/operator/domains", OPERATOR)


def creates(name):
    return message("PUT", f"/operator/domains/{name}", OPERATOR)


def to_acme(method, end, body=None):
    """A message of the admin of `acme`, whose path is given behind the domain."""
    return message(method, f"/domains/acme{end}", "acme-token-1", body)


def puts_rows(rows, name="acme"):
    """The message that gives a domain these rows."""
    return message("PUT", f"/domains/{name}/pip", f"{name}-token-1", json.dumps({"Row": rows}))


def readings():
    """Messages to which the replies show all that is kept of the two domains of `filled_model`."""
    messages = [LIST]
    for name in ("acme", "beta"):
        messages += [message("POST", f"/domains/{name}/pdp", f"{name}-token-1", '{"Request":{}}'),
                     message("GET", f"/domains/{name}/pap/policies", f"{name}-token-1"),
                     message("GET", f"/domains/{name}/pap/policy/urn:p/1.0", f"{name}-token-1"),
                     message("GET", f"/domains/{name}/pip", f"{name}-token-1")]
    return messages


# ---- what a file has to hold

def filled_model(rows=issued_rows):
    """A model with three domains, one of which was removed."""
    model = Model(OPERATOR)
    for name in ("acme", "gone", "beta"):
        for held, wanted in making(name, f"{name}-token-1", policy("Permit" if name == "acme" else "Deny")):
            expect("the model agrees", model.answer(held), wanted)
        model.answer(puts_rows(rows(), name))
    model.answer(message("POST", "/domains/beta/pap/policies", "beta-token-1", policy_set("urn:s", "3.0")))
    model.answer(message("DELETE", "/operator/domains/gone", OPERATOR))
    return model


def expect_rows(what, path, model):
    """That sqlite3 finds the tables in the file, nothing to complain of, and the rows of the model."""
    db = opened(path)
    expect(f"{what}: the tables", schema_of(db), schema_numbered(2))
    expect(f"{what}: what sqlite3 complains of", faults_of(db), [])
    found, wanted = rows_in(db), model.rows()
    for table in TABLES:
        expect(f"{what}: the rows of {table}", found[table], wanted[table])
    db.close()


# ---- the program

def serving(path, connections=1_000_000, **more):
    return Served(PROGRAM, str(path), TOKEN_FILE, connections, **more)


def expect_replies(what, served, model, messages):
    """Sends the messages, and to the model too: all replies are the model's."""
    differing = 0
    if not served.listens:
        expect(f"{what}: it listens", served.ended(), None)
        return
    with served.client() as client:
        for held in messages:
            found, wanted = client.ask(held), model.answer(held)
            if found != wanted:
                differing += 1
                if differing == 1:
                    expect(f"{what}: {held[:200]}", found, wanted)
    expect(f"{what}: replies that differ from the model's", differing, 0)


def said_of(path, journal):
    """What the program says of a file that sqlite3 wrote with that journal: closed, it has no log."""
    return b"" if journal == "DELETE" else line(path, NO_LOG)
