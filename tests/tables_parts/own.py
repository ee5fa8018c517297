"""Files that the program wrote."""
import json

from changing import issued_rows, random_message
from kept import TABLES, Model
from said import NO_LOG, line
from serving import OPERATOR, making

from .shared import LIST, expect, expect_replies, expect_rows, folder, puts_rows, serving, to_acme

MESSAGES = 600


def fresh():
    """A new store: the tables, and one row."""
    path, model = folder / "fresh.db", Model(OPERATOR)
    with serving(path, 1) as served:
        expect_replies("fresh", served, model, [LIST])
        expect("fresh: it ends", served.ended(), (b"", b"", 0))
    expect_rows("a new store", path, model)
    with open(path, "rb") as file:
        expect("it begins as files of SQLite do", file.read(16), b"SQLite format 3\0")


def all_values():
    """A value of each text, issuers, a root with each of its parts, and texts with a NUL."""
    path, model = folder / "values.db", Model(OPERATOR)
    whole = {"PolicySetIdReference": {"Id": "", "Version": "01.*.+", "EarliestVersion": "0.1", "LatestVersion": "9.09"}}
    nul = [{"Category": "Resource", "Entity": "a\0b", "AttributeId": "\0", "DataType": "string", "Value": "c\0d",
            "Issuer": "e\0f"}]
    with serving(path) as served:
        expect_replies("values", served, model, [held for held, _ in making("acme", "acme-token-1")])
        expect_replies("values", served, model,
                       [puts_rows(issued_rows()), to_acme("PUT", "/pap/root", json.dumps(whole)),
                        to_acme("GET", "/pip")])
    expect_rows("all values", path, model)
    with serving(path) as served:
        expect_replies("values", served, model,
                       [puts_rows(nul), to_acme("GET", "/pip"), to_acme("PUT", "/pap/root", "{}")])
    expect_rows("a text with a NUL", path, model)


def walks():
    """Random messages to four domains, with a stop, a kill or a connection more between them: each time sqlite3
    finds the model's rows."""
    path, model = folder / "walk.db", Model(OPERATOR)
    for part in range(6):
        with serving(path) as served:
            expect("the store opens", served.listened(), None)
            expect_replies(f"part {part}", served, model, [random_message() for _ in range(MESSAGES // 6)])
        expect_rows(f"part {part}, after a kill", path, model)
    with serving(path, 1) as served:
        expect_replies("the last part", served, model, [random_message() for _ in range(20)])
        # sqlite3 has closed the file, which takes its log away
        expect("it ends", served.ended(), (b"", line(path, NO_LOG), 0))
    expect_rows("after a stop", path, model)
    expect("there is something of everything", [table for table in TABLES if not model.rows()[table]], ["attributes"])
