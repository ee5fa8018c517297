"""The commands that check a mapping file, of nginx and of HAProxy, and write the configuration that it stands for."""
import contextlib
import io
import json
import os
import pathlib
import runpy
import sys
import tempfile
from unittest import mock

from .shared import TOP, expect

RIGHT = {"Server": "http://127.0.0.1:8080", "Domain": "acme", "TokenFile": "token", "Protects": "http://127.0.0.1:9",
         "Location": "/", "Subject": {"Header": "X-User", "FromAddress": ["::1"]}, "Action": {"GET": "read"}}
# a change of that, and what is said of it
WRONG = (
    ({"Serverr": 1}, "Serverr isn't known"), ({"Server": "http://x/y"}, "Server isn't"),
    ({"Server": "http://x;}"}, "Server isn't"), ({"Domain": "Acme"}, "Domain isn't"),
    ({"Location": "/a"}, "Location isn't"), ({"Location": "/a {"}, "Location isn't"),
    ({"Location": "a/"}, "Location isn't"),
    ({"TokenFile": "a b"}, "TokenFile isn't"),
    ({"Action": {"get": "read"}}, "Action isn't"), ({"Action": {}}, "Action isn't"),
    ({"KeptConnections": True}, "KeptConnections isn't"), ({"Delete": ["Host"]}, "Delete isn't"),
    ({"Delete": ["X y"]}, "Delete isn't"), ({"Server": "https://pdp.example"}, "CaFile is missing"),
    ({"Subject": {"Header": "X-User"}}, "names nobody"),
    ({"Subject": {"Certificate": True}}, "Subject.Header is"),
    ({"Subject": {"Header": "X-User", "FromAddress": ["localhost"]}}, "Subject.FromAddress isn't"),
    ({"Subject": {"Header": "X-User", "Certificate": 1}}, "Subject.Certificate isn't"),
    ({"Obligations": {"o": {}}}, "either Log or Header"),
    ({"Obligations": {"o": {"Log": "x;"}}}, "o.Log isn't"),
    ({"Obligations": {"o": {"Log": "/x", "Header": "X"}}}, "either"),
    ({"Resource": {"a": 1}}, "Resource isn't"), ({"Forms": "no"}, "Forms isn't"))
WRONG_FOR = {"nginx": (), "haproxy": (({"Location": "/a/"}, "Location isn't /"),
                                      ({"Protects": "https://127.0.0.1:9"}, "Protects isn't an address with http"))}


def run(name, *words):
    """The status of the command, and what it says."""
    said = io.StringIO()
    path = TOP / "clients" / name / f"pdp-{name}"
    with mock.patch.object(sys, "argv", [str(path), *words]), contextlib.redirect_stdout(said), \
            contextlib.redirect_stderr(said), mock.patch.object(sys, "path", list(sys.path)):
        try:
            runpy.run_path(str(path), run_name="__main__")
        except SystemExit as end:
            return (end.code, said.getvalue()) if isinstance(end.code, int) else (1, f"{said.getvalue()}{end.code}")
    return None, said.getvalue()


def mapping():
    """The commands find what is wrong with a mapping file, and say where."""
    for name in ("nginx", "haproxy"):
        with tempfile.TemporaryDirectory() as made:
            checks_of(name, pathlib.Path(made))


def checks_of(name, made):
    path = made / "map.json"
    (made / "token").write_text("acme-asks-1\n")

    def checked(held, word="check", *more):
        path.write_text(held if isinstance(held, str) else json.dumps(held))
        return run(name, word, str(path), *more)
    expect(f"{name}: a right one", checked(RIGHT)[0], 0)
    expect(f"{name}: is written", checked(RIGHT, "write", f"{made}/conf")[0], 0)
    with_token = [each for each in (made / "conf").iterdir() if "acme-asks-1" in each.read_text()]
    expect(f"{name}: the token is its owner's", [os.stat(each).st_mode & 0o777 for each in with_token], [0o600])
    for lacks in RIGHT:
        status, said = checked({member: held for member, held in RIGHT.items() if member != lacks})
        expect(f"{name}: no {lacks}: {said}", (status, f"{lacks} is missing" in said), (1, True))
    for change, phrase in (*WRONG, *WRONG_FOR[name]):
        status, said = checked({**RIGHT, **change})
        expect(f"{name}: {change}: {said}", (status, phrase in said), (1, True))
        expect("and nothing is written", (checked({**RIGHT, **change}, "write", f"{made}/other")[0],
                                          os.path.exists(f"{made}/other")), (1, False))
    for text in ("", "[", "[]", '{"Server":1,"Server":2}', "\x00", "[" * 100_000):
        status, said = checked(text)
        expect(f"{name}: {text[:20]!r}: {said[:200]}", (status in (1, 2), "Traceback" in said), (True, False))
    (made / "token").write_text('acme"asks-1\n')
    status, said = checked(RIGHT)
    expect(f"{name}: a token that a configuration reads otherwise: {said}", (status, "give the domain another" in said),
           (1, True))
    for words in ((), ("check",), ("write", str(path)), ("look", str(path))):
        expect(f"{name}: {words}", run(name, *words)[0], 2)
