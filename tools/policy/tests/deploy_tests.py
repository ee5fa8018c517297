"""What the tests of deployment share: a server, domains on it, folders, and asks between the requests of a
deployment.

The server is `pdpd listen` where it is built (crates/pdpd/out/pdpd, build/pdpd, or the path in DESK_PDPD),
and else the model's server in Python.
"""
from __future__ import annotations

import contextlib
import http.server
import io
import itertools
import json
import os
import pathlib
import random
import shutil
import tempfile
import threading
import time
import unittest
from collections.abc import Iterator
from unittest import mock

from .desk_tests import TOOL, TOP, cli  # noqa: F401

import sys  # noqa: E402

sys.path.insert(1, str(TOP / "tests"))
sys.path.insert(1, str(TOP / "tests" / "model"))

import machines  # noqa: E402
import messages  # noqa: E402
import programs  # noqa: E402
import serving  # noqa: E402
from desk import ask, domain, wire  # noqa: E402

PLACES = (os.environ.get("DESK_PDPD", ""), TOP / "crates" / "pdpd" / "out" / "pdpd", TOP / "build" / "pdpd")
PDPD = next((str(path) for path in PLACES if path and os.access(path, os.X_OK)), None)
ADMIN, ASKS = "admin-token-1", "asks-token-1"
COMBINING = "urn:oasis:names:tc:xacml:3.0:%s-combining-algorithm:%s"
SUBJECT = "urn:oasis:names:tc:xacml:1.0:subject:subject-id"
CATEGORY = "AccessSubject"


# documents


def designator(name: str) -> dict:
    """The designator of an attribute, by an issuer where it is named so: `urn:a by hr`."""
    attribute, _, issuer = name.partition(" by ")
    return {"Category": CATEGORY, "AttributeId": attribute, "DataType": "string", "MustBePresent": False,
            **({"Issuer": issuer} if issuer else {})}


def match(name: str, value: str) -> dict:
    """A target that wants that value of the attribute."""
    return {"AnyOf": [{"AllOf": [{"Match": [{"MatchId": "urn:oasis:names:tc:xacml:1.0:function:string-equal",
                                             "AttributeValue": {"DataType": "string", "Value": value},
                                             "AttributeDesignator": designator(name)}]}]}]}


def policy(name: str, version: str, tells: str, effect: str = "Permit", attribute: str | None = None) -> str:
    """A policy that tells its version by an obligation, for those whose attribute is `yes`, or for all."""
    rule = {"RuleId": "r", "Effect": effect, **({"Target": match(attribute, "yes")} if attribute else {})}
    return json.dumps({"Policy": {"PolicyId": name, "Version": version,
                                  "RuleCombiningAlgId": COMBINING % ("rule", "deny-overrides"),
                                  "Rule": [rule],
                                  "ObligationExpressions": [{"ObligationId": tells, "FulfillOn": effect}]}})


def policy_set(name: str, version: str, children: list[tuple[str, str | None]]) -> str:
    """A set over references to policies, each with a pattern or none, that gathers all their obligations."""
    held = [{"PolicyIdReference": {"Id": child, **({"Version": pattern} if pattern else {})}} for child,
            pattern in children]
    return json.dumps({"PolicySet": {"PolicySetId": name, "Version": version, "Children": held,
                                     "PolicyCombiningAlgId": COMBINING % ("policy", "deny-overrides")}})


def row(entity: str, attribute: str, value: str = "yes", issuer: str | None = None) -> dict:
    return {"Category": CATEGORY, "Entity": entity, "AttributeId": attribute, "DataType": "string",
            "Value": value, **({} if issuer is None else {"Issuer": issuer})}


def rows(*held: dict) -> str:
    return json.dumps({"Row": list(held)})


def request(who: str) -> str:
    return json.dumps({"Request": {CATEGORY: {"Attribute": {"AttributeId": SUBJECT, "Value": who}}}})


ASKED = [request(who) for who in ("alice", "bob", "carol")] + ['{"Request":{}}']
# so often each of them is asked behind each request of a deployment, and so many asks there are at least
# during each kind of change
TIMES, LEAST = 30, 1000


def places(chosen: range, seconds: float = 8) -> Iterator[int]:
    """The places in some order: all of them over pdpd, and those for which there is time over the model."""
    until = time.monotonic() + seconds
    for number in random.Random(5).sample(chosen, len(chosen)):
        yield number
        if PDPD is None and time.monotonic() > until:
            return


def cases_of(folder: pathlib.Path) -> str | None:
    """A file of cases with what is asked, as the model decides it; None where the folder has faults."""
    found, remarks = domain.domain_of(str(folder))
    if found is None or found.faults() or remarks.faults():
        return None
    decided = [(body, ask.by_model(found.setting(), body.encode(), 0)) for body in ASKED]
    return json.dumps({"Case": [{"Request": json.loads(body), "Decision": json.loads(held)["Response"][0]["Decision"]}
                                for body, held in decided]})


# servers


class ModelHandler(http.server.BaseHTTPRequestHandler):
    """Answers a message by the model's server."""
    protocol_version = "HTTP/1.1"

    def answer(self) -> None:
        length = int(self.headers.get("Content-Length", 0))
        fields = [(name.encode(), value.encode()) for name, value in self.headers.items()]
        message = messages.Message(self.command.encode(), self.path.encode(), fields,
                                   self.rfile.read(length))
        with self.server.lock:
            self.wfile.write(self.server.model.answer(message, int(time.time())))

    do_GET = do_PUT = do_POST = do_DELETE = answer

    def log_message(self, *_: object) -> None:
        """Says nothing."""


class ModelServed:
    """The model's server at a port; what it keeps stays in `model`."""

    def __init__(self, model: machines.Server, port: int | None = None):
        self.port = port or serving.free_port()
        self.server = http.server.ThreadingHTTPServer(("127.0.0.1", self.port), ModelHandler,
                                                      bind_and_activate=False)
        self.server.allow_reuse_address, self.server.daemon_threads = True, True
        self.server.server_bind()
        self.server.server_activate()
        self.server.model, self.server.lock = model, threading.Lock()
        threading.Thread(target=self.server.serve_forever, args=(0.02,), daemon=True).start()

    def kill(self) -> None:
        self.server.shutdown()
        self.server.server_close()


def server_shown() -> str:
    """Which server the tests speak with."""
    if PDPD is None:
        return "the model's server in Python, since pdpd isn't built (`make pdpd`)"
    try:
        is_proved = pathlib.Path(PDPD) == programs.proved_program("pdpd")
    except programs.NotBuilt:  # there is no toolchain to compare with
        is_proved = False
    return f"{PDPD}, " + ("proved of these sources" if is_proved else "taken as it is")


class Running:
    """A server that can be killed, and started again over what it kept."""

    def __init__(self) -> None:
        self.folder = pathlib.Path(tempfile.mkdtemp(prefix="deploy-"))
        (self.folder / "token").write_text(serving.OPERATOR + "\n", encoding="ascii")
        self.model = machines.Server(serving.OPERATOR.encode())
        self.port = serving.free_port()
        self.served = None
        self.start()

    def start(self) -> None:
        if PDPD is None:
            self.served = ModelServed(self.model, self.port)
        else:
            self.served = serving.Served(PDPD, str(self.folder / "store.db"), str(self.folder / "token"),
                                         port=self.port, command="listen")

    def kill(self) -> None:
        self.served.kill()

    def end(self) -> None:
        self.kill()
        shutil.rmtree(self.folder)

    def client(self) -> serving.Client:
        return serving.Client(self.port)

    def sent(self, *held: bytes) -> list[bytes]:
        """The replies to messages."""
        with self.client() as client:
            return [client.ask(one) for one in held]


class Cut(BaseException):
    """The client is killed."""


class DeployTest(unittest.TestCase):
    """A test over a server. Each domain is a new one."""
    running: Running
    numbers = itertools.count(1)

    @classmethod
    def setUpClass(cls) -> None:
        cls.running = Running()
        cls.addClassCleanup(cls.running.end)

    def setUp(self) -> None:
        self.folder = pathlib.Path(tempfile.mkdtemp(prefix="deploy-folder-"))
        self.addCleanup(shutil.rmtree, self.folder)
        self.name = f"d{next(self.numbers)}"
        self.enterContext(mock.patch.dict(os.environ, {"DALVEZOUR_TOKEN": ADMIN}))
        self.made(self.name)

    def made(self, name: str) -> None:
        """Makes a domain with its tokens."""
        tokens = f"/operator/domains/{name}/tokens"
        self.name = name
        made = [serving.message("PUT", f"/operator/domains/{name}", serving.OPERATOR)]
        made += [serving.message("POST", tokens, serving.OPERATOR,
                                 json.dumps({"Role": role, "Token": token}))
                 for role, token in (("admin", ADMIN), ("ask", ASKS))]
        self.assertEqual(self.running.sent(*made), [serving.CREATED, serving.DONE, serving.DONE])

    def written(self, files: dict[str, str], root: object, name: str = "at", **more: object) -> str:
        """A folder with these documents, and its domain.json."""
        folder = self.folder / name
        shutil.rmtree(folder, ignore_errors=True)
        folder.mkdir()
        for file, held in files.items():
            (folder / file).write_text(held, encoding="utf-8")
        held = {"Server": f"http://127.0.0.1:{self.running.port}", "Domain": self.name, "Root": root, **more}
        if "rows.json" in files:
            held["Rows"] = "rows.json"
        (folder / "domain.json").write_text(json.dumps(held), encoding="utf-8")
        cases = cases_of(folder) if "Cases" not in more and "cases.json" not in files else None
        if cases is not None:
            (folder / "cases.json").write_text(cases, encoding="utf-8")
            (folder / "domain.json").write_text(json.dumps({**held, "Cases": ["cases.json"]}), encoding="utf-8")
        return str(folder)

    def policy(self, *words: str) -> tuple[int, str, str]:
        """The status of the command, and what it wrote."""
        out, err = io.StringIO(), io.StringIO()
        given = [words[0], "--program", "none", *words[1:]]
        with contextlib.redirect_stdout(out), contextlib.redirect_stderr(err):
            try:
                status = cli.main(given)
            except SystemExit as ended:
                status = ended.code
        return status, out.getvalue(), err.getvalue()

    def deployed(self, folder: str, *words: str, status: int = 0) -> str:
        """What a deployment without questions writes."""
        found, written, said = self.policy("deploy", "--yes", folder, *words)
        self.assertEqual(found, status, written + said)
        return written + said

    def asks(self, *bodies: str) -> list[bytes]:
        """The answers of the server to these requests."""
        path = f"/domains/{self.name}/pdp"
        return self.running.sent(*(serving.message("POST", path, ASKS, body) for body in bodies or ASKED))

    def listed(self) -> dict[tuple[str, str], bool]:
        """The documents of the domain by id and version, without records, and whether each is active."""
        found = self.running.sent(serving.message("GET", f"/domains/{self.name}/pap/policies", ADMIN))[0]
        held = json.loads(found.partition(b"\r\n\r\n")[2])["Policy"]
        return {(one["Id"], one["Version"]): one["Active"] for one in held if "dalvezour" not in one["Id"]}

    @contextlib.contextmanager
    def between(self, does: object) -> Iterator[list[int]]:
        """Calls a function with the number of each request of the desk, behind its reply."""
        exchange, count, is_inside = wire.Client.exchange, [0], []

        def counted(client: wire.Client, method: str, path: str, body: bytes | None) -> wire.Reply:
            reply = exchange(client, method, path, body)
            if not is_inside:
                is_inside.append(True)
                try:
                    does(count[0])
                finally:
                    is_inside.clear()
                count[0] += 1
            return reply
        with mock.patch.object(wire.Client, "exchange", counted):
            yield count

    def whole(self, run: object, times: int = 1) -> int:
        """Runs something, and asks between all its requests: each answer is the one before or the one
        after. How many asks there were."""
        before, found = self.asks(), []
        with self.between(lambda number: found.append(self.asks(*ASKED * times))):
            run()
        after = self.asks()
        for answers in found:
            for place, answer in enumerate(answers):
                which = place % len(ASKED)
                self.assertIn(answer, (before[which], after[which]))
        return sum(map(len, found))

    def whole_change(self, run: object) -> None:
        """Runs a change, and asks a thousand times and more while it does."""
        before = self.asks()
        self.assertGreaterEqual(self.whole(run, TIMES), LEAST)
        self.assertNotEqual(self.asks(), before)
