"""Deployments that are cut after each of their requests, by a client or a server that is killed, and two
deployments at once."""
from __future__ import annotations

import os
import signal
import subprocess
import sys
import threading
import time
import unittest
from unittest import mock

from .deploy_tests import ADMIN, TOOL, Cut, DeployTest, places, policy, row, rows, serving
from .test_deploy import P1, P2, PINNED1, PINNED2, Q1, Q2, SET_ROOT, files

from desk import records, setting, wire  # noqa: E402
from desk.deploying import Deployment  # noqa: E402

OLD, NEW = files(PINNED1, P1, Q1), files(PINNED2, P2, Q2)
OTHER = files(policy("urn:o", "1", "o"))
MOVED1, MOVED2 = ({"PolicySetIdReference": {"Id": "urn:s", "Version": version}} for version in "12")
ONE = policy("urn:p", "1", "p1", attribute="urn:a")
TWO = policy("urn:p", "2", "p2", attribute="urn:b")
# an old folder with its root and a new one: a turn by a set, by the root, from nothing, with rows in two steps
KINDS = {"set": (OLD, SET_ROOT, NEW, SET_ROOT), "root": (OLD, MOVED1, NEW, MOVED2),
         "nothing": (None, None, OLD, SET_ROOT),
         "rows": (files(ONE, rows=rows(row("alice", "urn:a"))), "urn:p",
                  files(TWO, rows=rows(row("bob", "urn:b"))), "urn:p")}
TOLD = ["changes the domain at the same time", "another deployment began at the same moment"]


class Cuts(DeployTest):
    """From an old state to a new one, with a cut at each place."""

    def begun(self, number: int, kind: str = "set") -> str:
        """A new domain with the old state; the folder of the new one."""
        self.made(f"{self.name.partition('-')[0]}-{kind}-{number}")
        old, old_root, new, new_root = KINDS[kind]
        if old is not None:
            self.deployed(self.written(old, old_root))
        return self.written(new, new_root)

    def wanted(self, kind: str = "set") -> tuple[int, list[bytes], list[bytes]]:
        """How many requests a deployment takes, and the answers before and after."""
        folder = self.begun(0, kind)
        before = self.asks()
        with self.between(lambda number: None) as count:
            self.deployed(folder)
        return count[0], before, self.asks()

    def gone_on(self, folder: str, before: list[bytes], after: list[bytes]) -> None:
        """Goes on with a deployment that was cut; each answer meanwhile is the old or the new one, and in
        the end all is done."""
        found = [self.asks()]
        with self.between(lambda number: found.append(self.asks())):
            self.deployed(folder, "--only-whole")
        for answers in found:
            for answer, *both in zip(answers, before, after):
                self.assertIn(answer, both)
        self.assertEqual(self.asks(), after)
        self.assertIn("Nothing else was to be done.", self.deployed(folder))

    def test_a_client_that_is_killed(self) -> None:
        """Behind each request."""
        for kind in KINDS:
            count, before, after = self.wanted(kind)
            self.assertGreater(count, 15)
            for number in places(range(count), 5):
                with self.subTest(kind, number=number):
                    self.killed_at(number, kind)
                    self.gone_on(str(self.folder / "at"), before, after)

    def killed_at(self, number: int, kind: str) -> None:
        """Begins a deployment in a process of its own, which is killed behind its request of that number."""
        folder = self.begun(number + 1, kind)

        def kill(at: int) -> None:
            if at == number:
                os.kill(os.getpid(), signal.SIGKILL)
        child = os.fork()
        if child == 0:
            try:
                with self.between(kill):
                    self.policy("deploy", "--yes", folder)
            finally:
                os._exit(1)
        _, ended = os.waitpid(child, 0)
        self.assertEqual(os.WTERMSIG(ended), signal.SIGKILL)

    def test_a_server_that_is_killed(self) -> None:
        """Behind each request, before the next one; then it is started again."""
        count, before, after = self.wanted()
        for number in places(range(count)):
            with self.subTest(number):
                folder = self.begun(number + 1)

                def kill(at: int, last: int = number) -> None:
                    if at == last:
                        self.running.kill()
                with self.between(kill):
                    status, written, said = self.policy("deploy", "--yes", folder)
                self.assertEqual(status, 0 if number == count - 1 else 4, written + said)
                self.running.start()
                self.gone_on(folder, before, after)

    def test_a_server_that_is_killed_within_a_request(self) -> None:
        """While it may be at work on it: the reply is lost."""
        count, before, after = self.wanted()
        for number in places(range(1, count + 1)):
            with self.subTest(number):
                folder, exchange, left = self.begun(number), wire.Client.exchange, [number]

                def lost(client: wire.Client, method: str, path: str, body: bytes | None) -> wire.Reply:
                    left[0] -= 1
                    if left[0] == 0:
                        timer = threading.Timer(0.001, self.running.kill)
                        timer.start()
                        try:
                            exchange(client, method, path, body)
                        except wire.ServerFault:
                            pass
                        timer.join()
                        raise wire.ServerFault("the server is killed")
                    return exchange(client, method, path, body)
                with mock.patch.object(wire.Client, "exchange", lost):
                    self.policy("deploy", "--yes", folder)
                self.running.start()
                self.gone_on(folder, before, after)

    def test_a_command_that_is_killed(self) -> None:
        """The command itself, at any moment."""
        _, before, after = self.wanted()
        for number in range(1, 4):
            folder = self.begun(number)
            ran = subprocess.Popen([sys.executable, str(TOOL / "policy.py"), "deploy", "--yes", "--program",
                                    "none", folder],
                                   stdout=subprocess.PIPE, stderr=subprocess.DEVNULL,
                                   env={**os.environ, "DALVEZOUR_TOKEN": ADMIN})
            for line in ran.stdout:
                if b"done" in line:
                    break
            time.sleep(0.01 * number)
            ran.send_signal(signal.SIGKILL)
            ran.communicate()
            self.gone_on(folder, before, after)

    def test_back_after_a_cut(self) -> None:
        """A rollback of a deployment that was cut goes to the last one that is finished."""
        _, before, _ = self.wanted("root")
        for number in places(range(9, 29, 3)):
            with self.subTest(number):
                self.killed_at(number, "root")
                back = ("rollback", "--yes", "--only-whole", str(self.folder / "at"))
                with mock.patch.object(records, "by_whom", lambda: "another@elsewhere"):
                    status, _, said = self.policy(*back)
                self.assertEqual(status, 4)
                self.assertIn("isn't finished", " ".join(said.split()))
                self.whole(lambda: self.went_back(*back, why="it is of "))
                self.assertEqual(self.asks(), before)

    def test_back_after_a_cut_of_long_ago(self) -> None:
        """Of whoever it is."""
        _, before, _ = self.wanted("root")
        long_ago = setting.moment_shown(int(time.time()) - 3700)
        with mock.patch.object(records, "now", lambda: long_ago):
            self.killed_at(15, "root")
        back = ("rollback", "--yes", "--only-whole", str(self.folder / "at"))
        with mock.patch.object(records, "by_whom", lambda: "another@elsewhere"):
            self.whole(lambda: self.went_back(*back, why="it was begun more than an hour ago"))
        self.assertEqual(self.asks(), before)

    def went_back(self, *words: str, why: str) -> None:
        """A rollback, whose plan says why the other deployment is taken as cut."""
        status, written, said = self.policy(*words)
        self.assertEqual(status, 0, written + said)
        self.assertIn(f"isn't finished and is taken as cut: {why}", " ".join(written.split()))

    def test_another_folder_after_a_cut(self) -> None:
        """Which root the cut deployment left isn't known: both are reckoned with."""
        roots = [{"PolicySetIdReference": {"Id": "urn:s", "Version": version}} for version in "12"]
        for number in places(range(9, 29, 2)):
            with self.subTest(number):
                self.made(f"{self.name.partition('-')[0]}-{number}")
                self.deployed(self.written(OLD, roots[0]))
                folder, other = self.written(NEW, roots[1]), self.written(OTHER, "urn:o", "other")

                def cut(at: int, last: int = number) -> None:
                    if at == last:
                        raise Cut
                with self.assertRaises(Cut), self.between(cut):
                    self.deployed(folder)
                self.assertIn("isn't finished", " ".join(self.deployed(other, status=4).split()))
                self.whole(lambda: self.deployed(other, "--take-over", "--only-whole"))
                self.assertEqual(self.policy("status", "--strict", other)[0], 0)

    def test_storage_that_fails_for_a_while(self) -> None:
        """A 503 now and then: the message is sent again."""
        folder, exchange, count = self.begun(1), wire.Client.exchange, [0]

        refused = wire.Reply(503, b'{"Error":"Unavailable"}')

        def refusing(client: wire.Client, method: str, path: str, body: bytes | None) -> wire.Reply:
            count[0] += 1
            return refused if count[0] % 3 == 0 else exchange(client, method, path, body)
        self.enterContext(mock.patch.object(wire, "WAITS", (0, 0)))
        with mock.patch.object(wire.Client, "exchange", refusing):
            self.deployed(folder)
        with mock.patch.object(wire.Client, "exchange", lambda *_: refused):
            self.assertIn("503 Unavailable", self.deployed(folder, status=4))


class AtOnce(DeployTest):
    """Two deployments of one domain at once."""

    def within(self, number: int, first: str, *words: str) -> tuple[int, str, tuple[int, str, str]]:
        """Runs a first deployment, and a second one behind its request of that number; what became of
        both."""
        second: list[tuple[int, str, str]] = []

        def other(at: int) -> None:
            if at == number:
                second.append(self.policy("deploy", "--yes", *words))
        with self.between(other):
            status, written, said = self.policy("deploy", "--yes", first)
        return status, written + said, second[0]

    def count(self) -> int:
        """How many requests the first deployment takes."""
        with self.between(lambda at: None) as count:
            self.deployed(self.written(NEW, SET_ROOT))
        return count[0]

    def test_of_different_folders(self) -> None:
        """One is told, at each place, and the other's folder is what runs."""
        self.deployed(self.written(OLD, SET_ROOT))
        count = self.count()
        for number in places(range(count)):
            with self.subTest(number):
                self.made(f"{self.name.partition('-')[0]}-{number}")
                self.deployed(self.written(OLD, SET_ROOT))
                first, second = self.written(NEW, SET_ROOT), self.written(OTHER, "urn:o", "other")
                one, said, (two, written, more) = self.within(number, first, second)
                if number == count - 1:
                    self.assertEqual((one, two), (0, 0))
                    continue
                self.assertEqual({one, two}, {0, 4}, said + written + more)
                told = " ".join((said + more).split())
                self.assertTrue(any(words in told for words in (TOLD if one == 4 else ["isn't finished"])),
                                told)
                self.assertEqual(self.policy("status", "--strict", second if one == 4 else first)[0], 0)

    def test_one_that_takes_over(self) -> None:
        self.deployed(self.written(OLD, SET_ROOT))
        count = self.count()
        for number in places(range(6, count - 2, 3)):
            with self.subTest(number):
                self.made(f"{self.name.partition('-')[0]}-{number}")
                self.deployed(self.written(OLD, SET_ROOT))
                first, second = self.written(NEW, SET_ROOT), self.written(OTHER, "urn:o", "other")
                one, said, (two, written, more) = self.within(number, first, second, "--take-over")
                self.assertEqual((one, two), (4, 0), said + written + more)
                told = " ".join(said.split())
                self.assertTrue(any(words in told for words in TOLD), told)
                # one request of the first may have been between its look and the server
                self.deployed(second)
                self.assertEqual(self.policy("status", "--strict", second)[0], 0)

    def test_of_one_folder(self) -> None:
        """The second goes on with what the first has begun, and the first is told."""
        self.deployed(self.written(OLD, SET_ROOT))
        count = self.count()
        for number in places(range(2, count - 2, 5)):
            with self.subTest(number):
                self.made(f"{self.name.partition('-')[0]}-{number}")
                self.deployed(self.written(OLD, SET_ROOT))
                folder = self.written(NEW, SET_ROOT)
                one, said, (two, written, more) = self.within(number, folder, folder)
                self.assertEqual((one, two), (4, 0), said + written + more)
                self.assertEqual(self.policy("status", "--strict", folder)[0], 0)

    def test_the_same_number(self) -> None:
        """Of two that begin at the same moment one gets the number."""
        first, second = self.written(NEW, SET_ROOT), self.written(OTHER, "urn:o", "other")
        exchange, came_to = wire.Client.exchange, []

        def at_once(client: wire.Client, method: str, path: str, body: bytes | None) -> wire.Reply:
            if method == "POST" and path == "pap/policies" and not came_to:
                came_to.append(())
                came_to[0] = self.policy("deploy", "--yes", second)
            return exchange(client, method, path, body)
        with mock.patch.object(wire.Client, "exchange", at_once):
            said = self.deployed(first, status=4)
        self.assertEqual(came_to[0][0], 0)
        self.assertIn("another deployment began at the same moment, and has the number 1",
                      " ".join(said.split()))
        self.assertEqual(self.policy("status", "--strict", second)[0], 0)

    def test_rows_that_another_sets(self) -> None:
        """No listing shows rows: they are looked at before they are set."""
        one = policy("urn:p", "1", "p1", attribute="urn:a")
        self.deployed(self.written(files(one, rows=rows(row("alice", "urn:a"))), "urn:p"))
        folder = self.written(files(one, rows=rows(row("bob", "urn:a"))), "urn:p")

        def other(at: int) -> None:
            if at == 4:
                self.running.sent(self.message("PUT", "pip", rows(row("carol", "urn:a"))))
        with self.between(other):
            said = self.deployed(folder, status=4)
        self.assertIn("its rows are others", said)
        self.deployed(folder)

    def test_documents_that_another_withdraws(self) -> None:
        self.deployed(self.written(OLD, SET_ROOT))
        folder = self.written(NEW, SET_ROOT)

        def other(at: int) -> None:
            if at == 11:
                self.running.sent(self.message("DELETE", "pap/policy/urn:p/1/active"))
        with self.between(other):
            said = self.deployed(folder, status=4)
        self.assertIn("policy urn:p 1 is withdrawn", " ".join(said.split()))
        # it has made changes, so that its record stays and tells of them
        self.assertIn("isn't finished", " ".join(self.policy("status", folder)[1].split()))
        self.deployed(folder)

    def test_nothing_is_left_of_one_that_is_told_at_once(self) -> None:
        """Where nothing else was done, its record is taken back."""
        self.deployed(self.written(OLD, SET_ROOT))
        folder = self.written(NEW, SET_ROOT)
        exchange = wire.Client.exchange

        def other(client: wire.Client, method: str, path: str, body: bytes | None) -> wire.Reply:
            reply = exchange(client, method, path, body)
            if method == "POST" and path == "pap/policies":
                self.running.sent(self.message("POST", "pap/policies", OTHER["document-0.json"]))
            return reply
        with mock.patch.object(wire.Client, "exchange", other):
            self.deployed(folder, status=4)
        self.assertNotIn("isn't finished", self.policy("status", folder)[1])

    def test_what_isnt_looked_at_is_noticed(self) -> None:
        """The tests fail where a deployment doesn't look before its steps."""
        with mock.patch.object(Deployment, "look", lambda *_: None):
            for noticing in (self.test_rows_that_another_sets, self.test_documents_that_another_withdraws):
                with self.assertRaises(AssertionError):
                    noticing()

    def message(self, method: str, path: str, body: str | None = None) -> bytes:
        """A message of somebody else to the domain."""
        return serving.message(method, f"/domains/{self.name}/{path}", ADMIN, body)


if __name__ == "__main__":
    unittest.main()
