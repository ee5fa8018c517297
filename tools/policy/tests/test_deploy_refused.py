"""What the words that speak with a server refuse: tokens, servers that aren't there, are none, or answer without
end."""
from __future__ import annotations

import os
import pathlib
import socket
import threading
import unittest
from unittest import mock

from .deploy_tests import ADMIN, ASKS, DeployTest, serving
from .test_deploy import P1, files

from desk import wire  # noqa: E402


class Refused(DeployTest):
    """Tokens, and servers that aren't there or are none."""

    def test_tokens(self) -> None:
        folder = self.written(files(P1), "urn:p")
        for token, status, words in (("wrong-token-1", 4, "401 Unauthorized"), (ASKS, 4, "403 Forbidden"),
                                     ("short", 2, "holds no token")):
            with mock.patch.dict(os.environ, {"DALVEZOUR_TOKEN": token}):
                for given in (["deploy", "--yes"], ["status"], ["diff", "--live"], ["rollback", "--yes"],
                              ["pull"]):
                    found, written, said = self.policy(*given, folder)
                    self.assertEqual(found, status, written + said)
                    self.assertIn(words, said)
                    self.assertNotIn(token, written + said.replace("holds no token", ""))
        with mock.patch.dict(os.environ):
            del os.environ["DALVEZOUR_TOKEN"]
            self.assertEqual(self.policy("status", folder)[0], 2)
            path = pathlib.Path(folder, "token")
            path.write_text(ADMIN + "\nmore")
            self.assertEqual(self.policy("status", "--token-file", str(path), folder)[0], 0)
            self.assertEqual(self.policy("status", "--token-file", "/no/such", folder)[0], 2)

    def at(self, server: str, *words: str) -> tuple[int, str]:
        """The status of a deployment there, and what is said."""
        folder = self.written(files(P1), "urn:p", Server=server)
        found, written, said = self.policy("deploy", "--yes", *words, folder)
        return found, written + said

    def test_servers_that_are_none(self) -> None:
        said = self.at(f"http://127.0.0.1:{serving.free_port()}")[1]
        self.assertIn("Connection refused", said)
        self.assertRegex(said, r"right\?\n")  # (a question ends with no full stop)
        for server in ("127.0.0.1:8080", "ftp://127.0.0.1", "http://127.0.0.1:x", "http://user@127.0.0.1"):
            self.assertEqual(self.at(server)[0], 2, server)
        for held in (b"", b"hello\r\n\r\n", b"HTTP/1.1 200 OK\r\nContent-Length: 2\r\n\r\n[]",
                     b"HTTP/1.1 302 Found\r\nLocation: /\r\nContent-Length: 0\r\n\r\n",
                     b"HTTP/1.1 200 OK\r\nContent-Length: 13\r\n\r\n{\"Policy\":[1]}",
                     b"HTTP/1.1 200 OK\r\nContent-Length: 99\r\n\r\n{}"):
            with socket.create_server(("127.0.0.1", 0)) as listening:
                thread = threading.Thread(target=self.answer, args=(listening, held))
                thread.start()
                status, said = self.at(f"http://127.0.0.1:{listening.getsockname()[1]}")
                thread.join()
                self.assertEqual(status, 4, said)
        with socket.create_server(("127.0.0.1", 0)) as listening:
            status, said = self.at(f"http://127.0.0.1:{listening.getsockname()[1]}", "--timeout", "0.2")
            self.assertEqual(status, 4)
            self.assertIn("no whole reply came in 0.2 s", " ".join(said.split()))

    def answer(self, listening: socket.socket, held: bytes) -> None:
        """Answers one connection with these bytes."""
        connection, _ = listening.accept()
        with connection:
            connection.recv(65_536)
            connection.sendall(held)

    def test_a_token_that_others_can_read(self) -> None:
        """It is sent to another machine without TLS where that is wanted alone."""
        with mock.patch.object(wire.Client, "exchange") as sent:
            status, said = self.at("http://192.0.2.1:9")
        self.assertEqual((status, sent.called), (2, False))
        self.assertIn("--allow-http sends it all the same", said)
        status, said = self.at("http://192.0.2.1:9", "--allow-http", "--timeout", "0.1")
        self.assertEqual(status, 4)
        self.assertIn("isn't reached by TLS", said)

    def test_servers_that_answer_without_end(self) -> None:
        """Neither how deep an answer is nested nor how long it is ends the desk otherwise."""
        head = b"HTTP/1.1 200 OK\r\nContent-Length: %d\r\n\r\n"
        deep, long = b"[" * 60_000, b'{"Policy":[], "a":"%s"}' % (b"x" * 70_000)
        number = b'{"Policy":%s}' % (b"9" * 60_000)
        half = b'{"Policy":[{"Active":true,"Id":"\\ud800","Kind":"policy","Version":"1"}]}'
        with mock.patch.object(wire.pdp_client, "MOST_REPLY", 65_536):
            for held, words in ((deep, "no server of this kind"), (number, "no server of this kind"),
                                (half, "no server of this kind"), (long, "at most 65536 are read")):
                with socket.create_server(("127.0.0.1", 0)) as listening:
                    thread = threading.Thread(target=self.answer, args=(listening, head % len(held) + held))
                    thread.start()
                    status, said = self.at(f"http://127.0.0.1:{listening.getsockname()[1]}")
                    thread.join()
                self.assertEqual(status, 4, said)
                self.assertIn(words, " ".join(said.split()))
        refused = wire.Reply(400, deep)
        self.assertEqual(refused.code, "")


if __name__ == "__main__":
    unittest.main()
