"""What the desk says of a domain that isn't as the folder has it: changed without a record, or by another author."""
from __future__ import annotations

import unittest
from unittest import mock

from .deploy_tests import ADMIN, DeployTest, policy, policy_set, row, rows, serving, wire
from .test_deploy import SET_ROOT, files

from desk import records  # noqa: E402

ROWS = rows(row("alice", "urn:a"))


def author(name: str) -> mock._patch:
    """What follows is another author's."""
    return mock.patch.object(records, "by_whom", lambda: name)


def version(number: str) -> dict[str, str]:
    """The files of a version: a set that names the version of its policy."""
    return files(policy_set("urn:s", number, [("urn:p", number)]), policy("urn:p", number, number), rows=ROWS)


class History(DeployTest):
    """By what is recorded."""

    def told(self, *words: str, status: int = 0) -> str:
        """What a word writes, on one line."""
        found, written, said = self.policy(*words)
        self.assertEqual(found, status, written + said)
        return " ".join((written + said).split())

    def first(self) -> str:
        """A folder that was deployed."""
        folder = self.written(version("1"), SET_ROOT)
        self.deployed(folder)
        self.assertNotIn("This folder was", self.told("status", "--strict", folder))
        return folder

    def test_changed_by_hand(self) -> None:
        folder, at = self.first(), f"/domains/{self.name}"
        for number, (method, path, body, what) in enumerate((
                ("DELETE", "/pap/policy/urn:p/1/active", "", "policy urn:p 1 isn't active"),
                ("PUT", "/pip", '{"Row":[]}', "the rows are others")), 1):
            self.running.sent(serving.message(method, at + path, ADMIN, *([body] if body else [])))
            told = (f"This folder was deployed as number {number}, and the domain was changed since, without a "
                    f"record.")
            self.assertIn(f"differs: {what}. {told} `policy diff --live` shows how", self.told("status", folder))
            self.assertIn(f"changed {told}", self.told("diff", "--live", folder))
            self.deployed(folder)
            self.assertIn("is what runs there", self.told("status", "--strict", folder))

    def test_by_another_author(self) -> None:
        """Whose deployment came after is said by each word, before an older folder takes its place."""
        folder = self.first()
        with author("carol@there"):
            self.deployed(self.written(version("2"), SET_ROOT, "hers"))
        came = "This folder was deployed as number 1; number 2, by carol@there, came after."
        self.assertIn(came, self.told("status", folder))
        older = "older policy urn:p 1 in place of 2 and policy set urn:s 1 in place of 2."
        for words in (("diff", "--live", folder), ("deploy", "--dry-run", folder)):
            self.assertIn(f"{older} {came}", self.told(*words))
        between = self.written(version("1.5"), SET_ROOT, "between")
        said = self.told("deploy", "--dry-run", between)
        self.assertIn("older policy urn:p 1.5 in place of 2 and policy set urn:s 1.5 in place of 2. 1 record", said)
        back = self.told("rollback", "--dry-run", folder)
        self.assertNotIn("older", back)
        self.assertNotIn("This folder", self.told("deploy", "--dry-run", self.written(version("3"), SET_ROOT, "next")))

    def test_of_another_root(self) -> None:
        """What came after is said beside a root that is another, too."""
        folder = self.first()
        self.running.sent(serving.message("PUT", f"/domains/{self.name}/pap/root", ADMIN, "{}"))
        others = "the root isn't this folder's: `policy deploy` sets it."
        self.assertIn(f"{others} This folder was deployed as number 1, and the domain was changed since, without a "
                      f"record", self.told("status", folder, status=1))
        self.deployed(folder)
        with author("carol@there"):
            self.deployed(self.written(version("1"), "urn:p", "hers"))
        self.assertIn(f"{others} Besides, policy set urn:s 1 isn't active. This folder was deployed as number 2; "
                      f"number 3, by carol@there, came after", self.told("status", folder, status=1))

    def test_one_that_isnt_finished(self) -> None:
        """What to do is said: by `status`, and by a deployment of something else, which is refused."""
        folder, exchange = self.first(), wire.Client.exchange

        def cut(client: wire.Client, method: str, path: str, body: bytes | None) -> wire.Reply:
            reply = exchange(client, method, path, body)
            if method == "POST" and b"urn:dalvezour:deployment" in body:
                raise KeyboardInterrupt
            return reply
        with author("carol@there"), mock.patch.object(wire.Client, "exchange", cut):
            with self.assertRaises(KeyboardInterrupt):
                self.deployed(self.written(version("2"), SET_ROOT, "hers"))
        said = self.told("status", folder)
        self.assertIn("differs: deployment 2 isn't finished: where it was cut, deploy its folder again, or `policy "
                      "rollback`. `policy diff", said)
        self.assertIn("`policy rollback` goes back to the one before", self.told("deploy", "--yes", folder, status=4))
        self.told("rollback", "--yes", "--take-over", folder)
        self.assertIn("is what runs there", self.told("status", "--strict", folder))


if __name__ == "__main__":
    unittest.main()
