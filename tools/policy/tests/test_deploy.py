"""The words that speak with a server, over a real one: from nothing, again, each kind of change, going back, and
fetching."""
from __future__ import annotations

import json
import pathlib
import threading
import unittest
import urllib.parse
from unittest import mock

from .deploy_tests import ADMIN, ASKED, LEAST, DeployTest, policy, policy_set, row, rows, serving
from .desk_tests import PROGRAM

P1, P2, Q1, Q2 = (policy(f"urn:{name}", version, name + version) for name in "pq" for version in "12")
ANY = policy_set("urn:s", "1", [("urn:p", None), ("urn:q", None)])
PINNED1, PINNED2 = (policy_set("urn:s", version, [("urn:p", version), ("urn:q", version)])
                    for version in "12")
SET_ROOT = {"PolicySetIdReference": {"Id": "urn:s"}}


def files(*held: str, **more: str) -> dict[str, str]:
    """A folder's files."""
    return {**{f"document-{number}.json": one for number, one in enumerate(held)},
            **{name + ".json": one for name, one in more.items()}}


class Changes(DeployTest):
    """Each kind of change, and its rollback, with a thousand asks and more between all its requests."""

    def change(self, old: dict[str, str], new: dict[str, str], *words: str,
               roots: tuple[object, object] = (SET_ROOT, SET_ROOT)) -> str:
        """Deploys one folder and then another, with asks meanwhile, each answered as before or as after; the
        second folder."""
        self.deployed(self.written(old, roots[0]))
        folder = self.written(new, roots[1])
        self.whole_change(lambda: self.deployed(folder, "--only-whole", *words))
        self.assertIn("Nothing else was to be done.", self.deployed(folder))
        return folder

    def change_and_back(self, *given: object, **more: object) -> None:
        """The same, and then a rollback with asks meanwhile."""
        folder = self.change(*given, **more)
        active = self.listed()
        self.whole_change(lambda: self.back(folder))
        self.assertNotEqual(self.listed(), active)

    def back(self, folder: str) -> None:
        """A rollback."""
        status, written, said = self.policy("rollback", "--yes", "--only-whole", folder)
        self.assertEqual(status, 0, written + said)

    def test_from_nothing(self) -> None:
        folder = self.written(files(ANY, P1, Q1, rows=rows(row("alice", "urn:a"))), SET_ROOT)
        self.assertEqual(self.policy("status", "--strict", folder)[0], 1)
        self.whole_change(lambda: self.deployed(folder, "--only-whole"))
        self.assertEqual(self.listed(), {("urn:p", "1"): True, ("urn:q", "1"): True, ("urn:s", "1"): True})
        with self.between(lambda number: None) as count:
            self.assertIn("Nothing else was to be done.", self.deployed(folder))
        self.assertLess(count[0], 10)
        status, written, _ = self.policy("status", "--strict", folder)
        self.assertEqual(status, 0)
        self.assertIn("is what runs there", written)

    def test_a_new_version(self) -> None:
        folder = self.change(files(ANY, P1, Q1), files(ANY, P2, Q1))
        self.assertEqual(self.listed(), {("urn:p", "1"): False, ("urn:p", "2"): True, ("urn:q", "1"): True,
                                         ("urn:s", "1"): True})
        self.whole_change(lambda: self.back(folder))

    def test_two_new_versions(self) -> None:
        self.change_and_back(files(PINNED1, P1, Q1), files(PINNED2, P2, Q2))

    def test_another_root(self) -> None:
        roots = "policy:urn:p", {"PolicyIdReference": {"Id": "urn:q", "Version": "1"}}
        self.change_and_back(files(P1), files(Q1), roots=roots)

    def test_deletions(self) -> None:
        self.change(files(P1), files(Q1), "--prune", roots=("urn:p", "urn:q"))
        self.assertEqual(self.listed(), {("urn:q", "1"): True})

    def test_rows(self) -> None:
        one = policy("urn:p", "1", "p1", attribute="urn:a")
        folder = self.change(files(one, rows=rows(row("alice", "urn:a"))),
                             files(one, rows=rows(row("bob", "urn:a"))), roots=("urn:p", "urn:p"))
        self.whole_change(lambda: self.back(folder))

    def test_rows_and_policies(self) -> None:
        one, two = policy("urn:p", "1", "p1",
                          attribute="urn:a"), policy("urn:p", "2", "p2", attribute="urn:b")
        self.change_and_back(files(one, rows=rows(row("alice", "urn:a"))),
                             files(two, rows=rows(row("bob", "urn:b"))), roots=("urn:p", "urn:p"))

    def test_a_lower_version(self) -> None:
        self.change_and_back(files(ANY, P2, Q1), files(ANY, P1, Q1))

    def test_no_root(self) -> None:
        folder = self.change(files(P1), files(P1), roots=("urn:p", {}))
        self.assertEqual(self.listed(), {("urn:p", "1"): False})
        self.whole_change(lambda: self.back(folder))

    def test_where_no_order_is_whole(self) -> None:
        self.deployed(self.written(files(ANY, P1, Q1), SET_ROOT))
        folder = self.written(files(ANY, P2, Q2), SET_ROOT)
        before, found = self.asks(), []
        written = self.deployed(folder, "--only-whole", status=1)
        for words in ("No order keeps answers whole",
                      "the reference of policy set urn:s 1 to urn:p (any version) takes 2 in place of 1"):
            self.assertIn(words, " ".join(written.split()))
        self.assertEqual(self.asks(), before)
        with self.between(lambda number: found.extend(self.asks())):
            self.deployed(folder)
        self.assertFalse(set(found) <= {*before, *self.asks()})

    def test_asks_at_the_same_time(self) -> None:
        self.deployed(self.written(files(PINNED1, P1, Q1), SET_ROOT))
        before, found, is_over = self.asks(), [], threading.Event()

        def asking() -> None:
            while not is_over.is_set() or len(found) < LEAST:
                found.extend(self.asks())
        thread = threading.Thread(target=asking)
        thread.start()
        for held in (files(PINNED2, P2, Q2), files(PINNED1, P1, Q1), files(PINNED2, P2, Q2)):
            self.deployed(self.written(held, SET_ROOT))
        is_over.set()
        thread.join()
        after = self.asks()
        for place, answer in enumerate(found):
            self.assertIn(answer, (before[place % len(ASKED)], after[place % len(ASKED)]))


class Words(DeployTest):
    """What the words write and refuse."""

    def test_changed_without_a_new_version(self) -> None:
        self.deployed(self.written(files(P1), "urn:p"))
        folder = self.written(files(P1.replace("Permit", "Deny")), "urn:p")
        for word in ("deploy", "diff"):
            words = ["deploy", "--yes", folder] if word == "deploy" else ["diff", "--live", folder]
            status, written, _ = self.policy(*words)
            self.assertEqual(status, 1)
            self.assertIn("is on the server with other text. Give it a new Version, as 2",
                          " ".join(written.split()))

    def test_faults_and_cases_come_first(self) -> None:
        held = files(P1, cases=json.dumps({"Case": [{"Request": json.loads(ASKED[0]), "Decision": "Deny"}]}))
        with self.between(lambda number: None) as count:
            written = self.deployed(self.written(held, "urn:p", Cases=["cases.json"]), status=1)
            self.assertIn("expected Deny, found Permit", written)
            self.deployed(self.written(files(P1.replace("Permit", "Permitt")), "urn:p"), status=1)
            self.deployed(self.written(files(P1), "urn:none"), status=1)
            self.deployed(self.written({"p.json": P1}, "urn:p", Rots=1), status=1)
        self.assertEqual(count[0], 0)
        held = files(P1,
                     cases=json.dumps({"Case": [{"Request": json.loads(ASKED[0]), "Decision": "Permit"}]}))
        self.assertIn("1 case: 1 ok", self.deployed(self.written(held, "urn:p", Cases=["cases.json"])))

    def test_rollback(self) -> None:
        first = files(PINNED1, P1, Q1, rows=rows(row("alice", "urn:a")))
        self.deployed(self.written(first, SET_ROOT))
        one = self.asks(), self.listed()
        self.assertEqual(self.policy("rollback", "--yes", str(self.folder / "at"))[0], 4)
        self.deployed(self.written(files(PINNED2, P2, Q2, rows=rows()), SET_ROOT))
        two = self.asks()
        third = self.written(files(policy("urn:r", "1", "r")), "urn:r")
        self.deployed(third)
        self.assertEqual(self.policy("rollback", "--yes", third)[0], 0)
        self.assertEqual(self.asks(), two)
        self.whole(lambda: self.assertEqual(self.policy("rollback", "--yes", "--only-whole", third)[0], 0))
        self.assertEqual((self.asks(), {key for key, is_active in self.listed().items() if is_active}),
                         (one[0], {key for key, is_active in one[1].items() if is_active}))
        status, written, _ = self.policy("pull", str(self.folder / "back"), "--server",
                                         f"http://127.0.0.1:{self.running.port}", "--domain", self.name)
        self.assertEqual(status, 0, written)
        self.assertEqual(json.loads((self.folder / "back" / "rows.json").read_text())["Row"][0]["Entity"],
                         "alice")
        status, _, said = self.policy("rollback", "--yes", third)
        self.assertEqual((status, " ".join(said.split()).partition("policy: ")[2]), (4, "deployment 5 went back to the "
                         "first one, before which there is none. --to NUMBER goes to another: 1, 2, 3 or 4."))
        self.assertEqual(self.policy("rollback", "--yes", "--to", "3", third)[0], 0)
        self.assertEqual(self.policy("rollback", "--yes", "--to", "77", third)[0], 4)

    def test_rollback_of_what_was_deleted(self) -> None:
        self.deployed(self.written(files(P1), "urn:p"))
        folder = self.written(files(Q1), "urn:q")
        self.deployed(folder, "--prune")
        status, _, said = self.policy("rollback", "--yes", folder)
        self.assertEqual(status, 4)
        self.assertIn("was deleted", said)

    def test_rollback_to_another_text(self) -> None:
        """What was deleted since, and is there again with other text, isn't what was deployed then."""
        self.deployed(self.written(files(P1), "urn:p"))
        folder = self.written(files(Q1), "urn:q")
        self.deployed(folder, "--prune")
        other = serving.message("POST", f"/domains/{self.name}/pap/policies", ADMIN, P1.replace("Permit", "Deny"))
        self.running.sent(other)
        before = self.asks(), self.listed()
        status, _, said = self.policy("rollback", "--yes", folder)
        self.assertEqual(status, 4)
        self.assertIn("is there with other text", " ".join(said.split()))
        self.assertEqual((self.asks(), self.listed()), before)

    def test_pull_of_ids_that_are_paths(self) -> None:
        """Nothing is written outside the folder."""
        at = f"/domains/{self.name}/pap"
        ids = ["../../../above", "a/b/../../..", "/absolute", "..", ".", "a\\..\\b", "../domain.json", "rows.json",
               "\x1b[2J"]
        for number, name in enumerate(ids, 1):
            self.running.sent(
                serving.message("POST", f"{at}/policies", ADMIN, policy(name, str(number), "x")),
                serving.message("PUT", f"{at}/policy/{urllib.parse.quote(name, safe='')}/{number}/active", ADMIN))
        there = self.folder / "around" / "there"
        status, written, said = self.policy("pull", str(there), "--server", f"http://127.0.0.1:{self.running.port}",
                                            "--domain", self.name)
        self.assertEqual(status, 0, written + said)
        held = {path for path in self.folder.rglob("*") if path.is_file()}
        self.assertEqual({path.parent for path in held}, {there})
        found = [json.loads(path.read_text())["Policy"]["PolicyId"] for path in held
                 if path.name not in ("domain.json", "rows.json", "cases.json")]
        self.assertEqual(sorted(found), sorted(ids))
        self.assertEqual(self.policy("pull", str(there))[0], 0)

    def test_pull(self) -> None:
        held = rows(row("alice", "urn:a"), row("\u00e4lice", "urn:a", '"\\'))
        root = {"PolicySetIdReference": {"Id": "urn:s", "Version": "2", "LatestVersion": "2"}}
        self.deployed(self.written(files(PINNED2, P1, P2, Q2, rows=held), root))
        there = self.folder / "there"
        place = ("--server", f"http://127.0.0.1:{self.running.port}", "--domain", self.name)
        self.assertEqual(self.policy("pull", str(there))[0], 2)
        status, written, _ = self.policy("pull", str(there), *place)
        self.assertEqual(status, 0)
        self.assertIn("1 document not active", written)
        self.assertEqual(sorted(path.name for path in there.iterdir()),
                         ["cases.json", "domain.json", "p-2.json", "q-2.json", "rows.json", "s-2.json"])
        self.assertEqual((there / "p-2.json").read_text(), P2)
        self.assertEqual(json.loads((there / "domain.json").read_text())["Root"], root)
        self.assertEqual(self.policy("status", "--strict", str(there))[0], 0)
        self.assertEqual(self.policy("pull", str(there))[0], 0)
        (there / "p-2.json").write_text("{}")
        self.assertEqual(self.policy("pull", str(there))[0], 2)
        self.assertEqual(self.policy("pull", str(there), "--overwrite", "--all")[0], 0)
        self.assertEqual((there / "withdrawn" / "p-1.json").read_text(), P1)

    def test_a_domain_made_by_hand(self) -> None:
        """No record, so no root that is known: it is said, and may be told."""
        at = f"/domains/{self.name}/pap"
        made = [serving.message("POST", f"{at}/policies", ADMIN, P1),
                serving.message("PUT", f"{at}/policy/urn:p/1/active", ADMIN),
                serving.message("PUT", f"{at}/root", ADMIN, '{"PolicyIdReference":{"Id":"urn:p"}}')]
        self.running.sent(*made)
        folder = self.written(files(P1, P2), "urn:p", Cases=[])
        written = self.policy("diff", "--live", folder)[1]
        self.assertIn("What the root is now isn't known", written)
        self.assertIn("Which answers change isn't known",
                      self.policy("diff", "--live", folder, "--random", "5")[1])
        self.deployed(folder, "--only-whole", status=1)
        self.assertIn("5 answers change", self.policy("diff", "--live", folder, "--random", "5",
                                                      "--live-root", "urn:p")[1])
        self.assertIn("root: policy urn:p 1 (by answers)", self.policy("pull", str(self.folder / "pulled"), "--server",
                                                          f"http://127.0.0.1:{self.running.port}",
                                                          "--domain", self.name)[1])
        self.whole(lambda: self.deployed(folder, "--only-whole", "--live-root", "urn:p"))
        self.assertIn("by the record of deployment 1", self.policy("status", folder)[1])

    def test_answers_that_change(self) -> None:
        self.deployed(self.written(files(P1), "urn:p"))
        folder = self.written(files(P2, requests=f"[{ASKED[0]}]"), "urn:p")
        status, written, _ = self.policy("diff", "--live", folder, "--requests", f"{folder}/requests.json")
        self.assertEqual(status, 0)
        for words in ("before Permit with obligations p1", "after Permit with obligations p2",
                      "1 of 1 answer change"):
            self.assertIn(words, " ".join(written.split()))
        self.assertEqual(self.policy("diff", "--live", folder, "--strict")[0], 1)

    def test_for_pipelines(self) -> None:
        folder = self.written(files(P1), "urn:p")
        self.assertEqual(self.policy("deploy", folder)[0], 2)
        self.assertEqual(self.policy("deploy", "--json", folder)[0], 2)
        self.assertEqual(self.listed(), {})
        status, written, _ = self.policy("deploy", "--dry-run", "--json", folder)
        held = json.loads(written)
        self.assertEqual((status, held["new"], held["done"], held["mixed"]),
                         (0, ["policy urn:p 1"], 0, False))
        self.assertEqual([one["do"] for one in held["steps"]], ["record", "upload", "activate", "root",
                                                                "record"])
        held = json.loads(self.policy("deploy", "--yes", "--json", folder)[1])
        self.assertEqual((held["deployment"], held["done"]), (1, 5))
        held = json.loads(self.policy("status", "--json", folder)[1])
        self.assertEqual((held["same"], held["deployments"][0]["finished"]), (True, True))
        self.assertEqual(json.loads(self.policy("diff", "--live", "--json", folder)[1])["steps"], [])

    def test_whoever_is_at_the_terminal_is_asked(self) -> None:
        folder = self.written(files(P1), "urn:p")
        for said, status, listed in (("", 1, {}), ("no", 1, {}), ("y", 0, {("urn:p", "1"): True})):
            with mock.patch("sys.stdin.isatty", lambda: True), mock.patch("builtins.input", return_value=said):
                self.assertEqual(self.policy("deploy", folder)[0], status)
            self.assertEqual(self.listed(), listed)

    def test_a_program_that_says_otherwise(self) -> None:
        """Model and program are compared before anything is sent."""
        folder = self.written(files(P1), "urn:p")
        liar = pathlib.Path(folder, "liar")
        liar.write_text("#!/bin/sh\nwhile read -r line; do echo x; done\n")
        liar.chmod(0o700)
        status, _, said = self.policy("deploy", "--program", str(liar), "--yes", folder)
        self.assertEqual((status, self.listed()), (3, {}))
        self.assertIn("DISAGREE", said)

    @unittest.skipIf(PROGRAM is None, "the program of rows isn't built")
    def test_with_the_program(self) -> None:
        folder = self.written(files(P1, requests=f"[{ASKED[0]}]"), "urn:p")
        status, written, _ = self.policy("deploy", "--program", "", "--yes", "--requests",
                                         f"{folder}/requests.json", folder)
        self.assertEqual(status, 0)
        self.assertIn("by model and program", written)

    def parts_of_records(self) -> int:
        """How many documents records have."""
        found = self.running.sent(serving.message("GET", f"/domains/{self.name}/pap/policies", ADMIN))[0]
        return found.count(b"urn:dalvezour:deployment")

    def test_records_are_few(self) -> None:
        """Twenty are kept, or as many as the folder says; one before them all is gone back to."""
        self.deployed(self.written(files(P1, rows=rows(*(row(f"{number}" * 40, "urn:a")
                                                         for number in range(700)))), "urn:p"))
        for number in range(23):
            folder = self.written(files(P1, rows=rows(row(str(number), "urn:a"))), "urn:p")
            self.deployed(folder)
        self.assertEqual(self.parts_of_records(), 40)
        self.assertEqual(self.policy("rollback", "--yes", "--to", "6", folder)[0], 0)
        folder = self.written(files(P1, rows=rows(row("z", "urn:a"))), "urn:p", Keep=3)
        self.deployed(folder)
        self.assertEqual(self.parts_of_records(), 6)
        self.assertEqual(self.policy("rollback", "--yes", folder)[0], 0)
        self.assertEqual(self.parts_of_records(), 6)
        for wrong in (1, 401, "3", 2.5, True):
            self.deployed(self.written(files(P1), "urn:p", Keep=wrong), status=1)

    def test_a_full_domain(self) -> None:
        full = [serving.message("POST", f"/domains/{self.name}/pap/policies", ADMIN,
                                policy("urn:x", f"1.{number}", "x")) for number in range(1_022)]
        self.running.sent(*full)
        written = self.deployed(self.written(files(P1), "urn:p"), status=4)
        self.assertIn("are its room", " ".join(written.split()))

    def test_a_domain_that_is_full_of_records(self) -> None:
        """Old ones are forgotten first, where there is no room else."""
        for number in range(3):
            self.deployed(self.written(files(P1, rows=rows(row(str(number), "urn:a"))), "urn:p"))
        full = [serving.message("POST", f"/domains/{self.name}/pap/policies", ADMIN,
                                policy("urn:x", f"1.{number}", "x")) for number in range(1_017)]
        self.running.sent(*full)
        self.deployed(self.written(files(P1, rows=rows(row("z", "urn:a"))), "urn:p"), status=4)
        self.deployed(self.written(files(P1, rows=rows(row("z", "urn:a"))), "urn:p", Keep=2))
        self.assertEqual(self.parts_of_records(), 4)


if __name__ == "__main__":
    unittest.main()
