"""The root, which no route shows: whether it is the folder's is asked, and it is set each time."""
from __future__ import annotations

import json
import unittest
from unittest import mock

from .deploy_tests import (
    ADMIN, ASKED, COMBINING, SUBJECT, DeployTest, match, policy, policy_set, request, row, rows, serving, wire)
from .test_deploy import P1, P2, Q1, SET_ROOT, files

ONE = policy_set("urn:s", "1", [("urn:p", "1")])
OTHER = json.dumps({"PolicySet": {"PolicySetId": "urn:other", "Version": "1", "Children": [
    {"PolicySetIdReference": {"Id": "urn:s"}}], "PolicyCombiningAlgId": COMBINING % ("policy", "deny-overrides")}})
DARK = json.loads(policy_set("urn:dark", "1", [("urn:p", None)]))
DARK["PolicySet"]["Target"] = match(SUBJECT, "dave")
UNSURE = "root not known"
OTHERS = "the root isn't this folder's"


class ByHand(DeployTest):
    """A root that somebody sets by hand."""

    def root(self, body: str) -> None:
        """Sets the root by hand."""
        put = serving.message("PUT", f"/domains/{self.name}/pap/root", ADMIN, body)
        self.assertEqual(self.running.sent(put), [serving.DONE])

    def by_hand(self, *sent: tuple[str, str, str]) -> None:
        """Sends messages to the domain's policies: method, path, body."""
        at = f"/domains/{self.name}/pap"
        self.running.sent(*(serving.message(method, f"{at}/{path}", ADMIN, *([body] if body else []))
                            for method, path, body in sent))

    def told(self, *words: str, status: int) -> str:
        """What a word writes, on one line."""
        found, written, said = self.policy(*words)
        self.assertEqual(found, status, written + said)
        return " ".join((written + said).split())

    def is_seen_and_mended(self, body: str, shown: str) -> None:
        """A root of that body, set by hand over a deployed folder, is seen by each word, and mended by `deploy`."""
        folder = self.written(files(ONE, OTHER, P1), SET_ROOT)
        self.deployed(folder)
        before = self.asks()
        self.assertIn("is what runs there", self.told("status", "--strict", folder, status=0))
        other = serving.message("PUT", f"/domains/{self.name}/pap/policyset/urn:other/1/active", ADMIN)
        if "other" in body:
            self.running.sent(other)
        self.root(body)
        for words in (["status", folder], ["status", "--strict", folder], ["diff", "--live", folder]):
            said = self.told(*words, status=1)
            self.assertIn(OTHERS, said)
            self.assertNotIn("Besides", said if "other" not in body else "")
            self.assertIn(shown, said)
        self.assertIn(OTHERS, self.told("rollback", "--dry-run", "--to", "1", folder, status=0))
        pulled = str(self.folder / "pulled")
        place = "--server", f"http://127.0.0.1:{self.running.port}", "--domain", self.name
        self.assertIn(shown, self.told("pull", pulled, *place, status=0))
        self.assertEqual(json.loads((self.folder / "pulled" / "domain.json").read_text())["Root"], json.loads(body))
        self.assertIn(OTHERS, " ".join(self.deployed(folder).split()))
        self.assertEqual(self.asks(), before)
        self.assertIn("is what runs there", self.told("status", "--strict", folder, status=0))

    def test_to_another_set(self) -> None:
        self.is_seen_and_mended('{"PolicySetIdReference":{"Id":"urn:other"}}', "policy set urn:other 1 (by answers")

    def test_to_a_policy_inside_it(self) -> None:
        self.is_seen_and_mended('{"PolicyIdReference":{"Id":"urn:p"}}', "policy urn:p 1 (by answers")

    def test_to_nothing(self) -> None:
        self.is_seen_and_mended("{}", "none, or one that applies to no case (by answers")

    def test_to_what_isnt_there(self) -> None:
        """Answers are Indeterminate then."""
        folder = self.written(files(ONE, P1), SET_ROOT)
        self.deployed(folder)
        before = self.asks()
        self.root('{"PolicyIdReference":{"Id":"urn:gone"}}')
        self.assertIn("one that leads nowhere, or fails (by answers", self.told("status", folder, status=1))
        self.whole(lambda: self.deployed(folder, "--only-whole"))
        self.root('{"PolicyIdReference":{"Id":"urn:gone"}}')
        two = self.written(files(policy_set("urn:s", "2", [("urn:p", "2")]), P2), SET_ROOT, "two")
        self.assertIn("isn't known: one that leads nowhere, or fails, by answers; policy set urn:s by the record",
                      self.told("diff", "--live", two, status=1))
        self.deployed(folder)
        self.assertEqual(self.asks(), before)

    def dark(self) -> None:
        """A set by hand that applies to no case, and the root set to it."""
        self.by_hand(("POST", "policies", json.dumps(DARK)), ("PUT", "policyset/urn:dark/1/active", ""))
        self.root('{"PolicySetIdReference":{"Id":"urn:dark"}}')

    def test_to_one_that_applies_to_no_case(self) -> None:
        """Whether it is that or none isn't known: nothing is promised, and the root goes before what is withdrawn."""
        self.deployed(self.written(files(ONE, P1), SET_ROOT))
        self.dark()
        folder = self.written(files(policy_set("urn:s", "2", [("urn:p", "2")]), P2), SET_ROOT)
        for words in (("deploy", "--dry-run"), ("deploy", "--yes", "--only-whole")):
            said = self.told(*words, folder, status=int("--yes" in words))
            self.assertIn("isn't known: none, or one that applies to no case, by answers", said)
            self.assertNotIn("Meanwhile", said)
            self.assertIn("Nothing is deployed", said)
        self.assertTrue(json.loads(self.policy("deploy", "--dry-run", "--json", folder)[1])["mixed"])
        none = "The root isn't known: what is shown as before is as if there were none."
        self.assertIn(none, self.told("diff", "--live", folder, "--random", "5", status=1))
        said = self.told("diff", "--live", folder, "--random", "5", "--live-root", "urn:dark", status=1)
        self.assertNotIn(none, said)
        found = []
        with self.between(lambda number: found.extend(self.asks(request("dave")))):
            self.deployed(folder)
        self.assertEqual({json.loads(one.partition(b"\r\n\r\n")[2])["Response"][0]["Decision"] for one in found},
                         {"Permit"})
        self.dark()
        self.whole(lambda: self.assertIn("Meanwhile every", self.deployed(folder, "--only-whole")))
        self.assertIn("is what runs there", self.told("status", "--strict", folder, status=0))

    def test_a_newer_version_of_what_it_names(self) -> None:
        """The root is the folder's, and what it resolves to isn't: that differs, as any document does."""
        folder = self.written(files(ONE, P1), SET_ROOT)
        self.deployed(folder)
        before = self.asks()
        self.by_hand(("POST", "policies", policy_set("urn:s", "2", [])), ("PUT", "policyset/urn:s/2/active", ""))
        self.assertNotEqual(self.asks(), before)
        self.assertIn("differs: policy set urn:s 2 is active and not the folder's",
                      self.told("status", folder, status=0))
        self.told("status", "--strict", folder, status=1)
        self.told("diff", "--live", "--strict", folder, status=1)
        self.whole(lambda: self.deployed(folder, "--only-whole"))
        self.assertEqual(self.asks(), before)

    def test_what_it_doesnt_reach(self) -> None:
        """A document that the folder has is told from one that it hasn't."""
        folder = self.written(files(ONE, P1, Q1), SET_ROOT)
        self.deployed(folder)
        self.by_hand(("PUT", "policy/urn:q/1/active", ""))
        self.assertIn("differs: policy urn:q 1 is active, and the folder's root doesn't reach it.",
                      self.told("status", folder, status=0))

    def test_to_an_older_version(self) -> None:
        """The answers name the version."""
        pinned = [{"PolicySetIdReference": {"Id": "urn:s", "Version": version}} for version in "12"]
        two = policy_set("urn:s", "2", [("urn:p", "1")])
        self.deployed(self.written(files(ONE, P1), pinned[0]))
        folder = self.written(files(two, P1), pinned[1])
        self.assertIn("differs", self.told("status", folder, status=0))
        self.deployed(folder)
        self.running.sent(serving.message("PUT", f"/domains/{self.name}/pap/policyset/urn:s/1/active", ADMIN))
        self.root(json.dumps(pinned[0]))
        self.assertIn(OTHERS, self.told("status", folder, status=1))
        self.deployed(folder)
        self.assertIn("is what runs there", self.told("status", "--strict", folder, status=0))

    def test_that_no_case_shows(self) -> None:
        """Without a case that gives Permit or Deny the root isn't known, and `deploy` sets it all the same."""
        one = policy("urn:p", "1", "p1", attribute="urn:a")
        none = json.dumps({"Case": [{"Request": json.loads(request("bob")), "Decision": "NotApplicable"}]})
        held = files(one, Q1, rows=rows(row("alice", "urn:a")), cases=none)
        folder = self.written(held, "urn:p", Cases=["cases.json"])
        self.deployed(folder)
        alice = self.asks(ASKED[0])
        self.assertIn(UNSURE, self.told("status", "--strict", folder, status=1))
        self.assertIn(UNSURE, self.told("status", folder, status=0))
        self.assertIs(json.loads(self.policy("status", "--json", folder)[1])["same"], False)
        self.assertIn(UNSURE, self.told("diff", "--live", "--strict", folder, status=1))
        self.root("{}")
        self.assertNotEqual(self.asks(ASKED[0]), alice)
        other = self.written({**held, "document-0.json": policy("urn:p", "2", "p2")}, "urn:p", "other", Cases=[])
        self.assertIn("as before or as after, if the root is as recorded.", self.told("deploy", "--dry-run", other,
                                                                                      status=0))
        said = " ".join(self.deployed(folder).split())
        self.assertIn("set the root: policy urn:p (as it should be; if it is, this changes nothing)", said)
        self.assertEqual(self.asks(ASKED[0]), alice)
        # beside other steps, too
        self.root("{}")
        self.deployed(other)
        self.assertIn(b"Permit", self.asks(request("bob"))[0])
        self.root("{}")
        self.assertEqual(self.policy("rollback", "--yes", other)[0], 0)
        self.assertEqual(self.asks(ASKED[0]), alice)

    def test_by_the_clock_of_each_case(self) -> None:
        """A case is asked at its own time, whenever that is."""
        held = json.loads(P1)
        clock = {"Category": "Environment", "DataType": "date", "MustBePresent": True,
                 "AttributeId": "urn:oasis:names:tc:xacml:1.0:environment:current-date"}
        held["Policy"]["Target"] = {"AnyOf": [{"AllOf": [{"Match": [
            {"MatchId": "urn:oasis:names:tc:xacml:1.0:function:date-equal", "AttributeDesignator": clock,
             "AttributeValue": {"DataType": "date", "Value": "1999-12-31Z"}}]}]}]}
        case = {"Request": json.loads(ASKED[0]), "At": "1999-12-31T10:00:00Z", "Decision": "Permit"}
        held = files(json.dumps(held), cases=json.dumps({"Case": [case]}))
        folder = self.written(held, "urn:p", Cases=["cases.json"])
        self.deployed(folder)
        self.assertIn("is what runs there", self.told("status", "--strict", folder, status=0))
        self.root("{}")
        self.assertIn(OTHERS, self.told("status", folder, status=1))

    def test_how_many_are_asked(self) -> None:
        """At most 20, of which those that the records decide come first."""
        one, exchange, asked = policy("urn:p", "1", "p1", attribute="urn:a"), wire.Client.exchange, []

        def counted(client: wire.Client, method: str, path: str, body: bytes | None) -> wire.Reply:
            asked.append((method, path.rpartition("/")[2]) == ("POST", "pdp"))
            return exchange(client, method, path, body)
        unknown = [{"Request": json.loads(request("bob")), "Decision": "NotApplicable"}] * 25
        known = {"Request": json.loads(request("alice")), "Decision": "Permit"}
        for cases, count in ((unknown, 20), ([*unknown, known], 1)):
            held = files(one, Q1, rows=rows(row("alice", "urn:a")), cases=json.dumps({"Case": cases}))
            folder = self.written(held, "urn:p", Cases=["cases.json"])
            self.deployed(folder)
            asked.clear()
            with mock.patch.object(wire.Client, "exchange", counted):
                self.told("status", folder, status=0)
            self.assertEqual(sum(asked), count)

    def test_a_case_with_an_environment(self) -> None:
        """What it names shows the root. If it names nothing, that is no sign that the root was moved."""
        asked = json.loads(ASKED[0])
        asked["Request"]["Environment"] = {"Attribute": []}
        cases = json.dumps({"Case": [{"Request": asked, "At": "1999-12-31T10:00:00Z", "Decision": "Permit"}]})
        folder = self.written(files(P1, cases=cases), "urn:p", Cases=["cases.json"])
        self.deployed(folder)
        self.assertIn("is what runs there", self.told("status", "--strict", folder, status=0))
        self.root("{}")
        self.assertIn(UNSURE, self.told("status", folder, status=0))
        self.deployed(folder)
        self.assertIn("is what runs there", self.told("status", "--strict", folder, status=0))

    def test_what_differs(self) -> None:
        """`status` says what somebody changed by hand, the root beside it."""
        held = files(ONE, P1, rows=rows(row("alice", "urn:a")))
        folder = self.written(held, SET_ROOT)
        self.assertIn("policy urn:p 1 and policy set urn:s 1 aren't there", self.told("status", folder, status=0))
        self.deployed(folder)
        at = f"/domains/{self.name}"
        self.running.sent(serving.message("PUT", f"{at}/pip", ADMIN, '{"Row":[]}'))
        self.assertIn("differs: the rows are others.", self.told("status", folder, status=0))
        self.running.sent(serving.message("POST", f"{at}/pap/policies", ADMIN, Q1),
                          serving.message("PUT", f"{at}/pap/policy/urn:q/1/active", ADMIN))
        self.root('{"PolicyIdReference":{"Id":"urn:q"}}')
        self.running.sent(serving.message("DELETE", f"{at}/pap/policy/urn:p/1/active", ADMIN))
        said = self.told("status", folder, status=1)
        for words in (OTHERS, "Besides, policy urn:p 1 isn't active; policy urn:q 1 is active and not the folder's; "
                              "the rows are others"):
            self.assertIn(words, said)
        self.deployed(folder)
        self.assertIn("is what runs there", self.told("status", "--strict", folder, status=0))

    def test_without_a_record(self) -> None:
        """Answers show the root of a domain that was made by hand."""
        at = f"/domains/{self.name}/pap"
        self.running.sent(serving.message("POST", f"{at}/policies", ADMIN, P1),
                          serving.message("PUT", f"{at}/policy/urn:p/1/active", ADMIN))
        self.root('{"PolicyIdReference":{"Id":"urn:p"}}')
        folder = self.written(files(P1), "urn:p")
        self.assertIn("root policy urn:p 1 (by answers)", self.told("status", folder, status=0))
        bare = self.written(files(P1), "urn:p", "bare", Cases=[])
        self.assertIn("as before or as after. Nothing is deployed", self.told("deploy", "--dry-run", bare, status=0))
        self.whole(lambda: self.deployed(folder, "--only-whole"))
        self.assertIn("is what runs there", self.told("status", "--strict", folder, status=0))


if __name__ == "__main__":
    unittest.main()
