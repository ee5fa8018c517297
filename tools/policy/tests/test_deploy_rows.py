"""Rows of a real size: what fits a body is deployed, fetched and deployed again; what doesn't is told before anything
is recorded."""
from __future__ import annotations

import json
import re
import unittest

from .deploy_tests import ADMIN, PDPD, TOP, DeployTest, policy, request, row, rows, serving
from .test_deploy import files

ROLE = "urn:acme:attribute:role"
P = policy("urn:p", "1", "p1", attribute=ROLE)
# the most of a body (docs/guide/API.md)
BODY = 524_288


def page(name: str) -> str:
    return (TOP / name).read_text(encoding="utf-8")


def real(count: int) -> str:
    """So many rows as a company has them, indented as people keep them."""
    held = [row(f"first.last{number:04}@example.com", ROLE, "accountant") for number in range(count)]
    return json.dumps({"Row": [*held, row("alice", ROLE)]}, indent=1)


class Weighed(DeployTest):
    """Bodies of rows."""

    def listed_records(self) -> bytes:
        """The listing of the domain."""
        return self.running.sent(serving.message("GET", f"/domains/{self.name}/pap/policies", ADMIN))[0]

    def test_three_thousand_real_rows(self) -> None:
        """They fit, though neither their file nor what the server shows of them would."""
        held = real(3000)
        self.assertGreater(len(held), BODY)
        folder = self.written(files(P, rows=held), "urn:p")
        status, written, _ = self.policy("check", f"{folder}/document-0.json", "--rows", f"{folder}/rows.json")
        self.assertEqual(status, 0)
        left = f"{BODY - len(json.dumps(json.loads(held), separators=(',', ':'))):,} bytes of a body are left"
        self.assertIn(f"3001 rows: taken; {left}", written)
        self.assertIn("can't send this file", " ".join(written.split()))
        said = self.deployed(folder)
        self.assertIn(f"rows 0 before, 3001 after; 3001 new, 0 gone; {left}", " ".join(said.split()))
        self.assertIn(b"Permit", self.asks(request("alice"))[0])
        shown = self.running.sent(serving.message("GET", f"/domains/{self.name}/pip", ADMIN))[0]
        self.assertGreater(len(shown), BODY)
        there = self.folder / "there"
        place = "--server", f"http://127.0.0.1:{self.running.port}", "--domain", self.name
        self.assertEqual(self.policy("pull", str(there), *place)[0], 0)
        (there / "rows.json").write_text((there / "rows.json").read_text().replace('"alice"', '"carol"'))
        self.deployed(str(there))
        self.assertIn(b"NotApplicable", self.asks(request("alice"))[0])
        self.assertIn(b"Permit", self.asks(request("carol"))[0])
        self.assertEqual(self.policy("rollback", "--yes", str(there))[0], 0)
        self.assertIn(b"Permit", self.asks(request("alice"))[0])

    def test_what_pages_say(self) -> None:
        """So many rows of an ordinary length fit, and hardly more."""
        count, size = re.search(r"room for some ([0-9,]+) of ([0-9]+) bytes", page("docs/guide/API.md")).groups()
        self.assertIn(f"{count}](", page("README.md"))
        ordinary = json.dumps(row("first.last0001@example.com", ROLE, "accountant"), separators=(",", ":"))
        self.assertEqual(len(ordinary), int(size))
        number = int(count.replace(",", ""))
        for rows_held, fits in ((number, True), (number * 21 // 20, False)):
            self.assertEqual(len('{"Row":[]}') + rows_held * (len(ordinary) + 1) - 1 <= BODY, fits)

    def test_rows_that_dont_fit(self) -> None:
        """Nothing is recorded, so that nothing stands in the way of the next deployment."""
        short = row("a", "urn:a")
        for held, code in ((real(4000), "BodyTooLarge"), (rows(*[short] * 4097), "Quota")):
            folder = self.written(files(P, rows=held), "urn:p")
            status, written, _ = self.policy("check", f"{folder}/document-0.json", "--rows", f"{folder}/rows.json")
            self.assertEqual(status, 1)
            self.assertIn(f"refused, {code}", written)
            self.assertIn(f"answers this fault: {code}", written)
            head, between, body = serving.message("PUT", f"/domains/{self.name}/pip", ADMIN, json.dumps(
                json.loads(held), separators=(",", ":"))).partition(b"\r\n\r\n")
            if PDPD is not None and code == "BodyTooLarge":
                body = b""  # (its length is refused, and the connection ends before the rest is read)
            sent = self.running.sent(head + between + body)[0]
            if PDPD is not None:  # the model's server takes each body
                self.assertIn(code.encode(), sent)
                self.running.sent(serving.message("PUT", f"/domains/{self.name}/pip", ADMIN, '{"Row":[]}'))
            self.assertIn(code, self.deployed(folder, status=1))
            self.assertIn(code, self.policy("diff", "--live", folder)[1])
            self.assertNotIn(b"deployment", self.listed_records())
        self.deployed(self.written(files(P, rows=real(10)), "urn:p"))

    def test_rows_between_that_dont_fit(self) -> None:
        """Where those of old and new policies together don't fit, rows aren't set in two steps."""
        two = policy("urn:p", "2", "p2", attribute="urn:b")
        self.deployed(self.written(files(P, rows=real(2000)), "urn:p"))
        new = rows(*(row(f"first.last{number:04}@example.com", "urn:b", "x" * 100) for number in range(1500)))
        said = self.deployed(self.written(files(two, rows=new), "urn:p"))
        self.assertIn("No order keeps answers whole", said)
        self.assertNotIn("that the old policies ask for as they are", said)

    def test_a_row_in_the_fewest_bytes(self) -> None:
        """What is sent is the same rows: the server shows them as they were."""
        odd = [row("\u00e4\"\\\n", "urn:a", "\u2028\t"), row("", "urn:a", issuer="urn:hr"),
               {"Category": "urn:own", "Entity": "", "AttributeId": "n", "DataType": "integer", "Value": -5},
               {"Category": "Resource", "Entity": "r", "AttributeId": "d", "Value": "2026-01-01T00:00:00+01:00",
                "DataType": "http://www.w3.org/2001/XMLSchema#dateTime"}]
        put = serving.message("PUT", f"/domains/{self.name}/pip", ADMIN, json.dumps({"Row": odd}))
        get = serving.message("GET", f"/domains/{self.name}/pip", ADMIN)
        before = self.running.sent(put, get)[1]
        self.running.sent(serving.message("PUT", f"/domains/{self.name}/pip", ADMIN, '{"Row":[]}'))
        self.deployed(self.written(files(P, rows=json.dumps({"Row": odd})), "urn:p"))
        self.assertEqual(self.running.sent(get)[0], before)


if __name__ == "__main__":
    unittest.main()
