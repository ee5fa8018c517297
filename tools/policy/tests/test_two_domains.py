"""`diff` of two folders that are domains, and a domain's folder as what decides: documents, root and rows of each."""
from __future__ import annotations

import json

from .desk_tests import POLICY, REQUEST, ROWS, DeskTest, edited, run

SHOP = {"PolicyIdReference": {"Id": "urn:test:shop"}}
FIRST = {"PolicyIdReference": {"Id": "urn:test:shop", "Version": "1.0"}}
SECOND = edited(POLICY, ('"Version": "1.0"', '"Version": "2.0"'), ('"Permit"', '"Deny"'))
DAY = "2026-11-23T10:00:00Z"
ALL_ROWS = ROWS.replace("}\n]}", '},\n  {"Category": "AccessSubject", "Entity": "bob", "AttributeId": "urn:test:role", '
                                 '"DataType": "string", "Value": "staff"}]}')


def folder(name: str, root: object = SHOP, rows: str = ROWS, **documents: str) -> dict[str, str]:
    """The files of a domain."""
    files = {f"{document}.json": text for document, text in documents.items()}
    held = {"Server": "https://archive.invalid", "Domain": "shop", "Root": root, "Documents": sorted(files),
            "Rows": "rows.json"}
    found = {**files, "rows.json": rows, "domain.json": json.dumps(held)}
    return {f"{name}/{file}": text for file, text in found.items()}


class TwoDomains(DeskTest):
    """What differs, and which answers."""

    def diff(self, old: dict[str, str], new: dict[str, str], *more: str) -> tuple[int, list[str]]:
        status, out, _ = run("diff", "@old", "@new", *more, files={**old, **new, "r.json": REQUEST})
        return status, out.splitlines()

    def test_what_differs(self) -> None:
        old = folder("old", p=POLICY, q=POLICY.replace("urn:test:shop", "urn:test:other"))
        for what, new, lines in (
                ("nothing", folder("new", p=POLICY, q=POLICY.replace("urn:test:shop", "urn:test:other")),
                 ["Documents, root and rows are the same."]),
                ("documents", folder("new", p=POLICY.replace('"open"', '"hours"'), q=SECOND),
                 ["gone       policy urn:test:other 1.0", "changed    policy urn:test:shop 1.0",
                  "new        policy urn:test:shop 2.0"]),
                ("root and rows", folder("new", FIRST, ALL_ROWS, p=POLICY,
                                         q=POLICY.replace("urn:test:shop", "urn:test:other")),
                 ["root       policy urn:test:shop (version 1.0); before policy urn:test:shop",
                  "rows       1 before, 2 after; 1 new, 0 gone"])):
            with self.subTest(what):
                self.assertEqual(self.diff(old, new), (0, lines))
                self.assertEqual(self.diff(old, new, "--strict"), (int(what != "nothing"), lines))

    def test_answers(self) -> None:
        old = folder("old", p=POLICY)
        for what, new, count in (("rows", folder("new", rows='{"Row":[]}', p=POLICY), 0),
                                 ("the newest version", folder("new", p=POLICY, q=SECOND), 1),
                                 ("the root's version", folder("new", FIRST, p=POLICY, q=SECOND), 0),
                                 ("no root", folder("new", {}, p=POLICY), 1), ("no documents", folder("new"), 1)):
            with self.subTest(what):
                status, lines = self.diff(old, new, "--requests", "@r.json", "--at", DAY)
                self.assertEqual((status, lines[-1]), (0, f"{count} of 1 answer change, by the model alone"))

    def test_a_folder_decides(self) -> None:
        files = {**folder("d", FIRST, p=POLICY, q=SECOND),
                 "r.json": REQUEST}
        for more, decision in (([], "Permit"), (["--root", "urn:test:shop", "--rows", "@d/rows.json"], "Deny")):
            status, out, _ = run("explain", "--policy", "@d", "--request", "@r.json", "--at", DAY, *more, files=files)
            self.assertEqual((status, out.partition(":")[0]), (0, decision))

    def test_faults(self) -> None:
        for what, new in (("a document", folder("new", p=POLICY.replace('"Permit"', '"Permitt"'))),
                          ("the file", {"new/domain.json": "{}"})):
            with self.subTest(what):
                self.assertEqual(self.diff(folder("old", p=POLICY), new)[0], 1)
        status, out, _ = run("deploy", "@new", files=folder("new"))
        self.assertEqual((status, "A root needs documents." in out), (1, True))
