"""The reader of JSON with places reads what the model reads, and no text that the model doesn't."""
from __future__ import annotations

import unittest

from .desk_tests import positions

import agree  # noqa: E402
from desk.model import json_texts, rows  # noqa: E402

COUNT = 3000
TEXTS = ['{"a":1,}', '{"a":1 "b":2}', "[1,2] // x", '"x\n"', "{a:1}", "[01]", "[1e400]", '["\\ud800"]',
         '"\\ud83d\\ude00"', "\ufeff{}", "{} x", "[-0,1.0,18446744073709551615,18446744073709551616]",
         "[" * 127 + "]" * 127, "[" * 128 + "]" * 128, "", '{"a":tru}', "[,]", "[1,,2]", "{,}", "{'a':1}", "[1.]",
         "[-]", '"abc', "[1e5,2E+3]", '{"a" 1}', "null", "[NaN]", '{"a":1,"a":2}', '"\\x"', '"\t"', "/* x */ {}",
         "# x\n[]", "[Infinity]", "\u00a0[]", "[1 2]", "nul", "[--1]", '"\\u12"', '{"a":{"b":[{"c":null}]}}']


def same(one: object, other: object) -> bool:
    """Whether two values are one, of which fractions are known by their kind alone."""
    if isinstance(one, json_texts.Fraction) or isinstance(other, json_texts.Fraction):
        return type(one) is type(other)
    if isinstance(one, dict) and isinstance(other, dict):
        return list(one) == list(other) and all(same(one[name], other[name]) for name in one)
    if isinstance(one, list) and isinstance(other, list):
        return len(one) == len(other) and all(map(same, one, other))
    return type(one) is type(other) and one == other


class Positions(unittest.TestCase):
    """Values, slips and places."""

    def compare(self, held: bytes) -> None:
        node, slips = positions.read(positions.Source("x", held))
        try:
            wanted = json_texts.json_of(held)
        except json_texts.NotJson:
            self.assertTrue(slips, held)
            return
        self.assertEqual(slips, [], held)
        self.assertTrue(same(node.plain(), wanted), held)

    def test_the_value_is_the_models(self) -> None:
        source = agree.Rows(7)
        for text in TEXTS:
            self.compare(text.encode())
        self.compare(b'{"a":"\xff"}')
        for _ in range(COUNT):
            kind = source.random.choice(["documents", "requests", "bodies"])
            row = source.makers[kind]()
            self.compare(rows.decoded(row[1] if len(row) > 1 else ""))

    def test_places(self) -> None:
        held = '{"é": [1,\n   {"b/~": true}]}'
        node, _ = positions.read(positions.Source("x", held.encode()))
        inner = node.at("é").value[1].at("b/~")
        self.assertEqual((inner.pointer, inner.place, inner.text), ("/é/1/b~1~0", positions.Place(2, 12), "true"))

    def test_more_than_one_slip(self) -> None:
        held = '{"a": 1, // one\n "b": [1, 2,], /* two */ "c": 3 "d": 4}'
        _, slips = positions.read(positions.Source("x", held.encode()))
        self.assertEqual([slip.start for slip in slips],
                         [held.index("//"), held.index(",]"), held.index("/*"), held.index('"d"')])


if __name__ == "__main__":
    unittest.main()
