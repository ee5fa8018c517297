"""The order of a deployment's steps, without a server: every state between answers as the old one or as the
new one, or is said to be mixed."""
from __future__ import annotations

import functools
import itertools
import random
import unittest
from unittest import mock

from .deploy_tests import ASKED, policy, policy_set, row, rows

from desk import check, plan  # noqa: E402
from desk.answering import Answering, State, active_in, keys_in  # noqa: E402
from desk.live import Key, key_of  # noqa: E402
from desk.model import contexts, decisions, linking, values, versions  # noqa: E402

ROOT = versions.Reference("set", "urn:s", None, None, None)
ATTRIBUTES = ("urn:a", "urn:b")


@functools.lru_cache(maxsize=None)
def checked(text: str) -> check.Checked:
    """A document."""
    return check.checked("x", text.encode())


def source(held: list[dict]) -> list[contexts.SourceRow]:
    """The rows of the model."""
    return plan.source_rows(check.checked_rows("rows", rows(*held).encode()))


class Chance:
    """Random domains: a set over up to three policies, in up to three versions each."""

    def __init__(self, seed: int):
        self.random = random.Random(seed)
        self.held: dict[Key, check.Checked] = {}

    def add(self, text: str) -> None:
        found = checked(text)
        self.held[key_of(found)] = found

    def documents(self) -> None:
        """Policies p0 to p2 in versions 1 to 3, and sets s in versions 1 to 3 with references of all
        kinds."""
        for number, version in itertools.product(range(3), range(1, 4)):
            attribute = self.random.choice((None, *ATTRIBUTES, "urn:b by hr"))
            self.add(policy(f"urn:p{number}", str(version), f"urn:p{number}:{version}",
                            self.random.choice(("Permit", "Deny")), attribute))
        for version in range(1, 4):
            children = [(f"urn:p{number}", self.random.choice((None, "1", "2", "3", "+")))
                        for number in self.random.sample(range(3), self.random.randint(1, 3))]
            self.add(policy_set("urn:s", str(version), children))

    def rows(self) -> list[dict]:
        return [row(who, attribute, issuer=self.random.choice((None, None, "hr", "it")))
                for who in ("alice", "bob", "") for attribute in ATTRIBUTES if self.random.random() < 0.5]

    def root(self) -> versions.Reference | None:
        pattern = self.random.choice((None, None, ["1"], ["2"], ["3"]))
        return None if self.random.random() < 0.1 else ROOT._replace(pattern=pattern)

    def state(self, root: versions.Reference | None, name: str) -> State:
        """A state in which just what its root reaches is active."""
        chosen = frozenset(key for key in self.held if self.random.random() < 0.6)
        return State(frozenset(keys_in(Answering(list(self.held.values()), {}).tree(root, chosen))), root,
                     name)


def planned(seed: int) -> tuple[Chance, Answering, plan.Planner, dict[str, list[dict]]]:
    """A random change of a random domain."""
    chance = Chance(seed)
    chance.documents()
    held = {plan.NOW: chance.rows()}
    held[plan.NEW] = held[plan.NOW] if chance.random.random() < 0.4 else chance.rows()
    before, goal = chance.state(chance.root(), plan.NOW), chance.state(chance.root(), plan.NEW)
    steps = [plan.Step("activate", key) for key in sorted(goal.active - before.active)]
    steps += [plan.Step("rows", plan.NEW)] if held[plan.NOW] != held[plan.NEW] else []
    steps += [plan.Step("root", goal.root)] if goal.root != before.root else []
    steps += [plan.Step("withdraw", key) for key in sorted(before.active - goal.active)]
    if held[plan.NOW] == held[plan.NEW]:
        before = before._replace(rows=plan.NEW)
    answering = Answering(list(chance.held.values()), {name: source(one) for name, one in held.items()})
    return chance, answering, plan.Planner(answering, [before], steps, goal), held


class Orders(unittest.TestCase):
    """Random changes."""

    def answers(self, chance: Chance, answering: Answering, state: State) -> list[str]:
        """What the model answers in a state."""
        active = [active_in(chance.held[key].source.held) for key in sorted(state.active)]
        found = [contexts.SourceRow(place[0], entity, place[1], values.read(place[2], text), issuer)
                 for place, entities in answering.rows[state.rows].items() for entity,
                 held in entities.items() for issuer, text in held]
        return [decisions.response(decisions.View(active, state.root, found), body.encode(), 0)
                for body in ASKED]

    def test_each_state_between(self) -> None:
        safe = mixed = really = 0
        for seed in range(250):
            chance, answering, planner, _ = planned(seed)
            order = planner.order()
            done = [step for step in order.steps if step.held != plan.BETWEEN]
            self.assertEqual(sorted(map(str, done)), sorted(map(str, planner.steps)))
            before, state, between = planner.befores[0], planner.befores[0], []
            old, new = self.answers(chance, answering, before), self.answers(chance, answering, planner.goal)
            for place, step in enumerate(order.steps):
                state = plan.after(state, step)
                found = self.answers(chance, answering, state)
                is_whole = all(answer in (one, other) for answer, one, other in zip(found, old, new))
                between.append(is_whole)
                self.assertTrue(is_whole or place in order.mixed, f"seed {seed}, step {place}: {order}")
            self.assertEqual(state, planner.goal)
            safe, mixed = safe + (not order.mixed), mixed + bool(order.mixed)
            really += not all(between)
            self.assertTrue(not order.mixed or order.reasons, f"seed {seed}")
        self.assertGreater(min(safe, mixed, really), 15, (safe, mixed, really))

    def test_where_none_is_found_there_is_none(self) -> None:
        """Of up to five steps all orders are tried."""
        tried = 0
        for seed in range(400, 600):
            _, _, planner, _ = planned(seed)
            if not planner.order().mixed or len(planner.steps) > 5:
                continue
            tried += 1
            self.assertFalse(any(not planner.mixed_in(list(steps))
                                 for steps in itertools.permutations(planner.steps)), f"seed {seed}")
        self.assertGreater(tried, 5)

    def test_a_tree_is_the_models(self) -> None:
        """Views of trees that differ are of trees that the model links otherwise, and the other way round."""
        for seed in range(30):
            chance = Chance(seed)
            chance.documents()
            answering = Answering(list(chance.held.values()), {plan.NOW: []})
            states = [chance.state(chance.root(), plan.NOW) for _ in range(6)]
            shown = [self.shown(chance, state) for state in states]
            trees = [answering.view(state).tree for state in states]
            for one, other in itertools.combinations(range(6), 2):
                self.assertEqual(shown[one] == shown[other], trees[one] == trees[other])

    def shown(self, chance: Chance, state: State) -> object:
        """The model's tree in a state."""
        if state.root is None:
            return None
        tree = linking.linked([active_in(chance.held[key].source.held)
                               for key in sorted(state.active)], state.root)
        return tree


class Kinds(unittest.TestCase):
    """Changes of each kind, and the order that they get."""

    def order(self, old: list[str], new: list[str], rows_before: list[dict] | None = None,
              rows_after: list[dict] | None = None,
              roots: tuple[versions.Reference | None, versions.Reference
                           | None] = (ROOT, ROOT)) -> tuple[list[str], bool]:
        """What is done, in order, and whether answers are mixed."""
        held = {key_of(one): one for one in (checked(text) for text in [*old, *new])}
        before, goal = ([key_of(checked(text)) for text in texts]
                        for texts in (old, new))
        found = {plan.NOW: source(rows_before or []),
                 plan.NEW: source(rows_after if rows_after is not None else rows_before or [])}
        steps = [plan.Step("activate", key) for key in goal if key not in before]
        steps += [plan.Step("rows", plan.NEW)] if rows_after is not None else []
        steps += [plan.Step("root", roots[1])] if roots[0] != roots[1] else []
        steps += [plan.Step("withdraw", key) for key in before if key not in goal]
        planner = plan.Planner(Answering(list(held.values()), found),
                               [State(frozenset(before), roots[0], plan.NOW)], steps,
                               State(frozenset(goal), roots[1], plan.NEW))
        order = planner.order()
        return [f"{step.do} {step.held.id[4:]} {step.held.version[0]}" if isinstance(step.held, Key)
                else f"{step.do}" + (
            " between" if step.held == plan.BETWEEN else "") for step in order.steps], bool(order.mixed)

    def test_one_new_version(self) -> None:
        top = policy_set("urn:s", "1", [("urn:p", None), ("urn:q", None)])
        one, other, still = policy("urn:p", "1", "p1"), policy("urn:p", "2",
                                                               "p2"), policy("urn:q", "1", "q1")
        self.assertEqual(self.order([top, one, still], [top, other, still]),
                         (["activate p 2", "withdraw p 1"], False))
        self.assertEqual(self.order([top, other, still], [top, one, still]),
                         (["activate p 1", "withdraw p 2"], False))

    def test_two_new_versions_at_once(self) -> None:
        one, two = ([policy(f"urn:{name}", version, name + version) for name in "pq"] for version in "12")
        top = policy_set("urn:s", "1", [("urn:p", None), ("urn:q", None)])
        self.assertTrue(self.order([top, *one], [top, *two])[1])
        pinned = [policy_set("urn:s", version, [("urn:p", version), ("urn:q", version)]) for version in "12"]
        self.assertEqual(self.order([pinned[0], *one], [*two, pinned[1]]),
                         (["activate p 2", "activate q 2", "activate s 2", "withdraw s 1", "withdraw p 1",
                           "withdraw q 1"], False))
        # the set, by which all turns, would go before its policies: they go first
        self.assertEqual(self.order([pinned[0], *one], [pinned[1], *two])[0][:3],
                         ["activate p 2", "activate q 2", "activate s 2"])

    def test_a_root_moves_last(self) -> None:
        one, two = policy("urn:p", "1", "p1"), policy("urn:q", "1", "q1")
        roots = tuple(versions.Reference("policy", name, None, None, None) for name in ("urn:p", "urn:q"))
        self.assertEqual(self.order([one], [two], roots=roots), (["activate q 1", "root", "withdraw p 1"],
                                                                 False))
        self.assertEqual(self.order([], [two], roots=(None, roots[1])), (["activate q 1", "root"], False))
        self.assertEqual(self.order([one], [], roots=(roots[0], None)), (["root", "withdraw p 1"], False))

    def test_a_lower_version(self) -> None:
        """Going back under a reference to any version: what is withdrawn makes the turn, also where the
        root has to wait for it."""
        one, two = policy("urn:p", "1", "p1"), policy("urn:p", "2", "p2")
        roots = tuple(versions.Reference("set", "urn:s", [version], None, None) for version in "21")
        low, high = policy_set("urn:s", "1", [("urn:p", None)]), policy_set("urn:s", "2", [("urn:p", "2")])
        order, is_mixed = self.order([high, two], [low, one], roots=roots)
        self.assertTrue(is_mixed)
        low = policy_set("urn:s", "1", [("urn:p", "1")])
        self.assertEqual(self.order([high, two], [low, one], roots=roots)[1], False)

    def test_rows(self) -> None:
        one, two = policy("urn:p", "1", "p1",
                          attribute="urn:a"), policy("urn:p", "2", "p2", attribute="urn:b")
        same = policy("urn:p", "2", "p2", attribute="urn:a")
        root = (versions.Reference("policy", "urn:p", None, None, None),) * 2
        alice, bob = row("alice", "urn:a"), row("bob", "urn:b")
        self.assertEqual(self.order([one], [one], [alice], [bob], root), (["rows"], False))
        self.assertEqual(self.order([one], [two], [alice], [alice, bob], root),
                         (["rows", "activate p 2", "withdraw p 1"], False))
        self.assertEqual(self.order([one], [two], [alice, bob], [bob], root),
                         (["activate p 2", "rows", "withdraw p 1"], False))
        self.assertEqual(self.order([one], [two], [alice], [bob], root),
                         (["rows between", "activate p 2", "withdraw p 1", "rows"], False))
        self.assertTrue(self.order([one], [same], [alice], [row("bob", "urn:a")], root)[1])


class Broken(unittest.TestCase):
    """The tests of kinds fail where the planner is broken."""

    def test_each_break_is_noticed(self) -> None:
        for where, name, instead, test in (
                (plan.Planner, "is_quiet", lambda *_: True, "test_two_new_versions_at_once"),
                (plan.Planner, "mixed_in", lambda *_: [], "test_two_new_versions_at_once"),
                (plan.Planner, "parted_rows", lambda _: None, "test_rows"),
                (Answering, "asked_in", lambda *_: set(), "test_rows"),
                (Answering, "resolved", lambda *_: None, "test_a_lower_version")):
            with self.subTest(name), mock.patch.object(where, name, instead):
                result = unittest.TestResult()
                Kinds(test).run(result)
                self.assertFalse(result.wasSuccessful())


if __name__ == "__main__":
    unittest.main()
