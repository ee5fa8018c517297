"""The order of a deployment's steps in which every decision request between the first and the last is
answered as before or as after, where there is one.

A step is quiet where what answers rest on is the same after it. Steps that are quiet under the old state
come first, then one step that makes the new state's answers of the old state's, then steps that are quiet
under the new state. Where no single step makes the turn, some decision requests between may be answered
by neither state: the order with the fewest such steps is taken, and what is mixed is said.
"""
from __future__ import annotations

from collections import namedtuple
from collections.abc import Callable
from dataclasses import dataclass

from .answering import Answering, State, turned
from .domain import listed_shown, root_shown
from .live import MOST_ROWS, Key, key_shown
from .model import contexts, versions

# a step: activate or withdraw a document, set the rows of a name, or set the root
Step = namedtuple("Step", "do held")
Kind = Callable[[Step], bool]
NOW, NEW, BETWEEN = "now", "new", "between"


def step_shown(step: Step) -> str:
    """A step in a few words."""
    if step.do == "rows":
        parted = "set the rows that the old policies ask for as they are, and the others anew"
        return "set the rows" if step.held == NEW else parted
    if step.do == "root":
        return f"set the root: {root_shown(step.held)}"
    return f"{step.do} {key_shown(step.held)}"


def after(state: State, step: Step) -> State:
    """The state after the step."""
    if step.do == "activate":
        return state._replace(active=state.active | {step.held})
    if step.do == "withdraw":
        return state._replace(active=state.active - {step.held})
    return state._replace(**{step.do: step.held})


@dataclass
class Order:
    """Steps in order, and the places of those after which some ask may be answered by neither the old nor
    the new state."""
    steps: list[Step]
    mixed: list[int]
    reasons: list[str]


class Planner:
    """Orders the steps from one state to another. What the root is now may be one of several: the first is
    the likely one."""

    def __init__(self, answering: Answering, befores: list[State], steps: list[Step], goal: State):
        self.answering, self.befores, self.steps, self.goal = answering, befores, steps, goal

    def is_quiet(self, state: State, step: Step) -> bool:
        """Whether all answers are the same after the step."""
        return self.answering.view(after(state, step)) == self.answering.view(state)

    def quiet(self, state: State, left: list[Step], may: Kind) -> tuple[State, list[Step], list[Step]]:
        """The state once all that is quiet is done, those steps, and the others."""
        taken: list[Step] = []
        has_found = True
        while has_found:
            has_found, others = False, []
            for step in left:
                if may(step) and self.is_quiet(state, step):
                    state, has_found = after(state, step), True
                    taken.append(step)
                else:
                    others.append(step)
            left = others
        return state, taken, left

    def turning(self, steps: list[Step], may: Kind) -> list[Step] | None:
        """An order with one step that makes the turn, before which only steps of that kind stand; None
        where there is none."""
        state, first, left = self.quiet(self.befores[0], steps, may)
        for step in left:
            turned_to = after(state, step)
            if self.answering.view(turned_to) == self.answering.view(self.goal):
                _, more, rest = self.quiet(turned_to, [one for one in left if one is not step],
                                           lambda one: True)
                if not rest:
                    return [*first, step, *more]
        return None if left else first

    def mixed_in(self, steps: list[Step]) -> list[int]:
        """The places of the steps after which an answer may be neither the old nor the new."""
        found: set[int] = set()
        goal = self.answering.view(self.goal)
        for before in self.befores:
            state, old = before, self.answering.view(before)
            for place, step in enumerate(steps):
                state = after(state, step)
                if self.answering.view(state) not in (old, goal):
                    found.add(place)
        return sorted(found)

    def parted_rows(self) -> list[Step] | None:
        """The steps with rows between: what the old tree asks for as it is, and all else anew. None where
        that is no help."""
        if not any(step.do == "rows" for step in self.steps):
            return None
        old = self.answering.asked_in(self.answering.view(self.befores[0]).tree)
        held, new = self.answering.rows[NOW], self.answering.rows[NEW]
        between = {place: entities for rows, is_old in ((held, True), (new, False))
                   for place, entities in rows.items() if (place in old) == is_old}
        count = sum(len(found) for entities in between.values() for found in entities.values())
        if between in (held, new) or count > MOST_ROWS:
            return None
        self.answering.rows[BETWEEN] = between
        first = [step for step in self.steps if step.do == "activate"]
        rest = [step for step in self.steps if step.do not in ("activate", "rows")]
        return [*first, Step("rows", BETWEEN), *rest, Step("rows", NEW)]

    def candidates(self) -> list[list[Step]]:
        """Orders for where none is safe."""
        _, quiet, loud = self.quiet(self.befores[0], [step for step in self.steps if step.do == "activate"],
                                    lambda step: True)
        rows, root, withdraw = ([step for step in self.steps if step.do == word]
                                for word in ("rows", "root", "withdraw"))
        return [[*quiet, *loud, *rows, *root, *withdraw], [*quiet, *rows, *root, *loud, *withdraw],
                [*quiet, *loud, *root, *rows, *withdraw],
                [*quiet, *root, *loud, *rows, *withdraw], [*quiet, *rows, *loud, *root, *withdraw],
                [*quiet, *rows, *loud, *withdraw, *root],
                [*quiet, *loud, *root, *withdraw, *rows]]

    def order(self, may_part: bool = True) -> Order:
        """The order that is taken; whether rows may be set in two steps."""
        for steps in (self.steps, self.parted_rows() if may_part else None):
            for may in (lambda step: step.do in ("activate", "rows"), lambda step: True):
                found = None if steps is None else self.turning(steps, may)
                if found is not None and not self.mixed_in(found):
                    return Order(found, [], [])
        best = min(self.candidates(), key=lambda steps: len(self.mixed_in(steps)))
        mixed = self.mixed_in(best)
        return Order(best, mixed, self.reasons(best, mixed))

    def reasons(self, steps: list[Step], mixed: list[int]) -> list[str]:
        """Why answers are mixed: references that admit the old and the new versions, and attributes whose
        rows change under old policies or new."""
        found = []
        state = self.befores[0]
        for place, step in enumerate(steps):
            next_state = after(state, step)
            if step.do in ("activate", "withdraw") and ({place, place - 1} & set(mixed)):
                found += [reference_told(*one) for one in turned(self.answering, state, next_state)]
            state = next_state
        if any(step.do == "rows" for step in steps) and mixed:
            found += self.rows_told()
        return list(dict.fromkeys(found))

    def rows_told(self) -> list[str]:
        """The attributes that the old and the new policies ask for, whose rows change."""
        asked = [self.answering.asked_in(self.answering.view(state).tree)
                 for state in (self.befores[0], self.goal)]
        held, new = self.answering.rows[NOW], self.answering.rows[NEW]
        names = sorted({place[1] for place in asked[0] & asked[1] if held.get(place) != new.get(place)})
        return [f"rows and policies change by different requests, and the policies before and after ask for "
                f"{listed_shown(names)}, whose rows change"] if names else []


def reference_told(key: Key | None, reference: versions.Reference, old: Key | None, new: Key | None) -> str:
    """That a reference takes another document by a single step."""
    place = "the root" if key is None else key_shown(key)
    shown = ["nothing" if one is None else ".".join(map(str, one.version)) for one in (old, new)]
    pattern = ".".join(reference.pattern) if reference.pattern is not None else "any version"
    return (f"the reference of {place} to {reference.id} ({pattern}) takes {shown[1]} in place of {shown[0]}"
            " by itself")


def source_rows(rows) -> list[contexts.SourceRow]:
    """The rows of the model."""
    return [contexts.SourceRow(row.category, row.entity, row.attribute_id, row.literal.value, row.issuer)
            for row in (rows.rows if rows else [])]
