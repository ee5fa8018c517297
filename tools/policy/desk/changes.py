"""What a deployment changes: from what a domain has to what a folder, or an earlier deployment, says; and
the requests that do it, in order."""
from __future__ import annotations

from dataclasses import dataclass, field

from . import plan, records, setting
from .asked_root import Root, root_now
from .answering import Answering, State, keys_in
from .check import Checked, Rows
from .domain import KEPT, root_body
from .live import (
    MOST_BODY, Key, Live, bytes_left, key_shown, path_of, row_lines, rows_body, version_shown)
from .model import versions
from .wire import ServerFault

MOST_DOCUMENTS = 1024
# records in which is looked whether a folder was deployed before
MOST_LOOKED = 20


@dataclass
class Target:
    """What is to run: a root, documents, and rows, where they are set."""
    root: versions.Reference | None
    documents: dict[Key, Checked]
    rows: Rows | None


@dataclass
class Action:
    """A request that changes something: what it does, its message, and what becomes of a document by it."""
    do: str
    shown: str
    message: tuple[str, str, bytes | None]
    key: Key | None = None
    becomes: bool | None = None
    lines: list[str] | None = None
    is_mixed: bool = False

    def as_json(self) -> dict[str, object]:
        """The action as JSON has it."""
        held: dict[str, object] = {"do": self.do}
        if self.key is not None:
            held |= {"kind": self.key.kind, "id": self.key.id, "version": version_shown(self.key.version)}
        return {**held, "shown": self.shown, "mixed": self.is_mixed}


@dataclass
class Changes:
    """What is to be changed."""
    live: Live
    records: records.Records
    target: Target
    root: Root
    reached: set[Key]
    content: records.Content
    is_pruned: bool
    back_to: records.Head | None = None
    keep: int = KEPT
    order: plan.Order = field(default_factory=lambda: plan.Order([], [], []))

    @property
    def roots(self) -> list[versions.Reference | None]:
        """What the root may be now, the likely one first; none where it isn't known."""
        return self.root.may_be

    def uploads(self) -> list[Key]:
        """The documents that the server doesn't have."""
        return [key for key in sorted(self.target.documents) if key not in self.live.documents]

    def clashes(self) -> list[Key]:
        """The documents of which the server has another text under the same version."""
        return [key for key, one in sorted(self.target.documents.items())
                if key in self.live.documents and self.live.text(key) != one.source.held]

    def of_order(self, do: str) -> list[Key]:
        """The documents with which the order does that."""
        return [step.held for step in self.order.steps if step.do == do]

    def has_rows(self) -> bool:
        """Whether rows change."""
        return self.target.rows is not None and row_lines(self.target.rows) != row_lines(self.live.rows)

    def has_root(self) -> bool:
        """Whether the root has to be set, as far as is known. It is set in any case."""
        return self.roots != [self.target.root]

    def is_its_root(self) -> bool:
        """Whether what the root is now stands for the same document as the target's."""
        keys = self.live.active()
        places = [root and versions.resolved(root, [(key.kind, key.id, list(key.version)) for key in keys])
                  for root in (*self.roots, self.target.root)]
        return self.target.root in self.roots or places[-1] is not None and places[-1] in places[:-1]

    def is_others_root(self) -> bool:
        """Whether answers show a root that isn't the target's, and that isn't an older version of it either."""
        if not self.root.is_shown or self.is_its_root():
            return False
        ids = {one and one[:2] for one in self.roots}
        return self.root.is_moved or ids != {None} and (self.target.root and self.target.root[:2]) not in ids

    def deployed_as(self) -> int | None:
        """The last of the newest finished deployments that brought this very content; None without one, or where a
        record can't be read."""
        finished = [number for number in self.records.numbers() if self.records.is_finished(number)]
        digest = self.content.digest()
        try:
            return next((number for number in finished[:-MOST_LOOKED - 1:-1]
                         if self.records.head(number).target == digest), None)
        except ServerFault:
            return None

    def replaced(self) -> list[tuple[Key, Key]]:
        """The documents that come into effect in place of a newer version, each with that."""
        found = []
        for key in sorted(self.reached):
            newer = [one for one in self.of_order("withdraw") if one[:2] == key[:2] and one.version > key.version]
            found += [(key, max(newer))] if newer else []
        return found

    def deletes(self) -> list[Key]:
        """The documents that are deleted."""
        return [key for key in sorted(self.live.kept())
                if key not in self.target.documents] if self.is_pruned else []

    def is_all_but_root(self) -> bool:
        """Whether nothing but the root may be to be set."""
        others = [step for step in self.order.steps if step.do != "root"]
        return not (self.clashes() or self.uploads() or others or self.deletes()
                    or self.records.begun()) and self.records.last() is not None

    def is_nothing(self) -> bool:
        """Whether nothing is to be done."""
        return self.is_all_but_root() and not self.has_root()

    def draft(self) -> records.Draft:
        """The record of this deployment. From one that goes back to another, a rollback goes on to the one
        before that."""
        before = self.back_to.before if self.back_to is not None else self.records.last() or 0
        return records.draft(self.records.next_number(), before, self.content, self.roots)

    def actions(self, draft: records.Draft) -> list[Action]:
        """All requests, in order; the root alone, without a record, where nothing else is to be done."""
        if self.is_nothing():
            return [self.action(plan.Step("root", self.target.root))]
        found = [uploaded(key, held, "record") for key, held in draft.parts.items()]
        found += [uploaded(key, self.target.documents[key].source.held, "upload") for key in self.uploads()]
        for place, step in enumerate(self.order.steps):
            action = self.action(step)
            action.is_mixed = place in self.order.mixed
            found.append(action)
        found += [deleted(key, "delete") for key in self.deletes()]
        found.append(uploaded(*draft.finished(), "record"))
        forget = [deleted(key, "forget") for key in self.records.stale(draft.head.number, self.keep)]
        return [*forget, *found] if self.wanted(draft) > MOST_DOCUMENTS else [*found, *forget]

    def wanted(self, draft: records.Draft) -> int:
        """How many documents the domain would have before old records are forgotten."""
        return len(self.live.documents) + len(self.uploads()) + len(draft.parts) + 1

    def action(self, step: plan.Step) -> Action:
        """The request of a step."""
        if step.do == "root":
            again = "" if self.has_root() else " (as it should be; if it is, this changes nothing)"
            return Action("root", plan.step_shown(step) + again, ("PUT", "pap/root", root_body(step.held).encode()))
        if step.do == "rows":
            lines = self.lines_between() if step.held == plan.BETWEEN else row_lines(self.target.rows)
            return Action("rows", plan.step_shown(step), ("PUT", "pip", rows_body(lines)), lines=lines)
        method = "PUT" if step.do == "activate" else "DELETE"
        return Action(step.do, plan.step_shown(step), (method, path_of(step.held) + "/active", None),
                      step.held, step.do == "activate")

    def lines_between(self) -> list[str]:
        """The rows that stand between: those that the old policies ask for as they are, the others anew."""
        answering = self.answering()
        old = answering.asked_in(answering.view(self.before(self.roots[0])).tree)
        found = []
        for rows, is_old in ((self.live.rows, True), (self.target.rows, False)):
            for row, line in zip(rows.rows, row_lines(rows)):
                if ((row.category, row.attribute_id, row.literal.value[0]) in old) == is_old:
                    found.append(line)
        return found

    def before(self, root: versions.Reference | None) -> State:
        """What the domain has now, if that is its root."""
        return State(frozenset(self.live.active()), root, plan.NOW)

    def answering(self) -> Answering:
        """All documents that may answer, and the rows."""
        others = [self.live.checked(key) for key in self.live.active() if key not in self.target.documents]
        rows = {plan.NOW: plan.source_rows(self.live.rows)}
        is_set = self.target.rows is not None
        rows[plan.NEW] = plan.source_rows(self.target.rows) if is_set else rows[plan.NOW]
        return Answering([*self.target.documents.values(), *others], rows)

    def steps(self) -> list[plan.Step]:
        """The steps between what is and what is to be. Sets are withdrawn before policies, as they are activated
        behind them: so a root that a cut deployment may have left has all that its set refers to, or no set."""
        active = set(self.live.active())
        found = [plan.Step("activate", key) for key in sorted(self.reached - active)]
        found += [plan.Step("rows", plan.NEW)] if self.has_rows() else []
        found.append(plan.Step("root", self.target.root))
        last = sorted(active - self.reached, key=lambda key: (key.kind == "policy", key))
        return found + [plan.Step("withdraw", key) for key in last]

    def is_unsure(self) -> bool:
        """Whether answers between may be any: the root isn't known, and isn't all by which answers change."""
        steps = self.order.steps
        if self.root.is_known() or not steps or steps[0].do != "root":
            return not self.root.is_known() and bool(steps)
        state, answering = self.before(None), self.answering()
        views = [answering.view(state := plan.after(state, step)) for step in steps]
        return views != views[-1:] * len(views)

    def ordered(self) -> plan.Order:
        """The steps in the order in which they are done. Under a root that isn't known it is set before anything is
        withdrawn."""
        if not self.root.is_known():
            return plan.Order(self.steps(), [], [])
        goal = State(frozenset(self.reached), self.target.root, plan.NEW)
        planner = plan.Planner(self.answering(), [self.before(root) for root in self.roots], self.steps(), goal)
        found = planner.order()
        is_parted = plan.Step("rows", plan.BETWEEN) in found.steps
        return planner.order(False) if is_parted and bytes_left(self.lines_between()) < 0 else found

    def room(self, draft: records.Draft, actions: list[Action]) -> None:
        """Raises where a body would be too large, or the domain has no room for what is uploaded."""
        for action in actions:
            size = len(action.message[2] or b"")
            if size > MOST_BODY:
                raise ServerFault(f"to {action.shown} takes a body of {size} bytes, and {MOST_BODY} are its room")
        wanted = self.wanted(draft) - sum(action.do == "forget" for action in actions)
        if wanted > MOST_DOCUMENTS:
            raise ServerFault(f"the domain would have {wanted} documents, records of deployments included, "
                              f"and {MOST_DOCUMENTS} are its room: delete what isn't used, as `policy deploy --prune` "
                              "does for what runs now, or keep fewer deployments (Keep in domain.json)")

    def old_setting(self) -> setting.Setting | None:
        """What decides now; None where the root isn't known."""
        if not self.roots:
            return None
        return setting.Setting([self.live.checked(key) for key in self.live.active()], self.roots[0],
                               self.live.rows)

    def new_setting(self) -> setting.Setting:
        """What decides then."""
        rows = self.live.rows if self.target.rows is None else self.target.rows
        return setting.Setting([one for key, one in self.target.documents.items() if key in self.reached],
                               self.target.root, rows)

    def as_json(self) -> dict[str, object]:
        """What changes, as JSON has it."""
        named = {"new": self.uploads(), "changed": self.clashes(), "activated": self.of_order("activate"),
                 "withdrawn": self.of_order("withdraw"), "deleted": self.deletes()}
        roots = [root_body(root) for root in self.roots]
        return {**{name: [key_shown(key) for key in keys] for name, keys in named.items()},
                "rows": self.has_rows(), "root": self.has_root(),
                "roots": roots, "root_known": self.root.whence, "root_shown": self.root.is_shown,
                "root_is_others": self.is_others_root(), "mixed": bool(self.order.mixed) or self.is_unsure(),
                "reasons": self.order.reasons}


def uploaded(key: Key, held: bytes, do: str) -> Action:
    """The upload of a document."""
    number, *part = key.version
    record = f"record deployment {number}" + ("" if not part else " as finished" if part == [0]
                                              else f", piece {part[0]}")
    return Action(do, record if do == "record" else f"upload {key_shown(key)}",
                  ("POST", "pap/policies", held), key, False)


def deleted(key: Key, do: str) -> Action:
    """The deletion of a document."""
    return Action(do,
                  f"{'forget deployment' if do == 'forget' else 'delete'} "
                  f"{version_shown(key.version) if do == 'forget' else key_shown(key)}",
                  ("DELETE", path_of(key), None), key)


def changes_of(live: Live, target: Target, is_pruned: bool, said_root: str | None,
               requests: list[tuple[bytes, int]]) -> Changes:
    """What changes from what the domain has to the target. The requests, each with a moment, are asked to show the
    root."""
    held = records.Records(live)
    root = root_now(live, held, said_root, requests)
    rows = {plan.NOW: []}
    reached = keys_in(Answering(list(target.documents.values()),
                                rows).tree(target.root, frozenset(target.documents)))
    digests = records.digests({key: one for key, one in target.documents.items() if key in reached})
    content = records.Content(target.root, digests, None if target.rows is None else row_lines(target.rows))
    found = Changes(live, held, target, root, reached, content, is_pruned)
    if not found.clashes():
        found.order = found.ordered()
    return found
