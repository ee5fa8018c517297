"""A deployment as it is carried out: before each request that changes something it looks whether the domain
is as it left it.

No route is conditional, so another's change may still fall between the look and the request. What is told
then is told at the next look.
"""
from __future__ import annotations

from collections.abc import Callable

from . import records
from .changes import Action, Changes
from .live import Key, is_record, key_shown, listing, row_lines
from .live import live_of as looked_at
from .wire import Client, Refused, ServerFault


class Overtaken(ServerFault):
    """Another changes the domain at the same time."""


def difference(expected: dict[Key, bool], found: dict[Key, bool]) -> str:
    """What is otherwise than expected, in a few words."""
    told = []
    for key in sorted({*expected, *found}):
        if expected.get(key) != found.get(key):
            is_head = is_record(key) and len(key.version) == 1 and key in found
            told.append(f"deployment {key.version[0]} was begun" if is_head
                        else f"{key_shown(key)} {became(key in expected, found.get(key))}")
    return ", ".join(told[:4]) + (f" and {len(told) - 4} more" if len(told) > 4 else "")


def became(was_there: bool, is_active: bool | None) -> str:
    """What became of a document: None is one that is gone."""
    if is_active is None:
        return "is gone"
    if not was_there:
        return "is there"
    return "is active" if is_active else "is withdrawn"


class Deployment:
    """Carries out changes."""

    def __init__(self, client: Client, changes: Changes, draft: records.Draft, actions: list[Action]):
        self.client, self.changes, self.draft, self.actions = client, changes, draft, actions
        self.expected = dict(changes.live.documents)
        self.lines = row_lines(changes.live.rows)
        self.done = 0

    def look(self, action: Action) -> None:
        """Raises where the domain isn't as this deployment left it."""
        found = listing(self.client)
        if found != self.expected:
            raise Overtaken(f"another changes the domain at the same time: "
                            f"{difference(self.expected, found)}")
        if action.do == "rows" and row_lines(looked_at(self.client).rows) != self.lines:
            raise Overtaken("another changes the domain at the same time: its rows are others")

    def send(self, action: Action) -> None:
        """Sends the request, and notes what becomes of it."""
        self.client.asked(*action.message)
        if action.key is not None and action.becomes is None:
            del self.expected[action.key]
        elif action.key is not None:
            self.expected[action.key] = action.becomes
        if action.lines is not None:
            self.lines = action.lines
        self.done += 1

    def begin(self, action: Action) -> None:
        """Uploads the head of the record, which only one of two deployments at once can."""
        self.look(action)
        try:
            self.send(action)
        except Refused as fault:
            if fault.code != "SameVersionOtherText":
                raise
            raise Overtaken(f"another deployment began at the same moment, and has the number "
                            f"{self.draft.head.number}") from None

    def run(self, say: Callable[[int, Action], None]) -> None:
        """Does all that is to be done, and says each step. What is recorded begins with the record's head."""
        head = records.record_key(self.draft.head.number)
        try:
            for place, action in enumerate(self.actions):
                if action.key == head:
                    self.begin(action)
                else:
                    self.look(action)
                    self.send(action)
                say(place, action)
        except Overtaken:
            self.give_up()
            raise

    def give_up(self) -> None:
        """Takes the record back where nothing else was done."""
        if self.done == 1 and self.expected.get(records.record_key(self.draft.head.number)) is not None:
            try:
                self.client.asked("DELETE", records.path_of_number(self.draft.head.number))
            except ServerFault:
                pass
