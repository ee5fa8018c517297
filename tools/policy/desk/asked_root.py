"""What the root is, as answers show it: no route does.

A Permit or a Deny that is asked for with ReturnPolicyIdList names the document that the root resolves to first: the
first policy set, or without one the policy. What is asked are the requests of the domain's cases, each with the clock
of its case, so that the answer doesn't depend on when it is asked.
"""
from __future__ import annotations

import json
from dataclasses import dataclass
from typing import Optional

from . import ask, setting
from .domain import root_shown
from .live import Key, Live, key_shown
from .model import contexts, versions
from .records import Records, recorded_roots
from .wire import Refused, json_held

# requests that are asked at most, where none is decided
MOST_ASKED = 20
Roots = list[Optional[versions.Reference]]


@dataclass
class Root:
    """What the root may be now, the likely one first, none where it isn't known; whence that is known; whether
    answers show it; whether they show another than is recorded; where one showed it, that case, and what it named;
    and whether it may be any other, too."""
    may_be: Roots
    whence: str
    is_shown: bool = False
    is_moved: bool = False
    case: dict | None = None
    named: str = ""
    is_open: bool = False

    def is_known(self) -> bool:
        """Whether it is one of those that are named."""
        return bool(self.may_be) and not self.is_open

    def told(self) -> str:
        """What the root is now, and whence that is known."""
        shown = self.named or " or ".join(map(root_shown, self.may_be)) or "not known"
        return f"{'' if self.is_shown or not self.may_be else 'not known for sure: '}{shown} ({self.whence})"


@dataclass
class Probe:
    """A request as it is asked, and as it was, with its moment; and whether it holds the clock, so that its answer is
    the same at each moment."""
    body: bytes
    moment: int
    has_clock: bool
    was: bytes = b""

    def case(self, results: list[dict]) -> dict:
        """The request as a case with these results."""
        found = [{"Decision": decision} for decision in decisions(results)]
        return {"Name": "shows the root", "At": setting.moment_shown(self.moment),
                "Request": json.loads(self.was), **(found[0] if len(found) == 1 else {"Results": found})}


def clock_at(moment: int) -> dict[str, object]:
    """The attributes that a server's clock would have at the moment."""
    held = [{"AttributeId": name, "DataType": data_type,
             "Value": setting.values.to_text(contexts.moment_as(data_type, moment))}
            for name, data_type in sorted(contexts.CLOCK)]
    return {"Attribute": held}


def probe_of(body: bytes, moment: int) -> Probe | None:
    """The request as it is asked: its policies are wanted, and the clock stands in it, unless it has an environment
    of its own. None where it is no request."""
    try:
        held = json.loads(body)
        asked = held["Request"]
        names = {"Environment", "MultiRequests"} & set(asked)
        categories = asked.get("Category", [])
        names |= {one["CategoryId"] for one in (categories if isinstance(categories, list) else [categories])
                  if one["CategoryId"] in ("Environment", contexts.ENVIRONMENT)}
    except (ValueError, KeyError, TypeError, AttributeError, RecursionError):
        return None
    asked["ReturnPolicyIdList"] = True
    if not names:
        asked["Environment"] = clock_at(moment)
    return Probe(json.dumps(held, ensure_ascii=False).encode("utf-8", "replace"), moment, not names, body)


def named_first(result: dict) -> Key | None:
    """The document that the root of a result resolves to; None where it is neither Permit nor Deny."""
    named = result.get("PolicyIdentifierList", {})
    for kind, member in (("set", "PolicySetIdReference"), ("policy", "PolicyIdReference")):
        for held in named.get(member, []):
            return Key(kind, held["Id"], tuple(versions.numbers(held["Version"])))
    return None


def results_of(live: Live, probe: Probe) -> list[dict]:
    """The results of the server; none where it refuses the request."""
    try:
        held = json_held(live.client.asked("POST", "pdp", probe.body).body)
        return [one for one in held["Response"] if isinstance(one["Decision"], str) and is_readable(one)]
    except (Refused, ValueError, KeyError, TypeError):
        return []


def is_readable(result: dict) -> bool:
    """Whether the names of a result are names."""
    try:
        named_first(result)
        return True
    except (AttributeError, KeyError, TypeError, ValueError, versions.NoVersion):
        return False


def decisions(results: list[dict]) -> list[str]:
    """The decisions of results."""
    return [one["Decision"] for one in results]


class Asking:
    """Asks a domain what its root is."""

    def __init__(self, live: Live, probes: list[Probe], recorded: Roots):
        self.live, self.recorded = live, recorded
        self.keys = live.active()
        documents = [live.checked(key) for key in self.keys]
        believed = [setting.Setting(documents, root, live.rows) for root in recorded]
        self.expected = [([self.by_model(held, one) for held in believed], one) for one in probes]
        self.expected.sort(key=lambda pair: not any(map(self.is_decided, pair[0])))
        self.key: Key | None = None
        self.case: dict | None = None
        self.found: list[str] = []
        self.is_other = False

    def by_model(self, held: setting.Setting, probe: Probe) -> list[dict]:
        """The results that the model has to the request."""
        body = ask.by_model(held, probe.body, probe.moment)
        return [] if body.startswith("!") else json.loads(body)["Response"]

    def is_decided(self, results: list[dict]) -> bool:
        """Whether some result names the root."""
        return any(named_first(one) is not None for one in results)

    def run(self) -> None:
        """Asks until an answer names the root."""
        for expected, probe in self.expected[:MOST_ASKED]:
            results = results_of(self.live, probe)
            self.found += decisions(results)
            # where the model refuses the request it expects nothing
            self.is_other |= bool(results and expected and probe.has_clock) and all(
                one and decisions(results) != decisions(one) for one in expected)
            self.key = next((key for key in map(named_first, results) if key is not None), None)
            if self.key is not None:
                self.case = probe.case(results)
                return

    def resolves(self, root: versions.Reference | None) -> bool:
        """Whether the root would stand for the document that was named."""
        place = None if root is None else versions.resolved(root, [(key.kind, key.id, list(key.version))
                                                                  for key in self.keys])
        return place is not None and self.keys[place] == self.key


def shown_root(asking: Asking, recorded: Roots, whence: str) -> Root:
    """What answers show of a root that is recorded, or isn't."""
    asking.run()
    but = f"; {' or '.join(map(root_shown, recorded))} {whence}" if recorded else ""
    key = asking.key
    if key is not None:
        fitting = [root for root in recorded if asking.resolves(root)]
        if fitting:
            return Root(fitting, f"{whence}, and by answers", True, False, asking.case)
        patterns = None, list(map(str, key.version))
        may_be = [versions.Reference(key.kind, key.id, pattern, None, None) for pattern in patterns]
        return Root(list(filter(asking.resolves, may_be)), f"by answers{but}", True, bool(recorded), asking.case,
                    key_shown(key))
    if not asking.is_other:
        return Root(recorded, f"{whence}; no case that is asked gives Permit or Deny")
    is_none = set(asking.found) == {"NotApplicable"}
    why = "none, or one that applies to no case" if is_none else "one that leads nowhere, or fails"
    return Root([None] if is_none else [], f"by answers{but}", True, True, None, why, True)


def root_now(live: Live, held: Records, said: str | None, requests: list[tuple[bytes, int]]) -> Root:
    """What the root may be now: as it is said, or as the records and the answers to these requests have it."""
    if said is not None:
        return Root([root_said(live, said)], "as it was said", True)
    recorded, whence = recorded_roots(held)
    if live.active():
        probes = [one for one in (probe_of(*request) for request in requests) if one is not None]
        return shown_root(Asking(live, probes, recorded), recorded, whence)
    if has_no_root(live):
        return Root([None], "since nothing is active, and the answer is NotApplicable", True,
                    bool(recorded) and None not in recorded)
    return Root([root for root in recorded if root is not None], f"{whence}; it leads nowhere, since nothing is active",
                False)


def root_said(live: Live, said: str) -> versions.Reference | None:
    """The root that is meant: an id, with its kind before it where both have it, or none."""
    if said == "none":
        return None
    kinds = {key.kind for key in live.kept() if key.id == said}
    is_whole = said.startswith(("policy:", "set:"))
    kind, name = said.split(":", 1) if is_whole else (min(kinds, default="policy"), said)
    return versions.Reference(kind, name, None, None, None)


def has_no_root(live: Live) -> bool:
    """Whether a domain without active documents has no root: then it answers NotApplicable, and else
    Indeterminate."""
    return decisions(results_of(live, Probe(b'{"Request":{}}', 0, False))) == ["NotApplicable"]
