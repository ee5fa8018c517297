"""Random policy documents with faults put in at known places.

A document is written with the offset of each value and of each member's name noted by its pointer, so that where a
fault stands is known apart from the desk's own reading.
"""
from __future__ import annotations

import json
from collections.abc import Callable, Iterator
from dataclasses import dataclass, field

from . import desk_tests  # noqa: F401  (it makes the modules of the model importable)

import agree  # noqa: E402
from documents import ONE_OF, TABLES, DocumentFault, document_of  # noqa: E402
from drafts import Drafts, Raw, written as written_by_model  # noqa: E402
from functions import FUNCTIONS  # noqa: E402

NAMES = {row.rstrip("?") for table in [*TABLES.values(), *ONE_OF.values()] for row in table.split()}
FORMS = set(ONE_OF["document"].split() + ONE_OF["child"].split() + ONE_OF["expression"].split())
REQUIRED = {table: [row for row in rows.split() if not row.endswith("?")] for table, rows in TABLES.items()}
# the table of an object that is the value of a member of this name, or an item of its array
TABLE_OF = {name: name
            for name in ("Policy", "PolicySet", "Rule", "Target", "AnyOf", "AllOf", "Match", "VariableDefinition",
                         "AttributeValue", "AttributeDesignator", "Apply", "Function",
                                    "VariableReference", "AttributeAssignmentExpression")}
TABLE_OF.update(ObligationExpressions="ObligationExpression", AdviceExpressions="AdviceExpression",
                PolicyIdReference="Reference", PolicySetIdReference="Reference")
# what is wrong as the value of a member of this name, and the code of it
WRONG = {
    "Effect": ("Permitt", "BadValue"), "FulfillOn": ("permit", "BadValue"), "AppliesTo": ("", "BadValue"),
    "DataType": ("str", "BadValue"), "MustBePresent": ("true", "BadValue"),
    "PolicyId": ("", "BadValue"), "PolicySetId": (5, "BadValue"), "RuleId": (5, "BadValue"),
    "Category": (None, "BadValue"), "Issuer": (True, "BadValue"), "Description": (5, "BadValue"),
    "RuleCombiningAlgId": ("deny-overrides", "UnknownAlgorithm"), "PolicyCombiningAlgId": ("urn:x", "UnknownAlgorithm"),
    "AttributeId": ([], "BadValue"), "Id": (7, "BadValue"),
    "Value": ([], "BadValue"), "ObligationId": ({}, "BadValue"), "AdviceId": (1, "BadValue"),
    "MatchId": (1, "BadValue"), "FunctionId": (False, "BadValue"), "VariableId": (1, "BadValue"),
    "EarliestVersion": ("1.*", "BadValue"), "LatestVersion": ("x", "BadValue"), "Match": ([], "BadValue"),
    "AllOf": ([], "BadValue"), "Rule": ({}, "BadValue"), "Children": ("", "BadValue"),
    "Version": ("1.x", "BadValue"),
}
STRAY = "Qqqqqqqqqqqq"


@dataclass(frozen=True)
class Put:
    """A fault that was put in: its code, the pointer of its place, and whether that is a member's name; what is
    around it has no other."""
    code: str
    pointer: str
    is_name: bool
    around: str


@dataclass
class Written:
    """A text, with the offsets of values and of members' names."""
    text: str = ""
    comment_at: str | None = None
    comment: int = 0
    values: dict[str, int] = field(default_factory=dict)
    names: dict[str, int] = field(default_factory=dict)

    def put(self, draft: object, pointer: str, one_of: Callable) -> None:
        if pointer == self.comment_at:
            self.comment, self.text = len(self.text), self.text + "/* a comment */"
        self.values[pointer] = len(self.text)
        if isinstance(draft, Raw):
            self.text += str(draft)
        elif isinstance(draft, dict):
            self.items("{", "}", [(name, held) for name, held in draft.items()], pointer, one_of, True)
        elif isinstance(draft, list):
            self.items("[", "]", list(enumerate(draft)), pointer, one_of, False)
        else:
            self.text += json.dumps(draft, ensure_ascii=one_of([True, False]))

    def items(self, begin: str, end: str, held: list, pointer: str, one_of: Callable, has_names: bool) -> None:
        self.text += begin
        for place, (name, inner) in enumerate(held):
            self.text += ("," if place else "") + one_of(["", "", " ", "\n  ", "\t"])
            below = f"{pointer}/{str(name).replace('~', '~0').replace('/', '~1')}"
            if has_names:
                self.names[below] = len(self.text)
                self.text += json.dumps(name) + one_of(["", " "]) + ":" + one_of(["", " ", "\n"])
            self.put(inner, below, one_of)
        self.text += one_of(["", "\n"]) + end


def places(draft: object, pointer: str = "", name: str = "") -> Iterator[tuple[str, str, dict]]:
    """Each object of the draft, with its pointer and the name of the member that it is the value of, or an item of."""
    if isinstance(draft, dict):
        yield pointer, name, draft
        for inner_name, inner in draft.items():
            yield from places(inner, f"{pointer}/{inner_name}", inner_name)
    elif isinstance(draft, list):
        for place, inner in enumerate(draft):
            yield from places(inner, f"{pointer}/{place}", name)


class Faulty:
    """Makes documents and puts faults in."""

    def __init__(self, seed: int):
        rows = agree.Rows(seed)
        self.rows, self.random, self.drafts = rows, rows.random, Drafts(rows)

    def sound(self) -> dict:
        """A draft of a document that reads."""
        while True:
            self.rows.trees.begin()
            draft = self.drafts.document()
            try:
                document_of(written_by_model(draft).encode())
                return draft
            except DocumentFault:
                continue

    def slips(self, draft: dict) -> list[tuple[Put, Callable[[], None]]]:
        """All the ways in which one fault can be put in."""
        found: list[tuple[Put, Callable[[], None]]] = []
        for pointer, name, held in places(draft):
            found.append(self.stray(pointer, held))
            if set(held) <= FORMS and name not in ("Policy", "PolicySet"):
                continue
            for member in held:
                found += self.renamed(pointer, held, member)
                found += [self.wrong(pointer, held, member)] if member in WRONG else []
            found += [self.missing(pointer, held, member) for member in REQUIRED.get(TABLE_OF.get(name, ""), [])
                      if member in held]
            found += self.typed(pointer, name, held)
        return found

    def typed(self, pointer: str, name: str, held: dict) -> list[tuple[Put, Callable[[], None]]]:
        """Faults of the type check at the object."""
        if name == "VariableReference":
            return [self.setting(held, "VariableId", "no-such",
                                 Put("IllTyped(UnknownVariable)", pointer, False, pointer))]
        if name in ("Apply", "Match"):
            member = "FunctionId" if name == "Apply" else "MatchId"
            found = [self.setting(held, member, "urn:no-such:function",
                                  Put("IllTyped(UnknownFunction)", f"{pointer}/{member}", False,
                                      f"{pointer}/{member}"))]
            takes = FUNCTIONS.get(held.get(member), [None])[0] if name == "Apply" else None
            return found + ([self.ill_typed(pointer, held, takes)] if takes and held.get("Expression") else [])
        if name == "Rule" and "Condition" in held:
            put = Put("IllTyped(WrongType)", f"{pointer}/Condition/AttributeValue", False, f"{pointer}/Condition")
            return [self.setting(held, "Condition", {"AttributeValue": {"DataType": "string", "Value": "x"}}, put)]
        return []

    def setting(self, held: dict | list, member: str | int, value: object, put: Put) -> tuple[Put, Callable[[], None]]:
        def change() -> None:
            held[member] = value
        return put, change

    def ill_typed(self, pointer: str, held: dict, takes: list[str]) -> tuple[Put, Callable[[], None]]:
        """An argument of another type."""
        place = self.random.randrange(len(held["Expression"]))
        wanted = takes[min(place, len(takes) - 1)].rstrip("*")
        data_type, value = ("hexBinary", "00") if wanted != "hexBinary" else ("integer", 1)
        put = Put("IllTyped(WrongType)", f"{pointer}/Expression/{place}/AttributeValue", False, pointer)
        return self.setting(held["Expression"], place, {"AttributeValue": {"DataType": data_type, "Value": value}}, put)

    def stray(self, pointer: str, held: dict) -> tuple[Put, Callable[[], None]]:
        """A member that no object has."""
        return self.setting(held, STRAY, 1, Put("UnknownMember", f"{pointer}/{STRAY}", True, f"{pointer}/{STRAY}"))

    def renamed(self, pointer: str, held: dict, member: str) -> list[tuple[Put, Callable[[], None]]]:
        """A member whose name has a slip."""
        slipped = self.random.choice([member[:1].lower() + member[1:], member + "s", member[:-1] + member[-1] * 2])

        def change() -> None:
            renamed = {slipped if name == member else name: value for name, value in held.items()}
            held.clear()
            held.update(renamed)
        return ([(Put("UnknownMember", f"{pointer}/{slipped}", True, f"{pointer}/{member}"), change)]
                * (slipped not in NAMES))

    def wrong(self, pointer: str, held: dict, member: str) -> tuple[Put, Callable[[], None]]:
        """A member with a value that it can't have."""
        value, code = WRONG[member]
        return self.setting(held, member, value, Put(code, f"{pointer}/{member}", False, f"{pointer}/{member}"))

    def missing(self, pointer: str, held: dict, member: str) -> tuple[Put, Callable[[], None]]:
        """A member fewer."""
        return Put(f"MissingMember({member})", pointer, False, f"{pointer}/{member}"), lambda: held.pop(member) and None

    def document(self) -> tuple[str, list[tuple[Put, int]]]:
        """A text, and the one to three faults in it, each with its offset."""
        draft, puts, wanted = self.sound(), [], self.random.choice([1, 2, 3])
        for put, change in self.random.sample(found := self.slips(draft), len(found)):
            if len(puts) < wanted and not any(conflict(put, other) or conflict(other, put) for other in puts):
                puts.append(put)
                change()
        made = Written(comment_at=self.random.choice([name for name, _, _ in places(draft)])
                       if self.random.random() < 0.05 else None)
        made.put(draft, "", self.random.choice)
        found = [(put, (made.names if put.is_name else made.values)[put.pointer]) for put in puts]
        return (made.text,
                found + [(Put("NotJson", made.comment_at, False, ""), made.comment)] * (made.comment_at is not None))


def conflict(one: Put, other: Put) -> bool:
    """Whether one fault may hide the other."""
    if (other.code == "IllTyped(UnknownVariable)" and "/VariableDefinition/" in one.around
        and one.around.endswith("/VariableId")):
        return True
    return f"{one.around}/".startswith(f"{other.around}/")
