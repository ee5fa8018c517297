"""Drafts of JSON whose parts know where they come from, and their text."""
from __future__ import annotations

import json
from dataclasses import dataclass

from .check import checked
from .faults import Remark, Remarks
from .model import documents
from .positions import step
from .xml_reading import Spot

WIDTH = 100
# a document that is larger isn't looked at any more
MOST_CHECKED = 16 * documents.MAX_BYTES


@dataclass
class Draft:
    """A JSON value, whose items and members are drafts, and where it comes from."""
    value: object
    spot: Spot

    def plain(self) -> object:
        """The value as `json` has it."""
        if isinstance(self.value, dict):
            return {name: held.plain() for name, held in self.value.items()}
        return [held.plain() for held in self.value] if isinstance(self.value, list) else self.value

    def places(self, pointer: str = "") -> dict[str, Spot]:
        """Where the value at each JSON Pointer comes from."""
        found = {pointer: self.spot}
        inner = self.value if isinstance(self.value, (dict, list)) else []
        for name, held in inner.items() if isinstance(inner, dict) else enumerate(inner):
            found.update(held.places(pointer + step(name)))
        return found


def laid_out(value: object, indent: int = 0, room: int = WIDTH) -> str:
    """The JSON text of a value: on one line where it fits, else each part on its own."""
    flat = json.dumps(value, ensure_ascii=False)
    if not isinstance(value, (dict, list)) or not value or len(flat) + indent <= room:
        return flat
    inner = "\n" + " " * (indent + 2)
    if isinstance(value, dict):
        parts = [f"{json.dumps(name, ensure_ascii=False)}: {laid_out(held, indent + 2, room)}"
                 for name, held in value.items()]
        return "{" + inner + ("," + inner).join(parts) + "\n" + " " * indent + "}"
    parts = [laid_out(held, indent + 2, room) for held in value]
    return "[" + inner + ("," + inner).join(parts) + "\n" + " " * indent + "]"


def text_of(value: object, most: int) -> bytes:
    """The JSON text of a value, laid out where that has at most so many bytes, else without a space."""
    text = (laid_out(value) + "\n").encode()
    if len(text) <= most:
        return text
    return json.dumps(value, ensure_ascii=False, separators=(",", ":")).encode()


def nearest_place(places: dict[str, Spot], pointer: str) -> Spot:
    """Where the value at the pointer comes from, or the nearest around it."""
    while pointer not in places:
        pointer = pointer.rpartition("/")[0]
    return places[pointer]


def function_place(places: dict[str, Spot], pointer: str) -> tuple[int, int] | None:
    """Where the name of the function comes from of which the value at the pointer is an argument; None where
    it is none."""
    around, found, rest = pointer.rpartition("/Apply/Expression/")
    spot = places.get(f"{around}/Apply/FunctionId") if found and rest.count("/") < 2 else None
    return (spot.start, spot.end) if spot else None


def taken_over(found: list[Remark], places: dict[str, Spot], remarks: Remarks) -> None:
    """Says what was remarked on the JSON at the places from which it comes, but for those of which something
    is said already, and for arguments of functions of which it is."""
    said = {(one.start, one.end) for one in remarks.faults()}
    for one in found:
        spot = nearest_place(places, one.pointer)
        if (spot.start, spot.end) not in said and function_place(places, one.pointer) not in said:
            remarks.fault(one.code, spot, one.sentence, expected=one.expected, found=one.found,
                          nearest=one.nearest)


def document_text(draft: Draft, remarks: Remarks) -> bytes:
    """The document of a draft; what keeps the server from taking it is said at the places from which it
    comes."""
    text = text_of(draft.plain(), documents.MAX_BYTES)
    if len(text) > MOST_CHECKED:
        remarks.fault("TooLarge", draft.spot,
                      f"A document has at most {documents.MAX_BYTES} bytes, and this one would have "
                      f"{len(text)}.")
        return text
    taken_over(checked("", text).remarks.faults(), draft.places(), remarks)
    return text
