"""Faults, warnings and notes: what is said of a place in a file."""
from __future__ import annotations

from dataclasses import dataclass, field

from .positions import Node, Place, Slip, Source

MOST_SHOWN = 60


@dataclass
class Remark:
    """What is said of a place: a fault with the server's code, or a warning or a note with a name by which
    it is switched off."""
    level: str
    code: str
    source: Source
    start: int
    end: int
    pointer: str
    sentence: str
    expected: str = ""
    found: str = ""
    nearest: str = ""
    is_first: bool = False

    @property
    def place(self) -> Place:
        return self.source.place(self.start)

    @property
    def text(self) -> str:
        """The offending text, on one line, cut where it is long."""
        text = " ".join(self.source.text[self.start:self.end].split())
        return text if len(text) <= MOST_SHOWN else text[:MOST_SHOWN - 3] + "..."

    def as_json(self) -> dict[str, object]:
        """The remark as JSON has it."""
        held = {"level": self.level, "code": self.code, "file": self.source.path, "line": self.place.line,
                "column": self.place.column,
                "pointer": self.pointer, "text": self.text, "expected": self.expected, "found": self.found,
                "nearest": self.nearest,
                "sentence": self.sentence, "answered": self.is_first}
        return {name: value for name, value in held.items() if value not in ("", False)}


@dataclass
class Remarks:
    """Remarks in the order in which they are found."""
    found: list[Remark] = field(default_factory=list)

    def fault(self, code: str, node: Node, sentence: str, **more: str) -> None:
        """Says that the server answers this code at the value."""
        self.found.append(Remark("fault", code, node.source, node.start, node.end, node.pointer, sentence, **more))

    def slip(self, source: Source, slip: Slip) -> None:
        """Says that the text is no JSON at a place."""
        self.found.append(Remark("fault", "NotJson", source, slip.start, slip.end, slip.pointer, slip.advice,
                                 slip.expected, slip.found))

    def warning(self, name: str, node: Node, sentence: str, **more: str) -> None:
        """Warns of a value, under a name."""
        self.found.append(Remark("warning", name, node.source, node.start, node.end, node.pointer, sentence, **more))

    def note(self, name: str, node: Node, sentence: str, **more: str) -> None:
        """Notes something about a value, under a name."""
        self.found.append(Remark("note", name, node.source, node.start, node.end, node.pointer, sentence, **more))

    def faults(self) -> list[Remark]:
        """The faults alone."""
        return [remark for remark in self.found if remark.level == "fault"]
