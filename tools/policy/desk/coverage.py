"""Coverage: which rules, targets and conditions cases reached both ways."""
from __future__ import annotations

from dataclasses import dataclass, field

from .elements import Document
from .positions import Node
from .setting import KIND_NAMES, Setting
from .text import wrapped

BOTH = {"rule": ("applies", "doesn't apply"), "target": ("matches", "doesn't match"),
        "condition": ("is true", "is false")}


@dataclass(frozen=True)
class Point:
    """A rule, a target or a condition: where it stands, and what it is called."""
    file: str
    line: int
    pointer: str
    kind: str
    name: str


def place_of(node: Node) -> tuple[str, int, str]:
    """The file, line and pointer of a value."""
    return node.source.path, node.place.line, node.pointer


@dataclass
class Coverage:
    """The points of all documents, each with the ways in which it was reached."""
    points: dict[Point, set[bool]] = field(default_factory=dict)

    def expect(self, setting: Setting) -> None:
        """Counts all points of the documents in."""
        for one in setting.documents:
            for document in one.document.documents():
                self.expect_document(document)

    def expect_document(self, held: Document) -> None:
        """Counts the points of one document in."""
        label = f"{KIND_NAMES[held.kind]} {held.name}"
        if held.target is not None and held.target.parts:
            self.reach(place_of(held.node), "target", label)
        for rule in held.rules():
            place, has_target = place_of(rule.node), rule.target is not None and bool(rule.target.parts)
            # (one without target and condition always applies: there is no other way)
            always = not has_target and rule.condition is None
            self.reach(place, "rule", f"{rule.id}", False if always else None)
            if has_target:
                self.reach(place, "target", f"rule {rule.id}")
            if rule.condition is not None:
                self.reach(place, "condition", f"rule {rule.id}")

    def reach(self, place: tuple[str, int, str], kind: str, name: str, way: bool | None = None) -> None:
        """Notes a point, and the way in which it was reached, where there is one."""
        ways = self.points.setdefault(Point(*place, kind, name), set())
        if way is not None:
            ways.add(way)

    def add(self, results: list[dict]) -> None:
        """Takes in what an explanation reached."""
        for result in results:
            if "tree" in result:
                self.add_part(result["tree"])

    def add_part(self, part: dict) -> None:
        """Takes in what a part of an explained tree reached."""
        if part["element"] == "reference" or "unreached" in part:
            return
        place, is_rule = (part["file"], part["line"], part["pointer"]), part["element"] == "rule"
        label = f"{part['element']} {part['id']}"
        if "any_of" in part["target"] and part["target"]["is"] != "Indeterminate":
            self.reach(place, "target", label, part["target"]["is"] == "Match")
        if is_rule and not part["decision"].startswith("Indeterminate"):
            self.reach(place, "rule", str(part["id"]), part["decision"] == part["effect"])
        if "value" in part.get("condition", {}):
            self.reach(place, "condition", label, part["condition"]["value"] == "true")
        for child in part.get("children", []):
            self.add_part(child)

    def shown(self) -> str:
        """The points that weren't reached both ways, and how many were."""
        lines = []
        for point, ways in sorted(self.points.items(), key=lambda item: (item[0].file, item[0].line, item[0].kind)):
            missing = [words for words, way in zip(BOTH[point.kind], (True, False)) if way not in ways]
            if missing:
                what = f"rule {point.name}" if point.kind == "rule" else f"{point.kind} of {point.name}"
                lines.append(wrapped(
                    f"{point.file}:{point.line}: {what}: no case where it {' or where it '.join(missing)}", "", "    "))
        covered = sum(len(ways) == 2 for ways in self.points.values())
        return "\n".join([*lines, f"{covered} of {len(self.points)} rules, targets and conditions reached both ways"])
