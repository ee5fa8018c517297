"""Names of ALFA: those of the standard, those that files declare, and what a name stands for where it is
written."""
from __future__ import annotations

import re
from dataclasses import dataclass

from . import left_out, names
from .alfa_parts import Declared, File, Name, Namespace, Part
from .faults import Remarks
from .model import documents, identifiers, values

CATEGORIES = {
    "subjectCat": "AccessSubject", "recipientSubjectCat": "RecipientSubject",
    "intermediarySubjectCat": "IntermediarySubject", "codebaseCat": "Codebase",
    "requestingMachineCat": "RequestingMachine", "resourceCat": "Resource", "actionCat": "Action",
    "environmentCat": "Environment",
}
KIND_NAMES = {"part": "policy or policy set", "advice": "advice"}


def camel(name: str) -> str:
    """A name of the standard as ALFA writes it: stringEqual of string-equal."""
    first, *others = name.split("-")
    return first + "".join(part[:1].upper() + part[1:] for part in others)


FUNCTIONS: dict[str, str] = {}
for uri in names.function_names():
    FUNCTIONS.setdefault(camel(names.short(uri)), uri)
DASHED = {names.short(uri): name for name, uri in FUNCTIONS.items() if "-" in uri.rsplit(":", 1)[1]}
ALGORITHMS = {"policy": {camel(name): uri for uri, name in documents.RULE_ALGORITHMS.items()},
              "policyset": {camel(name): uri for uri, name in documents.POLICY_ALGORITHMS.items()}}
LEFT_OUT = [*left_out.TYPES, *values.TYPES]


def dashed(name: str) -> str:
    """A name of ALFA as the standard writes it: string-regexp-match of stringRegexpMatch."""
    begins = max((known for known in LEFT_OUT if name.startswith(known)), key=len, default="")
    rest = re.sub(r"(?<=.)(?=[A-Z])", "-", name[len(begins):])
    for known in LEFT_OUT:
        rest = re.sub("(?i)" + re.sub(r"(?<=.)(?=[A-Z])", "-", known), known, rest)
    words = [word if word in LEFT_OUT else word[:1].lower() + word[1:] for word in rest.split("-") if word]
    return "-".join(([begins] if begins else []) + words)


def in_alfa(sentence: str) -> str:
    """The sentence with functions as ALFA writes them."""
    return re.sub(r"[A-Za-z0-9]+(?:-[A-Za-z0-9]+)+",
                  lambda found: DASHED.get(found.group(), found.group()), sentence)


@dataclass
class Entry:
    """What a full name stands for, and where."""
    full: str
    held: Declared | Part
    namespace: Namespace
    file: File

    @property
    def id(self) -> str:
        """The id of a policy, a set, an obligation or advice: what is said, else the full name."""
        found = self.held.id if isinstance(self.held, Part) else self.held.members.get("id")
        return found.text if found is not None else self.full


def full_name(namespace: Namespace, name: str) -> str:
    return f"{namespace.name}.{name}" if namespace.name else name


def prefixes(namespace: Namespace) -> list[str]:
    """The names of the namespace and of all around it, from within, each with a dot behind; at last nothing.
    A namespace a.b stands in a, also where nothing else is said of a."""
    parts = namespace.name.split(".") if namespace.name else []
    return [".".join(parts[:count]) + "." for count in range(len(parts), 0, -1)] + [""]


def imported_as(name: str, namespace: Namespace) -> list[list[str]]:
    """The full names that a name may be short for by what the namespace imports, in groups: what is imported
    may be named from within the namespaces around."""
    found = []
    for prefix in prefixes(namespace):
        group = []
        for held in namespace.imports:
            begins, _, last = held.text.rpartition(".")
            if last == "*":
                group.append(f"{prefix}{begins}.{name}")
            elif name == last or name.startswith(last + "."):
                group.append(prefix + held.text + name[len(last):])
        found.append(group)
    return found


def readings(name: str, namespace: Namespace | None) -> list[list[str]]:
    """The full names that a name may be short for, in groups: what is nearer stands before."""
    found = []
    while namespace is not None:
        around = prefixes(namespace.around) if namespace.around else []
        own = [prefix for prefix in prefixes(namespace) if prefix not in around]
        found += [[prefix + name] for prefix in own[:1]] + imported_as(name, namespace)
        found += [[prefix + name] for prefix in own[1:]]
        namespace = namespace.around
    return found


class Names:
    """All that files declare; what is wrong with a declaration is remarked in its file."""

    def __init__(self, files: list[File]):
        self.tables: dict[str, dict[str, Entry]] = {
            kind: {} for kind in ("attribute", "category", "obligation", "advice", "part")}
        self.inner: dict[str, Entry] = {}
        # all policies and sets that stand in a namespace, those too that have no name, or another's
        self.parts: list[Entry] = []
        self.passed = {name for file in files for name in file.passed}
        self.has_passed_import = any(file.has_passed_import for file in files)
        for file in files:
            for namespace in file.whole.all():
                self.take(file, namespace)
        for entry in [*self.tables["attribute"].values(), *self.tables["category"].values()]:
            self.check(entry)
        for file in files:
            for namespace in file.whole.all():
                self.check_imports(file, namespace)

    def take(self, file: File, namespace: Namespace) -> None:
        """Takes in what a namespace declares."""
        for held in [*namespace.declared, *namespace.parts]:
            kind = "part" if isinstance(held, Part) else held.kind
            entry = Entry(full_name(namespace, held.name.text if held.name else held.kind), held, namespace, file)
            if kind == "part":
                self.parts.append(entry)
            if held.name is None:
                file.remarks.fault("NotAlfa", held.spot,
                                   f"This {held.kind} stands in no policyset, and is a document of its own: "
                                   f"give it a name.")
                continue
            other = self.tables[kind].setdefault(entry.full, entry)
            if other is not entry:
                place = other.held.name.spot.place
                file.remarks.fault("NotAlfa", held.name.spot,
                                   f"{entry.full} is declared twice: also in {other.file.source.path}, line "
                                   f"{place.line}.", found=entry.full)
            if isinstance(held, Part):
                self.take_inner(entry, held, entry.full)

    def take_inner(self, around: Entry, held: Part, path: str) -> None:
        """Takes in the names of what stands within a set, to which nothing can refer."""
        for inner in held.inner:
            if isinstance(inner, Part) and inner.kind != "rule" and inner.name is not None:
                self.inner[f"{path}.{inner.name.text}"] = around
                self.take_inner(around, inner, f"{path}.{inner.name.text}")

    def check_imports(self, file: File, namespace: Namespace) -> None:
        """Remarks imports of what isn't there."""
        known = [full for table in self.tables.values() for full in table]
        for held in namespace.imports:
            wanted = held.text.removesuffix(".*")
            if self.may_be_there(wanted):
                continue
            if wanted != "System" and not wanted.startswith("System.") and not any(
                    full == prefix + wanted or full.startswith(f"{prefix}{wanted}.")
                    for prefix in prefixes(namespace) for full in known):
                nearest = self.nearest(wanted, sorted({full[:place] for full in known
                                                       for place, letter in enumerate(full + ".")
                                                       if letter == "."}))
                file.remarks.fault("NoSuchName", held.spot,
                                   f'Nothing called "{wanted}" is in the files given.' + meant(nearest),
                                   found=held.text, nearest=nearest)

    def check(self, entry: Entry) -> None:
        """Remarks what a declaration names that isn't there."""
        members, remarks = entry.held.members, entry.file.remarks
        if entry.held.kind == "category":
            if members["id"].text in identifiers.SHORTHANDS:
                remarks.fault("BadValue", members["id"].spot,
                              "A category's id is its whole URI; a document would read this as another one.",
                              found=members["id"].text, nearest=identifiers.SHORTHANDS[members["id"].text])
            return
        self.category(entry, remarks)
        its_type = members["type"]
        if plain(its_type) not in [*values.TYPES, *left_out.TYPES]:
            nearest = names.nearest(plain(its_type), values.TYPES)
            remarks.fault("NoSuchName", its_type.spot,
                          f'There is no type "{its_type.text}".' + meant(nearest),
                          found=its_type.text, nearest=nearest)

    def category(self, entry: Entry, remarks: Remarks | None = None) -> str:
        """The category of an attribute; one that isn't there is remarked where it is looked for that."""
        name = entry.held.members["category"]
        found = self.found("category", name, entry.namespace)
        if found:
            return found[0].id
        if plain(name) not in CATEGORIES and remarks is not None:
            self.unknown("category", name, entry.namespace, remarks, list(CATEGORIES))
        return CATEGORIES.get(plain(name), "")

    def found(self, kind: str, name: Name, namespace: Namespace) -> list[Entry]:
        """What a name stands for; several where imports leave it open."""
        for group in readings(name.text, namespace):
            entries = {full: self.tables[kind][full] for full in group if full in self.tables[kind]}
            if entries:
                return list(entries.values())
        return []

    def one(self, kind: str, name: Name, namespace: Namespace, remarks: Remarks) -> Entry | None:
        """What a name stands for; None where that is nothing, or not clear, which is remarked."""
        found = self.found(kind, name, namespace)
        if len(found) > 1:
            remarks.fault("NoSuchName", name.spot,
                          f"{name.text} may be {' or '.join(entry.full for entry in found)}: two imports "
                          f"have it. Write the whole name.", found=name.text)
        if not found:
            self.unknown(kind, name, namespace, remarks, [])
        return found[0] if len(found) == 1 else None

    def unknown(self, kind: str, name: Name, namespace: Namespace, remarks: Remarks,
                more: list[str]) -> None:
        """Remarks that a name stands for nothing, unless it may stand for what couldn't be read."""
        if self.has_passed_import or self.may_be_there(name.text):
            return
        what = KIND_NAMES.get(kind, kind)
        others = [other for other in self.tables
                  if other != kind and self.found(other, name, namespace)]
        within = [full for group in readings(name.text, namespace) for full in group if full in self.inner]
        if others:
            remarks.fault("NoSuchName", name.spot,
                          f"{name.text} is {articled(KIND_NAMES.get(others[0], others[0]))} and no {what}.",
                          found=name.text)
            return
        if within and kind == "part":
            remarks.fault("NoSuchName", name.spot,
                          f"{name.text} stands within {self.inner[within[0]].full}: what is referred to "
                          f"stands in a namespace, as a document of its own.", found=name.text)
            return
        nearest = self.nearest(name.text, [*self.tables[kind], *more])
        remarks.fault("NoSuchName", name.spot, f'No {what} "{name.text}" is declared in the files given.'
                      + meant(nearest), found=name.text, nearest=nearest)

    def may_be_there(self, name: str) -> bool:
        """Whether a part of the name is declared where something couldn't be read."""
        return not self.passed.isdisjoint(name.split("."))

    def nearest(self, name: str, known: list[str]) -> str:
        """The known name that is most like it, as a whole or in its last part."""
        last = name.rpartition(".")[2]
        ends = [full for full in known if full.endswith("." + name)] \
            or [full for full in known if full.rpartition(".")[2] == last]
        alike = [full for full in known if names.likeness(full.rpartition(".")[2], last) >= 0.75]
        return names.nearest(name, ends) or next(iter(ends), "") or names.nearest(name, known) \
            or next(iter(alike), "")


def plain(name: Name) -> str:
    """A name without the namespace of the standard's names."""
    return name.text.removeprefix("System.")


def meant(nearest: str) -> str:
    return f' Did you mean "{nearest}"?' if nearest else ""


def articled(what: str) -> str:
    return what if what == "advice" else ("an " if what[0] in "aeiou" else "a ") + what
