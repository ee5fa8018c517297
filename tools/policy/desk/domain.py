"""A folder that is a domain: domain.json says on which server, under which name, and which file is which.

domain.json is a JSON object:
    Server     the server's address, as https://pdp.example
    Domain     the domain's name
    Root       where decisions begin: an id, with `policy:` or `set:` before it where both kinds have it, or
               the body that sets a root ({"PolicySetIdReference": {"Id": .., "Version": ..}}, or {} for
               none); may be left out where there is one document
    Documents  an array of files and folders; the folder's own documents where it is left out
    Rows       a file of source rows; where it is left out, the rows of the server stay as they are
    Cases      an array of files of cases; one in this folder without a Policy is about the domain as it is here
    Keep       how many deployments are kept on the server, 2 to 400: 20 where it is left out
"""
from __future__ import annotations

import json
import pathlib
import re
from dataclasses import dataclass

from . import cases, files, setting, text
from .check import Checked, Rows, json_of
from .faults import Remark, Remarks
from .live import RECORD_ID, Key, key_of
from .model import documents as documents_of_model
from .model import route_bodies, versions
from .positions import Node, Source

FILE = "domain.json"
MEMBERS = ["Server", "Domain", "Root", "Documents", "Rows", "Cases", "Keep"]
LEAST_KEPT, MOST_KEPT, KEPT = 2, 400, 20
NAME = r"[a-z0-9][a-z0-9-]{0,31}"


@dataclass
class Domain:
    """What the folder says of its domain."""
    folder: pathlib.Path
    server: str
    name: str
    root: versions.Reference | None
    documents: list[Checked]
    rows: Rows | None
    cases: list[str]
    keep: int
    root_node: Node | None

    def texts(self) -> dict[Key, Checked]:
        """The documents by their keys."""
        return {key_of(one): one for one in self.documents}

    def setting(self) -> setting.Setting:
        """What decides once this is deployed."""
        return setting.Setting(self.documents, self.root, self.rows)

    def faults(self) -> list[Remark]:
        """What is wrong with the documents and the rows, each by itself."""
        return [remark for one in [*self.documents, *([self.rows] if self.rows else [])]
                for remark in one.remarks.faults()]


def root_body(root: versions.Reference | None) -> str:
    """The body that sets the root."""
    if root is None:
        return "{}"
    held = {"Id": root.id}
    if root.pattern is not None:
        held["Version"] = ".".join(root.pattern)
    for name, bound in (("EarliestVersion", root.earliest), ("LatestVersion", root.latest)):
        if bound is not None:
            held[name] = ".".join(map(str, bound))
    return json.dumps({"PolicyIdReference" if root.kind == "policy" else "PolicySetIdReference": held},
                      ensure_ascii=False)


def root_shown(root: versions.Reference | None) -> str:
    """A root in a few words."""
    if root is None:
        return "no root"
    bounds = [f"version {'.'.join(root.pattern)}"] if root.pattern is not None else []
    bounds += [f"{word} {'.'.join(map(str, bound))}" for word,
               bound in (("from", root.earliest), ("up to", root.latest)) if bound is not None]
    return f"{setting.KIND_NAMES[root.kind]} {root.id}" + (f" ({', '.join(bounds)})" if bounds else "")


class DomainReader(cases.CaseReader):
    """Reads a file domain.json, and remarks what is wrong with it."""

    def fault(self, node: Node, sentence: str, **more: str) -> None:
        self.remarks.fault("domain", node, sentence, **more)

    def domain(self) -> Domain | None:
        """The domain; None where something is wrong with the file."""
        node = json_of(self.source, self.remarks)
        if self.remarks.faults() or not self.known(node, MEMBERS, ["Server", "Domain"]):
            return None
        name = self.text(node.at("Domain"))
        if name is not None and not re.fullmatch(NAME, name):
            self.fault(node.at("Domain"), "A domain's name is 1 to 32 small letters, digits and dashes, of "
                                          "which the first is no dash.")
        documents, rows = self.documents(node, node.at("Documents")), self.inside(node.at("Rows"))
        held = None if rows is None else files.rows(str(self.folder / rows))
        found = [path for path in map(self.inside, self.items(node.at("Cases"))) if path is not None]
        root = self.root(node, documents)
        keep = self.number(node.at("Keep"))
        if self.remarks.faults():
            return None
        return Domain(self.folder, self.text(node.at("Server")), name, root, documents, held,
                      [files.shown(self.folder / path) for path in found], keep, node.at("Root"))

    def inside(self, node: Node | None) -> str | None:
        """A name of something in the folder: a folder that somebody else has made names nothing else, since its server
        is sent it."""
        named = self.text(node)
        if named is None or files.is_inside(self.folder, self.folder / named):
            return named
        self.fault(node, "This leads out of the folder, whose server would be sent it.")
        return None

    def number(self, node: Node | None) -> int:
        """How many deployments are kept."""
        held = KEPT if node is None else node.value
        if node is not None and node.kind != "number" or held is None or not LEAST_KEPT <= held <= MOST_KEPT:
            self.fault(node, f"Here belongs a whole number from {LEAST_KEPT} to {MOST_KEPT}.")
        return held

    def documents(self, node: Node, named: Node | None) -> list[Checked]:
        """The documents that are named, or those of the folder."""
        paths = [str(self.folder)]
        if named is not None:
            paths = [str(self.folder / path) for path in map(self.inside, self.items(named))
                     if path is not None]
        for path in files.document_files(paths):
            if not files.is_inside(self.folder, path):
                self.fault(node, f"{files.shown(path.absolute())} leads out of the folder, whose server would be sent "
                                 "it.")
        found = [] if self.remarks.faults() else files.documents(paths)
        for one in found:
            if one.document is not None and one.document.id == RECORD_ID:
                self.fault(node, f"{one.source.path} has the id {RECORD_ID}, which is that of records.")
        return found

    def root(self, node: Node, documents: list[Checked]) -> versions.Reference | None:
        """The root that is meant."""
        held = node.at("Root")
        if held is not None and held.kind == "object":
            return self.reference(held)
        named = self.text(held)
        if any(one.document is None or one.document.id is None for one in documents):
            return None
        try:
            return setting.root_of(named, documents)
        except setting.Usage as fault:
            self.fault(held if held is not None else node,
                       str(fault).replace("--root ID says", '"Root" says').replace("--root ", "") + ".")
            return None

    def reference(self, node: Node) -> versions.Reference | None:
        """The root of a body that sets one."""
        try:
            return route_bodies.root_of(node.text.encode())
        except documents_of_model.DocumentFault as fault:
            self.fault(node, f'A root is {{"PolicySetIdReference": {{"Id": ..}}}}, {{"PolicyIdReference": '
                             f'{{"Id": ..}}}} or {{}}: the server answers {fault}.')
            return None


class DomainCases(cases.CaseReader):
    """Reads a file of cases: one that names no documents is about the domain."""

    def __init__(self, path: str, domain: Domain):
        super().__init__(path)
        self.of_domain = domain

    def suite(self) -> cases.Suite | None:
        node = json_of(self.source, self.remarks)
        if node is None or node.kind != "object" or node.at("Policy") is not None:
            return super().suite()
        if self.remarks.faults() or not self.known(node, ["Case"], ["Case"]):
            return None
        found = [self.case(item, number) for number, item in enumerate(self.items(node.at("Case")), 1)]
        return None if self.remarks.faults() else cases.Suite(self.path, self.of_domain.setting(),
                                                              [case for case in found if case is not None])


def is_about_a_domain(path: str) -> bool:
    """Whether the file has cases, names no documents, and stands in the folder of a domain."""
    if not is_domain(str(pathlib.Path(path).parent)):
        return False
    node = json_of(Source(path, files.held(path)), Remarks())
    return node is not None and node.kind == "object" and node.at("Case") is not None and node.at("Policy") is None


def requests_of(domain: Domain) -> list[tuple[bytes, int]]:
    """The requests of the domain's cases, each with its moment; those of a file with faults are left out, which is
    said."""
    found = []
    for path in domain.cases:
        suite = DomainCases(path, domain).suite()
        if suite is None:
            text.warn(f"{path} has faults, which `policy deploy` names: its cases aren't asked")
        found += [(case.held, case.moment) for case in (suite.cases if suite else [])]
    return found


def domain_of(folder: str) -> tuple[Domain | None, Remarks]:
    """The domain that the folder is, and what is wrong with its file."""
    path = pathlib.Path(folder)
    if not path.is_dir():
        raise setting.Usage(f"{folder} is no folder")
    reader = DomainReader(str(path / FILE))
    reader.source.path = files.shown(path / FILE)
    found = reader.domain()
    return found, reader.remarks


def is_domain(folder: str) -> bool:
    """Whether the folder has such a file."""
    return (pathlib.Path(folder) / FILE).is_file()


def named(folder: str) -> tuple[str, str] | None:
    """The server and the domain that the folder's file names; None where there is none, or it doesn't say."""
    try:
        held = json.loads((pathlib.Path(folder) / FILE).read_bytes())
        return held["Server"], held["Domain"]
    except (OSError, ValueError, KeyError, TypeError):
        return None


def listed_shown(names: list[str], most: int = 5) -> str:
    """Names, of which the first few are said."""
    return text.listed(names[:most] + ([f"{len(names) - most} more"] if len(names) > most else []), "and")
