"""The words `import`, `export` and `conformance`: what they write, and where."""
from __future__ import annotations

import argparse
import json
import pathlib
import sys
from collections.abc import Callable
from dataclasses import dataclass

from . import conformance, files, setting, text
from .alfa_importing import imported_alfa
from .check import Disagreement, checked
from .exporting import exported
from .faults import Remark
from .import_request import imported_request
from .importing import imported
from .model import documents, rows, versions
from .program import Program
from .setting import Usage
from .verdicts import FAULTS, FINE, chosen_program, print_remarks

# the members in which others stand, in the order of the notation
SAID_IN = ("Policy", "PolicySet", "VariableDefinition", "Rule", "Condition", "Children",
           "ObligationExpressions", "AdviceExpressions",
           "AttributeAssignmentExpression", "Expression", "Apply")


def said(remarks: list[Remark], is_json: bool) -> None:
    """Remarks on standard error, so that standard output holds nothing but what was made."""
    if is_json:
        print(json.dumps([remark.as_json() for remark in remarks], indent=2), file=sys.stderr)
    else:
        print_remarks(remarks, sys.stderr)


@dataclass
class Made:
    """What is made of a file, or of a part of one: who is told of, the name of its file without an ending,
    what is remarked, and the bytes, where there is no fault."""
    label: str
    stem: str
    remarks: list[Remark]
    held: bytes | None


def kept(folder: pathlib.Path, made: list[Made], ending: str, is_over: bool) -> None:
    """Writes files into the folder, over nothing that is another, unless that is wanted; then none is
    written."""
    targets = [(folder / (one.stem + ending), one) for one in made]
    for target, one in targets:
        if not is_over and target.exists() and target.read_bytes() != one.held:
            raise Usage(f"{target} is there, with other bytes, and nothing is written: --overwrite writes "
                        f"over it, or name another folder")
    try:
        for target, one in targets:
            files.write(folder, one.stem + ending, one.held)
            print(text.wrapped(f"{one.label}: written to {files.shown(target)}", "", "    "))
    except OSError as fault:
        raise Usage(f"{fault.filename} can't be written: {fault.strerror}") from None


def written(options: argparse.Namespace, ending: str, made: list[Made]) -> int:
    """Writes what is made, to the folder or to standard output; the exit status."""
    if len(made) > 1 and options.to is None:
        raise Usage("--to FOLDER says where several documents are written")
    stems = [one.stem for one in made]
    twice = sorted({stem for stem in stems if stems.count(stem) > 1})
    if twice:
        raise Usage(f"two of the files would be written to {twice[0]}{ending}: name one of them otherwise")
    said([remark for one in made for remark in one.remarks], options.json)
    found = [one for one in made if one.held is not None]
    for one in made:
        if one.held is None:
            print(text.wrapped(f"{one.label}: not written", "", "    "), file=sys.stderr)
    if options.to is None:
        text.write_file("".join(one.held.decode() for one in found))
    elif found:
        kept(pathlib.Path(options.to), found, ending, options.overwrite)
    return FAULTS if len(found) < len(made) else FINE


def import_run(options: argparse.Namespace) -> int:
    """Answers `import`; each document is put to the program too."""
    asked = None if options.is_request else chosen_program(options)
    endings = (".xml", ".json") if options.is_request else (".xml", ".alfa")
    paths = files.within(options.files, endings, "requests" if options.is_request else "policies")
    alfa = [] if options.is_request else [path for path in paths if path.suffix == ".alfa"]
    made = [made_of(path, options.is_request) for path in paths if path not in alfa]
    try:
        versions.numbers(options.as_version if alfa else "1.0")
    except versions.NoVersion:
        raise Usage(f'"{options.as_version}" is no version, as 1.0 or 2') from None
    made += made_of_alfa(alfa, options.as_version, options.is_pinned)
    for one in made if asked is not None else ():
        if one.held is not None:
            taken(one.label, one.held, asked)
    return written(options, ".json", made)


def made_of(path: pathlib.Path, is_request: bool) -> Made:
    """The document, or the request, of a file in XML."""
    found = (imported_request if is_request else imported)(files.shown(path), files.held(path))
    return Made(files.shown(path), path.stem, found.remarks.found, found.text)


def made_of_alfa(paths: list[pathlib.Path], version: str, is_pinned: bool) -> list[Made]:
    """The documents of files in ALFA: one for each policy and set that stands in a namespace."""
    read, found = imported_alfa([(files.shown(path), files.held(path)) for path in paths], version,
                                is_pinned)
    remarks = [one for file in read for one in file.remarks.found]
    if not found:
        made = [Made(file.source.path, pathlib.Path(file.source.path).stem, [], None) for file in read]
    else:
        made = [Made(f"{one.file.source.path}: {one.name}", one.name, one.remarks.found, one.text)
                for one in found]
    for one in made[:1]:
        one.remarks = remarks + one.remarks
    return made


def taken(path: str, held: bytes, asked: Program) -> None:
    """Raises where the program doesn't take a document that the model takes."""
    answer = asked.answers([["document", rows.encoded(held)]])[0]
    if answer[0].startswith("!"):
        raise Disagreement(f"{path}: the model takes the document that is made of it, and the program "
                           f"answers {answer[0]}.")


def export_run(options: argparse.Namespace) -> int:
    """Answers `export`; what is written is imported again, and has to be the same document."""
    made = []
    for path in files.document_files(options.files):
        held = files.held(path)
        found = exported(checked(files.shown(path), held))
        if found.text is not None and not is_same(held, imported(str(path), found.text.encode()).text):
            raise Disagreement(f"{path}: what is exported isn't imported as the same document. This is a "
                               f"fault of the desk.")
        made.append(Made(files.shown(path), path.stem, found.remarks.found,
                         None if found.text is None else found.text.encode()))
    return written(options, ".xml", made)


def is_same(held: bytes, again: bytes | None) -> bool:
    """Whether the bytes are one document, by what it means, and by what it says to people."""
    if again is None or documents.document_of(held) != documents.document_of(again):
        return False
    return sayings(json.loads(held)) == sayings(json.loads(again))


def sayings(held: object) -> list:
    """The ids of rules and the descriptions, in their order."""
    if isinstance(held, list):
        return [found for one in held for found in sayings(one)]
    if not isinstance(held, dict):
        return []
    own = [(name, held[name]) for name in ("RuleId", "Description") if name in held]
    return own + [found for name in SAID_IN if name in held for found in sayings(held[name])]


def conformance_run(options: argparse.Namespace) -> int:
    """Answers `conformance`."""
    return conformance.run(options.folders, setting.moment_of(options.at), chosen_program(options),
                           options.json)


def add_files(what: str) -> Callable[[argparse.ArgumentParser], None]:
    """Adds the options of `import` and `export`."""
    def adds(parser: argparse.ArgumentParser) -> None:
        parser.add_argument("files", nargs="+", metavar="FILE", help=what)
        parser.add_argument("--to", metavar="FOLDER",
                            help="writes a file for each into this folder; standard output where it is left "
                                 "out")
        parser.add_argument("--overwrite", action="store_true", help="writes over files that are there")
        parser.add_argument("--json", action="store_true", help="writes the remarks as JSON")
    return adds


def add_import(parser: argparse.ArgumentParser) -> None:
    """Adds the options of `import`."""
    add_files("policies and policy sets: XACML 3.0 or 2.0 in XML, or ALFA (FILE.alfa; files that name one "
              "another's attributes and policies are given together); a folder stands for its files")(parser)
    parser.add_argument("--request", dest="is_request", action="store_true",
                        help="the files are requests, in XML or of the JSON Profile 1.0")
    parser.add_argument("--as-version", default="1.0", metavar="VERSION",
                        help="the version of documents that are made of ALFA, which says none; 1.0 where it "
                             "is left out")
    parser.add_argument("--pin", dest="is_pinned", action="store_true",
                        help="references in documents that are made of ALFA name that version, so that all of "
                             "them change at once when they are deployed")


def add_conformance(parser: argparse.ArgumentParser) -> None:
    """Adds the options of `conformance`."""
    parser.add_argument("folders", nargs="+", metavar="FOLDER",
                        help="a folder of NAMEPolicy.xml, NAMERequest.xml and NAMEResponse.xml")
    parser.add_argument("--at", metavar="TIME", default="1970-01-01T00:00:00Z",
                        help="the time of all requests; 1970-01-01T00:00:00Z where it is left out")
    parser.add_argument("--json", action="store_true", help="writes the cases as JSON")


def add_words(word: Callable[..., argparse.ArgumentParser]) -> None:
    """Adds the words to the command."""
    word("import", "makes documents of XACML in XML or of ALFA, or requests of XML", import_run, add_import)
    of_documents = add_files("policy documents; a folder stands for its documents")
    of_documents(word("export", "makes XACML 3.0 in XML of documents", export_run, None))
    word("conformance", "runs test cases of policy, request and response in XML", conformance_run,
         add_conformance)
