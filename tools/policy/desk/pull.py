"""`pull`: makes a folder of what a domain has on its server, as far as the routes show it."""
from __future__ import annotations

import argparse
import json
import pathlib
import re

from . import files, made, records, setting, text
from .asked_root import Root, root_now
from .domain import FILE, domain_of, named, requests_of, root_body
from .live import Key, Live, key_shown, version_shown
from .setting import Usage

# requests that are made to find one that shows the root, where the folder has no cases
MOST_MADE = 200


def place_of(options: argparse.Namespace) -> tuple[str, str]:
    """The server and the domain: as they are said, or as the folder's file has them."""
    held = named(options.folder) or (None, None)
    server, name = options.server or held[0], options.domain or held[1]
    if not (isinstance(server, str) and isinstance(name, str)):
        raise Usage(f"--server URL and --domain NAME are wanted, where {options.folder} has no {FILE}")
    return server, name


def file_name(key: Key, taken: set[str]) -> str:
    """A name for the file of a document, which no other has."""
    plain = re.sub(r"[^A-Za-z0-9._-]+", ".", re.sub(r"^(urn:|https?://)", "",
                                                    key.id)).strip(".-")[:80] or key.kind
    found = f"{plain}-{version_shown(key.version)}.json"
    number = 1
    while found.lower() in taken:
        number += 1
        found = f"{plain}-{version_shown(key.version)}-{number}.json"
    taken.add(found.lower())
    return found


def files_of(live: Live, folder: pathlib.Path, is_all: bool) -> dict[str, bytes]:
    """The files of the documents; one that the folder has under another name stays where it is."""
    there = {path.read_bytes(): path.name for path in sorted(folder.glob("*.json")) if path.is_file()}
    taken, found = {FILE, "rows.json", "cases.json"}, {}
    for key in sorted(live.kept()):
        if live.documents[key]:
            text_of = live.text(key)
            found[there.get(text_of) or file_name(key, taken)] = text_of
        elif is_all:
            found["withdrawn/" + file_name(key, taken)] = live.text(key)
    return found


def rows_file(live: Live) -> bytes:
    """The file of the rows, one on a line."""
    held = json.loads(live.rows.source.held)["Row"]
    return ('{"Row": [\n' + ",\n".join("  " + json.dumps(row, ensure_ascii=False) for row in held)
            + "\n]}\n").encode()


def cases_file(case: dict) -> bytes:
    """A file of cases with the one that shows the root."""
    return (json.dumps({"Case": [case]}, indent=1, ensure_ascii=False) + "\n").encode()


def requests_made(live: Live) -> list[tuple[bytes, int]]:
    """Requests from the values that the active documents and the rows name."""
    held = setting.Setting([live.checked(key) for key in live.active()], None, live.rows)
    maker = made.Maker(made.pools_of([held]), 1, None)
    return [maker.request() for _ in range(MOST_MADE)]


def requests_for(live: Live, folder: pathlib.Path) -> list[tuple[bytes, int]]:
    """The requests that are asked to show the root: those of the folder's cases, if its files have no faults, else
    made ones."""
    try:
        domain = domain_of(str(folder))[0] if (folder / FILE).is_file() else None
        found = requests_of(domain) if domain is not None and not domain.faults() else []
    except Usage:
        found = []
    return found or requests_made(live)


def domain_file(live: Live, documents: list[str], root: str | None, cases: list[str]) -> bytes:
    """The file domain.json."""
    held: dict[str, object] = {"Server": live.client.server, "Domain": live.client.domain}
    if root is not None:
        held["Root"] = json.loads(root)
    held |= {"Documents": documents, "Rows": "rows.json", "Cases": cases}
    return (json.dumps(held, indent=1, ensure_ascii=False) + "\n").encode()


def run(live: Live, options: argparse.Namespace) -> int:
    """Writes the folder; the exit status."""
    folder = pathlib.Path(options.folder)
    found = root_now(live, records.Records(live), options.live_root, requests_for(live, folder))
    root = root_body(found.may_be[0]) if found.may_be and (found.is_shown or len(found.may_be) == 1) else None
    held = files_of(live, folder, options.all)
    documents = [name for name in held if "/" not in name]
    held["rows.json"] = rows_file(live)
    if not (folder / FILE).exists() or options.overwrite:
        cases = ["cases.json"] if found.case else []
        held[FILE] = domain_file(live, documents, root, cases)
        held |= {"cases.json": cases_file(found.case)} if found.case else {}
    differing = [name for name, data in held.items() if (folder / name).exists()
                 and (folder / name).read_bytes() != data]
    if differing and not options.overwrite:
        raise Usage(f"{text.listed(differing, 'and')} of {folder} would be written over: --overwrite does "
                    f"so")
    try:
        for name, data in held.items():
            files.write(folder, name, data)
    except OSError as fault:
        raise Usage(f"{folder} can't be written: {fault.strerror}") from None
    say(live, options, held, root, found)
    return 0


def say(live: Live, options: argparse.Namespace, held: dict[str, bytes], root: str | None,
        found: Root) -> None:
    """Says what was written, and what isn't known."""
    left = [key for key in live.kept() if not live.documents[key]] if not options.all else []
    if options.json:
        print(json.dumps({"files": sorted(held), "root": None if root is None else json.loads(root),
                          "root_known": found.whence, "root_shown": found.is_shown,
                          "left": [key_shown(key) for key in left]}, indent=2))
        return
    print("\n".join(f"wrote {pathlib.Path(options.folder) / name}" for name in sorted(held)))
    if left:
        print(text.wrapped(f"{text.counted(len(left), 'document')} not active: --all fetches "
                           f"{'it' if len(left) == 1 else 'them'} too"))
    if root is None:
        print(text.wrapped(f'The root isn\'t known: {found.whence}. Write it into {FILE}, as "Root": "ID".'))
    else:
        print(text.wrapped(f"root: {found.told()}"))
