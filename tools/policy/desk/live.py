"""What a domain has on its server, as far as the routes show it: its documents, which of them are active,
and its rows. No route shows the root."""
from __future__ import annotations

import json
import urllib.parse
from collections import namedtuple
from dataclasses import dataclass, field

from .check import Checked, Rows, checked, checked_rows, marked
from .model import documents, identifiers, route_bodies, versions
from .positions import Node
from .setting import KIND_NAMES
from .wire import Client, ServerFault

# a document's kind, `policy` or `set`, its id, and the numbers of its version
Key = namedtuple("Key", "kind id version")
PARTS = {"policy": "policy", "set": "policyset"}
KINDS = {part: kind for kind, part in PARTS.items()}
SHORT = {uri: name for name, uri in identifiers.SHORTHANDS.items()}
# what a body has, and the rows of a domain, at most
MOST_BODY, MOST_ROWS = 524_288, 4096
RECORD_ID = "urn:dalvezour:deployment"


def version_shown(version: tuple[int, ...]) -> str:
    """A version as people write it."""
    return ".".join(map(str, version))


def key_shown(key: Key) -> str:
    """A document in a few words."""
    return f"{KIND_NAMES[key.kind]} {key.id} {version_shown(key.version)}"


def path_of(key: Key) -> str:
    """The path of a document, behind the domain's."""
    return f"pap/{PARTS[key.kind]}/{urllib.parse.quote(key.id, safe='')}/{version_shown(key.version)}"


def key_of(document: Checked) -> Key:
    """The key of a document without faults."""
    held = document.document
    return Key(held.kind, held.id, tuple(versions.numbers(held.version)))


def is_record(key: Key) -> bool:
    """Whether a document is a part of the record of a deployment."""
    return key.kind == "policy" and key.id == RECORD_ID


def listing(client: Client) -> dict[Key, bool]:
    """The documents of the domain, and whether each is active."""
    try:
        return {Key(KINDS[one["Kind"]], one["Id"].encode().decode(), tuple(versions.numbers(one["Version"]))):
                one["Active"] for one in client.value("pap/policies")["Policy"]}
    except (AttributeError, KeyError, TypeError, ValueError, versions.NoVersion):
        raise ServerFault("GET pap/policies: the server answers what no server of this kind "
                          "answers") from None


def row_lines(rows: Rows | None) -> list[str]:
    """The rows as the server shows them, each as a text."""
    found = [] if rows is None else route_bodies.rows_of(rows.source.held)
    return [json.dumps(route_bodies.row_shown(row), ensure_ascii=False, sort_keys=True) for row in found]


def short_line(line: str) -> str:
    """A row in the fewest bytes: with shorthands, and without blanks."""
    held = json.loads(line)
    held["Category"] = SHORT.get(held["Category"], held["Category"])
    held["DataType"] = held["DataType"].removeprefix(identifiers.NAMESPACE)
    return json.dumps(held, ensure_ascii=False, separators=(",", ":"))


def rows_body(lines: list[str]) -> bytes:
    """The body that sets these rows."""
    return ('{"Row":[' + ",".join(map(short_line, lines)) + "]}").encode()


def bytes_left(lines: list[str]) -> int:
    """How many bytes of a body these rows leave; less than nothing where they don't fit."""
    return MOST_BODY - len(rows_body(lines))


def weighed(rows: Rows) -> None:
    """Remarks that rows are too many, or don't fit a body, as they are sent."""
    if rows.code is not None:
        return
    node, lines = Node(rows.source, "", "object", 0, 1), row_lines(rows)
    if bytes_left(lines) < 0:
        rows.remarks.fault("BodyTooLarge", node, f"These rows have {MOST_BODY - bytes_left(lines)} bytes, as they are "
                           f"sent, and a body has at most {MOST_BODY}: shorten ids and entities, or take rows out.")
    if len(rows.rows) > MOST_ROWS:
        rows.remarks.fault("Quota", node, f"These are {len(rows.rows)} rows, and a domain has at most {MOST_ROWS}.")
    rows.code = marked(rows.remarks.faults())
    if rows.code is None and len(rows.source.held) > MOST_BODY:
        rows.remarks.note("long-rows", node, f"This file has {len(rows.source.held)} bytes, and a body at most "
                          f"{MOST_BODY}: the desk sends the rows in a shorter form, and `curl` can't send this file.")


@dataclass
class Live:
    """A domain as it was when it was looked at. Texts are fetched where they are wanted, and never change."""
    client: Client
    documents: dict[Key, bool]
    rows: Rows
    texts: dict[Key, bytes] = field(default_factory=dict)

    def text(self, key: Key) -> bytes:
        """The text of a document."""
        if key not in self.texts:
            held = self.client.asked("GET", path_of(key)).body
            if len(held) > documents.MAX_BYTES:
                raise ServerFault(f"{key_shown(key)}: the server has more than the {documents.MAX_BYTES} bytes of a "
                                  f"document")
            self.texts[key] = held
        return self.texts[key]

    def checked(self, key: Key) -> Checked:
        """A document of the server, as the desk reads it."""
        found = checked(f"{self.client.server}: {key_shown(key)}", self.text(key))
        if not found.is_sound or key_of(found) != key:
            raise ServerFault(f"{key_shown(key)}: the server has a document that the desk doesn't read")
        return found

    def active(self) -> list[Key]:
        """The active documents, without records."""
        return [key for key, is_active in self.documents.items() if is_active and not is_record(key)]

    def kept(self) -> list[Key]:
        """All documents, without records."""
        return [key for key in self.documents if not is_record(key)]

    def records(self) -> list[Key]:
        """The parts of records."""
        return [key for key in self.documents if is_record(key)]


def live_of(client: Client) -> Live:
    """Looks at the domain."""
    documents = listing(client)
    rows = checked_rows(f"{client.server}: the rows of {client.domain}", client.asked("GET", "pip").body)
    if rows.code is not None:
        raise ServerFault("GET pip: the server answers what no server of this kind answers")
    return Live(client, documents, rows)
