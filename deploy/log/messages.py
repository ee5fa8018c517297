"""Changes: which they are, whose, and how they stand in the log, where no token that opens anything stands.

HAProxy puts the SHA-256 of a domain's token in its place before a message goes to pdpd or into the log, so what the log
has opens nothing: HAProxy would hash it again. Here the same is done in the bodies of the operator's token routes. The
operator's own token is in no entry.
"""
from __future__ import annotations

import base64
import hashlib
import hmac
import json
import math
import re
from dataclasses import dataclass
from urllib.parse import unquote

# the routes that change something; nothing else is appended (docs/guide/API.md)
NAME = "(?P<domain>[^/]+)"
ROUTES = tuple((re.compile(pattern), methods, who) for pattern, methods, who in (
    (rf"/operator/domains/{NAME}", ("PUT", "DELETE"), "operator"),
    (rf"/operator/domains/{NAME}/tokens", ("POST", "DELETE"), "operator"),
    (rf"/domains/{NAME}/pap/policies", ("POST",), "admin"),
    (rf"/domains/{NAME}/pap/[^/]+/[^/]+/[^/]+", ("DELETE",), "admin"),
    (rf"/domains/{NAME}/pap/[^/]+/[^/]+/[^/]+/active", ("PUT", "DELETE"), "admin"),
    (rf"/domains/{NAME}/pap/root", ("PUT",), "admin"),
    (rf"/domains/{NAME}/pip", ("PUT",), "admin"),
))
# the routes of an administrator whose body is read; others' may be anything, and is dropped
READ = re.compile(r"/domains/[^/]+/(?:pap/policies|pap/root|pip)")
TOKEN = re.compile(r"[\x21-\x7e]{8,64}")
BEARER = re.compile(r"(?i:bearer) +([\x21-\x7e]{8,64})")
# the fields of a message that count, beside its length
COUNTED = ("authorization", "content-type")
# how deep pdpd lets a JSON text nest
DEEPEST = 127


@dataclass(frozen=True)
class Message:
    """A message of a client; fields by their names in small letters."""
    method: str
    target: str
    fields: tuple[tuple[str, str], ...]
    body: bytes

    def path(self) -> str:
        """The target without an address before it and a query behind it."""
        return re.sub(r"^https?://[^/]*", "", self.target.partition("?")[0], flags=re.I)

    def shown(self) -> list[str]:
        """What stands in its fields Authorization."""
        return [value for name, value in self.fields if name == "authorization"]


def route_of(message: Message) -> tuple[str, str] | None:
    """The domain that a change is about, and who may make it; None for what is no change."""
    for pattern, methods, who in ROUTES:
        found = pattern.fullmatch(message.path())
        if found and message.method in methods:
            return unquote(found["domain"]), who
    return None


def token_in(shown: list[str]) -> str | None:
    """The token that a message shows."""
    found = BEARER.fullmatch(shown[0]) if len(shown) == 1 else None
    return found[1] if found else None


def is_one_of(token: str | None, known: list[str]) -> bool:
    return token is not None and any(hmac.compare_digest(token, one) for one in known)


def kept_token(token: str) -> str:
    """What stands for a token in pdpd and in the log, as HAProxy's `sha2(256),ub64enc` makes it."""
    return base64.urlsafe_b64encode(hashlib.sha256(token.encode()).digest()).rstrip(b"=").decode()


def is_shallow(value: object, most: int = DEEPEST) -> bool:
    if not isinstance(value, (dict, list)):
        return True
    return most > 0 and all(is_shallow(one, most - 1) for one in (value.values() if isinstance(value, dict) else value))


def finite(text: str) -> float:
    """The number that a JSON text has there, within the range of a double."""
    if math.isinf(float(text)):
        raise ValueError(text)
    return float(text)


def refused_constant(text: str) -> None:
    raise ValueError(text)


def json_in(body: bytes) -> object:
    """The JSON text that pdpd would find in a body; a ValueError where it would find none."""
    try:
        found = json.loads(body.decode(), parse_constant=refused_constant, parse_float=finite, parse_int=finite)
    except RecursionError as fault:
        raise ValueError("it nests too deep") from fault
    json.dumps(found, ensure_ascii=False).encode()
    if not is_shallow(found):
        raise ValueError("it nests too deep")
    return found


def kept_member(name: str, value: object) -> object:
    """What stands for a member of a token's body: of texts those alone that are known to be no token."""
    if name == "Token" and isinstance(value, str):
        return kept_token(value) if TOKEN.fullmatch(value) else "-"
    if name == "Role" and isinstance(value, str):
        return value if value in ("ask", "admin") else "-"
    return {dict: {}, list: [], str: ""}.get(type(value), value)


def kept_token_body(body: bytes) -> bytes:
    """The body of a token route as the log has it. pdpd answers it as it would have answered what the client sent."""
    try:
        found = json_in(body)
    except ValueError:
        return b"{" if body else b""
    if not isinstance(found, dict):
        return json.dumps(kept_member("", found)).encode()
    return json.dumps({name: kept_member(name, value) for name, value in found.items()},
                      separators=(",", ":")).encode()


def entry_of(message: Message, domain: str, who: str) -> tuple[dict, bytes]:
    """The head and the body of a change's entry."""
    is_operators = who == "operator"
    fields = [[name, value] for name, value in message.fields
              if name == "content-type" or name == "authorization" and not is_operators]
    body = message.body if READ.fullmatch(message.path()) and message.method != "DELETE" else b""
    if is_operators and message.path().endswith("/tokens"):
        body = kept_token_body(message.body)
    return {"domain": domain, "who": who, "method": message.method, "path": message.path(), "fields": fields}, body


def bytes_of(method: str, path: str, fields: list[list[str]], body: bytes, is_last: bool = False) -> bytes:
    """A message for pdpd."""
    lines = [f"{method} {path} HTTP/1.1", *(f"{name}: {value}" for name, value in fields)]
    if body or method != "GET":
        lines.append(f"content-length: {len(body)}")
    if is_last:
        lines.append("connection: close")
    return "\r\n".join((*lines, "", "")).encode("latin-1") + body


def bytes_of_entry(head: dict, body: bytes, operator: str, is_last: bool = False) -> bytes:
    """The message that an entry is; the operator's shows the token that pdpd has at that place."""
    shown = [["authorization", f"Bearer {operator}"]] if head["who"] == "operator" else []
    return bytes_of(head["method"], head["path"], [*shown, *head["fields"]], body, is_last)
