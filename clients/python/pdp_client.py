"""A client of Dalvezour, for Python from 3.9, in this one file and with the standard library alone.

    from pdp_client import Domain

    domain = Domain("https://pdp.example", "ward", token, ca_file="ca.pem", understood=["urn:example:log"])
    if domain.decide(subject={"id": "alice"}, resource={"id": "record-42"}, action={"id": "read"}).permit:
        ..

`permit` is true if the decision is Permit and every obligation that comes with it is one of `understood`, which the
caller carries out. Whatever else happens is false or an exception, so that nothing is granted by a fault.
"""
from __future__ import annotations

import base64
import collections
import json
import os
import re
import socket
import ssl
import time
import urllib.parse
from dataclasses import dataclass
from datetime import date, datetime, time as daytime, timedelta, tzinfo
from typing import (
    AbstractSet, Any, Callable, Coroutine, Deque, Dict, Generator, Iterable, Iterator, List, Mapping, Optional,
    Sequence, Tuple, TypeVar, Union)

# What the server takes: decisions and bytes of a message (docs/guide/API.md). A reply has at most 16 MiB there.
MOST_DECISIONS, MOST_BODY, MOST_REPLY, MOST_HEAD = 64, 524_288, 32 << 20, 65_536
MOST_KEPT = 16  # connections that wait for their next message
HERE = ("127.0.0.1", "::1", "localhost")
TYPES = "http://www.w3.org/2001/XMLSchema#"
STATUS = "urn:oasis:names:tc:xacml:1.0:status:"
ANSWERS = ("Permit", "Deny", "NotApplicable", "Indeterminate")

# ---- what goes wrong, each with what to do


class PdpError(Exception):
    """No decision, no change or no reading: access isn't granted."""


class Unsendable(PdpError, ValueError):
    """What was given can't be asked or set; nothing was sent."""


class Unanswered(PdpError):
    """No whole reply came."""


class WrongReply(PdpError):
    """The reply isn't one of such a server."""


class Refused(PdpError):
    """The server answered with a status that isn't success."""

    def __init__(self, sentence: str, status: int, code: str) -> None:
        super().__init__(sentence)
        self.status, self.code = status, code


class _Ended(Unanswered):
    """The connection ended before a byte of a reply."""


ADVICE = {
    "Unauthorized": "the token isn't one of the domain's, or there is no such domain",
    "Forbidden": "the token may only ask for decisions: one of the role admin is wanted",
    "Absent": "it isn't there: list what is",
    "Exists": "it is there already",
    "Quota": "there is no room for more: delete what isn't used",
    "SameVersionOtherText": "other text is kept there under this kind, id and version: take a new version",
    "StillActive": "it is active: withdraw it first",
    "NoRoute": "the address leads to no server of this kind",
    "Unavailable": "the server is short of memory, its storage failed, or a decision wants more than its limits: "
                   "send it again, later, or ask for less at once",
    **dict.fromkeys(("NotJson", "MissingMember", "UnknownMember", "BadValue", "IllTyped", "UnknownAlgorithm"),
                    "`policy check` of the author's desk says where, if it is a document or rows"),
}

# ---- values


@dataclass(frozen=True)
class Typed:
    """A value by its data type and its text, such as Typed("anyURI", "https://a.example/")."""
    data_type: str
    text: str


Value = Union[str, bool, int, date, daytime, datetime, timedelta, bytes, Typed]
Attributes = Union[str, Mapping[str, Union[Value, Sequence[Value], AbstractSet[Value]]]]
Question = Mapping[str, Any]


def _zoned(value: Any, zone: Optional[tzinfo], offset: Optional[timedelta]) -> str:
    """The text of a moment or a time of day, whose zone is a whole number of minutes."""
    if zone is None or offset is None:
        raise Unsendable(f"{value!r} has no zone, and the server would take it for UTC: give it one, as "
                         "tzinfo=timezone.utc")
    if offset % timedelta(minutes=1) or abs(offset) > timedelta(hours=14):
        raise Unsendable(f"{value!r} has a zone of {offset}: use whole minutes, 14 hours at most")
    return str(value.isoformat())


def _duration(value: timedelta) -> str:
    """The text of a dayTimeDuration."""
    if abs(value) > timedelta(days=3_652_500):
        raise Unsendable(f"{value!r} is beyond the server's 10,000 years")
    part = abs(value)
    return f"{'-' if value < timedelta(0) else ''}P{part.days}DT{part.seconds}.{part.microseconds:06}S"


def _typed(value: object) -> Tuple[str, Union[str, bool, int]]:
    """The data type of a value, and the value as JSON has it."""
    if isinstance(value, Typed):
        return value.data_type, value.text
    if isinstance(value, str):
        return "string", value
    if isinstance(value, bool):
        return "boolean", value
    if isinstance(value, int):
        if not -2**63 <= value < 2**63:
            raise Unsendable(f"{value} is no integer of 64 bits: send it as a text")
        return "integer", value
    if isinstance(value, datetime):
        return "dateTime", _zoned(value, value.tzinfo, value.utcoffset())
    if isinstance(value, date):
        return "date", value.isoformat()
    if isinstance(value, daytime):
        return "time", _zoned(value, value.tzinfo, value.utcoffset())
    if isinstance(value, timedelta):
        return "dayTimeDuration", _duration(value)
    if isinstance(value, bytes):
        return "base64Binary", base64.b64encode(value).decode()
    why = "a float would spoil the whole request: send a whole number, as of cents" if isinstance(value, float) else \
        "leave the attribute out" if value is None else \
        "send str, bool, int, date, time, datetime, timedelta, bytes or Typed"
    raise Unsendable(f"{value!r} is no value of an attribute: {why}")


def _attributes(ident: str, given: Attributes) -> List[Dict[str, object]]:
    """The attributes of a category; `ident` is what "id" stands for, or empty."""
    found: Dict[Tuple[str, str], List[object]] = {}
    for name, held in ({"id": given} if isinstance(given, str) else given).items():
        if name == "id" and ident:
            name = ident
        elif name in ("id", "subject-id", "resource-id", "action-id"):
            raise Unsendable(f"{name!r} is no attribute's id: " + (f"write \"id\", which stands for {ident}"
                                                                   if ident else "write the whole URI"))
        several = held if isinstance(held, (list, tuple, set, frozenset)) else [held]
        for data_type, value in map(_typed, several):
            found.setdefault((name, data_type), []).append(value)
    return [{"AttributeId": name, "DataType": data_type if ":" in data_type else TYPES + data_type, "Value": values}
            for (name, data_type), values in found.items()]


CATEGORIES = {
    "subject": ("AccessSubject", "urn:oasis:names:tc:xacml:1.0:subject:subject-id"),
    "resource": ("Resource", "urn:oasis:names:tc:xacml:1.0:resource:resource-id"),
    "action": ("Action", "urn:oasis:names:tc:xacml:1.0:action:action-id"),
    "environment": ("Environment", ""),
}


def _objects(question: Question) -> List[Tuple[str, Dict[str, object]]]:
    """The Category objects of a question, each with the member of a request that it stands in."""
    if unknown := set(question) - {*CATEGORIES, "others"}:
        raise Unsendable(f"a question has no {sorted(unknown)[0]!r}: {', '.join(CATEGORIES)}, and others by their URI")
    found: List[Tuple[str, Dict[str, object]]] = []
    for name, (member, ident) in CATEGORIES.items():
        if question.get(name) is not None:
            found.append((member, {"Attribute": _attributes(ident, question[name])}))
    for uri, given in (question.get("others") or {}).items():
        found.append(("Category", {"CategoryId": uri, "Attribute": _attributes("", given)}))
    return found


def _json(value: object) -> bytes:
    try:
        return json.dumps(value, ensure_ascii=False, separators=(",", ":"), allow_nan=False).encode()
    except (UnicodeEncodeError, TypeError, ValueError, RecursionError) as fault:
        raise Unsendable(f"this is no JSON in UTF-8: {fault}") from None


def _bodies(questions: Sequence[Question]) -> Iterator[Tuple[int, bytes]]:
    """The bodies that ask all questions in order, each with how many it asks: as few as have room."""
    ids: Dict[bytes, str] = {}
    request: Dict[str, Any] = {}
    references = []
    for question in questions:
        reference = []
        for member, held in _objects(question):
            key = _json([member, held])
            if key not in ids:
                ids[key] = str(len(ids))
                request.setdefault(member, []).append(dict(held, Id=ids[key]))
            reference.append(ids[key])
        references.append({"ReferenceId": reference})
    if len(questions) > 1:
        request["MultiRequests"] = {"RequestReference": references}
    body = _json({"Request": request})
    if len(body) <= MOST_BODY:
        yield len(questions), body
    elif len(questions) == 1:
        raise Unsendable(f"this request has {len(body)} bytes, and the server takes {MOST_BODY}: send fewer attributes")
    else:
        half = len(questions) // 2
        yield from _bodies(questions[:half])
        yield from _bodies(questions[half:])


# ---- decisions


@dataclass(frozen=True)
class Assignment:
    """An attribute of an obligation or of advice; its value is a text, a boolean or a whole number."""
    id: str
    data_type: str
    value: Union[str, bool, int]


@dataclass(frozen=True)
class Obligation:
    """An obligation or advice."""
    id: str
    assignments: Tuple[Assignment, ...] = ()

    def values(self, attribute: str) -> List[Union[str, bool, int]]:
        """The values of one of its attributes, in order."""
        return [each.value for each in self.assignments if each.id == attribute]


@dataclass(frozen=True)
class Decision:
    """One decision. It is true if `permit` is."""
    decision: str
    status: str
    obligations: Tuple[Obligation, ...] = ()
    advice: Tuple[Obligation, ...] = ()
    understood: AbstractSet[str] = frozenset()

    @property
    def not_understood(self) -> List[str]:
        """The ids of the obligations that the caller doesn't carry out."""
        return [each.id for each in self.obligations if each.id not in self.understood]

    @property
    def permit(self) -> bool:
        """Whether it is Permit and all its obligations are understood."""
        return self.decision == "Permit" and not self.not_understood

    def __bool__(self) -> bool:
        return self.permit

    def enforce(self, handlers: Mapping[str, Callable[[Obligation], object]]) -> bool:
        """Whether access is granted, once each obligation was carried out by the handler of its id. Permit with one
        that has no handler carries out none and grants nothing. What a handler raises is raised."""
        is_permit = self.decision == "Permit"
        if is_permit and any(each.id not in handlers for each in self.obligations):
            return False
        for each in self.obligations:
            if each.id in handlers:
                handlers[each.id](each)
        return is_permit


def _obligations(found: object) -> Tuple[Obligation, ...]:
    """The obligations or the advice of a result."""
    held = []
    for one in _checked(found, list):
        assigned = []
        for each in _checked(_checked(one, dict).get("AttributeAssignment", []), list):
            value = _checked(each, dict)["Value"]
            assigned.append(Assignment(_checked(each["AttributeId"], str), _checked(each["DataType"], str),
                                       _checked(value, (str, bool, int))))
        held.append(Obligation(_checked(one["Id"], str), tuple(assigned)))
    return tuple(held)


def _checked(found: Any, kind: Any) -> Any:
    """The same, which is of that kind."""
    if not isinstance(found, kind):
        raise TypeError(f"{found!r:.60}")
    return found


def _unique(members: List[Tuple[str, Any]]) -> Dict[str, Any]:
    """An object of JSON, in which no member stands twice."""
    held = dict(members)
    if len(held) != len(members):
        raise ValueError("a member stands twice")
    return held


def _decisions(body: bytes, count: int, understood: AbstractSet[str]) -> List[Decision]:
    """The results of a response to so many questions. One that is Indeterminate may stand for all."""
    held = []
    try:
        for one in _checked(_checked(json.loads(body, object_pairs_hook=_unique), dict)["Response"], list):
            status = _checked(one, dict).get("Status", {}).get("StatusCode", {}).get("Value", f"{STATUS}ok")
            if one["Decision"] not in ANSWERS:
                raise ValueError(one["Decision"])
            held.append(Decision(one["Decision"], _checked(status, str).replace(STATUS, ""),
                                 _obligations(one.get("Obligations", [])),
                                 _obligations(one.get("AssociatedAdvice", [])), understood))
    except (ValueError, TypeError, LookupError, AttributeError, RecursionError) as fault:
        raise WrongReply(f"the reply is no response of the JSON Profile ({type(fault).__name__}: {fault}): is the "
                         "address that of the server?") from None
    if len(held) == 1 and held[0].decision == "Indeterminate":
        return held * count
    if len(held) != count:
        raise WrongReply(f"{count} decisions were asked for, and {len(held)} came: none of them is used")
    return held


# ---- messages


@dataclass(frozen=True)
class Reply:
    """The status and the body of a reply."""
    status: int
    body: bytes

    @property
    def code(self) -> str:
        """The code of an error; nothing, if the body has none."""
        try:
            code = json.loads(self.body)["Error"]
            return code if isinstance(code, str) and re.fullmatch("[A-Za-z]{1,40}", code) else ""
        except (ValueError, TypeError, LookupError, RecursionError):
            return ""


class _Reading:
    """A reply, as its bytes come: a head, and a body of the length that it tells."""

    def __init__(self) -> None:
        self.held, self.status, self.whole, self.is_kept = bytearray(), 0, -1, False

    def take(self, data: bytes) -> bool:
        """Takes the next bytes; whether the reply is whole."""
        self.held += data
        if self.whole < 0:
            end = self.held.find(b"\r\n\r\n")
            if max(end, len(self.held) if end < 0 else 0) > MOST_HEAD:
                raise WrongReply(f"the reply has a head of more than {MOST_HEAD} bytes")
            if end >= 0:
                self.whole = end + 4 + self._read(self.held[:end].decode("latin-1"))
        return 0 <= self.whole <= len(self.held)

    def _read(self, head: str) -> int:
        """Reads the head; the length of the body."""
        first, *lines = head.split("\r\n")
        status = re.fullmatch(r"HTTP/1\.([01]) ([1-5][0-9][0-9])( .*)?", first)
        fields = [(name.strip().lower(), value.strip()) for name, _, value in (line.partition(":") for line in lines)]
        lengths = [value for name, value in fields if name == "content-length"]
        if not status or len(lengths) != 1 or not re.fullmatch("[0-9]{1,15}", lengths[0]) or \
                any(name == "transfer-encoding" for name, _ in fields):
            raise WrongReply(f"the reply begins with {first!r:.80}, and doesn't tell one length of its body: is the "
                             "address that of the server?")
        if int(lengths[0]) > MOST_REPLY:
            raise WrongReply(f"the reply has a body of {lengths[0]} bytes, and at most {MOST_REPLY} are read")
        self.status = int(status[2])
        self.is_kept = status[1] == "1" and self.status in (200, 201) and \
            not any(name == "connection" and "close" in value.lower() for name, value in fields)
        return int(lengths[0])

    def reply(self) -> Reply:
        return Reply(self.status, bytes(self.held[self.held.index(b"\r\n\r\n") + 4:self.whole]))


def _left(until: float) -> float:
    """The seconds up to a moment."""
    if (left := until - time.monotonic()) <= 0:
        raise socket.timeout()
    return left


def _is_silent(connection: socket.socket) -> bool:
    """Whether a connection is open, and nothing has come that nobody asked for."""
    try:
        connection.settimeout(0)
        connection.recv(1)
    except (BlockingIOError, ssl.SSLWantReadError):
        return True
    except OSError:
        pass
    return False


def address_of(url: str) -> urllib.parse.SplitResult:
    """The parts of a server's address; Unsendable, if it is none."""
    try:
        found = urllib.parse.urlsplit(url)
        is_plain = not (found.query or found.fragment or found.username is not None) and found.port != 0
        if found.scheme in ("http", "https") and found.hostname and is_plain and re.fullmatch("[!-~]+", url):
            return found
    except ValueError:
        pass
    raise Unsendable("the address isn't one of a server, as https://pdp.example or http://127.0.0.1:8080")


def is_readable_underway(url: str) -> bool:
    """Whether a token is sent to another machine so that whoever is between can read it."""
    at = address_of(url)
    return at.scheme == "http" and at.hostname not in HERE


def is_token(text: str) -> bool:
    """Whether a text has the shape of a token."""
    return re.fullmatch("[!-~]{8,64}", text) is not None


def _proper(token: str) -> str:
    if not is_token(token):
        raise Unsendable("a token has 8 to 64 visible ASCII characters: is there a line end, or a space?")
    return token


class _Server:
    """A server, and the token that is shown to it."""

    def __init__(self, url: str, token: str, *, seconds: float = 10.0, keep: float = 0.0,
                 ca_file: Optional[str] = None, allow_http: bool = False) -> None:
        """`seconds` is for each message, from its connection to the last byte of its reply. A connection waits for
        `keep` seconds for the next decision: 0 closes it at once, which a server wants that serves one after another
        (docs/guide/RUNNING.md). `ca_file` has the certificates that are trusted in place of the system's.
        `allow_http` sends the token to another machine so that whoever is between can read it."""
        self._at = address_of(url)
        if is_readable_underway(url) and not allow_http:
            raise Unsendable("http:// shows the token to whoever is between: use https://, or allow_http=True")
        self._token, self._seconds, self._keep = _proper(token), seconds, keep
        self._tls = ssl.create_default_context(cafile=ca_file) if self._at.scheme == "https" else None
        # connections that wait, each with the process that made it and until when it may wait
        self._kept: Deque[Tuple[socket.socket, int, float]] = collections.deque()

    def __repr__(self) -> str:
        return f"<{type(self).__name__} at {self._at.scheme}://{self._at.netloc}{self._at.path}>"

    def close(self) -> None:
        """Closes the connections that wait."""
        while held := self._popped():
            held[0].close()

    def __enter__(self: _S) -> _S:
        return self

    def __exit__(self, *_: object) -> None:
        self.close()

    def _popped(self) -> Optional[Tuple[socket.socket, int, float]]:
        """One of the connections that wait; None if there is none, or if other threads have just taken the last."""
        try:
            return self._kept.pop()
        except IndexError:
            return None

    def _waiting(self) -> Optional[socket.socket]:
        """A connection that waits. One that a fork has copied isn't used, since two processes would mix replies."""
        while held := self._popped():
            connection, process, until = held
            if process == os.getpid() and time.monotonic() < until and _is_silent(connection):
                return connection
            connection.close()
        return None

    def _connected(self, until: float) -> socket.socket:
        """A new connection."""
        host, is_tls = self._at.hostname or "", self._tls is not None
        connection = socket.create_connection((host, self._at.port or (443 if is_tls else 80)), _left(until))
        try:
            connection.setsockopt(socket.IPPROTO_TCP, socket.TCP_NODELAY, 1)
            connection.settimeout(_left(until))
            return self._tls.wrap_socket(connection, server_hostname=host) if self._tls else connection
        except BaseException:
            connection.close()
            raise

    def _exchanged(self, connection: socket.socket, message: bytes, until: float) -> _Reading:
        """The reply to a message on a connection, whole."""
        reply = _Reading()
        try:
            connection.settimeout(_left(until))
            connection.sendall(message)
            while True:
                connection.settimeout(_left(until))
                data = connection.recv(65_536)
                if not data:
                    raise ConnectionResetError("the connection ended")
                if reply.take(data):
                    return reply
        except (ConnectionError, ssl.SSLEOFError) as fault:
            if reply.held:
                raise Unanswered(f"the reply is cut after {len(reply.held)} bytes") from None
            raise _Ended(f"the connection ended before a reply: {fault}") from None

    def _reply(self, message: bytes, is_change: bool) -> Reply:
        """The reply to a message. What changes nothing is sent once more, if a connection ended before a byte of a
        reply; a change never, and it has a connection of its own."""
        until = time.monotonic() + self._seconds
        if is_change:
            self.close()  # a server that serves one connection after another would wait for these
        for is_last in (is_change, True):
            connection, is_kept = (None if is_last else self._waiting()) or self._connected(until), False
            try:
                reply = self._exchanged(connection, message, until)
                is_kept = not is_change and reply.is_kept and len(reply.held) == reply.whole and \
                    len(self._kept) < MOST_KEPT and self._keep > 0
                return reply.reply()
            except _Ended:
                if is_last:
                    raise
            finally:
                if is_kept:
                    self._kept.append((connection, os.getpid(), time.monotonic() + self._keep))
                else:
                    connection.close()
        raise AssertionError

    def exchange(self, method: str, path: str, body: Optional[bytes] = None, is_change: bool = True) -> Reply:
        """The reply to any message, whatever its status. The path is that of the API, such as /operator/domains."""
        if not re.fullmatch("[A-Z]+", method) or not re.fullmatch("/[!-~]+", path):
            raise Unsendable(f"{method!r} {path!r} is no method and path: encode what isn't visible ASCII")
        if body is not None and len(body) > MOST_BODY:
            raise Unsendable(f"the body has {len(body)} bytes, and the server takes {MOST_BODY}: divide it")
        fields = [f"{method} {self._at.path.rstrip('/')}{path} HTTP/1.1", f"Host: {self._at.netloc}",
                  f"Authorization: Bearer {self._token}"]
        fields += [] if body is None else ["Content-Type: application/json", f"Content-Length: {len(body)}"]
        fields += [] if self._keep > 0 and not is_change else ["Connection: close"]
        what = f"{method} {path} at {self._at.netloc}"
        unsure = "; it may be done or not: look before you send it again" if is_change else ""
        try:
            return self._reply("\r\n".join([*fields, "\r\n"]).encode("ascii") + (body or b""), is_change)
        except socket.timeout:
            raise Unanswered(f"{what}: no whole reply came in {self._seconds} s{unsure}") from None
        except ssl.SSLCertVerificationError as fault:
            raise Unanswered(f"{what}: the certificate isn't trusted ({fault.verify_message}): give its CA as "
                             "ca_file, or by SSL_CERT_FILE in the environment") from None
        except OSError as fault:
            raise Unanswered(f"{what}: there is no connection ({fault}): does it run, and is the address "
                             "right?") from None
        except PdpError as fault:
            raise type(fault)(f"{what}: {fault}{unsure}") from None

    def _ask(self, method: str, path: str, body: Optional[bytes] = None, is_change: bool = True) -> Reply:
        """The reply to a message, which is one of success."""
        reply = self.exchange(method, path, body, is_change)
        if reply.status not in (200, 201):
            why = ADVICE.get(reply.code, "see its code in docs/guide/API.md" if reply.code else
                             "that is no answer of such a server: is the address right?")
            told = f"{reply.status} {reply.code}".strip()
            raise Refused(f"{method} {path} at {self._at.netloc} is answered with {told}: {why}", reply.status,
                          reply.code)
        return reply

    def _shown(self, path: str, member: str) -> List[Any]:
        """The array that a route shows."""
        try:
            shown = json.loads(self._ask("GET", path, is_change=False).body)
            return list(_checked(_checked(shown, dict)[member], list))
        except (ValueError, TypeError, LookupError, RecursionError):
            raise WrongReply(f"GET {path}: the reply has no {member}: is the address that of the server?") from None


_S = TypeVar("_S", bound=_Server)
NAME = re.compile("[a-z0-9][a-z0-9-]{0,31}")


def _named(domain: str) -> str:
    if not NAME.fullmatch(domain):
        raise Unsendable(f"{domain!r} is no name of a domain: 1 to 32 small letters, digits and dashes, the first "
                         "no dash")
    return domain


class Operator(_Server):
    """What the operator's token opens: domains and their tokens."""

    def domains(self) -> List[str]:
        """The names of all domains."""
        return self._shown("/operator/domains", "Domain")

    def create(self, domain: str) -> None:
        """Creates a domain; Refused with the code Exists, if there is one."""
        self._ask("PUT", f"/operator/domains/{_named(domain)}")

    def remove(self, domain: str) -> None:
        """Removes a domain with all that it has. There is no way back."""
        self._ask("DELETE", f"/operator/domains/{_named(domain)}")

    def give_token(self, domain: str, role: str, token: str) -> None:
        """Gives a domain a token of the role "admin" or "ask"."""
        if role not in ("admin", "ask"):
            raise Unsendable(f"{role!r} is no role: admin or ask")
        self._ask("POST", f"/operator/domains/{_named(domain)}/tokens", _json({"Role": role, "Token": _proper(token)}))

    def take_token(self, domain: str, token: str) -> None:
        """Takes a token from a domain."""
        self._ask("DELETE", f"/operator/domains/{_named(domain)}/tokens", _json({"Token": _proper(token)}))


@dataclass(frozen=True)
class Listed:
    """A version of a policy or a policy set, as the domain lists it; kind is "policy" or "policyset"."""
    kind: str
    id: str
    version: str
    active: bool


def row(category: str, entity: str, attribute: str, value: Value, issuer: Optional[str] = None) -> Dict[str, object]:
    """A row of the attribute source: this entity has this value of this attribute."""
    data_type, held = _typed(value)
    return {"Category": category, "Entity": entity, "AttributeId": attribute, "DataType": data_type, "Value": held,
            **({} if issuer is None else {"Issuer": issuer})}


class Domain(_Server):
    """A domain: decisions by a token of the role ask or admin; policies, root and rows by one of the role admin."""

    def __init__(self, url: str, name: str, token: str, *, understood: Iterable[str] = (), seconds: float = 10.0,
                 keep: float = 0.0, ca_file: Optional[str] = None, allow_http: bool = False) -> None:
        """`understood` has the ids of the obligations that the caller carries out. For the others see _Server."""
        super().__init__(url, token, seconds=seconds, keep=keep, ca_file=ca_file, allow_http=allow_http)
        if isinstance(understood, str):
            raise Unsendable(f"understood is a list of ids: [{understood!r}]")
        self._path, self._understood = f"/domains/{_named(name)}", frozenset(understood)

    def decide(self, subject: Optional[Attributes] = None, resource: Optional[Attributes] = None,
               action: Optional[Attributes] = None, environment: Optional[Attributes] = None,
               others: Optional[Mapping[str, Attributes]] = None) -> Decision:
        """One decision. Attributes are a mapping of ids to values or lists of values; "id" stands for subject-id,
        resource-id or action-id, and a text alone for a mapping that has just this. `others` has further categories,
        by their URI."""
        return self.decide_many([{"subject": subject, "resource": resource, "action": action,
                                  "environment": environment, "others": others}])[0]

    def decide_many(self, questions: Iterable[Question], at_once: int = MOST_DECISIONS) -> List[Decision]:
        """A decision for each question, in order. A question is a mapping with the words that decide() has. A message
        asks for at most `at_once` of them: give less if many are answered with 503."""
        asked, held = list(questions), []
        for at in range(0, len(asked), min(max(at_once, 1), MOST_DECISIONS)):
            for count, body in _bodies(asked[at:at + min(max(at_once, 1), MOST_DECISIONS)]):
                reply = self._ask("POST", f"{self._path}/pdp", body, is_change=False)
                held += _decisions(reply.body, count, self._understood)
        return held

    def permitted(self, resources: Iterable[_A], subject: Optional[Attributes] = None,
                  action: Optional[Attributes] = None, environment: Optional[Attributes] = None) -> List[_A]:
        """Those of the resources whose decision is true, in their order."""
        asked = list(resources)
        questions = [{"subject": subject, "resource": each, "action": action, "environment": environment}
                     for each in asked]
        return [each for each, decision in zip(asked, self.decide_many(questions)) if decision.permit]

    def message(self, method: str, path: str, body: Optional[bytes] = None) -> bytes:
        """The body of the reply to any message of this domain, for a route that has no call here. The path is what
        stands behind the domain's. What isn't a GET counts as a change."""
        if not path:
            raise Unsendable("the path is empty: give what stands behind the domain's, as pap/policies")
        return self._ask(method, f"{self._path}/{path}", body, is_change=method != "GET").body

    def policies(self) -> List[Listed]:
        """The policies and policy sets, each version by itself."""
        try:
            return [Listed(_checked(one["Kind"], str), _checked(one["Id"], str), _checked(one["Version"], str),
                           _checked(one["Active"], bool))
                    for one in self._shown(f"{self._path}/pap/policies", "Policy")]
        except (TypeError, LookupError):
            raise WrongReply("the list of policies isn't one of such a server") from None

    def _of(self, kind: str, policy_id: str, version: str) -> str:
        if kind not in ("policy", "policyset") or not policy_id or not re.fullmatch(r"[0-9.]+", version):
            raise Unsendable(f"{kind} {policy_id} {version} names no policy: a kind is policy or policyset, a version "
                             "numbers with dots between")
        return f"{self._path}/pap/{kind}/{urllib.parse.quote(policy_id, safe=':')}/{version}"

    def upload(self, document: Union[bytes, str, Mapping[str, object]]) -> bool:
        """Uploads a policy or a policy set, not active yet; whether it is new."""
        body = document if isinstance(document, bytes) else document.encode() if isinstance(document, str) else \
            _json(document)
        return self._ask("POST", f"{self._path}/pap/policies", body).status == 201

    def show(self, kind: str, policy_id: str, version: str) -> bytes:
        """The text of a policy, as it was uploaded."""
        return self._ask("GET", self._of(kind, policy_id, version), is_change=False).body

    def activate(self, kind: str, policy_id: str, version: str) -> None:
        """References may resolve to this version from now on."""
        self._ask("PUT", f"{self._of(kind, policy_id, version)}/active")

    def withdraw(self, kind: str, policy_id: str, version: str) -> None:
        """No reference resolves to this version from now on."""
        self._ask("DELETE", f"{self._of(kind, policy_id, version)}/active")

    def delete(self, kind: str, policy_id: str, version: str) -> None:
        """Deletes a version that isn't active."""
        self._ask("DELETE", self._of(kind, policy_id, version))

    def set_root(self, kind: Optional[str], policy_id: str = "", **bounds: str) -> None:
        """Sets the root: a kind, an id, and perhaps Version, EarliestVersion and LatestVersion. None takes it away."""
        names = {"policy": "PolicyIdReference", "policyset": "PolicySetIdReference"}
        if kind is not None and kind not in names:
            raise Unsendable(f"{kind!r} is no kind: policy, policyset, or None")
        self._ask("PUT", f"{self._path}/pap/root", _json({names[kind]: {"Id": policy_id, **bounds}} if kind else {}))

    def rows(self) -> List[Dict[str, object]]:
        """The rows of the attribute source, as JSON has them."""
        return self._shown(f"{self._path}/pip", "Row")

    def set_rows(self, rows: Iterable[Mapping[str, object]]) -> None:
        """Sets the rows in place of all that are there: such as row() makes, or as JSON has them."""
        self._ask("PUT", f"{self._path}/pip", _json({"Row": [dict(each) for each in rows]}))


_A = TypeVar("_A", bound=Attributes)
_R = TypeVar("_R")


async def _in_thread(call: Callable[..., _R], *given: Any) -> _R:
    """What a call gives, in a thread."""
    import asyncio  # slowly imported, and most callers want none of it
    return await asyncio.to_thread(call, *given)


class _Asked(Coroutine[Any, Any, _R]):
    """A call that is awaited. Whether it is true is a mistake to ask, since each coroutine is."""

    def __init__(self, call: Coroutine[Any, Any, _R]) -> None:
        self._call = call

    def __await__(self) -> Generator[Any, Any, _R]:
        return self._call.__await__()

    def send(self, value: Any) -> Any:
        return self._call.send(value)

    def throw(self, *given: Any) -> Any:
        return self._call.throw(*given)

    def close(self) -> None:
        self._call.close()

    def __bool__(self) -> bool:
        raise Unsendable("nothing was asked yet: await it, as (await domain.decide(..)).permit")


class AsyncDomain:
    """The decisions of a domain under asyncio, each in a thread. The other calls go by asyncio.to_thread, as
    `await asyncio.to_thread(domain.set_rows, rows)`."""

    def __init__(self, domain: Domain) -> None:
        self._domain = domain

    def decide(self, subject: Optional[Attributes] = None, resource: Optional[Attributes] = None,
               action: Optional[Attributes] = None, environment: Optional[Attributes] = None,
               others: Optional[Mapping[str, Attributes]] = None) -> Coroutine[Any, Any, Decision]:
        """As Domain.decide."""
        return _Asked(_in_thread(self._domain.decide, subject, resource, action, environment, others))

    def decide_many(self, questions: Iterable[Question], at_once: int = MOST_DECISIONS) -> Coroutine[
            Any, Any, List[Decision]]:
        """As Domain.decide_many."""
        return _Asked(_in_thread(self._domain.decide_many, list(questions), at_once))

    def permitted(self, resources: Iterable[_A], subject: Optional[Attributes] = None,
                  action: Optional[Attributes] = None,
                  environment: Optional[Attributes] = None) -> Coroutine[Any, Any, List[_A]]:
        """As Domain.permitted."""
        held = list(resources)
        return _Asked(_in_thread(lambda: self._domain.permitted(held, subject, action, environment)))
