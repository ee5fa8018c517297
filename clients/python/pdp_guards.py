"""Enforcement points for Python's web applications, as recipes: middleware of WSGI and of ASGI, and a decorator, as for
Flask. Copy this file beside pdp_client.py, and change what differs with you.

All are deny-biased: a request goes through only if the decision is Permit and each of its obligations was carried out.
Else it is refused: with 403; with 400, if its path or method can be read in two ways; with 413, if its form is too long
to look for another method; with 503, if there is no decision.
"""
from __future__ import annotations

import asyncio
import functools
import io
import logging
import re
import unicodedata
import urllib.parse
from typing import Any, Awaitable, Callable, Dict, Iterable, List, Mapping, Optional, Tuple, TypeVar

from pdp_client import Attributes, Domain, Obligation, PdpError

Handlers = Mapping[str, Callable[[Obligation], object]]
Environ = Dict[str, Any]
Application = Callable[[Environ, Callable[..., Any]], Iterable[bytes]]
Channel = Callable[..., Awaitable[Any]]
View = TypeVar("View", bound=Callable[..., Any])

PHRASES = {400: "400 Bad Request", 403: "403 Forbidden", 413: "413 Content Too Large", 503: "503 Service Unavailable"}
MOST_FORM = 1 << 20  # bytes of a form; it is held until the decision is there
# What has one reading in a decoded path: of ASCII what needs no encoding, and a space; else letters and digits
PLAIN = re.compile(r"/[\w\-.~!$&'()*+,=:@/ ]*")
# but for empty parts, and those of dots
ODD_PARTS = re.compile(r"//|/ *\.[. ]*(?:/|$)")
# what was decoded to such parts, to parameters, to a second decoding, or to what needs no encoding
DECODED = re.compile("%(?:[01567]|2[5def]|3[0-9b]|4[1-9a-f])", re.I)
# (what an application takes for the same method as in capitals would be asked about as another one)
METHOD = re.compile("[A-Z]+")
# fields by which an application may take another method or protocol, or its server another path (gunicorn: SCRIPT_NAME)
OVERRIDES = ("x-http-method-override", "x-http-method", "x-method-override", "x-original-url", "x-rewrite-url",
             "script-name", "x-script-name", "upgrade", "http2-settings")
# the same in a query or a form: `_method`, `a[_method]`, `X-HTTP-Method-Override`
OVERRIDE = re.compile(r"(?:^|\[)[\s+]*(?:[_. +]|x[-_. +](?:http[-_. +])?)method", re.I)
# the types of a body in which an application looks for fields; without a type some do, too
FORM = re.compile(r"^\s*(?:;|$)|form|url|multipart", re.I)
OTHER_LETTERS = re.compile(r"charset(?!\s*=\s*\"?utf-8\"?\s*(?:;|$))", re.I)
# the head of a part of a form, the names in it, and what some read as a name and others don't
DISPOSITION = re.compile(r"content-disposition((?:[^\r\n]|\r?\n[ \t]|\r[ \t])*)", re.I)
PART_NAME = re.compile(r"(?<![a-z])name\s*=\s*[\"']?([^\"';]*)", re.I)
ODD_NAME = re.compile(r"(?<![a-z])name\s*\*|=\?", re.I)
log = logging.getLogger(__name__)


def status_of(domain: Domain, handlers: Handlers, subject: Optional[Attributes], resource: Attributes,
              action: Attributes) -> int:
    """200 if access is granted; else the status to refuse it with."""
    if subject is None:
        return 403
    try:
        return 200 if domain.decide(subject, resource, action).enforce(handlers) else 403
    except PdpError as fault:
        log.error("there is no decision: %s", fault)
        return 503


def is_plain(path: str) -> bool:
    """Whether each application, and a file server in it, reads a decoded path alike."""
    return bool(PLAIN.fullmatch(path)) and not ODD_PARTS.search(path) and unicodedata.is_normalized("NFKC", path)


def is_odd(method: str, path: str, raw: str, query: str, fields: Iterable[str]) -> bool:
    """Whether a request may be read in two ways: by its method, its path, decoded and as it came, its query, or the
    names of the fields in its head."""
    return bool(not METHOD.fullmatch(method) or not is_plain(path) or DECODED.search(raw.partition("?")[0])
                or names_method(query) or any(name.lower().replace("_", "-") in OVERRIDES for name in fields))


def names_method(query: str) -> bool:
    """Whether a query, or a form that is written as one, names another method."""
    return any(OVERRIDE.search(decoded(part.partition("=")[0])) for part in re.split("[&;?]", query))


def decoded(text: str) -> str:
    """A text, in which what is encoded is decoded, also as ASP.NET does it."""
    return urllib.parse.unquote(re.sub("%[uU]00", "%", text))


def form_names_method(kind: str, form: bytes) -> bool:
    """Whether a form of that type names another method, or may do so for some reader."""
    text = form.decode("latin-1")
    if OTHER_LETTERS.search(kind):
        return True
    if "multipart" not in kind.lower():
        return names_method(text)
    heads = [found[1].replace("\\", "") for found in DISPOSITION.finditer(text)]
    return any(ODD_NAME.search(head) or any(OVERRIDE.search(decoded(found[1])) for found in PART_NAME.finditer(head))
               for head in heads)


def status_of_environ(environ: Environ) -> int:
    """200, or 400 if a request of WSGI may be read in two ways, but for its form."""
    try:
        path = path_of(environ)
    except UnicodeError:
        return 400
    fields = [name[5:] for name in environ if name.startswith("HTTP_")]
    raw = [str(environ.get(name, "")) for name in ("RAW_URI", "REQUEST_URI")]  # (as gunicorn and uWSGI name it)
    query = environ.get("QUERY_STRING", "")
    return 400 if any(is_odd(environ["REQUEST_METHOD"], path, each, query, fields) for each in raw) else 200


def path_of(environ: Environ) -> str:
    """The path of a request of WSGI."""
    whole: str = environ.get("SCRIPT_NAME", "") + environ.get("PATH_INFO", "")
    return whole.encode("latin-1").decode()


def status_of_form(environ: Environ) -> int:
    """200, or the status to refuse the form of a request of WSGI with. The application reads it once more."""
    kind, told, source = environ.get("CONTENT_TYPE", ""), environ.get("CONTENT_LENGTH", ""), environ["wsgi.input"]
    is_chunked, has_end = "HTTP_TRANSFER_ENCODING" in environ, bool(environ.get("wsgi.input_terminated"))
    if not FORM.search(kind) or not (told or is_chunked or has_end):
        return 200
    if is_chunked and (told or not has_end) or told and not re.fullmatch("[0-9]{1,15}", told):
        return 400
    wanted, form = int(told) if told else MOST_FORM + 1, b""
    while len(form) < wanted <= MOST_FORM + 1 and (data := source.read(wanted - len(form))):
        form += data
    if max(len(form), int(told or 0)) > MOST_FORM:
        return 413
    environ["wsgi.input"] = io.BytesIO(form)
    is_encoded = form and "HTTP_CONTENT_ENCODING" in environ
    return 400 if is_encoded or told and len(form) < wanted or form_names_method(kind, form) else 200


class GuardedWSGI:
    """A WSGI application, of which only those requests arrive that are permitted: the resource is the path that it
    sees, the action the method. `subject_of` gives the attributes of whoever was authenticated before, or None. What
    changes a request on its way, as a middleware for the prefix of a proxy, stands outside of this one."""

    def __init__(self, application: Application, domain: Domain, handlers: Handlers,
                 subject_of: Callable[[Environ], Optional[Attributes]]) -> None:
        self.application, self.domain, self.handlers, self.subject_of = application, domain, handlers, subject_of

    def status(self, environ: Environ) -> int:
        for looks in (status_of_environ, status_of_form):
            if (status := looks(environ)) != 200:
                return status
        return status_of(self.domain, self.handlers, self.subject_of(environ), path_of(environ),
                         environ["REQUEST_METHOD"])

    def __call__(self, environ: Environ, start_response: Callable[..., Any]) -> Iterable[bytes]:
        status = self.status(environ)
        if status == 200:
            return self.application(environ, start_response)
        start_response(PHRASES[status], [("Content-Length", "0")])
        return [b""]


async def form_of(receive: Channel) -> Tuple[int, bytes, Channel]:
    """200 and the form of a request of ASGI, or the status to refuse it with; and what gives it once more."""
    form, is_whole = b"", False
    while not is_whole:
        event = await receive()
        form, is_whole = form + event.get("body", b""), not event.get("more_body", False)
        if event["type"] != "http.request" or len(form) > MOST_FORM:
            return 413 if len(form) > MOST_FORM else 400, b"", receive
    events = [{"type": "http.request", "body": form, "more_body": False}]

    async def again() -> Any:
        return events.pop() if events else await receive()
    return 200, form, again


class GuardedASGI:
    """The same for an ASGI application. Web sockets are refused."""

    def __init__(self, application: Callable[..., Awaitable[None]], domain: Domain, handlers: Handlers,
                 subject_of: Callable[[Environ], Optional[Attributes]]) -> None:
        self.application, self.domain, self.handlers, self.subject_of = application, domain, handlers, subject_of

    async def status(self, scope: Environ, receive: Channel) -> Tuple[int, Channel]:
        """200, or the status to refuse a request with; and what gives its body."""
        fields: List[Tuple[str, str]] = [(name.decode("latin-1").lower(), value.decode("latin-1"))
                                         for name, value in scope["headers"]]
        raw, query = ((scope.get(name) or b"").decode("latin-1") for name in ("raw_path", "query_string"))
        if is_odd(scope["method"], scope["path"], raw, query, [name for name, _ in fields]):
            return 400, receive
        kind = ";".join(value for name, value in fields if name == "content-type")
        if FORM.search(kind):
            status, form, receive = await form_of(receive)
            is_encoded = any(name == "content-encoding" for name, _ in fields)
            if status != 200 or form and (is_encoded or form_names_method(kind, form)):
                return max(status, 400), receive
        return await asyncio.to_thread(status_of, self.domain, self.handlers, self.subject_of(scope), scope["path"],
                                       scope["method"]), receive

    async def __call__(self, scope: Environ, receive: Channel, send: Channel) -> None:
        if scope["type"] == "lifespan":
            await self.application(scope, receive, send)
        elif scope["type"] != "http":
            await send({"type": "websocket.close", "code": 1008})
        else:
            status, receive = await self.status(scope, receive)
            if status == 200:
                return await self.application(scope, receive, send)
            await send({"type": "http.response.start", "status": status, "headers": [(b"content-length", b"0")]})
            await send({"type": "http.response.body", "body": b""})
        return None


class Guard:
    """Makes a decorator of views, such as Flask's, which stands below the one of the route:

        guard = Guard(domain, handlers, lambda: flask.g.user, flask.abort, lambda: flask.request)

        @app.get("/records/<record>")
        @guard("read", lambda record: {"id": record, "urn:example:kind": "record"})
        def shown(record): ..

    `subject_of` gives the attributes of whoever is logged in, or None; `refuse` ends the request with a status;
    `request_of` gives the request, with `environ` of WSGI, `args`, `form` and `files` by their names."""

    def __init__(self, domain: Domain, handlers: Handlers, subject_of: Callable[[], Optional[Attributes]],
                 refuse: Callable[[int], Any], request_of: Callable[[], Any]) -> None:
        self.domain, self.handlers, self.subject_of, self.refuse = domain, handlers, subject_of, refuse
        self.request_of = request_of

    def status(self, action: Attributes, resource: Attributes) -> int:
        request = self.request_of()
        status = status_of_environ(request.environ)
        names = map(str, [*request.args, *request.form, *request.files])
        if status != 200 or any(map(OVERRIDE.search, names)):
            return 400
        return status_of(self.domain, self.handlers, self.subject_of(), resource, action)

    def __call__(self, action: Attributes, resource_of: Callable[..., Attributes]) -> Callable[[View], View]:
        """Guards a view: it gets the action, and the resource by the view's own arguments."""
        def guarded(view: View) -> View:
            @functools.wraps(view)
            def checked(*given: Any, **named: Any) -> Any:
                status = self.status(action, resource_of(*given, **named))
                return view(*given, **named) if status == 200 else self.refuse(status)
            return checked  # type: ignore[return-value]
        return guarded
