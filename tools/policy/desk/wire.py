"""Messages to a server (docs/guide/API.md), by the client for applications (clients/python), and the token that they
show. Each message has a connection of its own, since `pdpd serve` takes one after another."""
from __future__ import annotations

import json
import os
import time

from .model import json_texts, pdp_client
from .setting import Usage

TOKEN_VARIABLE = "DALVEZOUR_TOKEN"
SECONDS = 30
# waits before a message is sent again that was answered with 503
WAITS = (0.1, 0.5, 1.0, 2.0)
Reply = pdp_client.Reply


class ServerFault(Exception):
    """The server can't be reached, refuses what was asked, or isn't as it has to be: nothing, or not all,
    was done."""


class Refused(ServerFault):
    """The server refuses a message."""

    def __init__(self, sentence: str, code: str):
        super().__init__(sentence)
        self.code = code


def json_held(held: bytes) -> object:
    """The JSON that a server answered; ValueError where it is none, or is nested too deep, or has a longer number,
    than any of its kind."""
    try:
        return json.loads(held, parse_int=json_texts.number)
    except RecursionError:
        raise ValueError("nested too deep") from None


def first_line(path: str) -> str:
    """The first line of a file."""
    try:
        with open(path, encoding="latin-1") as lines:
            return lines.readline(1000)
    except OSError as fault:
        raise Usage(f"{path} can't be read: {fault.strerror}") from None


def token_of(path: str | None) -> str:
    """The token: the first line of the file, or else what the environment has."""
    if path is None and TOKEN_VARIABLE not in os.environ:
        raise Usage(f"the token of the domain's administrator is wanted: --token-file FILE, whose first "
                    f"line it is, or {TOKEN_VARIABLE} in the environment")
    held = os.environ[TOKEN_VARIABLE] if path is None else first_line(path)
    token = held.rstrip("\r\n")
    if not pdp_client.is_token(token):
        raise Usage(f"{path or TOKEN_VARIABLE} holds no token (8 to 64 visible ASCII characters)")
    return token


def is_readable_underway(server: str) -> bool:
    """Whether the token is sent to another machine so that whoever is between can read it."""
    try:
        return pdp_client.is_readable_underway(server)
    except pdp_client.Unsendable:
        raise Usage(f"{server} is no address of a server, as http://127.0.0.1:8080") from None


ADVICE = {**pdp_client.ADVICE,
          "Quota": "the domain has no room for more: delete what isn't used (`policy deploy --prune`)",
          "SameVersionOtherText": "other text is kept there under this kind, id and version",
          "StillActive": "it is active",
          "Absent": "it isn't there",
          "Unavailable": "the server is short of memory, its storage failed, or it takes changes at another address"}


class Client:
    """A client of one domain."""

    def __init__(self, server: str, domain: str, token: str, seconds: float = SECONDS):
        self.server, self.domain = server, domain
        try:
            # (whether a token may be read underway was asked before)
            self.held = pdp_client.Domain(server, domain, token, seconds=seconds, allow_http=True)
        except pdp_client.Unsendable as fault:
            raise Usage(str(fault)) from None

    def exchange(self, method: str, path: str, body: bytes | None) -> Reply:
        """The reply to a message."""
        try:
            return self.held.exchange(method, f"/domains/{self.domain}/{path}", body,
                                      is_change=method != "GET" and path != "pdp")
        except pdp_client.PdpError as fault:
            raise ServerFault(str(fault)) from None

    def asked(self, method: str, path: str, body: bytes | None = None) -> Reply:
        """The reply to a message, which is sent again where the server is short of something. All that is
        sent here may be sent twice."""
        reply = self.exchange(method, path, body)
        for wait in WAITS:
            if reply.status != 503:
                break
            time.sleep(wait)
            reply = self.exchange(method, path, body)
        if reply.status not in (200, 201):
            code = reply.code
            advice = ADVICE.get(code, "that is no answer of such a server" if not code
                                else "see docs/guide/API.md")
            raise Refused(f"{method} {path} is answered with {reply.status}{' ' + code if code else ''}: "
                          f"{advice}", code)
        return reply

    def value(self, path: str) -> dict:
        """The JSON object that the server shows."""
        try:
            held = json_held(self.asked("GET", path).body)
        except ValueError:
            held = None
        if not isinstance(held, dict):
            raise ServerFault(f"GET {path}: the server answers what no server of this kind answers")
        return held
