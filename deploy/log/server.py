"""Takes messages of HTTP/1.1 from HAProxy, one for each connection: so many at a time, and so much of each."""
from __future__ import annotations

import contextlib
import os
import pathlib
import re
import socket
import threading
from collections.abc import Callable

from .messages import COUNTED, Message

# how many messages are held at a time, and how much of each: pdpd's longest body, and more than its longest head
MOST_MESSAGES, MOST_BODY, MOST_HEAD = 32, 524_288, 20_000
# how long a client may give nothing or take nothing, in seconds: HAProxy sends a message once it has all of it
PATIENCE = 5.0
LINE = re.compile(r"([A-Z]{1,20}) ([\x21-\x7e]{1,17000}) HTTP/1\.1")
# (blanks around the value are taken away behind it: an expression that looks for them takes seconds for thousands)
FIELD = re.compile(r"([!#$%&'*+.^_`|~0-9A-Za-z-]+):(.*)", re.S)
REASONS = {400: "Bad Request", 404: "Not Found", 413: "Payload Too Large", 501: "Not Implemented",
           503: "Service Unavailable", 504: "Gateway Timeout"}


class BadMessage(Exception):
    """A message that HAProxy would not have sent, by the status and the code of its answer."""


def answer(status: int, code: str) -> bytes:
    """A reply of the daemon's own, in the form of pdpd's."""
    body = f'{{"Error":"{code}"}}'
    return (f"HTTP/1.1 {status} {REASONS[status]}\r\nContent-Type: application/json\r\n"
            f"Content-Length: {len(body)}\r\n\r\n{body}").encode()


def message_in_head(head: str) -> tuple[Message, int]:
    """The message without its body, and the body's length."""
    line, *rest = head.split("\r\n")
    found, fields = LINE.fullmatch(line), [FIELD.fullmatch(one) for one in rest]
    if not found or not all(fields) or re.search(r"[\0\r\n]", "".join(rest)):
        raise BadMessage(400, "BadHead")
    held = [(one[1].lower(), one[2].strip(" \t")) for one in fields if one]
    if any(name == "transfer-encoding" for name, _ in held):
        raise BadMessage(501, "TransferCoding")
    lengths = {value for name, value in held if name == "content-length"} or {"0"}
    length = lengths.pop()
    if lengths or not re.fullmatch(r"[0-9]{1,18}", length):
        raise BadMessage(400, "BadHead")
    if int(length) > MOST_BODY:
        raise BadMessage(413, "BodyTooLarge")
    kept = tuple((name, value) for name, value in held if name in COUNTED)
    return Message(found[1], found[2], kept, b""), int(length)


def message_from(connection: socket.socket) -> Message | None:
    """The message that comes over a connection; None where it ends before."""
    held = b""
    while (end := held.find(b"\r\n\r\n")) < 0:
        more = connection.recv(1 << 16) if len(held) < MOST_HEAD else b""
        if not more:
            return None
        held += more
    message, length = message_in_head(held[:end].decode("latin-1"))
    parts, left = [held[end + 4:]], length - len(held) + end + 4
    while left > 0:
        more = connection.recv(min(left, 1 << 16))
        if not more:
            return None
        parts.append(more)
        left -= len(more)
    return Message(message.method, message.target, message.fields, b"".join(parts)[:length])


def listening(address: str) -> socket.socket:
    """A socket that listens at HOST:PORT, or at unix:PATH, which its owner and its group alone may connect to."""
    if not address.startswith("unix:"):
        host, _, port = address.rpartition(":")
        return socket.create_server((host, int(port)), backlog=512, reuse_port=False)
    path = pathlib.Path(address.removeprefix("unix:"))
    with contextlib.suppress(FileNotFoundError):
        path.unlink()
    made = socket.socket(socket.AF_UNIX)
    before = os.umask(0o117)
    try:
        made.bind(str(path))
    finally:
        os.umask(before)
    made.listen(512)
    return made


class Server:
    """Answers each message by `reply_to`."""

    def __init__(self, address: str, reply_to: Callable[[Message], bytes]):
        self.socket, self.reply_to = listening(address), reply_to
        self.places = threading.BoundedSemaphore(MOST_MESSAGES)

    def serve(self) -> None:
        """Takes connections for ever."""
        while True:
            self.places.acquire()
            try:
                connection, _ = self.socket.accept()
            except OSError:
                self.places.release()
                raise
            threading.Thread(target=self.answer_one, args=(connection,), daemon=True).start()

    def answer_one(self, connection: socket.socket) -> None:
        try:
            with connection:
                connection.settimeout(PATIENCE)
                try:
                    message = message_from(connection)
                    reply = self.reply_to(message) if message else b""
                except BadMessage as fault:
                    reply = answer(*fault.args)
                connection.sendall(reply)
                # what has come of a further message would reset the connection, and the reply with it
                connection.shutdown(socket.SHUT_WR)
        except OSError:
            # the client has gone
            pass
        finally:
            self.places.release()
