"""Servers that tests of the client put in place of pdpd or before it: one that answers each connection by a script, and
a relay that counts."""
import contextlib
import json
import socket
import struct
import threading
import time

PATIENCE = 30
STATUS = "urn:oasis:names:tc:xacml:1.0:status:"


def result(decision, status="ok", **more):
    """A result, as a response has it."""
    return {"Decision": decision, "Status": {"StatusCode": {"Value": STATUS + status}}, **more}


def whole(body, status="200 OK", fields=(), length=None):
    """The bytes of a reply; its body is JSON, if it isn't bytes."""
    data = body if isinstance(body, bytes) else json.dumps(body).encode()
    lines = [f"HTTP/1.1 {status}", *fields, *([] if length == "" else [f"Content-Length: {length or len(data)}"])]
    return "\r\n".join([*lines, "\r\n"]).encode() + data


def response(*results):
    return whole({"Response": list(results)})


def in_pieces(body):
    """The bytes of a reply in pieces (chunked), which ends before the last one."""
    data = json.dumps(body).encode()
    return b"HTTP/1.1 200 OK\r\nTransfer-Encoding: chunked\r\n\r\n%x\r\n%s\r\n" % (len(data), data)


def message_of(connection):
    """The next message, whole; nothing, where the connection ends."""
    held = b""
    while b"\r\n\r\n" not in held:
        data = connection.recv(65_536)
        if not data:
            return b""
        held += data
    head, _, body = held.partition(b"\r\n\r\n")
    lengths = [int(line.split(b":")[1]) for line in head.split(b"\r\n") if line.lower().startswith(b"content-length")]
    while len(body) < sum(lengths):
        data = connection.recv(65_536)
        if not data:
            return b""
        body += data
    return head + b"\r\n\r\n" + body


def reset(connection):
    """Ends a connection by a reset."""
    connection.setsockopt(socket.SOL_SOCKET, socket.SO_LINGER, struct.pack("ii", 1, 0))
    connection.close()


class Scripted:
    """A server whose k-th connection does what the k-th item of its script says, once a message has come; the last
    item is for all further ones. An item is bytes to send before the end, or a function of the connection."""

    def __init__(self, *script, tls=None):
        self.script, self.messages, self.connections, self.tls = script, [], 0, tls
        self.listener = socket.create_server(("127.0.0.1", 0))
        self.url = f"{'https' if tls else 'http'}://127.0.0.1:{self.listener.getsockname()[1]}"
        self.ended, self.here = threading.Event(), threading.local()
        self.thread = threading.Thread(target=self.serve, daemon=True)
        self.thread.start()

    def serve(self):
        while True:
            try:
                connection, _ = self.listener.accept()
            except OSError:
                return
            item = self.script[min(self.connections, len(self.script) - 1)]
            self.connections += 1
            threading.Thread(target=self.answer, args=(connection, item), daemon=True).start()

    def answer(self, connection, item):
        with contextlib.suppress(OSError):
            connection.settimeout(PATIENCE)
            with self.tls.wrap_socket(connection, server_side=True) if self.tls else connection as held:
                while message := message_of(held):
                    self.messages.append(message)
                    self.here.message = message  # of this connection
                    if callable(item):
                        item(held, self)
                    else:
                        held.sendall(item)
                        return

    def __enter__(self):
        return self

    def __exit__(self, *_):
        self.ended.set()
        self.listener.shutdown(socket.SHUT_RDWR)
        self.listener.close()
        self.thread.join(PATIENCE)


def keeps(data):
    """Answers each message of a connection with these bytes, and leaves it open."""
    return lambda connection, _: connection.sendall(data)


def drips(data, seconds=0.1):
    """Sends a byte now and then, without an end."""
    def dripping(connection, server):
        for place in range(len(data)):
            connection.sendall(data[place:place + 1])
            if server.ended.wait(seconds):
                return
    return dripping


def is_silent(_, server):
    server.ended.wait(PATIENCE)


class Relay:
    """Passes connections on to a port, as they are, and counts them and the bytes of messages."""

    def __init__(self, port):
        self.port, self.connections, self.sent = port, 0, b""
        self.listener = socket.create_server(("127.0.0.1", 0))
        self.url = f"http://127.0.0.1:{self.listener.getsockname()[1]}"
        self.thread = threading.Thread(target=self.serve, daemon=True)
        self.thread.start()

    def serve(self):
        while True:
            try:
                near, _ = self.listener.accept()
            except OSError:
                return
            self.connections += 1
            far = socket.create_connection(("127.0.0.1", self.port), PATIENCE)
            for one, other, counts in ((near, far, True), (far, near, False)):
                threading.Thread(target=self.carry, args=(one, other, counts), daemon=True).start()

    def carry(self, one, other, counts):
        with contextlib.suppress(OSError):
            while data := one.recv(65_536):
                if counts:
                    self.sent += data
                other.sendall(data)
        for each in (one, other):
            with contextlib.suppress(OSError):
                each.shutdown(socket.SHUT_RDWR)

    @property
    def messages(self):
        return self.sent.count(b"Authorization: Bearer ")

    def __enter__(self):
        return self

    def __exit__(self, *_):
        self.listener.shutdown(socket.SHUT_RDWR)
        self.listener.close()
        self.thread.join(PATIENCE)


def until(holds, seconds=PATIENCE):
    """Waits until something holds; whether it does."""
    end = time.monotonic() + seconds
    while not holds():
        if time.monotonic() > end:
            return False
        time.sleep(0.01)
    return True


def starts_http2(port, *fields):
    """Sends a request without a body over HTTP/2, of fields that no other client would send, and waits for the first
    of its reply (RFC 9113; the fields without a table, RFC 7541, section 6.2.2)."""
    def frame(kind, flags, stream, held=b""):
        return struct.pack(">I", len(held))[1:] + bytes([kind, flags]) + struct.pack(">I", stream) + held
    block = b"".join(bytes([0, len(name)]) + name.encode() + bytes([len(value)]) + value.encode()
                     for name, value in fields)
    with socket.create_connection(("127.0.0.1", port), PATIENCE) as connection:
        # (settings that are the defaults, and the whole head of stream 1, which has no body)
        connection.sendall(b"PRI * HTTP/2.0\r\n\r\nSM\r\n\r\n" + frame(4, 0, 0) + frame(1, 5, 1, block))
        with connection.makefile("rb") as held:
            while head := held.read(9):
                held.read(int.from_bytes(head[:3], "big"))
                if int.from_bytes(head[5:], "big") == 1 or head[3] == 7:
                    return
