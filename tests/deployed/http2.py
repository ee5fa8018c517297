"""A client that speaks HTTP/2 (RFC 9113) by hand, as no well-behaved one does: it never takes more than it wants to.

Fields go out as literals that no table keeps and no code shortens (RFC 7541, section 6.2.2), so that no state is
needed. Of replies the status and the bytes of the body are read.
"""
import contextlib
import socket
import struct

PREFACE = b"PRI * HTTP/2.0\r\n\r\nSM\r\n\r\n"
DATA, HEADERS, RESET, SETTINGS, WINDOW_UPDATE = 0, 1, 3, 4, 8
ACKNOWLEDGES, ENDS_STREAM, ENDS_HEADERS = 1, 1, 4
INITIAL_WINDOW_SIZE, FIRST_WINDOW, MOST_OF_A_FRAME = 4, 65_535, 16_384
# RFC 7541, appendix A: the statuses that have a number of their own, and the number of the name `:status`
STATUSES = {8: 200, 9: 204, 10: 206, 11: 304, 12: 400, 13: 404, 14: 500}
STATUS_NAMES = range(8, 15)
PATIENCE = 30


def frame(kind, flags, stream, payload=b""):
    """A frame (RFC 9113, section 4.1)."""
    return struct.pack(">I", len(payload))[1:] + struct.pack(">BBI", kind, flags, stream) + payload


def length(number):
    """A length before a text that no code shortens: an integer with a prefix of seven bits (RFC 7541, section 5.1)."""
    if number < 127:
        return bytes([number])
    out, number = bytearray([127]), number - 127
    while number >= 128:
        out.append(number % 128 + 128)
        number //= 128
    return bytes([*out, number])


def literal(name, value):
    """A field whose name is new."""
    return b"\0" + length(len(name)) + name + length(len(value)) + value


def block(method, path, fields=()):
    """The fields of a request."""
    pseudo = ((b":method", method), (b":scheme", b"https"), (b":path", path), (b":authority", b"localhost"))
    return b"".join(literal(name, value) for name, value in (*pseudo, *fields))


def of_message(data):
    """The method, the path, the fields and the body of a message that is written as HTTP/1.1 has it."""
    head, _, body = data.partition(b"\r\n\r\n")
    line, *lines = head.split(b"\r\n")
    method, path, _ = line.split(b" ")
    pairs = (line.split(b": ", 1) for line in lines)
    fields = [(name.lower(), value) for name, value in pairs if name.lower() not in (b"host", b"connection")]
    return method, path, fields, body


def status_in(payload):
    """The status that a block of fields begins with."""
    first = payload[0]
    if first & 0x80 and first & 0x7F in STATUSES:
        return STATUSES[first & 0x7F]
    number = first & (0x3F if first & 0x40 else 0x0F)
    if number in STATUS_NAMES and payload[1] == 3:
        return int(payload[2:5])
    raise ValueError(f"no status at the beginning of {payload[:16]!r}")


class Http2:
    """One connection: messages go out on streams of their own; what comes is kept by stream."""

    def __init__(self, port, *, window=65_535, source=None):
        """`window` is what the server may send of each body unasked; `source` the address that the client has."""
        where = (source, 0) if source else None
        self.socket = socket.create_connection(("127.0.0.1", port), PATIENCE, source_address=where)
        self.socket.setsockopt(socket.IPPROTO_TCP, socket.TCP_NODELAY, 1)
        setting = struct.pack(">HI", INITIAL_WINDOW_SIZE, window)
        self.socket.sendall(PREFACE + frame(SETTINGS, 0, 0, setting))
        self.held, self.last = b"", -1
        self.statuses, self.bodies, self.ended = {}, {}, set()
        # how much the server lets the client send: of each body, and of all together
        self.rooms, self.room = {}, FIRST_WINDOW

    def headers(self, method, path, fields=(), *, ends=True):
        """Begins a stream, and gives its number; `ends` says that no body follows."""
        self.last += 2
        flags = ENDS_HEADERS | (ENDS_STREAM if ends else 0)
        self.socket.sendall(frame(HEADERS, flags, self.last, block(method, path, fields)))
        return self.last

    def data(self, stream, data, *, ends=True):
        """Sends a part of a body as far as the server lets it: whether all is sent."""
        while True:
            piece = data[:min(MOST_OF_A_FRAME, self.room, self.rooms.get(stream, FIRST_WINDOW))]
            if data and not piece:
                if stream in self.ended or not self.more():
                    return False
                continue
            data = data[len(piece):]
            self.socket.sendall(frame(DATA, 0 if data or not ends else ENDS_STREAM, stream, piece))
            self.room -= len(piece)
            self.rooms[stream] = self.rooms.get(stream, FIRST_WINDOW) - len(piece)
            if not data:
                return True

    def message(self, data):
        """Sends a message that is written as HTTP/1.1 has it, and gives the number of its stream."""
        method, path, fields, body = of_message(data)
        stream = self.headers(method, path, fields, ends=not body)
        if body:
            self.data(stream, body)
        return stream

    def more(self):
        """Reads the next frame; whether there was one."""
        while len(self.held) < 9 or len(self.held) < 9 + int.from_bytes(self.held[:3], "big"):
            try:
                data = self.socket.recv(65_536)
            except ConnectionError:
                data = b""
            if not data:
                return False
            self.held += data
        size = int.from_bytes(self.held[:3], "big")
        kind, flags, stream = struct.unpack(">BBI", self.held[3:9])
        payload, self.held = self.held[9:9 + size], self.held[9 + size:]
        self.take(kind, flags, stream, payload)
        return True

    def take(self, kind, flags, stream, payload):
        """Keeps what a frame says."""
        if kind == HEADERS:
            self.statuses[stream] = status_in(payload)
        elif kind == DATA:
            self.bodies[stream] = self.bodies.get(stream, b"") + payload
        elif kind == SETTINGS and not flags & ACKNOWLEDGES:
            # (the server may have gone, and what it had said before is read all the same)
            with contextlib.suppress(ConnectionError):
                self.socket.sendall(frame(SETTINGS, ACKNOWLEDGES, 0))
        elif kind == WINDOW_UPDATE and stream:
            self.rooms[stream] = self.rooms.get(stream, FIRST_WINDOW) + int.from_bytes(payload, "big")
        elif kind == WINDOW_UPDATE:
            self.room += int.from_bytes(payload, "big")
        if kind == RESET or kind in (HEADERS, DATA) and flags & ENDS_STREAM:
            self.ended.add(stream)

    def status(self, stream):
        """The status of a stream's reply, once its head is there; None where the stream ends without."""
        while stream not in self.statuses and stream not in self.ended:
            if not self.more():
                return None
        return self.statuses.get(stream)

    def body(self, stream):
        """The body of a stream's reply, once it has ended, or the connection has."""
        while stream not in self.ended and self.more():
            pass
        return self.bodies.get(stream, b"")

    def lets(self, stream, count):
        """Lets the server send so many bytes more, of one stream's body and of all together."""
        more = struct.pack(">I", count)
        self.socket.sendall(frame(WINDOW_UPDATE, 0, stream, more) + frame(WINDOW_UPDATE, 0, 0, more))

    def close(self):
        self.socket.close()

    def __enter__(self):
        return self

    def __exit__(self, *what):
        self.close()
