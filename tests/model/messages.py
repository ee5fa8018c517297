"""Messages of a stream (RFC 9112): their heads, lengths and ends, and the tokens that they show.

A stream's bytes are looked at from their front: a message, more wanted, or a fault, after which nothing is taken.
"""
import collections

from rows import decoded, encoded

MAX_HEAD, MAX_FIELDS, MAX_BODY = 16_384, 64, 524_288
TOKEN_BYTES = set(b"!#$%&'*+-.^_`|~0123456789abcdefghijklmnopqrstuvwxyzABCDEFGHIJKLMNOPQRSTUVWXYZ")
Message = collections.namedtuple("Message", "method target fields body")


class More(Exception):
    """The bytes may go on to a head."""


class Fault(Exception):
    """The stream doesn't go on with a message that is taken."""


class Bad(Fault):
    """No head begins like that."""

    def __init__(self):
        super().__init__("BadHead")


class Head:
    """Reads a head, a byte after the other."""

    def __init__(self, held):
        self.held, self.at = held, 0

    def byte(self):
        """The next byte."""
        if self.at == len(self.held):
            raise More
        self.at += 1
        return self.held[self.at - 1]

    def expect(self, text):
        """That these bytes follow."""
        for wanted in text:
            if self.byte() != wanted:
                raise Bad

    def until(self, ends, allowed):
        """The bytes before one of the ends, all of which are allowed, and the end."""
        start = self.at
        while (byte := self.byte()) not in ends:
            if not allowed(byte):
                raise Bad
        return self.held[start:self.at - 1], byte

    def line_end(self, byte):
        """The rest of a line's end that begins with this byte."""
        if byte == 13:
            byte = self.byte()
        if byte != 10:
            raise Bad

    def part(self, allowed):
        """A part of the first line, before a space; none may be empty."""
        part, _ = self.until(b" ", allowed)
        if not part:
            raise Bad
        return part

    def read(self):
        """The request line and the fields (RFC 9112, sections 2.2, 3 and 5), and whether the message ends its stream
        (section 9.3)."""
        while (byte := self.byte()) in b"\r\n":
            self.line_end(byte)
        self.at -= 1
        method = self.part(lambda byte: byte in TOKEN_BYTES)
        target = self.part(lambda byte: byte > 32 and byte != 127)
        try:
            target.decode()
        except UnicodeDecodeError:
            raise Bad from None
        self.expect(b"HTTP/1.")
        minor = self.byte()
        if minor not in b"01":
            raise Bad
        self.line_end(self.byte())
        fields = self.fields()
        return method, target, fields, minor == b"0"[0] or closes(fields)

    def fields(self):
        """The fields up to the empty line (RFC 9112, section 5)."""
        fields = []
        while (byte := self.byte()) not in b"\r\n":
            self.at -= 1
            name, _ = self.until(b":", lambda byte: byte in TOKEN_BYTES)
            if not name:
                raise Bad
            value, byte = self.until(b"\r\n", lambda byte: byte >= 32 and byte != 127 or byte == 9)
            self.line_end(byte)
            fields.append((name, value.strip(b" \t")))
        self.line_end(byte)
        return fields


def values_of(name, fields):
    """The values of the fields of that name, which is in small letters (RFC 9110, section 5.1)."""
    return [value for held, value in fields if held.lower() == name]


def closes(fields):
    """Whether a Connection field has the token `close`."""
    return any(token.strip(b" \t").lower() == b"close" for value in values_of(b"connection", fields)
               for token in value.split(b","))


def body_length(fields):
    """The length that the fields announce."""
    if len(fields) > MAX_FIELDS:
        raise Fault("HeadTooLarge")
    if values_of(b"transfer-encoding", fields):
        raise Fault("TransferCoding")
    lengths = values_of(b"content-length", fields)
    numbers = {int(it) if it.isdigit() else None for it in lengths} or {0}
    if len(numbers) > 1 or None in numbers:
        raise Bad
    if max(numbers) > MAX_BODY:
        raise Fault("BodyTooLarge")
    return min(numbers)


class Stream:
    """A stream as far as it has come."""

    def __init__(self):
        self.held, self.has_ended = b"", False

    def next(self):
        """A message, or `More` or `Ended`, or a fault with its name."""
        if self.has_ended:
            return "Ended"
        head = Head(self.held[:MAX_HEAD])
        try:
            method, target, fields, self.has_ended = head.read()
            end = head.at + body_length(fields)
        except More:
            if len(self.held) < MAX_HEAD:
                return "More"
            self.has_ended = True
            return Fault("HeadTooLarge")
        except Fault as fault:
            self.has_ended = True
            return fault
        if len(self.held) < end:
            self.has_ended = False
            return "More"
        body, self.held = self.held[head.at:end], self.held[end:]
        return Message(method, target, fields, body)


def token_shown(fields):
    """The token that the one field Authorization shows (RFC 9110, section 11.6.2; RFC 6750, section 2.1)."""
    shown = values_of(b"authorization", fields)
    if len(shown) != 1 or shown[0][:7].lower() != b"bearer ":
        return None
    token = shown[0][7:].lstrip(b" ")
    return token if 8 <= len(token) <= 64 and all(33 <= byte <= 126 for byte in token) else None


def stream(*pieces):
    """The answer to a row: the messages of a stream, and what it answers after each piece."""
    held, shown = Stream(), []
    for text in pieces:
        held.held += decoded(text)
        while isinstance(found := held.next(), Message):
            shown += ["method:" + encoded(found.method), "target:" + encoded(found.target)]
            for name, value in found.fields:
                shown += ["name:" + encoded(name), "value:" + encoded(value)]
            shown += ["body:" + encoded(found.body)] + ["close"] * held.has_ended
        shown.append(found if found == "More" else f"!{found}")
    return shown
