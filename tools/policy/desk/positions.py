"""JSON with places: each value and each member's name with its line, its column and its JSON
Pointer (RFC 8259, RFC 6901).

What is JSON, and what stands for a number in it, is the model's reading; here each slip has its place besides, and
reading goes on behind comments and superfluous or forgotten commas.
"""
from __future__ import annotations

import bisect
import re
from dataclasses import dataclass, field

from .model import json_texts

NUMBER = re.compile(r"-?(?:0|[1-9][0-9]*)(\.[0-9]+)?([eE][+-]?[0-9]+)?")
SPACE = re.compile(r"[ \t\r\n]*")
COMMENT = re.compile(r"//[^\n]*|/\*.*?(?:\*/|\Z)|#[^\n]*", re.DOTALL)
PLAIN = re.compile(r'[^"\\\x00-\x1f]*')
ESCAPES = {'"': '"', "\\": "\\", "/": "/", "b": "\b", "f": "\f", "n": "\n", "r": "\r", "t": "\t"}
WORDS = {"true": ("boolean", True), "false": ("boolean", False), "null": ("null", None)}


@dataclass(frozen=True)
class Place:
    """A line and a column, from 1, of a file."""
    line: int
    column: int


class Source:
    """A file's text, with the places of its letters."""

    def __init__(self, path: str, held: bytes):
        self.path, self.held = path, held
        self.text = held.decode("utf-8", "replace")
        self.line_starts = [0] + [found.end() for found in re.finditer("\n", self.text)]

    def place(self, offset: int) -> Place:
        """Where the letter at the offset stands."""
        line = bisect.bisect_right(self.line_starts, offset)
        return Place(line, offset - self.line_starts[line - 1] + 1)


@dataclass
class Member:
    """A member of an object: its name, with the name's place, and its value."""
    name: str
    start: int
    end: int
    node: Node


@dataclass
class Node:
    """A JSON value with its place: `value` is a text, a number (None where 64 bits don't hold it), a boolean, or
    the items of an array."""
    source: Source
    pointer: str
    kind: str
    start: int
    end: int = 0
    value: object = None
    members: list[Member] = field(default_factory=list)

    @property
    def place(self) -> Place:
        """Where the value begins."""
        return self.source.place(self.start)

    @property
    def text(self) -> str:
        return self.source.text[self.start:self.end]

    def last(self) -> dict[str, Member]:
        """The members that count: of each name the last."""
        return {member.name: member for member in self.members}

    def repeated(self) -> list[Member]:
        """The members that don't count, since a later one has their name."""
        counting = self.last()
        return [member for member in self.members if counting[member.name] is not member]

    def at(self, name: str) -> Node | None:
        """The value of the member of that name, where there is one."""
        found = self.last().get(name)
        return found.node if found else None

    def plain(self) -> object:
        """The value as the model has it."""
        if self.kind == "object":
            return {member.name: member.node.plain() for member in self.members}
        if self.kind == "array":
            return [item.plain() for item in self.value]
        if self.kind == "number" and self.value is None:
            return json_texts.Fraction()
        return self.value


@dataclass(frozen=True)
class Slip:
    """Why a text is no JSON, at an offset, and up to which one the offending text goes."""
    start: int
    end: int
    pointer: str
    expected: str
    found: str
    advice: str


class Stop(Exception):
    """Nothing behind the last slip can be read."""


def step(name: object) -> str:
    """A step of a JSON Pointer."""
    return "/" + str(name).replace("~", "~0").replace("/", "~1")


class Reader:
    """The JSON of a source, with all slips that can be passed over, and the first that can't."""

    def __init__(self, source: Source):
        self.source, self.text, self.offset = source, source.text, 0
        self.slips: list[Slip] = []
        self.depth = 0

    def slip(self, start: int, end: int, pointer: str, expected: str, found: str, advice: str) -> None:
        """Notes a slip."""
        self.slips.append(Slip(start, end, pointer, expected, found, advice))

    def stop(self, pointer: str, expected: str, advice: str, end: int | None = None) -> Stop:
        """Notes what stands here, where something else was expected, and ends the reading."""
        end = self.word_end() if end is None else end
        found = f'"{self.text[self.offset:end]}"' if end > self.offset else "the end of the file"
        if end == self.offset:
            advice = "The file ends too early: is a bracket or a brace not closed?"
        self.slip(self.offset, end, pointer, expected, found, advice)
        return Stop()

    def word_end(self) -> int:
        """Where the word that stands here ends."""
        found = re.compile(r"\w+|.", re.DOTALL).match(self.text, self.offset)
        return min(found.end(), self.offset + 20) if found else self.offset

    def skip(self, pointer: str) -> None:
        """Passes over white space, and over comments, each of which is a slip."""
        while True:
            self.offset = SPACE.match(self.text, self.offset).end()
            comment = COMMENT.match(self.text, self.offset)
            if comment is None:
                return
            self.slip(self.offset, comment.end(), pointer, "JSON, which has no comments", "a comment",
                      "JSON has no comments: take it out, or say it in a member Description.")
            self.offset = comment.end()

    def whole(self) -> Node | None:
        """The value that the whole source is; None where it can't be read to its end."""
        try:
            if self.is_no_text():
                return None
            self.skip("")
            found = self.value("")
            self.skip("")
            if self.offset < len(self.text):
                raise self.stop("", "the end of the file", "One JSON value has ended here, and a file holds one alone.")
            return found
        except Stop:
            return None

    def is_no_text(self) -> bool:
        """Whether the bytes are no text; a byte order mark is noted and passed over."""
        try:
            self.source.held.decode()
        except UnicodeDecodeError as fault:
            start = len(self.source.held[:fault.start].decode())
            self.slip(start, start + 1, "", "text in UTF-8", f"the byte 0x{self.source.held[fault.start]:02x}",
                      "Save the file as UTF-8.")
            return True
        if self.text.startswith("\ufeff"):
            self.slip(0, 1, "", "JSON", "a byte order mark", "Save the file without a byte order mark.")
            self.offset = 1
        return False

    def value(self, pointer: str) -> Node:
        """The value that begins here."""
        letter = self.text[self.offset:self.offset + 1]
        if letter in ("{", "["):
            return self.nested(letter, pointer)
        if letter == '"':
            start = self.offset
            held = self.string(pointer)
            return Node(self.source, pointer, "string", start, self.offset, held)
        if letter == "-" or letter.isascii() and letter.isdigit():
            return self.number(pointer)
        for word, (kind, held) in WORDS.items():
            if self.text.startswith(word, self.offset):
                self.offset += len(word)
                return Node(self.source, pointer, kind, self.offset - len(word), self.offset, held)
        advice = {"'": "Texts stand in double quotes."}
        raise self.stop(pointer, "a JSON value",
                        advice.get(letter, "A text stands in double quotes; true, "
                                           "false and null are written in small letters."))

    def nested(self, letter: str, pointer: str) -> Node:
        """The object or array that begins here, which may not stand in too many."""
        self.depth += 1
        if self.depth > json_texts.MOST_NESTED:
            raise self.stop(pointer, f"at most {json_texts.MOST_NESTED} arrays and objects inside one another",
                            "This is too deep for JSON here.")
        found = self.object(pointer) if letter == "{" else self.array(pointer)
        self.depth -= 1
        return found

    def object(self, pointer: str) -> Node:
        """The object that begins here."""
        found = Node(self.source, pointer, "object", self.offset)
        self.offset += 1
        self.skip(pointer)
        while not self.ends("}", pointer, bool(found.members)):
            if self.text[self.offset:self.offset + 1] != '"':
                raise self.stop(pointer, 'the name of a member, in double quotes, or "}"',
                                "The names of members stand in double quotes.")
            start = self.offset
            name = self.string(pointer)
            end = self.offset
            self.skip(pointer)
            if self.text[self.offset:self.offset + 1] != ":":
                raise self.stop(pointer + step(name), f'":" behind the name "{name}"',
                                "A colon stands between a member's name and its value.")
            self.offset += 1
            self.skip(pointer + step(name))
            found.members.append(Member(name, start, end, self.value(pointer + step(name))))
        found.end = self.offset
        return found

    def array(self, pointer: str) -> Node:
        """The array that begins here."""
        found = Node(self.source, pointer, "array", self.offset, value=[])
        self.offset += 1
        self.skip(pointer)
        while not self.ends("]", pointer, bool(found.value)):
            found.value.append(self.value(pointer + step(len(found.value))))
        found.end = self.offset
        return found

    def ends(self, bracket: str, pointer: str, is_behind: bool) -> bool:
        """Whether the object or array ends here; behind an item a comma is passed over, and noted where it is
        missing or superfluous."""
        self.skip(pointer)
        letter, comma = self.text[self.offset:self.offset + 1], self.offset
        if letter == "," and is_behind:
            self.offset += 1
            self.skip(pointer)
            if self.text[self.offset:self.offset + 1] == bracket:
                self.slip(comma, comma + 1, pointer, f'no comma before "{bracket}"', "a comma",
                          "The last one has no comma behind it: take it out.")
        if self.text[self.offset:self.offset + 1] == bracket:
            self.offset += 1
            return True
        if is_behind and letter != ",":
            if letter not in ('"', "{", "["):
                raise self.stop(pointer, f'"," or "{bracket}"', f'A comma or "{bracket}" is missing here.')
            self.slip(self.offset, self.word_end(), pointer, '","', f'"{letter}"', "A comma is missing before this.")
        return False

    def string(self, pointer: str) -> str:
        """The text that begins at the quote here."""
        start, held = self.offset, ""
        self.offset += 1
        while True:
            found = PLAIN.match(self.text, self.offset)
            held, self.offset = held + found.group(), found.end()
            letter = self.text[self.offset:self.offset + 1]
            if letter == '"':
                self.offset += 1
                return held
            if letter == "\\":
                held += self.escape(pointer)
            elif letter in ("", "\n", "\r"):
                self.offset = start
                raise self.stop(pointer, "a closing quote on the same line",
                                "This text isn't closed; a line break in a text is written \\n.", found.end())
            else:
                raise self.stop(pointer, "no control character in a text",
                                f"Write \\u{ord(letter):04x} for this character.", self.offset + 1)

    def escape(self, pointer: str) -> str:
        """The letter of the escape here."""
        letter = self.text[self.offset + 1:self.offset + 2]
        if letter in ESCAPES and letter:
            self.offset += 2
            return ESCAPES[letter]
        unit = self.unit(self.offset)
        if unit is None:
            raise self.stop(pointer, 'one of \\" \\\\ \\/ \\b \\f \\n \\r \\t \\uXXXX',
                            "A backslash itself is written \\\\.", self.offset + 2)
        if not 0xD800 <= unit < 0xE000:
            self.offset += 6
            return chr(unit)
        low = self.unit(self.offset + 6)
        if unit >= 0xDC00 or low is None or not 0xDC00 <= low < 0xE000:
            raise self.stop(pointer, "a pair of surrogates", "Half of a pair of surrogates is no character.",
                            self.offset + 6)
        self.offset += 12
        return chr(0x10000 + (unit - 0xD800) * 0x400 + low - 0xDC00)

    def unit(self, offset: int) -> int | None:
        """The number of an escape `\\uXXXX` here."""
        found = re.compile(r"\\u([0-9a-fA-F]{4})").match(self.text, offset)
        return int(found.group(1), 16) if found else None

    def number(self, pointer: str) -> Node:
        """The number that begins here."""
        found = NUMBER.match(self.text, self.offset)
        if found is None:
            raise self.stop(pointer, "a number", "A minus stands before a digit.")
        after = self.text[found.end():found.end() + 1]
        if found.group() in ("0", "-0") and after.isdigit() or after in (".", "e", "E"):
            raise self.stop(pointer, "a number",
                            "A number has no leading zeros, and digits behind a point and an exponent.",
                            found.end() + 1)
        try:
            held = (json_texts.fraction(found.group()) if found.group(1)
                    or found.group(2) else json_texts.number(found.group()))
        except (ValueError, OverflowError):
            raise self.stop(pointer, "a number that a float can hold", "This number is too large.",
                            found.end()) from None
        start, self.offset = self.offset, found.end()
        return Node(self.source, pointer, "number", start, self.offset, held if isinstance(held, int) else None)


def read(source: Source) -> tuple[Node | None, list[Slip]]:
    """The JSON of the source and its slips: it is JSON where there is none. With slips the value is
    what could be read."""
    reader = Reader(source)
    found = reader.whole()
    return found, reader.slips
