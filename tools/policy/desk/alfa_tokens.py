"""Words of ALFA, the Abbreviated Language for Authorization, with their places: names, texts, numbers and
signs; and the comments before each."""
from __future__ import annotations

import re
from dataclasses import dataclass, field

from .faults import Remarks
from .positions import Source
from .xml_reading import MOST_BYTES, Spot

SPACE = re.compile(r"\s+")
COMMENT = re.compile(r"//[^\n]*|/\*.*?\*/", re.DOTALL)
NAME = re.compile(r"\^?[A-Za-z_][A-Za-z0-9_]*")
NUMBER = re.compile(r"[0-9]+(\.[0-9]+)?([eE][+-]?[0-9]+)?")
TEXT = re.compile(r"""(["'])((?:\\.|(?!\1)[^\\\n])*)\1""")
SIGN = re.compile(r"==|!=|>=|<=|&&|\|\||->|[{}()\[\],;:.*=<>+\-/~!%]")
ESCAPE = re.compile(r"\\(u[0-9a-fA-F]{4}|.)", re.DOTALL)
ESCAPES = {"b": "\b", "t": "\t", "n": "\n", "f": "\f", "r": "\r", '"': '"', "'": "'", "\\": "\\"}


class Stop(Exception):
    """Nothing behind this can be read; it is remarked."""


@dataclass
class Comment:
    """A comment's text, without its signs, and whether it stands behind something on its line."""
    text: str
    start: int
    end: int
    is_behind: bool


@dataclass
class Token:
    """A word: its kind (`name`, `text`, `integer`, `double`, `sign`, `end`, or `none` for what is no word, which is
    remarked), what it says, and the comments directly before it."""
    kind: str
    value: str
    start: int
    end: int
    comments: list[Comment] = field(default_factory=list)

    def shown(self) -> str:
        """The word as it is told to people."""
        return "the end of the file" if self.kind == "end" else f'"{self.value}"'


def said(comment: str) -> str:
    """What a comment says, without its signs and the asterisks before its lines."""
    inner = comment[2:] if comment.startswith("//") else re.sub(r"^\s*\*+ ?", "", comment[2:-2], flags=re.M)
    return "\n".join(line.strip() for line in inner.strip().splitlines())


class Tokens:
    """Makes words of a source."""

    def __init__(self, source: Source, remarks: Remarks):
        self.source, self.text, self.remarks, self.offset = source, source.text, remarks, 0

    def stop(self, start: int, end: int, sentence: str) -> Stop:
        """Remarks what can't be read."""
        self.remarks.fault("NotAlfa", Spot(self.source, "the file", start, end), sentence)
        return Stop()

    def comments(self, last: int) -> list[Comment]:
        """The comments that stand here, behind a word that ends at `last`."""
        found = []
        while True:
            space = SPACE.match(self.text, self.offset)
            self.offset = space.end() if space else self.offset
            comment = COMMENT.match(self.text, self.offset)
            if comment is None:
                break
            is_behind = last > 0 and "\n" not in self.text[last:comment.start()]
            found.append(Comment(said(comment.group()), comment.start(), comment.end(), is_behind))
            self.offset = comment.end()
        if self.text.startswith("/*", self.offset):
            raise self.stop(self.offset, self.offset + 2, "This comment isn't closed by */.")
        return found

    def held(self, quoted: re.Match) -> str:
        """The text between quotes."""
        def letter(found: re.Match) -> str:
            name = found.group(1)
            if name[0] == "u" and len(name) == 5:
                return chr(int(name[1:], 16))
            if name not in ESCAPES:
                start = quoted.start(2) + found.start()
                raise self.stop(start, start + 2, 'Behind a backslash stands one of " \' \\ b f n r t or u '
                                                  'with four digits. A backslash itself is written \\\\.')
            return ESCAPES[name]
        # two halves of a pair are one letter; half of one is none
        held = ESCAPE.sub(letter, quoted.group(2)).encode("utf-16", "surrogatepass")
        try:
            return held.decode("utf-16")
        except UnicodeDecodeError:
            raise self.stop(quoted.start(), quoted.end(), "Half of a pair of surrogates is no "
                                                          "character.") from None

    def word(self) -> tuple[str, str, int]:
        """The word that stands here: its kind, what it says, and where it ends."""
        for kind, shape in (("name", NAME), ("text", TEXT), ("integer", NUMBER), ("sign", SIGN)):
            found = shape.match(self.text, self.offset)
            if found is None:
                continue
            if kind == "text":
                return kind, self.held(found), found.end()
            if kind == "integer" and (found.group(1) or found.group(2)):
                kind = "double"
            return kind, found.group().removeprefix("^"), found.end()
        letter = self.text[self.offset]
        if letter in "\"'":
            raise self.stop(self.offset, self.offset + 1,
                            "This text isn't closed on its line; a line break in a text is written \\n.")
        raise self.stop(self.offset, self.offset + 1, f'Nothing of ALFA begins with "{letter}".')

    def all(self) -> list[Token]:
        """All words; the last is the end of the file."""
        found, last = [], 0
        while True:
            comments = self.comments(last)
            if self.offset == len(self.text):
                return [*found, Token("end", "", self.offset, self.offset, comments)]
            start = self.offset
            try:
                kind, value, last = self.word()
            except Stop:  # what can't be a word is passed over, up to the end of its line if it is a text
                rest = self.text[start:].split("\n", 1)[0] if self.text[start] in "\"'" else self.text[start]
                kind, value, last = "none", rest, start + len(rest)
            self.offset = last
            found.append(Token(kind, value, start, last, comments))


def tokens_of(source: Source, remarks: Remarks) -> list[Token]:
    """The words of a source. What is none is remarked; it raises Stop where nothing behind it can be read, as where it
    has a brace."""
    reader = Tokens(source, remarks)
    if len(source.held) > MOST_BYTES:
        remarks.fault("TooLarge", Spot(source, "the file", 0, 0), f"A file has at most {MOST_BYTES} bytes.")
        raise Stop
    try:
        source.held.decode()
    except UnicodeDecodeError as fault:
        start = len(source.held[:fault.start].decode())
        raise reader.stop(start, start + 1, f"The byte 0x{source.held[fault.start]:02x} isn't one of UTF-8: "
                                            f"save the file as UTF-8.") from None
    reader.offset = 1 if source.text.startswith("\ufeff") else 0
    found = reader.all()
    if any(one.kind == "none" and ("{" in one.value or "}" in one.value) for one in found):
        raise Stop
    return found
