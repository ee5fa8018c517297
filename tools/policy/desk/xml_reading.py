"""XML with places: each element and attribute with its line, its column and its path (XML 1.0, Namespaces).

Python's own expat reads it: it gives the byte at which everything begins, which lxml doesn't, and it lets
each declaration be refused before it acts. Document type declarations are refused, and entities and external
references with them: a policy's file can't make the desk read another file, ask the network, or grow without
end.
"""
from __future__ import annotations

import bisect
import collections
import re
from collections.abc import Iterator
from dataclasses import dataclass, field
from xml.parsers import expat

from .faults import Remarks
from .positions import Place, Source

MOST_BYTES, MOST_NESTED = 4_194_304, 200
XML_NAMESPACE = "http://www.w3.org/XML/1998/namespace"
INSTANCE = "http://www.w3.org/2001/XMLSchema-instance"
ENCODINGS = {"utf-8": "utf-8", "us-ascii": "ascii", "ascii": "ascii", "iso-8859-1": "latin-1"}
DECLARED = re.compile(rb"""<\?xml[^>]*?encoding\s*=\s*["']([A-Za-z0-9._-]+)["']""")
TAG = re.compile(r"""<[^\s/>]+((?:\s+[^\s=]+\s*=\s*(?:"[^"]*"|'[^']*'))*)\s*/?>""")
ATTRIBUTE = re.compile(r"""([^\s=]+)\s*=\s*("[^"]*"|'[^']*')""")
ADVICE = {
    expat.errors.XML_ERROR_TAG_MISMATCH: "This end tag isn't that of the element that is open here.",
    expat.errors.XML_ERROR_UNDEFINED_ENTITY: "XML knows &lt; &gt; &amp; &quot; &apos; and numbers such as "
                                             "&#233; alone: write the letter itself.",
    expat.errors.XML_ERROR_DUPLICATE_ATTRIBUTE: "This attribute stands twice in one tag.",
    expat.errors.XML_ERROR_UNBOUND_PREFIX: "This prefix has no xmlns declaration.",
    expat.errors.XML_ERROR_JUNK_AFTER_DOC_ELEMENT: "The one top element has ended before: a file holds one "
                                                   "alone.",
    expat.errors.XML_ERROR_NO_ELEMENTS: "There is no element here: is the file empty, or cut?",
    expat.errors.XML_ERROR_UNCLOSED_TOKEN: "A tag, a comment or a section isn't closed before the file ends.",
    expat.errors.XML_ERROR_MISPLACED_XML_PI: "Nothing stands before <?xml ..?>, no space and no empty line.",
}
OTHERWISE = ("Nothing of XML can stand like this: a < in a text is written &lt;, an & is written &amp;, and "
             "values stand in quotes.")
JSON = ("This is no XML, but JSON: a document in JSON needs no import, and a request in JSON is imported by "
        "`import --request`.")
DOCTYPE = ("A document type declaration isn't taken: its entities could read other files (XXE) or grow "
           "without end (billion laughs). "
           "Take it out, and write what its entities stand for.")


@dataclass(frozen=True)
class Spot:
    """A place in a source: what a remark stands at."""
    source: Source
    pointer: str
    start: int
    end: int

    @property
    def place(self) -> Place:
        return self.source.place(self.start)


@dataclass
class Attribute:
    """An attribute: its name, `{namespace}name` where it has one, its value, and whether character
    references stand in it."""
    name: str
    value: str
    start: int
    end: int
    is_referring: bool


@dataclass
class Text:
    """A piece of text, or a comment."""
    text: str
    start: int
    is_comment: bool = False


@dataclass
class Element:
    """An element; `start` and `end` are those of its start tag."""
    source: Source
    namespace: str
    name: str
    start: int
    end: int
    attributes: list[Attribute]
    children: list[Element | Text] = field(default_factory=list)
    pointer: str = ""
    is_referring: bool = False

    def elements(self) -> list[Element]:
        """The child elements."""
        return [child for child in self.children if isinstance(child, Element)]

    def named(self, *names: str) -> list[Element]:
        """The child elements of these names."""
        return [child for child in self.elements() if child.name in names]

    def one(self, name: str) -> Element | None:
        """The first child element of the name, where there is one."""
        return next(iter(self.named(name)), None)

    def text(self) -> str:
        """The text in the element, without comments."""
        return "".join(child.text for child in self.children if isinstance(child, Text)
                       and not child.is_comment)

    def at(self, name: str) -> Attribute | None:
        """The attribute of the name, where it is there."""
        return next((held for held in self.attributes if held.name == name), None)

    def value(self, name: str) -> str | None:
        """The value of the attribute of the name, where it is there."""
        found = self.at(name)
        return found.value if found else None

    def spot(self, name: str = "") -> Spot:
        """The place of the attribute of the name, else of the element's start tag."""
        found = self.at(name) if name else None
        if found is None:
            return Spot(self.source, self.pointer, self.start, self.end)
        return Spot(self.source, f"{self.pointer}/@{found.name.rsplit('}', 1)[-1]}", found.start, found.end)

    def all(self) -> Iterator[Element]:
        """The element and all inside it."""
        yield self
        for child in self.elements():
            yield from child.all()

    def comments(self) -> list[Text]:
        """The comments that stand directly in the element."""
        return [child for child in self.children if isinstance(child, Text) and child.is_comment]


@dataclass
class Whole:
    """What a file holds: the top element, and the comments before and behind it."""
    source: Source
    top: Element | None
    comments: list[Text] = field(default_factory=list)


class Stop(Exception):
    """Nothing behind this can be read."""


class Reader:
    """Reads the XML of a source."""

    def __init__(self, source: Source, remarks: Remarks):
        self.source, self.remarks = source, remarks
        is_plain = len(source.held) == len(source.text)
        self.byte_starts = None if is_plain else self.starts()
        self.whole, self.open = Whole(source, None), []
        self.pieces: list[str] = []
        self.pieces_start = 0
        self.parser = expat.ParserCreate("UTF-8", " ")
        self.parser.ordered_attributes = True
        self.parser.SetParamEntityParsing(expat.XML_PARAM_ENTITY_PARSING_NEVER)
        self.parser.StartDoctypeDeclHandler = self.parser.EntityDeclHandler = self.refused
        self.parser.ExternalEntityRefHandler = self.refused
        self.parser.StartElementHandler, self.parser.EndElementHandler = self.begins, self.ends
        self.parser.CharacterDataHandler, self.parser.CommentHandler = self.text, self.comment
        self.parser.ProcessingInstructionHandler = self.instruction

    def starts(self) -> list[int]:
        """The byte at which each letter begins."""
        found, at = [], 0
        for letter in self.source.text:
            found.append(at)
            at += len(letter.encode())
        return found

    def offset(self, byte: int) -> int:
        """The letter that begins at the byte, or holds it."""
        byte = max(byte, 0)
        return byte if self.byte_starts is None else max(bisect.bisect_right(self.byte_starts, byte) - 1, 0)

    def here(self) -> int:
        return self.offset(self.parser.CurrentByteIndex)

    def fault(self, code: str, start: int, end: int, sentence: str) -> None:
        """Says what is wrong at a place."""
        pointer = "".join(f"/{held.name}" for held in self.open)
        self.remarks.fault(code, Spot(self.source, pointer, start, end), sentence)

    def refused(self, *_: object) -> None:
        """Refuses a document type declaration, and whatever could stand in one."""
        start = max(self.source.text.rfind("<!DOCTYPE", 0, self.here() + 1), 0)
        self.fault("Doctype", start, start + len("<!DOCTYPE"), DOCTYPE)
        raise Stop

    def begins(self, name: str, attributes: list[str]) -> None:
        """An element begins."""
        if len(self.open) >= MOST_NESTED:
            self.fault("TooLarge", self.here(), self.here() + 1,
                       f"At most {MOST_NESTED} elements stand inside one another.")
            raise Stop
        start = self.here()
        self.end_text()
        tag = TAG.match(self.source.text, start)
        namespace, _, local = name.rpartition(" ")
        found = Element(self.source, namespace, local, start, tag.end(), self.attributes(tag, attributes))
        if self.open:
            self.open[-1].children.append(found)
        else:
            self.whole.top = found
        self.open.append(found)

    def attributes(self, tag: re.Match, given: list[str]) -> list[Attribute]:
        """The attributes of a tag with their places."""
        written = [one for one in ATTRIBUTE.finditer(self.source.text, tag.start(1), tag.end(1))
                   if one[1] != "xmlns" and not one[1].startswith("xmlns:")]
        found = []
        for one, name, value in zip(written, given[::2], given[1::2]):
            namespace, _, local = name.rpartition(" ")
            found.append(Attribute(f"{{{namespace}}}{local}" if namespace else local, value, one.start(),
                                   one.end(), "&#" in one[2]))
        return found

    def ends(self, _: str) -> None:
        """The element that is open ends."""
        self.end_text()
        found = self.open.pop()
        found.is_referring = self.source.text.find("&#", found.end, self.here()) >= 0

    def text(self, held: str) -> None:
        """A piece of text, which may be one of many."""
        if not self.pieces:
            self.pieces_start = self.here()
        self.pieces.append(held)

    def end_text(self) -> None:
        """The text that came piece by piece ends."""
        if self.pieces:
            self.open[-1].children.append(Text("".join(self.pieces), self.pieces_start))
            self.pieces = []

    def comment(self, held: str) -> None:
        self.end_text()
        found = Text(held, self.here(), True)
        (self.open[-1].children if self.open else self.whole.comments).append(found)

    def instruction(self, target: str, _: str) -> None:
        """Says that a processing instruction has no place."""
        start = self.here()
        self.remarks.note("not-kept", Spot(self.source, "", start, start + len(target) + 2),
                          "This instruction is for other programs: it isn't kept.")

    def no_xml(self, start: int, said: str) -> None:
        """Says why the file is no XML, as expat does, and what helps."""
        if self.source.text.lstrip()[:1] in ("{", "["):
            self.fault("NotXml", 0, 1, JSON)
        else:
            self.fault("NotXml", start, min(start + 20, len(self.source.text)),
                       f"This is no XML ({said}). {ADVICE.get(said, OTHERWISE)}")

    def read(self) -> Whole:
        """What the file holds; its top element is None where it can't be read to its end."""
        try:
            self.parser.Parse(self.source.held, True)
        except Stop:
            return Whole(self.source, None)
        except expat.ExpatError as fault:
            self.no_xml(self.offset(self.parser.ErrorByteIndex), expat.ErrorString(fault.code))
            return Whole(self.source, None)
        placed(self.whole.top, f"/{self.whole.top.name}")
        return self.whole


def placed(element: Element, pointer: str) -> None:
    """Gives the element and all inside it their paths."""
    element.pointer = pointer
    counts = collections.Counter(child.name for child in element.elements())
    seen: collections.Counter[str] = collections.Counter()
    for child in element.elements():
        seen[child.name] += 1
        placed(child, f"{pointer}/{child.name}" + ("" if counts[child.name] == 1 else f"[{seen[child.name]}]"))


def in_unicode(held: bytes) -> tuple[bytes, str]:
    """The bytes in UTF-8, and why they can't be had: the empty text where they can."""
    if held.startswith((b"\xff\xfe", b"\xfe\xff")):
        encoding = "utf-16"
    else:
        held = held.removeprefix(b"\xef\xbb\xbf")
        declared = DECLARED.match(held)
        name = declared[1].decode().lower() if declared else "utf-8"
        if name not in ENCODINGS:
            return b"", f"The encoding {name} isn't read here: save the file as UTF-8."
        encoding = ENCODINGS[name]
    try:
        return held.decode(encoding).encode(), ""
    except UnicodeDecodeError as fault:
        return b"", f"The byte {fault.start} isn't one of {encoding}: save the file as UTF-8."


def read(path: str, held: bytes, remarks: Remarks) -> Whole:
    """The XML in the bytes of a file."""
    is_small = len(held) <= MOST_BYTES
    text, why = in_unicode(held) if is_small else (b"", f"A file has at most {MOST_BYTES} bytes.")
    source = Source(path, text)
    if why:
        remarks.fault("NotXml" if is_small else "TooLarge", Spot(source, "", 0, 0), why)
        return Whole(source, None)
    return Reader(source, remarks).read()
